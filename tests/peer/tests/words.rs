//! Refusals in words: document 02, Paper 5.
//!
//! Phrases and lines are from the list of phrases, answers from document 01, both by
//! hand.

mod program;

use std::collections::{BTreeSet, HashMap};

use peer::seed::make;
use peer::words::{describe, explain, explained, LINE_MAX, TEXT_MAX};
use peer::{list, run};
use program::printed;

/// The highest answer of the list.
const ANSWER_MAX: usize = 19;

const fn on(step: u8, b: u8) -> [u8; 8] {
    [step, b, 0, 0, 0, 0, 0, 0]
}

const fn append(b: u8, value: u32) -> [u8; 8] {
    let [v0, v1, v2, v3] = value.to_le_bytes();
    [1, b, 0, 0, v0, v1, v2, v3]
}

const fn count(a: u8, b: u8) -> [u8; 8] {
    [9, a, b, 0, 0, 0, 0, 0]
}

/// The line of a record and an answer that are not refused, without its byte 10.
#[track_caller]
fn line(record: [u8; 8], answer: usize) -> String {
    let mut slice = [0; LINE_MAX];
    let length = describe(&record, answer, &mut slice);
    assert!(length > 3, "{record:?}, {answer}: refused {length}");
    let [text @ .., 10] = &slice[..length] else {
        panic!("{record:?}, {answer}: no byte 10 at the end");
    };
    String::from_utf8(text.to_vec()).unwrap()
}

/// A record well formed by itself, of each step.
const EACH_STEP: [[u8; 8]; 16] = [
    on(0, 1),
    append(1, 41),
    on(2, 1),
    on(3, 1),
    on(4, 1),
    on(5, 0),
    on(6, 1),
    on(7, 1),
    on(8, 1),
    count(1, 2),
    on(10, 0),
    on(11, 0),
    on(12, 1),
    on(13, 0),
    on(14, 1),
    on(15, 1),
];

/// Records malformed by themselves, of every kind and with every step in byte 0.
fn malformed() -> Vec<[u8; 8]> {
    let mut records = Vec::new();
    for record in EACH_STEP {
        let step = record[0];
        let mut put = |at: usize, byte: u8| {
            let mut record = record;
            record[at] = byte;
            records.push(record);
        };
        if let 5 | 10 | 11 | 13 = step {
            // a board, where none is used
            for byte in [1, 8, 9, 255] {
                put(1, byte);
            }
        } else {
            // a board outside 1 to 8
            for byte in [0, 9, 16, 128, 255] {
                put(1, byte);
            }
        }
        if step == 9 {
            // the second board outside 1 to 8, or the first
            for byte in [0, 9, 16, 128, 255, 1] {
                put(2, byte);
            }
        } else {
            // a second board, where none is used
            for byte in [1, 2, 8, 255] {
                put(2, byte);
            }
        }
        // byte 3, used by no step
        for byte in [1, 255] {
            put(3, byte);
        }
        if step != 1 {
            // a value, where none is used
            for at in 4..8 {
                put(at, 1);
                put(at, 255);
            }
        }
        // a step above 15
        for byte in [16, 17, 128, 255] {
            put(0, byte);
        }
    }
    records.push([0; 8]);
    records.push([255; 8]);
    records
}

#[test]
fn examples_of_the_list() {
    let words = "board 1 appends value 41: accepted";
    assert_eq!(line(append(1, 41), 0), words);
    let words = "board 1 counts board 2: refused, \
        the counted board has not joined under its leader epoch yet";
    assert_eq!(line(count(1, 2), 11), words);
    let words = "record 09 02 02 00 00 00 00 00: refused, these eight bytes are no step";
    assert_eq!(line(count(2, 2), 1), words);
}

#[test]
fn each_step_with_its_fields() {
    for (record, words) in [
        (on(0, 3), "opening with board 3: accepted"),
        (append(3, 41), "board 3 appends value 41: accepted"),
        (on(2, 3), "board 3 gives a receipt: accepted"),
        (on(3, 3), "add board 3: accepted"),
        (on(4, 3), "remove board 3: accepted"),
        (on(5, 0), "change leader: accepted"),
        (on(6, 3), "board 3 takes news: accepted"),
        (on(7, 3), "board 3 joins: accepted"),
        (on(8, 3), "board 3 receives an entry: accepted"),
        (count(3, 5), "board 3 counts board 5: accepted"),
        (on(10, 0), "controller takes news: accepted"),
        (on(11, 0), "controller reads leader: accepted"),
        (on(12, 3), "controller reads board 3: accepted"),
        (on(13, 0), "set normal: accepted"),
        (on(14, 3), "controller hears board 3: accepted"),
        (on(15, 3), "install board 3: accepted"),
    ] {
        assert_eq!(line(record, 0), words);
        // Each board of the steps that use one.
        if record[1] == 3 && record[0] != 9 {
            for (b, digit) in (1..=8).zip(["1", "2", "3", "4", "5", "6", "7", "8"]) {
                let mut record = record;
                record[1] = b;
                assert_eq!(line(record, 0), words.replace('3', digit));
            }
        }
    }
}

#[test]
fn the_boards_of_step_9_stand_in_their_order() {
    assert_eq!(
        line([9, 1, 2, 0, 0, 0, 0, 0], 0),
        "board 1 counts board 2: accepted"
    );
    assert_eq!(
        line([9, 2, 1, 0, 0, 0, 0, 0], 0),
        "board 2 counts board 1: accepted"
    );
    for a in 1..=8 {
        for b in 1..=8 {
            let words = match a == b {
                true => format!("record 09 0{a} 0{b} 00 00 00 00 00: accepted"),
                false => format!("board {a} counts board {b}: accepted"),
            };
            assert_eq!(line(count(a, b), 0), words);
        }
    }
}

#[test]
fn values_in_base_ten_from_the_low_byte() {
    for (value, digits) in [
        ([0, 0, 0, 0], "0"),
        ([9, 0, 0, 0], "9"),
        ([10, 0, 0, 0], "10"),
        ([99, 0, 0, 0], "99"),
        ([100, 0, 0, 0], "100"),
        ([255, 0, 0, 0], "255"),
        // 256, 65,536 and 16,777,216, each alone
        ([0, 1, 0, 0], "256"),
        ([0, 0, 1, 0], "65536"),
        ([0, 0, 0, 1], "16777216"),
        // 4 * 16,777,216 + 3 * 65,536 + 2 * 256 + 1
        ([1, 2, 3, 4], "67305985"),
        // 3 * 256 + 232, and one less
        ([232, 3, 0, 0], "1000"),
        ([231, 3, 0, 0], "999"),
        // 10,000 is 39 * 256 + 16
        ([16, 39, 0, 0], "10000"),
        ([15, 39, 0, 0], "9999"),
        ([255, 255, 255, 255], "4294967295"),
        // Byte 10 in a value is no end of a line.
        ([10, 10, 10, 10], "168430090"),
    ] {
        let [v0, v1, v2, v3] = value;
        let words = format!("board 8 appends value {digits}: accepted");
        assert_eq!(line([1, 8, 0, 0, v0, v1, v2, v3], 0), words);
    }
    // Each place of base ten.
    for power in 0..10 {
        let value = 10_u32.pow(power);
        for value in [value - 1, value, value + 1, 4 * value] {
            let words = format!("board 1 appends value {value}: accepted");
            assert_eq!(line(append(1, value), 0), words);
        }
    }
}

/// Step by step what the rules of document 01 refuse, in the order of their checks;
/// [1] is for what stands outside them.
#[test]
fn the_refusals_of_each_step() {
    let pairs: [([u8; 8], &[usize]); 16] = [
        (on(0, 2), &[1]),
        (append(2, 7), &[1, 8, 13]),
        (on(2, 2), &[8, 12, 14]),
        (on(3, 2), &[4, 5, 7]),
        (on(4, 2), &[4, 5, 6, 7]),
        (on(5, 0), &[4, 6, 7]),
        (on(6, 2), &[12]),
        (on(7, 2), &[9, 5, 10, 11]),
        (on(8, 2), &[9, 5, 10, 11, 12]),
        (count(2, 1), &[8, 5, 10, 11, 12]),
        (on(10, 0), &[12]),
        (on(11, 0), &[15, 16]),
        (on(12, 2), &[15, 6, 5, 11, 12]),
        (on(13, 0), &[15, 16, 14, 7]),
        (on(14, 2), &[15, 5, 16, 12]),
        (on(15, 2), &[15, 5, 16, 14, 7]),
    ];
    let pairs = pairs.into_iter().flat_map(|(record, answers)| {
        let each = answers.iter();
        each.map(move |&answer| (record, answer))
    });
    let lines = "\
opening with board 2: refused, an opening stands first and nowhere else
board 2 appends value 7: refused, the row or the memory for it is not valid
board 2 appends value 7: refused, it is not the leader in its own view
board 2 appends value 7: refused, its log is full
board 2 gives a receipt: refused, it is not the leader in its own view
board 2 gives a receipt: refused, its log is not longer than the receipts
board 2 gives a receipt: refused, its counts show no majority of members with the next entry
add board 2: refused, a leader is being chosen
add board 2: refused, the board is a member already
add board 2: refused, the registry's epochs are used up
remove board 2: refused, a leader is being chosen
remove board 2: refused, the board is not a member
remove board 2: refused, the board is the leader
remove board 2: refused, the registry's epochs are used up
change leader: refused, the registry's status is not normal
change leader: refused, there are fewer than two members
change leader: refused, the registry's epochs are used up
board 2 takes news: refused, it has the newest news already
board 2 joins: refused, it follows no other board
board 2 joins: refused, it is not a member in its own view
board 2 joins: refused, its leader has another leader epoch
board 2 joins: refused, it has joined under its leader epoch already
board 2 receives an entry: refused, it follows no other board
board 2 receives an entry: refused, its own view or its leader's does not have it as a member
board 2 receives an entry: refused, its leader has another leader epoch
board 2 receives an entry: refused, it has not joined under its leader epoch yet
board 2 receives an entry: refused, its log is not shorter than its leader's
board 2 counts board 1: refused, the counting board is not the leader in its own view
board 2 counts board 1: refused, the counted board is not a member in its own view
board 2 counts board 1: refused, the two boards have different leader epochs
board 2 counts board 1: refused, the counted board has not joined under its leader epoch yet
board 2 counts board 1: refused, the counted board's log is not longer than the count
controller takes news: refused, it has the newest news already
controller reads leader: refused, the controller is not at stage leader
controller reads leader: refused, the leader board's epoch is not the controller's
controller reads board 2: refused, the controller is not at stage boards
controller reads board 2: refused, the board is the leader in the controller's view
controller reads board 2: refused, the board is not a member in the controller's view
controller reads board 2: refused, the board last joined under another leader epoch
controller reads board 2: refused, the board's log is not longer than heard before
set normal: refused, the controller is not at stage boards
set normal: refused, the controller's epoch is not the registry's
set normal: refused, no majority of members is heard at the leader's heard length or above
set normal: refused, the registry's epochs are used up
controller hears board 2: refused, the controller is not at stage choosing
controller hears board 2: refused, the board is not a member in the controller's view
controller hears board 2: refused, the board's epoch is not the controller's
controller hears board 2: refused, the board's log is not longer than heard before
install board 2: refused, the controller is not at stage choosing
install board 2: refused, the board is not a member in the controller's view
install board 2: refused, the controller's epoch is not the registry's
install board 2: refused, no majority that has the board is heard with none ranked above it
install board 2: refused, the registry's epochs are used up
";
    assert_eq!(pairs.clone().count(), lines.lines().count());
    for ((record, answer), words) in pairs.zip(lines.lines()) {
        assert_eq!(line(record, answer), words);
    }
}

/// Answers in the words of every step that has none of its own for them, and of
/// malformed records. With the refusals of each step this is every pair of step and
/// answer.
#[test]
fn answers_in_common_words() {
    // Beside the words are the steps that have others.
    let common: [(&str, &[u8]); 20] = [
        ("accepted", &[]),
        ("refused, the row or the memory for it is not valid", &[0]),
        (
            "refused, the sheet has a wrong length or no valid opening",
            &[],
        ),
        ("refused, the text is longer than the room for it", &[]),
        (
            "refused, the registry's status does not allow it",
            &[3, 4, 5],
        ),
        (
            "refused, membership does not allow it",
            &[3, 4, 7, 8, 9, 12, 14, 15],
        ),
        ("refused, the leader does not allow it", &[4, 5, 12]),
        ("refused, the registry's epochs are used up", &[]),
        (
            "refused, a board is not the leader in its own view",
            &[1, 2, 9],
        ),
        ("refused, a board follows no other board", &[7, 8]),
        ("refused, the leader epochs differ", &[7, 8, 9]),
        ("refused, joining does not allow it", &[7, 8, 9, 12]),
        ("refused, nothing is due", &[2, 6, 8, 9, 10, 12, 14]),
        ("refused, a log is full", &[1]),
        ("refused, there is no majority for it", &[2, 13, 15]),
        (
            "refused, the controller is at another stage",
            &[11, 12, 13, 14, 15],
        ),
        ("refused, the epochs differ", &[11, 13, 14, 15]),
        ("refused, the image has a wrong length", &[]),
        ("refused, a number in the image is not valid", &[]),
        ("refused, the records in the image are wrongly linked", &[]),
    ];
    for (answer, (words, own)) in (0..).zip(common) {
        for record in EACH_STEP {
            let line = line(record, answer);
            let (_, told) = line.split_once(": ").unwrap();
            if own.contains(&record[0]) {
                assert_ne!(told, words, "{line}");
            } else {
                assert_eq!(told, words, "{line}");
            }
        }
        for record in malformed() {
            // A malformed record has no step: not even byte 0 gives it a step's words.
            let words = match answer {
                1 => "refused, these eight bytes are no step",
                _ => words,
            };
            let line = line(record, answer);
            assert_eq!(line.split_once(": ").unwrap().1, words, "{line}");
        }
    }
}

/// The errors of an image, which no step gives, with steps and malformed records.
#[test]
fn the_errors_of_an_image() {
    let pairs = [
        (on(0, 1), 17),
        (append(3, 41), 17),
        (on(10, 0), 17),
        (count(2, 2), 17),
        (on(3, 2), 18),
        (count(1, 2), 18),
        (on(13, 0), 18),
        (on(0, 0), 18),
        (on(5, 0), 19),
        (on(8, 8), 19),
        (on(15, 4), 19),
        (on(19, 1), 19),
    ];
    let lines = "\
opening with board 1: refused, the image has a wrong length
board 3 appends value 41: refused, the image has a wrong length
controller takes news: refused, the image has a wrong length
record 09 02 02 00 00 00 00 00: refused, the image has a wrong length
add board 2: refused, a number in the image is not valid
board 1 counts board 2: refused, a number in the image is not valid
set normal: refused, a number in the image is not valid
record 00 00 00 00 00 00 00 00: refused, a number in the image is not valid
change leader: refused, the records in the image are wrongly linked
board 8 receives an entry: refused, the records in the image are wrongly linked
install board 4: refused, the records in the image are wrongly linked
record 13 01 00 00 00 00 00 00: refused, the records in the image are wrongly linked
";
    assert_eq!(pairs.len(), lines.lines().count());
    for ((record, answer), words) in pairs.into_iter().zip(lines.lines()) {
        assert_eq!(line(record, answer), words);
    }
}

#[test]
fn malformed_records_in_hexadecimal() {
    for (record, words) in [
        // nothing but zeros: an opening with board 0
        ([0; 8], "record 00 00 00 00 00 00 00 00"),
        ([255; 8], "record FF FF FF FF FF FF FF FF"),
        // openings: board 9, a second board, byte 3, a value
        (on(0, 9), "record 00 09 00 00 00 00 00 00"),
        ([0, 1, 1, 0, 0, 0, 0, 0], "record 00 01 01 00 00 00 00 00"),
        ([0, 1, 0, 1, 0, 0, 0, 0], "record 00 01 00 01 00 00 00 00"),
        ([0, 1, 0, 0, 1, 0, 0, 0], "record 00 01 00 00 01 00 00 00"),
        // step 1: boards 0 and 9, a second board, byte 3
        (append(0, 41), "record 01 00 00 00 29 00 00 00"),
        (append(9, 41), "record 01 09 00 00 29 00 00 00"),
        ([1, 1, 2, 0, 41, 0, 0, 0], "record 01 01 02 00 29 00 00 00"),
        ([1, 1, 0, 3, 41, 0, 0, 0], "record 01 01 00 03 29 00 00 00"),
        // values where none is used, in each of the four bytes
        ([2, 1, 0, 0, 1, 0, 0, 0], "record 02 01 00 00 01 00 00 00"),
        ([3, 1, 0, 0, 0, 2, 0, 0], "record 03 01 00 00 00 02 00 00"),
        ([4, 1, 0, 0, 0, 0, 3, 0], "record 04 01 00 00 00 00 03 00"),
        ([6, 1, 0, 0, 0, 0, 0, 4], "record 06 01 00 00 00 00 00 04"),
        // boards where none is used
        (on(5, 1), "record 05 01 00 00 00 00 00 00"),
        (on(10, 2), "record 0A 02 00 00 00 00 00 00"),
        (on(11, 8), "record 0B 08 00 00 00 00 00 00"),
        (on(13, 255), "record 0D FF 00 00 00 00 00 00"),
        // no board where one is used
        (on(7, 0), "record 07 00 00 00 00 00 00 00"),
        (on(12, 0), "record 0C 00 00 00 00 00 00 00"),
        (on(14, 0), "record 0E 00 00 00 00 00 00 00"),
        (on(15, 0), "record 0F 00 00 00 00 00 00 00"),
        // step 9: no second board, one above 8, a board that is to count itself
        (on(9, 1), "record 09 01 00 00 00 00 00 00"),
        (count(0, 1), "record 09 00 01 00 00 00 00 00"),
        (count(1, 9), "record 09 01 09 00 00 00 00 00"),
        (count(8, 8), "record 09 08 08 00 00 00 00 00"),
        // steps above 15
        (on(16, 1), "record 10 01 00 00 00 00 00 00"),
        (on(31, 0), "record 1F 00 00 00 00 00 00 00"),
        (on(255, 1), "record FF 01 00 00 00 00 00 00"),
        // every digit
        (
            [0x10, 0x32, 0x54, 0x76, 0x98, 0xba, 0xdc, 0xfe],
            "record 10 32 54 76 98 BA DC FE",
        ),
        (
            [0x67, 0x89, 0xab, 0xcd, 0xef, 0x01, 0x23, 0x45],
            "record 67 89 AB CD EF 01 23 45",
        ),
    ] {
        let refused = [words, ": refused, these eight bytes are no step"].concat();
        assert_eq!(line(record, 1), refused);
        assert_eq!(line(record, 0), [words, ": accepted"].concat());
    }
    for record in malformed() {
        let bytes = record.map(|byte| format!(" {byte:02X}")).concat();
        let words = format!("record{bytes}: refused, these eight bytes are no step");
        assert_eq!(line(record, 1), words);
    }
}

#[test]
fn a_record_of_another_length_is_refused_1() {
    let record = [on(3, 2), on(3, 2)].concat();
    for length in (0..=16).filter(|&length| length != 8) {
        for answer in (0..=300).chain([usize::MAX]) {
            let mut slice = [170; 200];
            assert_eq!(describe(&record[..length], answer, &mut slice), 1);
            assert_eq!(slice, [170; 200], "{length} bytes");
        }
        // 1 comes before 3.
        assert_eq!(describe(&record[..length], 0, &mut []), 1);
    }
    let mut slice = [170; 200];
    assert_eq!(describe(&[0; 8000], 0, &mut slice), 1);
    assert_eq!(slice, [170; 200]);
    // "add board 2: accepted" and byte 10
    assert_eq!(describe(&record[..8], 0, &mut slice), 22);
    assert_eq!(slice[..22], *b"add board 2: accepted\n");
}

/// An answer that is not on the list, with every kind of record.
#[track_caller]
fn is_refused_1(answer: usize) {
    for record in EACH_STEP.into_iter().chain(malformed()) {
        let mut slice = [170; 200];
        assert_eq!(describe(&record, answer, &mut slice), 1, "answer {answer}");
        assert_eq!(slice, [170; 200], "answer {answer}");
        // 1 comes before 3.
        assert_eq!(describe(&record, answer, &mut []), 1, "answer {answer}");
    }
}

#[test]
fn an_answer_that_is_not_on_the_list_is_refused_1() {
    for answer in [20, 255, 256, 256 + 5, 65536, usize::MAX] {
        is_refused_1(answer);
    }
    for answer in 20..=600 {
        is_refused_1(answer);
    }
}

/// An answer is taken whole: if its low bits alone are a number of the list, it is not
/// on the list.
#[test]
fn an_answer_with_a_high_bit_is_refused_1() {
    for bit in 5..usize::BITS {
        for low in 0..=ANSWER_MAX {
            is_refused_1((1 << bit) + low);
            // All bits from this one up.
            is_refused_1((usize::MAX << bit) + low);
        }
    }
}

/// The length of a row's listing, a text or a line is not on the list; that of the empty
/// sheet's listing is.
#[test]
fn lengths_and_answers() {
    let mut slice = vec![170; TEXT_MAX];
    let mut lengths = vec![
        run(&sample(), &mut slice),
        explain(&sample(), &mut slice),
        LINE_MAX,
        TEXT_MAX,
    ];
    for record in EACH_STEP {
        lengths.extend((0..=ANSWER_MAX).map(|answer| describe(&record, answer, &mut slice)));
    }
    for length in lengths {
        is_refused_1(length);
    }
    // A refusal of those calls is.
    let refusal = run(&on(0, 9), &mut slice);
    let words = "install board 4: refused, the sheet has a wrong length or no valid opening";
    assert_eq!(line(on(15, 4), refusal), words);
    // So is 9, the length of the empty sheet's listing: document 02, Paper 9.
    let length = run(&[], &mut slice);
    let words = "board 4 joins: refused, it follows no other board";
    assert_eq!(line(on(7, 4), length), words);
}

#[test]
fn a_slice_shorter_than_the_line_is_refused_3() {
    // 21 bytes, the shortest line
    assert_eq!(describe(&on(13, 0), 0, &mut [170; 20]), 3);
    assert_eq!(describe(&on(13, 0), 0, &mut [170; 21]), 21);
    for record in EACH_STEP.into_iter().chain(malformed()) {
        for answer in 0..=ANSWER_MAX {
            let full = line(record, answer) + "\n";
            for length in 0..full.len() {
                let mut slice = vec![170; length];
                assert_eq!(describe(&record, answer, &mut slice), 3, "{length} bytes");
                assert_eq!(slice, vec![170; length], "{length} bytes");
            }
            for past in [0, 1, 7, 200] {
                // What the slice held before shows only past the line.
                for dirt in [0, 10, 170, 255] {
                    let mut slice = vec![dirt; full.len() + past];
                    assert_eq!(describe(&record, answer, &mut slice), full.len());
                    assert_eq!(slice[..full.len()], *full.as_bytes());
                    assert_eq!(slice[full.len()..], vec![dirt; past]);
                }
            }
        }
    }
}

/// Every record well formed by itself, but of values only some.
fn well_formed() -> BTreeSet<[u8; 8]> {
    let mut records = BTreeSet::new();
    for step in 0..=15 {
        for a in 1..=8 {
            match step {
                1 => {
                    let powers = (0..32)
                        .map(|n| 1 << n)
                        .chain((0..10).map(|n| 10_u32.pow(n)));
                    let near = powers.flat_map(|n| [n - 1, n, n + 1]);
                    let values = (0..=300).chain(near).chain([u32::MAX - 1, u32::MAX]);
                    records.extend(values.map(|value| append(a, value)));
                }
                5 | 10 | 11 | 13 => {
                    records.insert(on(step, 0));
                }
                9 => records.extend((1..=8).filter(|&b| b != a).map(|b| count(a, b))),
                _ => {
                    records.insert(on(step, a));
                }
            }
        }
    }
    records
}

/// These and, for each of them but those with larger values, what it becomes if one of
/// its bytes becomes another; many of those are malformed.
fn many_records() -> BTreeSet<[u8; 8]> {
    let mut records = well_formed();
    for record in well_formed() {
        if record[4] > 16 || record[5..] != [0; 3] {
            continue;
        }
        for at in 0..8 {
            for byte in (0..=18).chain([32, 127, 128, 144, 255]) {
                let mut record = record;
                record[at] = byte;
                records.insert(record);
            }
        }
    }
    records
}

#[test]
fn no_two_pairs_have_the_same_line() {
    let mut lines = HashMap::new();
    let mut longest = 0;
    for record in many_records() {
        for answer in 0..=ANSWER_MAX {
            let line = line(record, answer);
            // One line it is, of the printed characters of ASCII.
            let printed = line.bytes().all(|byte| (b' '..=b'~').contains(&byte));
            assert!(printed, "{line:?}");
            longest = longest.max(line.len() + 1);
            if let Some(other) = lines.insert(line, (record, answer)) {
                panic!("{other:?} and {record:?}, {answer} have the same line");
            }
        }
    }
    // All pairs are met, of more than 10,000 records.
    assert_eq!(lines.len(), 20 * many_records().len());
    assert!(many_records().len() > 10_000);
    assert_eq!(longest, LINE_MAX);
}

#[test]
fn the_longest_line() {
    let longest = "board 8 receives an entry: refused, \
        its own view or its leader's does not have it as a member";
    assert_eq!(line(on(8, 8), 5), longest);
    assert_eq!(longest.len() + 1, 94);
    assert_eq!(LINE_MAX, 94);
    // The steps with more bytes: the largest value, and hexadecimal.
    let most = |record| (0..=ANSWER_MAX).map(move |answer| line(record, answer).len() + 1);
    assert_eq!(most(append(8, u32::MAX)).max(), Some(32 + 11 + 48 + 1));
    assert_eq!(most([255; 8]).max(), Some(30 + 11 + 48 + 1));
    // The longest reason, and the next lines.
    assert_eq!(most(on(13, 0)).max(), Some(10 + 11 + 69 + 1));
    assert_eq!(most(on(15, 8)).max(), Some(15 + 11 + 65 + 1));
    assert_eq!(most(count(8, 7)).max(), Some(22 + 11 + 59 + 1));
    assert_eq!(most(on(2, 8)).max(), Some(23 + 11 + 58 + 1));
    assert_eq!(most(on(8, 8)).max(), Some(25 + 11 + 57 + 1));
}

fn sample() -> Vec<u8> {
    [on(0, 1), append(1, 41), on(2, 1), on(3, 2)].concat()
}

const SAMPLE: &str = "\
opening with board 1: accepted
board 1 appends value 41: accepted
board 1 gives a receipt: accepted
add board 2: accepted
";

#[test]
fn the_text_of_the_sample() {
    assert_eq!(explained(&sample()).unwrap(), SAMPLE);
}

#[test]
fn the_text_of_an_opening_alone() {
    for b in 1..=8 {
        let text = format!("opening with board {b}: accepted\n");
        assert_eq!(text.len(), 31);
        assert_eq!(explained(&on(0, b)).unwrap(), text);
    }
}

/// P3 to P9 of document 01, and records that are answered 1 in between. Where the
/// leader's log has an entry, board 2 is heard at less until it has it too.
#[test]
fn the_text_of_the_trials() {
    let sheet = [
        [on(0, 1), on(2, 1), append(1, 41), on(2, 1)],
        [append(2, 41), on(2, 2), on(5, 0), on(4, 1)],
        [on(4, 2), on(0, 1), on(0, 9), count(2, 2)],
        [on(16, 1), on(3, 2), on(3, 2), on(5, 0)],
        [on(11, 0), on(10, 0), on(11, 0), on(6, 1)],
        [on(11, 0), on(13, 0), on(12, 2), on(13, 0)],
        [on(6, 2), on(8, 2), on(12, 2), on(13, 0)],
        [on(5, 0), append(2, 42), on(10, 0), on(11, 0)],
    ];
    let text = "\
opening with board 1: accepted
board 1 gives a receipt: refused, its log is not longer than the receipts
board 1 appends value 41: accepted
board 1 gives a receipt: accepted
board 2 appends value 41: refused, it is not the leader in its own view
board 2 gives a receipt: refused, it is not the leader in its own view
change leader: refused, there are fewer than two members
remove board 1: refused, the board is the leader
remove board 2: refused, the board is not a member
opening with board 1: refused, an opening stands first and nowhere else
record 00 09 00 00 00 00 00 00: refused, these eight bytes are no step
record 09 02 02 00 00 00 00 00: refused, these eight bytes are no step
record 10 01 00 00 00 00 00 00: refused, these eight bytes are no step
add board 2: accepted
add board 2: refused, the board is a member already
change leader: refused, the registry's status is not normal
controller reads leader: refused, the controller is not at stage leader
controller takes news: accepted
controller reads leader: refused, the leader board's epoch is not the controller's
board 1 takes news: accepted
controller reads leader: accepted
set normal: refused, no majority of members is heard at the leader's heard length or above
controller reads board 2: accepted
set normal: refused, no majority of members is heard at the leader's heard length or above
board 2 takes news: accepted
board 2 receives an entry: accepted
controller reads board 2: accepted
set normal: accepted
change leader: accepted
board 2 appends value 42: refused, it is not the leader in its own view
controller takes news: accepted
controller reads leader: refused, the controller is not at stage leader
";
    assert_eq!(explained(&sheet.concat().concat()).unwrap(), text);
}

/// Four boards, of which 2 becomes the leader. It meets every refusal of the steps but
/// [7] and [13], which take long, and [16] of step 15, which no run gives.
#[test]
fn the_text_of_four_boards() {
    let sheet = [
        [on(0, 1), on(5, 0), on(3, 2), on(3, 3)],
        [on(3, 4), on(3, 4), on(4, 5), on(4, 1)],
        // Board 2 has the news of the opening, where 1 is the one member. Then it is
        // the view of its leader that lacks it.
        [on(7, 1), on(8, 1), on(7, 2), on(8, 2)],
        [count(1, 2), on(6, 2), on(8, 2), on(6, 1)],
        [on(10, 0), on(12, 2), on(13, 0), on(14, 2)],
        [on(15, 2), on(11, 0), on(11, 0), on(13, 0)],
        [on(12, 2), on(12, 3), on(13, 0), on(6, 1)],
        [on(6, 2), on(6, 3), on(6, 4), on(6, 4)],
        [on(7, 2), on(8, 2), on(2, 1), append(1, 41)],
        [on(2, 1), on(8, 4), count(1, 4), count(1, 4)],
        [append(4, 43), on(2, 4), count(4, 1), on(5, 0)],
        [on(3, 5), on(4, 2), on(5, 0), on(10, 0)],
        [on(10, 0), on(14, 1), on(14, 2), on(6, 2)],
        [on(6, 3), on(14, 2), on(14, 2), on(14, 3)],
        [on(15, 1), on(15, 4), on(15, 2), on(6, 4)],
        // Board 4 has the news of the install; its leader 2 and board 1 have not.
        [on(7, 4), on(8, 4), count(1, 4), on(11, 0)],
        [on(6, 2), append(2, 42), on(8, 4), count(2, 4)],
        [on(11, 0), on(12, 4), on(12, 2), on(12, 1)],
        [on(7, 4), on(8, 4), on(12, 4), on(12, 4)],
        [on(3, 1), on(13, 0), count(2, 4), on(10, 0)],
    ];
    let text = "\
opening with board 1: accepted
change leader: refused, there are fewer than two members
add board 2: accepted
add board 3: accepted
add board 4: accepted
add board 4: refused, the board is a member already
remove board 5: refused, the board is not a member
remove board 1: refused, the board is the leader
board 1 joins: refused, it follows no other board
board 1 receives an entry: refused, it follows no other board
board 2 joins: refused, it is not a member in its own view
board 2 receives an entry: refused, its own view or its leader's does not have it as a member
board 1 counts board 2: refused, the counted board is not a member in its own view
board 2 takes news: accepted
board 2 receives an entry: refused, its own view or its leader's does not have it as a member
board 1 takes news: accepted
controller takes news: accepted
controller reads board 2: refused, the controller is not at stage boards
set normal: refused, the controller is not at stage boards
controller hears board 2: refused, the controller is not at stage choosing
install board 2: refused, the controller is not at stage choosing
controller reads leader: accepted
controller reads leader: refused, the controller is not at stage leader
set normal: refused, no majority of members is heard at the leader's heard length or above
controller reads board 2: accepted
controller reads board 3: accepted
set normal: accepted
board 1 takes news: accepted
board 2 takes news: accepted
board 3 takes news: accepted
board 4 takes news: accepted
board 4 takes news: refused, it has the newest news already
board 2 joins: refused, it has joined under its leader epoch already
board 2 receives an entry: refused, its log is not shorter than its leader's
board 1 gives a receipt: refused, its log is not longer than the receipts
board 1 appends value 41: accepted
board 1 gives a receipt: refused, its counts show no majority of members with the next entry
board 4 receives an entry: accepted
board 1 counts board 4: accepted
board 1 counts board 4: refused, the counted board's log is not longer than the count
board 4 appends value 43: refused, it is not the leader in its own view
board 4 gives a receipt: refused, it is not the leader in its own view
board 4 counts board 1: refused, the counting board is not the leader in its own view
change leader: accepted
add board 5: refused, a leader is being chosen
remove board 2: refused, a leader is being chosen
change leader: refused, the registry's status is not normal
controller takes news: accepted
controller takes news: refused, it has the newest news already
controller hears board 1: refused, the board is not a member in the controller's view
controller hears board 2: refused, the board's epoch is not the controller's
board 2 takes news: accepted
board 3 takes news: accepted
controller hears board 2: accepted
controller hears board 2: refused, the board's log is not longer than heard before
controller hears board 3: accepted
install board 1: refused, the board is not a member in the controller's view
install board 4: refused, no majority that has the board is heard with none ranked above it
install board 2: accepted
board 4 takes news: accepted
board 4 joins: refused, its leader has another leader epoch
board 4 receives an entry: refused, its leader has another leader epoch
board 1 counts board 4: refused, the two boards have different leader epochs
controller reads leader: refused, the leader board's epoch is not the controller's
board 2 takes news: accepted
board 2 appends value 42: accepted
board 4 receives an entry: refused, it has not joined under its leader epoch yet
board 2 counts board 4: refused, the counted board has not joined under its leader epoch yet
controller reads leader: accepted
controller reads board 4: refused, the board last joined under another leader epoch
controller reads board 2: refused, the board is the leader in the controller's view
controller reads board 1: refused, the board is not a member in the controller's view
board 4 joins: accepted
board 4 receives an entry: accepted
controller reads board 4: accepted
controller reads board 4: refused, the board's log is not longer than heard before
add board 1: accepted
set normal: refused, the controller's epoch is not the registry's
board 2 counts board 4: accepted
controller takes news: accepted
";
    assert_eq!(explained(&sheet.concat().concat()).unwrap(), text);
}

#[test]
fn a_full_log() {
    let mut sheet = on(0, 1).to_vec();
    sheet.extend((1..=513).flat_map(|value| append(1, value)));
    let text = explained(&sheet).unwrap();
    let lines: Vec<&str> = text.lines().collect();
    assert_eq!(lines.len(), 514);
    assert_eq!(lines[512], "board 1 appends value 512: accepted");
    assert_eq!(
        lines[513],
        "board 1 appends value 513: refused, its log is full"
    );
}

#[test]
fn epochs_used_up() {
    let mut sheet = on(0, 1).to_vec();
    for n in 0..3999 {
        sheet.extend(on(if n % 2 == 0 { 3 } else { 4 }, 2));
    }
    sheet.extend([on(4, 2), on(3, 3)].concat());
    let text = explained(&sheet).unwrap();
    let lines: Vec<&str> = text.lines().collect();
    assert_eq!(
        lines[3998..],
        [
            "remove board 2: accepted",
            "add board 2: accepted",
            "remove board 2: refused, the registry's epochs are used up",
            "add board 3: refused, the registry's epochs are used up",
        ]
    );
}

/// Each line is that of the record and of the answer that the listing has for it.
#[track_caller]
fn agrees_with_the_listing(sheet: &[u8]) {
    let listing = list(sheet).unwrap();
    let mut text = String::new();
    for (record, listed) in sheet.as_chunks().0.iter().zip(listing.lines()) {
        let answer = listed.split(' ').nth(2).unwrap().parse().unwrap();
        text += &line(*record, answer);
        text += "\n";
    }
    assert_eq!(explained(sheet).unwrap(), text);
}

#[test]
fn bench_sheets_agree_with_their_listings() {
    for seed in 0..100 {
        for count in [1, 2, 41, 4095] {
            let mut sheet = vec![0; 8 * count];
            make(seed, count, &mut sheet);
            agrees_with_the_listing(&sheet);
            // Every fifth record with one bit changed: many are malformed.
            let (records, _) = sheet.as_chunks_mut::<8>();
            for (n, record) in records.iter_mut().enumerate().skip(1).step_by(5) {
                record[n % 8] ^= 1 << (n / 8 % 8);
            }
            agrees_with_the_listing(&sheet);
        }
    }
}

#[test]
fn a_sheet_is_refused_2() {
    let mut long = on(0, 1).to_vec();
    long.extend(on(10, 0).repeat(4095));
    let mut sheets = vec![
        // no record, more than 4,095
        vec![],
        long.clone(),
        [long, vec![0]].concat(),
        // no whole record
        on(0, 1)[..7].to_vec(),
        [&on(0, 1)[..], &[0]].concat(),
        [&sample()[..], &[0; 7]].concat(),
        sample()[..31].to_vec(),
        // no opening, or not first
        on(3, 1).to_vec(),
        [on(3, 2), on(0, 1)].concat(),
        // openings with no board or with an unused byte that is not 0
        on(0, 0).to_vec(),
        on(0, 9).to_vec(),
        on(0, 255).to_vec(),
    ];
    for at in 2..8 {
        let mut opening = on(0, 1);
        opening[at] = 1;
        sheets.push(opening.to_vec());
    }
    for sheet in sheets {
        let mut slice = vec![170; TEXT_MAX];
        assert_eq!(explain(&sheet, &mut slice), 2, "{} bytes", sheet.len());
        assert!(slice.iter().all(|&byte| byte == 170));
        // 2 comes before 3.
        assert_eq!(explain(&sheet, &mut []), 2);
        assert_eq!(explained(&sheet), Err(2));
        // As the listing, which has a line for the empty sheet: document 02, Paper 9.
        let listed = if sheet.is_empty() { 9 } else { 2 };
        assert_eq!(run(&sheet, &mut slice), listed);
    }
}

#[test]
fn a_slice_shorter_than_the_text_is_refused_3() {
    // 31 + 35 + 34 + 22
    assert_eq!(SAMPLE.len(), 122);
    for length in 0..122 {
        let mut slice = vec![170; length];
        assert_eq!(explain(&sample(), &mut slice), 3, "{length} bytes");
        assert_eq!(slice, vec![170; length], "{length} bytes");
    }
    for past in [0, 1, 7, 1000] {
        for dirt in [0, 10, 170, 255] {
            let mut slice = vec![dirt; 122 + past];
            assert_eq!(explain(&sample(), &mut slice), 122);
            assert_eq!(slice[..122], *SAMPLE.as_bytes());
            assert_eq!(slice[122..], vec![dirt; past]);
        }
    }
}

/// The longest text: after the opening every record has the longest line.
#[test]
fn a_long_text() {
    // Board 2 follows board 1, and is a member in neither's view.
    let mut records = vec![on(0, 1)];
    records.resize(4095, on(8, 2));
    let text = explained(&records.concat()).unwrap();
    let mut lines = text.lines();
    assert_eq!(lines.next(), Some("opening with board 1: accepted"));
    let longest = "board 2 receives an entry: refused, \
        its own view or its leader's does not have it as a member";
    assert_eq!(longest.len() + 1, LINE_MAX);
    assert!(lines.all(|line| line == longest));
    assert_eq!(text.lines().count(), 4095);
    assert_eq!(text.len(), TEXT_MAX);
    // 31 + 4,094 * 94
    assert_eq!(TEXT_MAX, 384_867);
    let mut slice = vec![170; text.len()];
    assert_eq!(explain(&records.concat(), &mut slice), text.len());
    assert_eq!(explain(&records.concat(), &mut slice[1..]), 3);
}

/// What the program prints for a sheet.
fn program(sheet: &[u8]) -> Vec<u8> {
    printed(env!("CARGO_BIN_EXE_explainsheet"), sheet)
}

#[test]
fn the_program() {
    assert_eq!(program(&sample()), SAMPLE.as_bytes());
    assert_eq!(program(b""), b"refused 2\n");
    assert_eq!(program(&sample()[..31]), b"refused 2\n");
    assert_eq!(program(&on(0, 9)), b"refused 2\n");
    // All of standard input is read.
    assert_eq!(program(&sample().repeat(10_000)), b"refused 2\n");
}
