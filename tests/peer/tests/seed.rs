//! Bench sheets from a seed: document 02, Paper 2.
//!
//! Draws and records are from the paper, not from the program: worked out by hand
//! where a comment shows it, else by a short script in another language, written
//! apart, with sums, quotients and remainders of whole numbers for the shifts and
//! a comparison of digits in base two for the exclusive-or.

mod program;

use std::collections::BTreeSet;

use peer::list;
use peer::seed::{make, print, read, Draws};
use program::printed;

/// The sheet of a seed and a count that is not refused.
#[track_caller]
fn sheet(seed: u32, count: usize) -> Vec<[u8; 8]> {
    let mut slice = vec![0; 8 * count];
    assert_eq!(make(seed, count, &mut slice), 8 * count);
    slice.as_chunks().0.to_vec()
}

/// Seeds at the ends of their range, around half of it and around the constant and
/// what is missing from it to 4,294,967,296, and others in between.
fn seeds() -> Vec<u32> {
    let mut seeds: Vec<u32> = (0..100).map(|n| 43_000_003 * n).collect();
    for near in [0, 2_147_483_648, 2_654_435_769, 1_640_531_527] {
        seeds.extend((0..5).map(|n| u32::wrapping_add(near, n)));
        seeds.extend((1..5).map(|n| u32::wrapping_sub(near, n)));
    }
    seeds
}

#[test]
fn a_draw_by_hand() {
    // The state is 0 + 2,654,435,769, in hexadecimal 9e3779b9.
    // Shifted right 16 places 00009e37; the exclusive-or is 9e37e78e.
    // That shifted left 7 places 4f1bf3c700, low 32 bits 1bf3c700; the
    // exclusive-or is 85c4208e.
    assert_eq!(Draws::new(0).draw(), 0x85c4_208e);
    // 1,640,531,527 + 2,654,435,769 is 4,294,967,296: the state is 0, so is the draw.
    let mut draws = Draws::new(1_640_531_527);
    assert_eq!(draws.draw(), 0);
    // From there it goes on as from seed 0.
    assert_eq!(draws.draw(), 0x85c4_208e);
    // One more: the state is 1, shifted right 0, then 1 and 80 in hexadecimal.
    assert_eq!(Draws::new(1_640_531_528).draw(), 0x81);
    // One less: the state is ffffffff, then ffff0000, and with ff800000 007f0000.
    assert_eq!(Draws::new(1_640_531_526).draw(), 0x007f_0000);
}

#[test]
fn draws_worked_out_apart() {
    let worked_out = [
        (
            0,
            [
                2_244_223_118,
                185_155_868,
                2_315_088_141,
                370_311_865,
                2_645_472_136,
                326_885_914,
            ],
        ),
        (
            1,
            [
                2_244_223_245,
                185_155_997,
                2_315_088_522,
                370_311_736,
                2_645_471_755,
                326_886_043,
            ],
        ),
        (
            4_294_967_295,
            [
                2_244_222_991,
                185_155_743,
                2_315_088_268,
                370_311_486,
                2_645_472_009,
                326_886_297,
            ],
        ),
    ];
    for (seed, numbers) in worked_out {
        let mut draws = Draws::new(seed);
        assert_eq!(numbers.map(|_| draws.draw()), numbers, "seed {seed}");
    }
}

#[test]
fn the_first_records_of_seed_0() {
    // By hand from the draws of seed 0:
    // 2,244,223,118 is 6 modulo 8: opening 7.
    // 185,155,868 is 8 modulo 15: step 9. 2,315,088,141 and 370,311,865 are 5 and 1
    // modulo 8: boards 6 and 2.
    // 2,645,472,136 is 1 modulo 15: step 2. 326,885,914 is 2 modulo 8: board 3.
    let records = [
        [0, 7, 0, 0, 0, 0, 0, 0],
        [9, 6, 2, 0, 0, 0, 0, 0],
        [2, 3, 0, 0, 0, 0, 0, 0],
    ];
    assert_eq!(sheet(0, 3), records);
}

#[test]
fn first_records_worked_out_apart() {
    let worked_out = [
        (
            0,
            [
                [0, 7, 0, 0, 0, 0, 0, 0],
                [9, 6, 2, 0, 0, 0, 0, 0],
                [2, 3, 0, 0, 0, 0, 0, 0],
                [6, 4, 0, 0, 0, 0, 0, 0],
                [2, 1, 0, 0, 0, 0, 0, 0],
                [6, 6, 0, 0, 0, 0, 0, 0],
                [2, 7, 0, 0, 0, 0, 0, 0],
                [9, 8, 7, 0, 0, 0, 0, 0],
                [10, 0, 0, 0, 0, 0, 0, 0],
                [2, 2, 0, 0, 0, 0, 0, 0],
                [1, 3, 0, 0, 0x64, 0x6b, 0x17, 0x4b],
                [11, 0, 0, 0, 0, 0, 0, 0],
            ],
        ),
        (
            1,
            [
                [0, 6, 0, 0, 0, 0, 0, 0],
                [3, 3, 0, 0, 0, 0, 0, 0],
                [2, 4, 0, 0, 0, 0, 0, 0],
                [14, 5, 0, 0, 0, 0, 0, 0],
                [6, 2, 0, 0, 0, 0, 0, 0],
                [11, 0, 0, 0, 0, 0, 0, 0],
                [3, 5, 0, 0, 0, 0, 0, 0],
                [13, 0, 0, 0, 0, 0, 0, 0],
                [4, 1, 0, 0, 0, 0, 0, 0],
                [8, 6, 0, 0, 0, 0, 0, 0],
                [3, 3, 0, 0, 0, 0, 0, 0],
                [3, 3, 0, 0, 0, 0, 0, 0],
            ],
        ),
        (
            41,
            [
                [0, 6, 0, 0, 0, 0, 0, 0],
                [11, 0, 0, 0, 0, 0, 0, 0],
                [6, 1, 0, 0, 0, 0, 0, 0],
                [3, 4, 0, 0, 0, 0, 0, 0],
                [11, 0, 0, 0, 0, 0, 0, 0],
                [1, 2, 0, 0, 0xc9, 0x4b, 0x5d, 0x3b],
                [12, 5, 0, 0, 0, 0, 0, 0],
                [5, 0, 0, 0, 0, 0, 0, 0],
                [6, 1, 0, 0, 0, 0, 0, 0],
                [4, 6, 0, 0, 0, 0, 0, 0],
                [14, 3, 0, 0, 0, 0, 0, 0],
                [1, 3, 0, 0, 0x4b, 0x8b, 0xb3, 0xfa],
            ],
        ),
        (
            4_294_967_295,
            [
                [0, 8, 0, 0, 0, 0, 0, 0],
                [4, 5, 0, 0, 0, 0, 0, 0],
                [7, 2, 0, 0, 0, 0, 0, 0],
                [13, 0, 0, 0, 0, 0, 0, 0],
                [13, 0, 0, 0, 0, 0, 0, 0],
                [13, 0, 0, 0, 0, 0, 0, 0],
                [11, 0, 0, 0, 0, 0, 0, 0],
                [12, 1, 0, 0, 0, 0, 0, 0],
                [1, 6, 0, 0, 0x95, 0x85, 0x0f, 0x23],
                [1, 1, 0, 0, 0x67, 0xe7, 0x65, 0x56],
                [6, 5, 0, 0, 0, 0, 0, 0],
                [8, 1, 0, 0, 0, 0, 0, 0],
            ],
        ),
    ];
    for (seed, records) in worked_out {
        assert_eq!(sheet(seed, 12), records, "seed {seed}");
    }
}

#[test]
fn each_step_as_the_second_record() {
    // The lowest seed for each step, worked out apart.
    let worked_out = [
        (5, [1, 7, 0, 0, 0x34, 0x84, 0x12, 0x16]),
        (3, [2, 1, 0, 0, 0, 0, 0, 0]),
        (1, [3, 3, 0, 0, 0, 0, 0, 0]),
        (10, [4, 4, 0, 0, 0, 0, 0, 0]),
        (8, [5, 0, 0, 0, 0, 0, 0, 0]),
        (6, [6, 8, 0, 0, 0, 0, 0, 0]),
        (4, [7, 2, 0, 0, 0, 0, 0, 0]),
        (2, [8, 4, 0, 0, 0, 0, 0, 0]),
        (0, [9, 6, 2, 0, 0, 0, 0, 0]),
        (24, [10, 0, 0, 0, 0, 0, 0, 0]),
        (22, [11, 0, 0, 0, 0, 0, 0, 0]),
        (13, [12, 7, 0, 0, 0, 0, 0, 0]),
        (11, [13, 0, 0, 0, 0, 0, 0, 0]),
        (9, [14, 3, 0, 0, 0, 0, 0, 0]),
        (7, [15, 5, 0, 0, 0, 0, 0, 0]),
    ];
    for (seed, record) in worked_out {
        assert_eq!(sheet(seed, 2)[1], record, "seed {seed}");
    }
}

#[test]
fn an_equal_second_board_becomes_the_next_number() {
    // The lowest seeds with step 9 and equal boards drawn for the second record,
    // worked out apart. Boards 1, 3, 5 and 7 are never drawn twice in a row.
    for (seed, a, b) in [(37_635, 2, 3), (26, 4, 5), (37_727, 6, 7), (78, 8, 1)] {
        let mut draws = Draws::new(seed);
        let [_, step, first, second] = [0; 4].map(|_| draws.draw());
        assert_eq!(1 + step % 15, 9, "seed {seed}");
        assert_eq!((1 + first % 8, 1 + second % 8), (a, a), "seed {seed}");
        let record = [9, a as u8, b, 0, 0, 0, 0, 0];
        assert_eq!(sheet(seed, 2)[1], record, "seed {seed}");
    }
    // A next number takes no draw of its own: what follows seed 78's second record
    // begins with its fifth draw.
    let mut draws = Draws::new(78);
    let fifth = [0; 5].map(|_| draws.draw())[4];
    assert_eq!(u32::from(sheet(78, 3)[2][0]), 1 + fifth % 15);
}

#[test]
fn the_last_records_of_the_longest_sheets() {
    // Worked out apart. They stand after more than 7,500 draws, which one draw too
    // many or too few before them would move.
    let worked_out = [
        (
            0,
            [
                [2, 8, 0, 0, 0, 0, 0, 0],
                [5, 0, 0, 0, 0, 0, 0, 0],
                [2, 1, 0, 0, 0, 0, 0, 0],
            ],
        ),
        (
            1,
            [
                [5, 0, 0, 0, 0, 0, 0, 0],
                [12, 4, 0, 0, 0, 0, 0, 0],
                [14, 5, 0, 0, 0, 0, 0, 0],
            ],
        ),
        (
            4_294_967_295,
            [
                [2, 5, 0, 0, 0, 0, 0, 0],
                [3, 4, 0, 0, 0, 0, 0, 0],
                [1, 3, 0, 0, 0xe4, 0xdb, 0x88, 0xde],
            ],
        ),
    ];
    for (seed, records) in worked_out {
        assert_eq!(sheet(seed, 4095)[4092..], records, "seed {seed}");
    }
}

/// Is a record after the opening well formed by document 01?
fn well_formed(record: &[u8; 8]) -> bool {
    let [step, a, b, zero, value @ ..] = *record;
    let board = |b: u8| 0 < b && b < 9;
    let a_fits = match step {
        5 | 10 | 11 | 13 => a == 0,
        _ => board(a),
    };
    let b_fits = match step {
        9 => board(b) && b != a,
        _ => b == 0,
    };
    let value_fits = step == 1 || value == [0; 4];
    0 < step && step < 16 && a_fits && b_fits && zero == 0 && value_fits
}

#[test]
fn every_record_is_well_formed() {
    let mut openings = BTreeSet::new();
    let mut steps = BTreeSet::new();
    let mut pairs = BTreeSet::new();
    for seed in seeds() {
        let records = sheet(seed, 4095);
        let [0, b @ 1..=8, 0, 0, 0, 0, 0, 0] = records[0] else {
            panic!("seed {seed}, opening {:?}", records[0]);
        };
        openings.insert(b);
        for (record, number) in records.iter().zip(1..).skip(1) {
            assert!(well_formed(record), "seed {seed}, {number}: {record:?}");
            steps.insert((record[0], record[1]));
            if record[0] == 9 {
                pairs.insert((record[1], record[2]));
            }
        }
    }
    // All are met: 8 openings, 11 steps with each board and 4 without, and each
    // pair that two draws can give.
    assert_eq!(openings.len(), 8);
    assert_eq!(steps.len(), 11 * 8 + 4);
    assert_eq!(pairs, possible_pairs());
}

/// The pairs of step 9, from the bits that decide them: the low three bits of the
/// state, the low three of its upper half, and a carry between the halves. For the
/// next draw the constant, in hexadecimal 9e3779b9, adds 1 and 7 to them. The shift
/// left by 7 places changes none of a draw's low three bits.
fn possible_pairs() -> BTreeSet<(u8, u8)> {
    let mut pairs = BTreeSet::new();
    for low in 0..8 {
        for upper in 0..8 {
            for carry in 0..2 {
                let first = low ^ upper;
                let second = ((low + 1) % 8) ^ ((upper + 7 + carry) % 8);
                // Boards 1 to 8 stand for 0 to 7, so 8 becoming 1 is modulo 8.
                let apart = match first == second {
                    true => (second + 1) % 8,
                    false => second,
                };
                pairs.insert((first + 1, apart + 1));
            }
        }
    }
    // Not all 56.
    assert_eq!(pairs.len(), 34);
    pairs
}

#[test]
fn a_listing_never_answers_1() {
    for seed in seeds() {
        let listing = list(&sheet(seed, 4095).concat()).unwrap();
        for line in listing.lines().take(4095) {
            // The third field: a fourth may be board 1 alone.
            assert_ne!(line.split(' ').nth(2), Some("1"), "seed {seed}: {line}");
        }
    }
}

#[test]
fn a_shorter_sheet_begins_a_longer_one() {
    for seed in seeds() {
        let longest = sheet(seed, 4095);
        for count in [1, 2, 3, 12, 100, 4094] {
            assert_eq!(sheet(seed, count), longest[..count], "seed {seed}");
        }
    }
}

#[test]
fn counts_1_2_and_4095() {
    // Lengths in bytes; the opening is one of the records.
    for (count, length) in [(1, 8), (2, 16), (4095, 32_760)] {
        let mut slice = vec![170; length];
        assert_eq!(make(0, count, &mut slice), length);
        assert_eq!(slice[..8], [0, 7, 0, 0, 0, 0, 0, 0]);
        assert_eq!(print(format!("0 {count}\n").as_bytes()), slice);
    }
    assert_eq!(sheet(0, 2)[1], [9, 6, 2, 0, 0, 0, 0, 0]);
}

#[test]
fn refusal_2() {
    for count in [0, 4096, 4097, 65_537, usize::MAX / 8 + 2, usize::MAX] {
        let mut slice = vec![170; 32_776];
        assert_eq!(make(0, count, &mut slice), 2, "count {count}");
        assert_eq!(slice, vec![170; 32_776], "count {count}");
        // 2 comes before 3.
        assert_eq!(make(0, count, &mut []), 2, "count {count}");
    }
}

#[test]
fn refusal_3() {
    for (count, lengths) in [
        (1, 0..8),
        (2, 0..16),
        (3, 0..24),
        (4095, 0..2),
        (4095, 32_758..32_760),
    ] {
        for length in lengths {
            let mut slice = vec![170; length];
            assert_eq!(make(0, count, &mut slice), 3, "{length} bytes");
            assert_eq!(slice, vec![170; length], "{length} bytes");
        }
    }
}

#[test]
fn bytes_past_the_sheet_keep_their_values() {
    for count in [1, 2, 3, 4095] {
        for past in [1, 7, 8, 20] {
            // What the slice held before shows only past the sheet.
            for dirt in [0, 170, 255] {
                let mut slice = vec![dirt; 8 * count + past];
                assert_eq!(make(41, count, &mut slice), 8 * count);
                assert_eq!(slice[..8 * count], sheet(41, count).concat());
                assert_eq!(slice[8 * count..], vec![dirt; past]);
            }
        }
    }
}

#[test]
fn good_lines() {
    for (line, seed, count) in [
        ("0 1\n", 0, 1),
        ("1 1\n", 1, 1),
        ("0 9\n", 0, 9),
        ("10 10\n", 10, 10),
        ("100 1000\n", 100, 1000),
        ("41 4094\n", 41, 4094),
        ("0 4095\n", 0, 4095),
        ("4294967294 2\n", 4_294_967_294, 2),
        ("4294967295 1\n", 4_294_967_295, 1),
        ("4294967295 4095\n", 4_294_967_295, 4095),
    ] {
        assert_eq!(read(line.as_bytes()), Some((seed, count)), "{line:?}");
        let printed = print(line.as_bytes());
        assert_eq!(printed, sheet(seed, count).concat(), "{line:?}");
    }
}

#[test]
fn bad_lines() {
    let long = |digit: &str| digit.repeat(10_000);
    let lines: &[&str] = &[
        // nothing, or only a part
        "",
        "\n",
        " ",
        " \n",
        "1",
        "1\n",
        "1 ",
        "1 \n",
        " 1\n",
        "11\n",
        // byte 10 missing, twice, elsewhere
        "1 1",
        "1 1\n\n",
        "\n1 1\n",
        "1\n1\n",
        "1\n 1\n",
        "1 \n1\n",
        "1 1\n1",
        // other ends of a line
        "1 1\r\n",
        "1 1\r",
        "1 1\n\r",
        "1\r 1\n",
        "1 1\u{b}\n",
        "1 1\u{c}\n",
        "1 1\u{85}",
        // leading zeros
        "00 1\n",
        "01 1\n",
        "000 1\n",
        "04294967295 1\n",
        "1 01\n",
        "1 001\n",
        "1 04095\n",
        "01 01\n",
        // a count of 0
        "0 0\n",
        "1 0\n",
        "4294967295 0\n",
        "1 00\n",
        // a count too large, or one that would fit modulo some power of two
        "0 4096\n",
        "0 4097\n",
        "0 9999\n",
        "0 10000\n",
        "0 65537\n",
        "0 4294967295\n",
        "0 4294967296\n",
        "0 4294967297\n",
        "0 18446744073709551617\n",
        // a seed too large, likewise
        "4294967296 1\n",
        "4294967297 1\n",
        "4294967300 1\n",
        "4294967305 1\n",
        "9999999999 1\n",
        "42949672950 1\n",
        "18446744073709551616 1\n",
        "340282366920938463463374607431768211457 1\n",
        // very long digits
        &(long("1") + " 1\n"),
        &("1 ".to_string() + &long("1") + "\n"),
        &(long("0") + " 1\n"),
        &(long("0") + "1 1\n"),
        &("1 ".to_string() + &long("0") + "1\n"),
        // signs
        "+1 1\n",
        "1 +1\n",
        "+0 1\n",
        "-1 1\n",
        "-0 1\n",
        "1 -1\n",
        "1 -4095\n",
        "1+ 1\n",
        "1 1-\n",
        "\u{2212}1 1\n",
        // spaces
        "1  1\n",
        "1   1\n",
        " 1 1\n",
        "1 1 \n",
        "1 1\n ",
        " 1 1 \n",
        "1 1  \n",
        "1\t1\n",
        "1 \t1\n",
        "1\t 1\n",
        "\t1 1\n",
        "1 1\t\n",
        "1\u{a0}1\n",
        "1 0 0\n",
        "1 2 3\n",
        "4 294 967 295 1\n",
        // a third number, or another mark than a space
        "1 1 1\n",
        "1 1 1 1\n",
        "1,1\n",
        "1, 1\n",
        "1;1\n",
        "1-1\n",
        "1/1\n",
        "1:1\n",
        // letters and other forms of numbers
        "a 1\n",
        "1 a\n",
        "1a 1\n",
        "1 1a\n",
        "a1 1\n",
        "seed 1\n",
        "0x1 1\n",
        "1 0x1\n",
        "ff 1\n",
        "1e3 1\n",
        "1 1e3\n",
        "1u32 1\n",
        "1_000 1\n",
        "1 4,095\n",
        "1 4.095\n",
        "1.0 1\n",
        "1 1.0\n",
        "1. 1\n",
        "\"1 1\"\n",
        "/ 1\n",
        "1 /\n",
        ": 1\n",
        "1 :\n",
        "1/ 1\n",
        "1 1:\n",
        // digits that are not ASCII, a mark of byte order
        "\u{661} 1\n",
        "1 \u{ff11}\n",
        "1 \u{b9}\n",
        "\u{feff}1 1\n",
        // a 0 byte
        "\x00",
        "\x001 1\n",
        "1\x00 1\n",
        "1\x001\n",
        "1 \x001\n",
        "1 1\x00\n",
        "1 1\x00",
        "1 1\n\x00",
        "\x00 1\n",
        "1 \x00\n",
        // bytes after the line
        "1 1\n1\n",
        "1 1\n1 1\n",
        "1 1\n#",
        "1 1\n \n",
        "1 1\nrefused 2\n",
    ];
    for line in lines {
        let shown: String = line.chars().take(50).collect();
        assert_eq!(read(line.as_bytes()), None, "{shown:?}");
        assert_eq!(print(line.as_bytes()), b"refused 2\n", "{shown:?}");
    }
    // Bytes that are no UTF-8.
    for line in [&b"\xff 1\n"[..], b"1 1\xff\n", b"1\xa01\n", b"\xb1 \xb1\n"] {
        assert_eq!(read(line), None, "{line:?}");
    }
    // A sheet itself is no such line.
    assert_eq!(print(&sheet(0, 1).concat()), b"refused 2\n");
}

#[test]
fn all_short_inputs_of_some_bytes() {
    // The good lines of at most 6 bytes, from the numbers.
    let mut good = BTreeSet::new();
    for seed in 0..1000 {
        for count in 1..1000 {
            good.insert(format!("{seed} {count}\n").into_bytes());
        }
    }
    let mut inputs = vec![vec![]];
    for _ in 0..=6 {
        for input in &inputs {
            let is_good = good.contains(input);
            assert_eq!(read(input).is_some(), is_good, "{input:?}");
        }
        inputs = inputs
            .iter()
            .flat_map(|input| b"019 \n\r+\0".map(|byte| [&input[..], &[byte]].concat()))
            .collect();
    }
}

#[test]
fn one_byte_changed_taken_out_or_put_in() {
    for line in ["0 1\n", "120 4095\n", "4294967295 4095\n"] {
        let line = line.as_bytes();
        for at in 0..=line.len() {
            let (before, after) = line.split_at(at);
            let past = after.get(1..).unwrap_or_default();
            same_line([before, past].concat());
            for byte in 0..=255 {
                same_line([before, &[byte], past].concat());
                same_line([before, &[byte], after].concat());
            }
        }
    }
}

/// An input that is read is the line of the numbers read from it, and they are in
/// their ranges; so two inputs never ask for the same seed and count.
#[track_caller]
fn same_line(input: Vec<u8>) {
    if let Some((seed, count)) = read(&input) {
        assert_eq!(format!("{seed} {count}\n").as_bytes(), input);
        assert!((1..=4095).contains(&count), "{input:?}");
    } else {
        assert_eq!(print(&input), b"refused 2\n");
    }
}

#[test]
fn every_count_and_many_seeds_are_read() {
    for count in 0..5000 {
        let wanted = (1..=4095).contains(&count).then_some((41, count));
        assert_eq!(read(format!("41 {count}\n").as_bytes()), wanted);
    }
    for seed in seeds() {
        let wanted = Some((seed, 12));
        assert_eq!(read(format!("{seed} 12\n").as_bytes()), wanted);
    }
}

/// What the program writes for an input.
fn program(input: &[u8]) -> Vec<u8> {
    printed(env!("CARGO_BIN_EXE_seedsheet"), input)
}

#[test]
fn the_program() {
    assert_eq!(program(b"0 1\n"), [0, 7, 0, 0, 0, 0, 0, 0]);
    let longest = sheet(4_294_967_295, 4095).concat();
    assert_eq!(program(b"4294967295 4095\n"), longest);
    assert_eq!(program(b""), b"refused 2\n");
    assert_eq!(program(b"0 1"), b"refused 2\n");
    assert_eq!(program(b"0 4096\n"), b"refused 2\n");
    // All of standard input is read.
    assert_eq!(program(&b"0 1\n".repeat(100_000)), b"refused 2\n");
}
