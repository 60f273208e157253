//! Refusals in words: document 02, Paper 5. The phrases are those of the list that the
//! paper asks for.

use crate::listing::{Count, Out, Place};
use crate::row::Outcome;
use crate::{opened, outcomes, RECORDS_MAX};

/// No line is longer, and `board 2 receives an entry` with answer 5 is as long: 25 bytes
/// of step, 11 of `: refused, `, 57 of reason, and byte 10. Next are `board 2 gives a
/// receipt` with 14, of 23 and 58, and `board 2 counts board 1` with 11, of 22 and 59;
/// the longest step, of 32, has at most 48, and the longest reason, of 69, a step of 10.
pub const LINE_MAX: usize = 25 + 11 + 57 + 1;

/// No text is longer: the opening's line of 31 bytes, and 4,094 of the longest. An
/// opening with board 1 and then step 8 on board 2, again and again, is as long.
pub const TEXT_MAX: usize = 31 + (RECORDS_MAX - 1) * LINE_MAX;

/// The steps 0 to 15. A capital stands for a field: `A` and `B` for boards, `V` for
/// the value.
const STEPS: [&str; 16] = [
    "opening with board B",
    "board B appends value V",
    "board B gives a receipt",
    "add board B",
    "remove board B",
    "change leader",
    "board B takes news",
    "board B joins",
    "board B receives an entry",
    "board A counts board B",
    "controller takes news",
    "controller reads leader",
    "controller reads board B",
    "set normal",
    "controller hears board B",
    "install board B",
];

/// The phrase of an answer, or none if it is not on the list. A record malformed by
/// itself has no step, whatever its byte 0: the rows of steps are not for it.
const fn phrase(answer: usize, step: Option<u8>) -> Option<&'static str> {
    // As in the list, the first row from the top that fits.
    Some(match (answer, step) {
        (0, _) => "accepted",
        (1, Some(0)) => "an opening stands first and nowhere else",
        (1, None) => "these eight bytes are no step",
        (1, _) => "the row or the memory for it is not valid",
        (2, _) => "the sheet has a wrong length or no valid opening",
        (3, _) => "the text is longer than the room for it",
        (4, Some(3 | 4)) => "a leader is being chosen",
        (4, Some(5)) => "the registry's status is not normal",
        (4, _) => "the registry's status does not allow it",
        (5, Some(3)) => "the board is a member already",
        (5, Some(4)) => "the board is not a member",
        (5, Some(7)) => "it is not a member in its own view",
        (5, Some(8)) => "its own view or its leader's does not have it as a member",
        (5, Some(9)) => "the counted board is not a member in its own view",
        (5, Some(12 | 14 | 15)) => "the board is not a member in the controller's view",
        (5, _) => "membership does not allow it",
        (6, Some(4)) => "the board is the leader",
        (6, Some(5)) => "there are fewer than two members",
        (6, Some(12)) => "the board is the leader in the controller's view",
        (6, _) => "the leader does not allow it",
        (7, _) => "the registry's epochs are used up",
        (8, Some(1 | 2)) => "it is not the leader in its own view",
        (8, Some(9)) => "the counting board is not the leader in its own view",
        (8, _) => "a board is not the leader in its own view",
        (9, Some(7 | 8)) => "it follows no other board",
        (9, _) => "a board follows no other board",
        (10, Some(7 | 8)) => "its leader has another leader epoch",
        (10, Some(9)) => "the two boards have different leader epochs",
        (10, _) => "the leader epochs differ",
        (11, Some(7)) => "it has joined under its leader epoch already",
        (11, Some(8)) => "it has not joined under its leader epoch yet",
        (11, Some(9)) => "the counted board has not joined under its leader epoch yet",
        (11, Some(12)) => "the board last joined under another leader epoch",
        (11, _) => "joining does not allow it",
        (12, Some(2)) => "its log is not longer than the receipts",
        (12, Some(6 | 10)) => "it has the newest news already",
        (12, Some(8)) => "its log is not shorter than its leader's",
        (12, Some(9)) => "the counted board's log is not longer than the count",
        (12, Some(12 | 14)) => "the board's log is not longer than heard before",
        (12, _) => "nothing is due",
        (13, Some(1)) => "its log is full",
        (13, _) => "a log is full",
        (14, Some(2)) => "its counts show no majority of members with the next entry",
        (14, Some(13)) => "no majority of members is heard at the leader's heard length or above",
        (14, Some(15)) => "no majority that has the board is heard with none ranked above it",
        (14, _) => "there is no majority for it",
        (15, Some(11)) => "the controller is not at stage leader",
        (15, Some(12 | 13)) => "the controller is not at stage boards",
        (15, Some(14 | 15)) => "the controller is not at stage choosing",
        (15, _) => "the controller is at another stage",
        (16, Some(11)) => "the leader board's epoch is not the controller's",
        (16, Some(14)) => "the board's epoch is not the controller's",
        (16, Some(13 | 15)) => "the controller's epoch is not the registry's",
        (16, _) => "the epochs differ",
        (17, _) => "the image has a wrong length",
        (18, _) => "a number in the image is not valid",
        (19, _) => "the records in the image are wrongly linked",
        _ => return None,
    })
}

/// The call: one line of a record and its answer, which need not fit together. Any
/// number may come as the answer, and none is cut to fewer bits: 256 is not 0. It
/// returns the line's length, or 1 or 3, which leave the slice untouched; bytes past
/// the line keep their values. It works in place, without the heap.
pub fn describe(record: &[u8], answer: usize, line: &mut [u8]) -> usize {
    // [1] a record that is not 8 bytes long
    let ([record], []) = record.as_chunks::<8>() else {
        return 1;
    };
    // [1] an answer that is not on the list
    let Some(words) = Line::of(record, answer) else {
        return 1;
    };
    let mut count = Count(0);
    words.write(&mut count);
    let Count(length) = count;
    // [3] a slice shorter than this line
    if line.len() < length {
        return 3;
    }
    let slice = &mut line[..length];
    words.write(&mut Place { slice, end: 0 });
    length
}

/// A sheet in, and a line for each record with the answer that the run gave it. It
/// returns the text's length, or 2 or 3, which leave the slice untouched; bytes past
/// the text keep their values. It works in place, without the heap.
pub fn explain(sheet: &[u8], text: &mut [u8]) -> usize {
    let Some((records, mut row)) = opened(sheet) else {
        return 2;
    };
    let outcomes = &outcomes(records, &mut row)[..records.len()];
    let mut count = Count(0);
    write_all(&mut count, records, outcomes);
    let Count(length) = count;
    // [3] a slice shorter than the text
    if text.len() < length {
        return 3;
    }
    let slice = &mut text[..length];
    write_all(&mut Place { slice, end: 0 }, records, outcomes);
    length
}

/// The text of a sheet, or refusal 2.
pub fn explained(sheet: &[u8]) -> Result<String, usize> {
    let mut slice = vec![0; TEXT_MAX];
    match explain(sheet, &mut slice) {
        refusal @ (2 | 3) => Err(refusal),
        length => {
            slice.truncate(length);
            Ok(String::from_utf8(slice).expect("a text is ASCII"))
        }
    }
}

fn write_all(out: &mut impl Out, records: &[[u8; 8]], outcomes: &[Outcome]) {
    for (record, outcome) in records.iter().zip(outcomes) {
        let line = Line::of(record, outcome.answer.into());
        line.expect("a run's answers are on the list").write(out);
    }
}

/// What a line is made of.
struct Line<'a> {
    record: &'a [u8; 8],
    /// None of a record malformed by itself.
    step: Option<Step>,
    answer: usize,
    phrase: &'static str,
}

/// A step and the fields it uses; the others are 0.
struct Step {
    number: u8,
    a: u8,
    b: u8,
    value: u32,
}

impl Step {
    /// The step of a record, or none if it is malformed by itself. An opening is well
    /// formed wherever it stands.
    fn of(record: &[u8; 8]) -> Option<Step> {
        let (number, a, b, value) = match *record {
            [1, b @ 1..=8, 0, 0, value @ ..] => (1, 0, b, u32::from_le_bytes(value)),
            [9, a @ 1..=8, b @ 1..=8, 0, 0, 0, 0, 0] if a != b => (9, a, b, 0),
            [n @ (5 | 10 | 11 | 13), 0, 0, 0, 0, 0, 0, 0] => (n, 0, 0, 0),
            [n @ (0 | 2..=4 | 6..=8 | 12 | 14 | 15), b @ 1..=8, 0, 0, 0, 0, 0, 0] => (n, 0, b, 0),
            _ => return None,
        };
        Some(Step {
            number,
            a,
            b,
            value,
        })
    }

    fn write(&self, out: &mut impl Out) {
        for byte in STEPS[usize::from(self.number)].bytes() {
            match byte {
                b'A' => out.number(self.a.into()),
                b'B' => out.number(self.b.into()),
                b'V' => out.number(self.value),
                _ => out.byte(byte),
            }
        }
    }
}

impl<'a> Line<'a> {
    /// None for an answer that is not on the list.
    fn of(record: &'a [u8; 8], answer: usize) -> Option<Line<'a>> {
        let step = Step::of(record);
        let phrase = phrase(answer, step.as_ref().map(|step| step.number))?;
        Some(Line {
            record,
            step,
            answer,
            phrase,
        })
    }

    fn write(&self, out: &mut impl Out) {
        match &self.step {
            Some(step) => step.write(out),
            None => bytes(out, self.record),
        }
        out.text(match self.answer {
            0 => b": ",
            _ => b": refused, ",
        });
        out.text(self.phrase.as_bytes());
        out.byte(b'\n');
    }
}

/// The bytes of a record, two hexadecimal digits each.
fn bytes(out: &mut impl Out, record: &[u8; 8]) {
    out.text(b"record");
    for byte in record {
        out.byte(b' ');
        for digit in [byte / 16, byte % 16] {
            out.byte(b"0123456789ABCDEF"[usize::from(digit)]);
        }
    }
}
