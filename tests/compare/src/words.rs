//! Refusals in words (document 02, Paper 5): the C entries `describe_record` and
//! `explain_sheet` and the program `explainsheet`, beside the second program.

use crate::both::{about, differs, in_slices, whole, writes, Fault};
use crate::coverage::Coverage;
use crate::sheets::{answers, lines};
use generate::{record, Rng};
use peer::row::Row;
use peer::words::{explained, LINE_MAX};
use std::collections::HashMap;
use std::iter;
use std::path::Path;

extern "C" {
    fn describe_record(
        record: *const u8,
        record_len: usize,
        answer: usize,
        line: *mut u8,
        line_len: usize,
    ) -> usize;
    fn explain_sheet(sheet: *const u8, sheet_len: usize, text: *mut u8, text_len: usize) -> usize;
}

const ANSWER_MAX: usize = 19;
/// No answers, though 8, 16 or 32 bits of some are.
const BAD_ANSWERS: [usize; 7] = [
    1 << 16,
    (1 << 16) + 5,
    1 << 32,
    (1 << 32) + 5,
    1 << 63,
    (1 << 63) + 5,
    usize::MAX,
];
/// No lengths of a record, though 8 or 16 bits of some are.
const BAD_LENGTHS: [usize; 6] = [24, 32, 256, 256 + 8, 4096, 65_536 + 8];

/// A record and its answer.
type Pair = ([u8; 8], usize);

/// The lines that the C entries wrote, each with the one pair that has it.
#[derive(Default)]
pub struct Told {
    pairs: HashMap<Vec<u8>, Pair>,
    /// How many were compared; a pair may come again.
    lines: usize,
}

impl Told {
    /// Notes a line as it was written. No other pair may have it.
    fn note(&mut self, line: &[u8], pair: Pair) -> Result<(), Fault> {
        self.lines += 1;
        match self.pairs.get(line) {
            Some(other) if *other != pair => {
                let words = line.escape_ascii();
                differs(format!("{pair:?} and {other:?} have one line: {words}"))
            }
            Some(_) => Ok(()),
            None => {
                self.pairs.insert(line.to_vec(), pair);
                Ok(())
            }
        }
    }

    /// Compares the line of a pair, in slices about as long.
    fn describe(&mut self, record: [u8; 8], answer: usize, rng: &mut Rng) -> Result<(), Fault> {
        let second = |slice: &mut [u8]| peer::words::describe(&record, answer, slice);
        let Some(line) = whole(LINE_MAX, second) else {
            let said = format!("the second program has no line for {record:?}, {answer}");
            return differs(said);
        };
        let lengths = about(line.len(), rng);
        call(&record, answer, &lengths, rng)?;
        let ours = whole(LINE_MAX, |slice| describe(&record, answer, slice));
        self.note(&ours.unwrap_or_default(), (record, answer))
    }

    /// Compares the text of a sheet, in slices about as long, and notes its lines.
    pub fn explain(
        &mut self,
        sheet: &[u8],
        coverage: &mut Coverage,
        rng: &mut Rng,
    ) -> Result<(), Fault> {
        let exact = explained(sheet).map_or(300, |text| text.len());
        let lengths = about(exact, rng);
        let given = sheet.to_vec();
        let called = in_slices(
            "explain_sheet",
            &lengths,
            rng,
            |slice| explain(&given, slice),
            |slice| peer::words::explain(sheet, slice),
        );
        if given != sheet {
            return differs("explain_sheet changed the sheet");
        }
        called.map_err(|fault| fault.and(|| differing(sheet)))?;
        match peer::list(sheet) {
            Ok(listing) => self.note_text(sheet, answers(&listing), coverage),
            Err(_) => Ok(()),
        }
    }

    /// Notes the lines of a sheet's text, one for each record and its answer.
    fn note_text(
        &mut self,
        sheet: &[u8],
        answers: impl Iterator<Item = usize>,
        coverage: &mut Coverage,
    ) -> Result<(), Fault> {
        let records = sheet.as_chunks::<8>().0;
        let text = text(sheet).unwrap_or_default();
        let lines: Vec<&[u8]> = text.split_inclusive(|&byte| byte == b'\n').collect();
        if lines.len() != records.len() {
            let (has, should) = (lines.len(), records.len());
            return differs(format!("the text has {has} lines, not {should}"));
        }
        for (line, (record, answer)) in iter::zip(lines, iter::zip(records, answers)) {
            self.note(line, (*record, answer))?;
            coverage.tell(record, answer);
        }
        Ok(())
    }

    /// What was compared.
    pub fn said(&self) -> String {
        let (lines, pairs) = (self.lines, self.pairs.len());
        format!(
            "{lines} lines in words, of {pairs} pairs of record and answer, no two with one line"
        )
    }
}

/// The text of a sheet as the second program prints it.
pub fn printed(sheet: &[u8]) -> Vec<u8> {
    explained(sheet)
        .unwrap_or_else(|refusal| format!("refused {refusal}\n"))
        .into_bytes()
}

/// Compares what the program prints of a sheet.
pub fn print(program: &Path, sheet: &[u8]) -> Result<(), Fault> {
    writes(program, sheet, &printed(sheet), lines).map_err(|fault| fault.of("in words"))
}

/// Records of every kind with every answer, and what the call refuses. Returns the exit
/// status.
pub fn compare() -> Result<u8, Fault> {
    let mut rng = Rng::new(1);
    let mut told = Told::default();
    for record in well_formed().into_iter().chain(others(&mut rng)) {
        told_by_step(&record)?;
        for answer in 0..=ANSWER_MAX {
            told.describe(record, answer, &mut rng)?;
        }
    }
    // The second program's bound is the longest line. (A caller in C is told a rounder one.)
    let longest = told.pairs.keys().map(Vec::len).max();
    if longest != Some(LINE_MAX) {
        differs(format!("the longest line is {longest:?}, not {LINE_MAX}"))?;
    }
    for record in each_kind() {
        refuse(record, &mut rng)?;
        // Slices of every length about the line's.
        for answer in 0..=ANSWER_MAX {
            let lengths: Vec<usize> = (0..LINE_MAX + 4).collect();
            call(&record, answer, &lengths, &mut rng)?;
        }
    }
    println!("all agree: {}", told.said());
    Ok(0)
}

/// Compares what is refused with 1: in slices with room and in ones without, as 1 comes
/// before 3.
fn refuse(record: [u8; 8], rng: &mut Rng) -> Result<(), Fault> {
    let lengths = [LINE_MAX, LINE_MAX + 300, 7, 0];
    for answer in (ANSWER_MAX + 1..=300).chain(BAD_ANSWERS) {
        call(&record, answer, &lengths, rng)?;
    }
    // A part of the record, or the record and more: other records, zeros, anything.
    let any: Vec<u8> = iter::repeat_with(|| rng.draw() as u8)
        .take(65_600)
        .collect();
    let mut places = [record.repeat(8200), vec![0; 65_600], any];
    for length in (0..8).chain(9..=16).chain(BAD_LENGTHS) {
        for place in &mut places {
            place[..8].copy_from_slice(&record);
            for answer in [0, 1, 8, ANSWER_MAX, ANSWER_MAX + 1, usize::MAX] {
                call(&place[..length], answer, &lengths, rng)?;
            }
        }
    }
    Ok(())
}

/// Compares what the C entry does in slices of these lengths.
fn call(record: &[u8], answer: usize, lengths: &[usize], rng: &mut Rng) -> Result<(), Fault> {
    let given = record.to_vec();
    let entry = |slice: &mut [u8]| describe(&given, answer, slice);
    let second = |slice: &mut [u8]| peer::words::describe(record, answer, slice);
    let called = in_slices("describe_record", lengths, rng, entry, second);
    if given != record {
        return differs("describe_record changed the record");
    }
    let differing = || match (whole(LINE_MAX, entry), whole(LINE_MAX, second)) {
        (Some(ours), Some(theirs)) => lines(&ours, &theirs),
        _ => String::new(),
    };
    called.map_err(|fault| {
        let (first, length) = (&record[..record.len().min(8)], record.len());
        let what = format!("a record {first:?} of {length} bytes with answer {answer} differs");
        fault.and(differing).of(what)
    })
}

/// The C entry on a record and a slice.
fn describe(record: &[u8], answer: usize, line: &mut [u8]) -> usize {
    // SAFETY: each pointer goes with its slice's length, and the two do not overlap.
    unsafe {
        describe_record(
            record.as_ptr(),
            record.len(),
            answer,
            line.as_mut_ptr(),
            line.len(),
        )
    }
}

/// The text of a sheet that the C entry lists. So many times the longest line is room
/// enough.
fn text(sheet: &[u8]) -> Option<Vec<u8>> {
    let room = LINE_MAX * (sheet.len() / 8);
    whole(room, |slice| explain(sheet, slice))
}

/// The first lines that differ, if both explain the sheet.
fn differing(sheet: &[u8]) -> String {
    match (text(sheet), explained(sheet)) {
        (Some(ours), Ok(theirs)) => lines(&ours, theirs.as_bytes()),
        _ => String::new(),
    }
}

/// The C entry on a sheet and a slice.
fn explain(sheet: &[u8], text: &mut [u8]) -> usize {
    // SAFETY: as above.
    unsafe { explain_sheet(sheet.as_ptr(), sheet.len(), text.as_mut_ptr(), text.len()) }
}

/// A record is told by its step just where a row takes it for one: it answers 1 to a
/// record that is malformed by itself, and else only to an opening.
fn told_by_step(record: &[u8; 8]) -> Result<(), Fault> {
    let opening = matches!(record, [0, 1..=8, 0, 0, 0, 0, 0, 0]);
    let mut row = Row::open(1).expect("board 1 opens");
    let malformed = row.step(record).answer == 1 && !opening;
    let line = whole(LINE_MAX, |slice| describe(record, 0, slice)).unwrap_or_default();
    if line.starts_with(b"record ") != malformed {
        let words = line.escape_ascii();
        return differs(format!("malformed: {malformed}, {record:?}: {words}"));
    }
    Ok(())
}

/// Every step with all its boards; values of every number of digits.
fn well_formed() -> Vec<[u8; 8]> {
    let powers = (0..10).map(|n| 10_u32.pow(n));
    let values = powers.flat_map(|power| [power - 1, power]);
    let values: Vec<u32> = values.chain([41, 0x0403_0201, u32::MAX]).collect();
    let mut records = Vec::new();
    for step in 0..16 {
        for b in 1..=8 {
            match step {
                1 => records.extend(values.iter().map(|&value| record(1, b, 0, value))),
                // the same eight times
                5 | 10 | 11 | 13 => records.push(record(step, 0, 0, 0)),
                9 => {
                    let others = (1..=8).filter(|&other| other != b);
                    records.extend(others.map(|other| record(9, b, other, 0)));
                }
                _ => records.push(record(step, b, 0, 0)),
            }
        }
    }
    records
}

/// A record of each step, and some that are malformed.
fn each_kind() -> Vec<[u8; 8]> {
    let mut records = Vec::new();
    for step in 0..=16 {
        records.push(match step {
            1 => record(1, 1, 0, u32::MAX),
            5 | 10 | 11 | 13 => record(step, 0, 0, 0),
            9 => record(9, 1, 2, 0),
            _ => record(step, 1, 0, 0),
        });
    }
    records.extend([record(9, 2, 2, 0), [0; 8], [255; 8]]);
    records
}

/// Records of which most are malformed.
fn others(rng: &mut Rng) -> Vec<[u8; 8]> {
    let some = [0, 1, 2, 8, 9, 10, 15, 16, 127, 128, 255];
    let mut records = Vec::new();
    // Each byte in turn, at and beyond its limits.
    for record in each_kind() {
        for place in 0..8 {
            for byte in some {
                let mut record = record;
                record[place] = byte;
                records.push(record);
            }
        }
    }
    // A board that is to count itself; every step above 15; every byte.
    records.extend((1..=8).map(|b| record(9, b, b, 0)));
    for byte in 0..=255 {
        records.push([byte; 8]);
        if byte > 15 {
            records.extend([record(byte, 1, 0, 0), record(byte, 0, 0, 0)]);
        }
    }
    for _ in 0..500 {
        records.push(rng.draw().to_le_bytes());
        records.push([0; 8].map(|_: u8| rng.one_of(&some)));
    }
    records
}
