//! A second program for document 01 and Papers 1 to 10 of document 02: it turns a
//! sheet into its listing, its lines in words or the image of its row, or into the
//! number of the refusal, an image into its row again, a row into the records that
//! lead it to normal, and a seed and a count of records into a bench sheet.
//!
//! It was written from these, document 003, the readings and the list of phrases
//! alone, apart from the proved program, so that a misreading in one shows in the
//! other. Numbers in brackets are the paper's refusals.

pub mod behind;
pub mod image;
pub mod listing;
pub mod plan;
pub mod ranges;
pub mod row;
pub mod scratch;
pub mod seed;
pub mod tally;
pub mod words;

use row::{Outcome, Row};

/// A sheet has 1 to 4,095 records of 8 bytes.
pub const RECORDS_MAX: usize = 4095;

/// The call of the hub's firmware: sheet in, listing out. It returns the
/// listing's length, or 2 or 3, which leave the slice untouched; bytes past the
/// listing keep their values. It works in place, without the heap.
pub fn run(sheet: &[u8], slice: &mut [u8]) -> usize {
    // A sheet with no records has a listing, and is a sheet for no other call: document 02,
    // Paper 9.
    if sheet.is_empty() {
        return unopened(slice);
    }
    let Some((records, mut row)) = opened(sheet) else {
        return 2;
    };
    let outcomes = &outcomes(records, &mut row)[..records.len()];
    // [3] a listing slice shorter than the listing
    let length = listing::length(records, outcomes, &row);
    if slice.len() < length {
        return 3;
    }
    listing::write(&mut slice[..length], records, outcomes, &row);
    length
}

/// The listing of the empty sheet, as `run` hands it out: document 02, Paper 9.
fn unopened(slice: &mut [u8]) -> usize {
    // [3] a listing slice shorter than the listing
    let length = listing::UNOPENED.len();
    if slice.len() < length {
        return 3;
    }
    slice[..length].copy_from_slice(listing::UNOPENED);
    length
}

/// The records of a sheet, and the row that the first of them opens; none where the
/// sheet is refused [2]. The empty sheet is: it opens no row.
fn opened(sheet: &[u8]) -> Option<(&[[u8; 8]], Row)> {
    let (records, rest) = sheet.as_chunks::<8>();
    // [2] a sheet of wrong length
    if !rest.is_empty() || records.len() > RECORDS_MAX {
        return None;
    }
    // [2] or without a valid opening
    let [[0, board, 0, 0, 0, 0, 0, 0], ..] = records else {
        return None;
    };
    let row = Row::open(*board).ok()?;
    Some((records, row))
}

/// The outcomes of a sheet's records on the row that the first of them opened; it is
/// accepted itself. What stands past the last record's outcome means nothing.
fn outcomes(records: &[[u8; 8]], row: &mut Row) -> [Outcome; RECORDS_MAX] {
    let mut outcomes = [Outcome::ACCEPTED; RECORDS_MAX];
    for (outcome, record) in outcomes.iter_mut().zip(records).skip(1) {
        *outcome = row.step(record);
    }
    outcomes
}

/// The listing of a sheet, or refusal 2.
pub fn list(sheet: &[u8]) -> Result<String, usize> {
    let mut slice = vec![0; listing::LENGTH_MAX];
    match run(sheet, &mut slice) {
        refusal @ (2 | 3) => Err(refusal),
        length => {
            slice.truncate(length);
            Ok(String::from_utf8(slice).expect("a listing is ASCII"))
        }
    }
}
