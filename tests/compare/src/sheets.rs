//! Sheets: the C entry `run_sheet` and the program `runsheet`, beside the second program.

use crate::both::{about, differs, in_slices, whole, writes, Fault};
use generate::Rng;
use peer::listing::LENGTH_MAX;
use std::iter;
use std::path::Path;

extern "C" {
    fn run_sheet(sheet: *const u8, sheet_len: usize, listing: *mut u8, listing_len: usize)
        -> usize;
}

/// What the second program prints.
pub fn printed(sheet: &[u8]) -> Vec<u8> {
    let listed = peer::list(sheet);
    listed
        .unwrap_or_else(|refusal| format!("refused {refusal}\n"))
        .into_bytes()
}

/// Compares what the program prints of a sheet.
pub fn print(program: &Path, sheet: &[u8]) -> Result<(), Fault> {
    writes(program, sheet, &printed(sheet), lines)
}

/// Compares what the C entry does in slices about as long as the listing.
pub fn call(sheet: &[u8], rng: &mut Rng) -> Result<(), Fault> {
    let exact = peer::list(sheet).map_or(300, |listing| listing.len());
    let lengths = about(exact, rng);
    let given = sheet.to_vec();
    let called = in_slices(
        "run_sheet",
        &lengths,
        rng,
        |slice| run(&given, slice),
        |slice| peer::run(sheet, slice),
    );
    if given != sheet {
        return differs("run_sheet changed the sheet");
    }
    called.map_err(|fault| fault.and(|| differing(sheet)))
}

/// The C entry on two slices.
pub fn run(sheet: &[u8], listing: &mut [u8]) -> usize {
    // SAFETY: each pointer goes with its slice's length, and the two do not overlap.
    unsafe {
        run_sheet(
            sheet.as_ptr(),
            sheet.len(),
            listing.as_mut_ptr(),
            listing.len(),
        )
    }
}

/// The first lines that differ where there is room for all, if both list the sheet.
fn differing(sheet: &[u8]) -> String {
    let ours = whole(LENGTH_MAX, |slice| run(sheet, slice));
    match (ours, peer::list(sheet)) {
        (Some(ours), Ok(theirs)) => lines(&ours, theirs.as_bytes()),
        _ => String::new(),
    }
}

/// The answers in a listing, record by record: the third field of their lines.
pub fn answers(listing: &str) -> impl Iterator<Item = usize> + '_ {
    let lines = listing.lines();
    let records = lines.take_while(|line| !line.starts_with("registry"));
    records.map_while(|line| line.split(' ').nth(2)?.parse().ok())
}

/// The first lines that differ.
pub fn lines(ours: &[u8], theirs: &[u8]) -> String {
    let split = |text: &[u8]| -> Vec<String> {
        let lines = text.split(|&byte| byte == b'\n');
        // A line in words may have an apostrophe, which can be shown as it is.
        let shown = |line: &[u8]| line.escape_ascii().to_string().replace("\\'", "'");
        lines.map(shown).collect()
    };
    let (ours, theirs) = (split(ours), split(theirs));
    let differ = iter::zip(&ours, &theirs).find(|(a, b)| a != b);
    differ.map_or(String::new(), |(a, b)| {
        format!("\n  it: {a}\n  second program: {b}")
    })
}
