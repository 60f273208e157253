//! Seeded sheets (document 02, Paper 2): the C entry `seed_sheet` and the program
//! `seedsheet`, beside the second program.

use crate::both::{about, differs, in_slices, whole, writes, Fault};
use crate::sheets::answers;
use generate::Rng;
use peer::RECORDS_MAX;
use std::path::Path;

extern "C" {
    fn seed_sheet(seed: u32, count: usize, sheet: *mut u8, sheet_len: usize) -> usize;
}

const SEEDS: [u32; 3] = [0, 1, u32::MAX];
const COUNTS: [usize; 3] = [1, 2, RECORDS_MAX];
/// No counts of records, though 16 or 32 bits of some are 1, and of one the sheet
/// would have 8 bytes in 64 bits.
const BAD_COUNTS: [usize; 7] = [
    0,
    RECORDS_MAX + 1,
    RECORDS_MAX + 2,
    (1 << 16) + 1,
    (1 << 32) + 1,
    (1 << 61) + 1,
    usize::MAX,
];

/// Inputs that are no line, by the paper's words.
const BAD_LINES: &[&str] = &[
    // bytes after the line; the longest has 16 bytes, and a 17th must be seen
    "4294967295 4095\n0",
    "4294967295 4095\n\n",
    "0 1\n0",
    "0 1\n ",
    "0 1\n\0",
    "0 1\n0 1",
    "0 1\n0 1\n",
    // nothing, or a part of a line
    "",
    "\n",
    " ",
    " \n",
    "0",
    "0\n",
    "0 ",
    "0 \n",
    " 1\n",
    // byte 10 missing, twice, elsewhere; other ends of a line
    "0 1",
    "0 1\n\n",
    "\n0 1\n",
    "0\n1\n",
    "0 1\r\n",
    "0 1\r",
    // leading zeros
    "00 1\n",
    "01 1\n",
    "04294967295 1\n",
    "0 01\n",
    "0 001\n",
    "0 04095\n",
    // a count outside 1 to 4,095
    "0 0\n",
    "0 00\n",
    "0 4096\n",
    "0 4097\n",
    "0 9999\n",
    "0 10000\n",
    "0 65537\n",
    "0 4294967297\n",
    "0 18446744073709551617\n",
    // a seed of more than 32 bits
    "4294967296 1\n",
    "4294967297 1\n",
    "9999999999 1\n",
    "10000000000 1\n",
    "18446744073709551616 1\n",
    "18446744073709551617 1\n",
    "340282366920938463463374607431768211457 1\n",
    // signs
    "+1 1\n",
    "-1 1\n",
    "-0 1\n",
    "0 +1\n",
    "0 -1\n",
    // other spaces than one
    "0  1\n",
    "0\t1\n",
    "0 \t1\n",
    " 0 1\n",
    "0 1 \n",
    "0 1\t\n",
    // letters, and the bytes beside the digits
    "a 1\n",
    "0 a\n",
    "0a 1\n",
    "0 1a\n",
    "0x1 1\n",
    "0 1e3\n",
    "/ 1\n",
    "0 /\n",
    ": 1\n",
    "0 :\n",
    // another number than two, another byte between
    "0 1 1\n",
    "0 1 \n1",
    "0,1\n",
    "0-1\n",
    // a 0 byte
    "\0",
    "\0 1\n",
    "0\0 1\n",
    "0 \0\n",
    "0 1\0\n",
    "0 1\0",
];

/// Seeds and counts at their limits.
pub fn edges() -> impl Iterator<Item = (u32, usize)> {
    let all = |seed| COUNTS.map(|count| (seed, count));
    SEEDS.into_iter().flat_map(all)
}

/// Compares what the C entry does in slices about as long as the sheet.
pub fn call(seed: u32, count: usize, rng: &mut Rng) -> Result<(), Fault> {
    let lengths = about(8 * count, rng);
    call_in(seed, count, &lengths, rng)
}

/// Compares what the C entry does with counts that are none, in slices that are long
/// enough and in ones that are too short: 2 comes before 3.
pub fn call_wrongly(rng: &mut Rng) -> Result<(), Fault> {
    let longer = 8 * (RECORDS_MAX + 2);
    for seed in SEEDS {
        for count in BAD_COUNTS {
            call_in(seed, count, &[longer, 7, 0], rng)
                .map_err(|fault| fault.of(format!("seed {seed} with count {count} differs")))?;
        }
    }
    Ok(())
}

fn call_in(seed: u32, count: usize, lengths: &[usize], rng: &mut Rng) -> Result<(), Fault> {
    let entry = |slice: &mut [u8]| {
        // SAFETY: the pointer goes with its slice's length.
        unsafe { seed_sheet(seed, count, slice.as_mut_ptr(), slice.len()) }
    };
    let second = |slice: &mut [u8]| peer::seed::make(seed, count, slice);
    let differing = || {
        let room = 8 * RECORDS_MAX;
        match (whole(room, entry), whole(room, second)) {
            (Some(ours), Some(theirs)) => records(&ours, &theirs),
            _ => String::new(),
        }
    };
    in_slices("seed_sheet", lengths, rng, entry, second).map_err(|fault| fault.and(differing))
}

/// Every record of a seeded sheet is well formed: there is a listing, and no answer in
/// it is 1.
pub fn well_formed(sheet: &[u8]) -> Result<(), Fault> {
    let Ok(listing) = peer::list(sheet) else {
        return differs("the second program refuses what it made");
    };
    let malformed = answers(&listing).position(|answer| answer == 1);
    match malformed {
        Some(n) => differs(format!("the second program answers 1 to record {}", n + 1)),
        None => Ok(()),
    }
}

/// Compares what the program writes of an input.
pub fn print(program: &Path, input: &[u8]) -> Result<(), Fault> {
    let expected = peer::seed::print(input);
    writes(program, input, &expected, records).map_err(|fault| fault.of(shown(input)))
}

/// Compares what the program writes of lines at their limits.
pub fn print_edges(program: &Path) -> Result<(), Fault> {
    let good = good_lines().into_iter().map(|input| (input, true));
    let bad = bad_lines().into_iter().map(|input| (input, false));
    for (input, is_line) in good.chain(bad) {
        print(program, &input)
            .and_then(|()| takes(&input, is_line))
            .map_err(|fault| fault.of("a line differs"))?;
    }
    Ok(())
}

/// The second program takes what is a line and nothing else.
fn takes(input: &[u8], is_line: bool) -> Result<(), Fault> {
    let said = match (peer::seed::read(input), is_line) {
        (Some(_), false) => "takes",
        (None, true) => "refuses",
        _ => return Ok(()),
    };
    differs(format!("the second program {said} {}", shown(input)))
}

/// The line of a seed and a count.
pub fn line(seed: u32, count: usize) -> Vec<u8> {
    format!("{seed} {count}\n").into_bytes()
}

/// A line with a byte changed, dropped or added, which may be a line again.
pub fn edited(mut line: Vec<u8>, rng: &mut Rng) -> Vec<u8> {
    let at = rng.below(line.len());
    let any = rng.draw() as u8;
    // Half of them are bytes that stand in lines.
    let byte = match rng.one_in(2) {
        true => rng.one_of(b"0123456789 \n"),
        false => any,
    };
    match rng.below(4) {
        0 => line[at] = byte,
        1 => drop(line.remove(at)),
        2 => line.insert(at, byte),
        _ => line.push(byte),
    }
    line
}

/// The inputs that the program is tried on, good ones first.
pub fn lines() -> Vec<Vec<u8>> {
    [good_lines(), bad_lines()].concat()
}

fn good_lines() -> Vec<Vec<u8>> {
    let some = [
        (9, 10),
        (10, 9),
        (4_294_967_290, 4090),
        (1_000_000_000, 1000),
    ];
    edges().chain(some).map(|(seed, n)| line(seed, n)).collect()
}

fn bad_lines() -> Vec<Vec<u8>> {
    let mut inputs: Vec<String> = BAD_LINES.iter().map(|&line| line.into()).collect();
    for length in [17, 100_000] {
        let digits = "1".repeat(length);
        inputs.push(format!("{digits}\n"));
        inputs.push(format!("{digits} 1\n"));
        inputs.push(format!("0 {digits}\n"));
        inputs.push(format!("{} 1\n", "0".repeat(length)));
        inputs.push(format!("0 1\n{digits}"));
        inputs.push("0 1\n".repeat(length));
    }
    inputs.into_iter().map(String::into_bytes).collect()
}

/// An input as it is told of, without the middle of a long one.
fn shown(input: &[u8]) -> String {
    let length = input.len();
    if length <= 60 {
        return format!("the input \"{}\"", input.escape_ascii());
    }
    let (first, last) = (&input[..20], &input[length - 20..]);
    let (first, last) = (first.escape_ascii(), last.escape_ascii());
    format!("the input \"{first}...{last}\" of {length} bytes")
}

/// The first records that differ; of what is no sheet all.
fn records(ours: &[u8], theirs: &[u8]) -> String {
    let record = |sheet: &[u8], n| sheet.chunks(8).nth(n).map(<[u8]>::to_vec);
    let most = ours.len().max(theirs.len()).div_ceil(8);
    let differs = |n: &usize| record(ours, *n) != record(theirs, *n);
    let Some(n) = (0..most).find(differs) else {
        return String::new();
    };
    let tell = |sheet: &[u8]| match record(sheet, n) {
        _ if sheet.starts_with(b"refused") => sheet.escape_ascii().to_string(),
        Some(bytes) => format!("record {} is {bytes:?}", n + 1),
        None => format!("no record {}", n + 1),
    };
    format!("\n  it: {}\n  second program: {}", tell(ours), tell(theirs))
}
