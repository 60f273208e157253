//! A sheet with no records: document 02, Paper 9. The listing is worked out from the paper
//! by hand, and the listing alone takes the empty sheet.

mod program;

use peer::behind::behind;
use peer::image::save_sheet;
use peer::tally::tally;
use peer::words::{explain, explained};
use peer::{list, run};
use program::printed;

/// One line, `unopened`, and byte 10.
const UNOPENED: [u8; 9] = [117, 110, 111, 112, 101, 110, 101, 100, 10];

/// What a slice holds before a call. Among them are bytes of the line itself.
const DIRT: [u8; 6] = [0, 10, 100, 117, 170, 255];

/// An opening with a board.
const fn open(b: u8) -> [u8; 8] {
    [0, b, 0, 0, 0, 0, 0, 0]
}

/// The first bytes of a sheet that opens with board 1 and goes on with controller news.
fn beginning(length: usize) -> Vec<u8> {
    let mut sheet = open(1).to_vec();
    while sheet.len() < length {
        sheet.extend([10, 0, 0, 0, 0, 0, 0, 0]);
    }
    sheet.truncate(length);
    sheet
}

/// The listing call refuses the sheet 2, and leaves slices of any length untouched: also
/// those too short for `unopened`, since 2 comes before 3.
#[track_caller]
fn is_refused_2(sheet: &[u8]) {
    for length in [0, 1, 8, 9, 10, 300] {
        for dirt in DIRT {
            let mut slice = vec![dirt; length];
            let bytes = sheet.len();
            assert_eq!(run(sheet, &mut slice), 2, "{bytes} bytes into {length}");
            assert_eq!(slice, vec![dirt; length], "{bytes} bytes into {length}");
        }
    }
    assert_eq!(list(sheet), Err(2), "{} bytes", sheet.len());
}

#[test]
fn the_empty_sheet_is_listed_as_unopened() {
    let mut slice = [170; 9];
    assert_eq!(run(&[], &mut slice), 9);
    assert_eq!(slice, UNOPENED);
    assert_eq!(list(&[]).as_deref(), Ok("unopened\n"));
}

#[test]
fn a_slice_shorter_than_the_line_is_refused_3() {
    for length in 0..=8 {
        for dirt in DIRT {
            let mut slice = vec![dirt; length];
            assert_eq!(run(&[], &mut slice), 3, "{length} bytes");
            assert_eq!(slice, vec![dirt; length], "{length} bytes");
        }
    }
}

#[test]
fn bytes_past_the_line_keep_their_values() {
    for length in [9, 10, 11, 16, 17, 18, 289, 4096, 100_000] {
        for dirt in DIRT {
            let mut slice = vec![dirt; length];
            assert_eq!(run(&[], &mut slice), 9, "{length} bytes");
            assert_eq!(slice[..9], UNOPENED, "{length} bytes");
            assert_eq!(slice[9..], vec![dirt; length - 9], "{length} bytes");
        }
    }
    // Places that differ from each other stay where they are.
    let mut slice: [u8; 256] = std::array::from_fn(|n| n as u8);
    assert_eq!(run(&[], &mut slice), 9);
    assert_eq!(slice[..9], UNOPENED);
    assert!((9..256).all(|n| slice[n] == n as u8));
}

#[test]
fn all_other_wrong_lengths_are_still_2() {
    // no whole record, or part of one after whole ones
    for length in (1..100).filter(|length| length % 8 != 0) {
        is_refused_2(&beginning(length));
        is_refused_2(&vec![0; length]);
    }
    // 4,094 and 4,095 records and part of one, 4,096 and more records; of 65,536 and
    // 131,072 bytes the low 16 bits are 0
    for length in [
        32_753, 32_759, 32_761, 32_767, 32_768, 32_769, 32_776, 65_535, 65_536, 65_537, 131_072,
    ] {
        is_refused_2(&beginning(length));
    }
    // The bytes of the line itself, and an end of line alone, are no empty sheet.
    is_refused_2(&UNOPENED);
    is_refused_2(b"\n");
    // The right lengths next to these are sheets.
    for length in [8, 16, 32_760] {
        let listing = list(&beginning(length)).unwrap();
        assert!(listing.starts_with("1 0 0\n"), "{length} bytes");
    }
}

#[test]
fn records_without_a_valid_opening_are_still_2() {
    // records of zeros alone
    for records in [1, 2, 4095] {
        is_refused_2(&vec![0; 8 * records]);
    }
    // boards that are none
    for b in [0, 9, 255] {
        is_refused_2(&open(b));
        is_refused_2(&[open(b), open(1)].concat());
    }
    // an unused byte that is not 0
    for at in 2..8 {
        let mut opening = open(1);
        opening[at] = 1;
        is_refused_2(&opening);
    }
    // another step first
    for step in 1..=16 {
        is_refused_2(&[step, 1, 0, 0, 0, 0, 0, 0]);
    }
    is_refused_2(&[[10, 0, 0, 0, 0, 0, 0, 0], open(1)].concat());
}

#[test]
fn the_other_calls_still_refuse_the_empty_sheet_2() {
    for length in [0, 8, 9, 10, 1000] {
        for dirt in DIRT {
            let mut slice = vec![dirt; length];
            assert_eq!(explain(&[], &mut slice), 2, "{length} bytes");
            assert_eq!(slice, vec![dirt; length], "{length} bytes");
        }
    }
    assert_eq!(explained(&[]), Err(2));
    assert_eq!(save_sheet(&[]), Err(2));
    assert_eq!(behind(&[]), Err(2));
    assert_eq!(tally(&[]), Err(2));
}

#[test]
fn the_program_prints_unopened() {
    let listing = |sheet: &[u8]| printed(env!("CARGO_BIN_EXE_peer"), sheet);
    assert_eq!(listing(b""), UNOPENED);
    assert_eq!(listing(b"\n"), b"refused 2\n");
    assert_eq!(listing(&[0; 7]), b"refused 2\n");
    assert_eq!(listing(&[0; 8]), b"refused 2\n");
    assert_eq!(listing(&beginning(12)), b"refused 2\n");
    assert_eq!(listing(&beginning(32_768)), b"refused 2\n");
    assert!(listing(&open(1)).starts_with(b"1 0 0\nregistry 1 1 1 1 normal\n"));
}
