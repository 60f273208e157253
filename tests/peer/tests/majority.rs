//! Majority sizes from a table: document 02, Paper 3; and for every set of members the
//! set that the majority question answers with: Paper 6.
//!
//! No test fails if the table is read with board 8 as the lowest bit, and none can: an
//! entry depends on how many boards its set has, and a set keeps that number when its
//! bits are turned around, or put in any other order. So both tables are the same. That
//! board 1 is the lowest bit of the members is seen where the row asks for a majority.

use peer::row::{majority_size, Heard, Outcome, Row, Stage, MAJORITY_SIZES};

/// What the lowest bit, of board 1, to the highest, of board 8, add to a set.
const BITS: [u8; 8] = [1, 2, 4, 8, 16, 32, 64, 128];

/// Is board b in the set?
fn has(set: u8, b: u8) -> bool {
    set / BITS[usize::from(b) - 1] % 2 == 1
}

/// How many boards the set has, asked board by board.
fn boards(set: u8) -> usize {
    let mut number = 0;
    for b in 1..=8 {
        if has(set, b) {
            number += 1;
        }
    }
    number
}

/// 1 for the empty set, then document 01's majorities of 1 to 8 boards as P1 has them.
const MAJORITIES: [u8; 9] = [1, 1, 2, 2, 3, 3, 4, 4, 5];

#[test]
fn every_set() {
    for set in 0..=255 {
        let n = boards(set);
        // n/2 rounded down, plus 1
        assert_eq!(usize::from(majority_size(set)), n / 2 + 1, "set {set}");
        assert_eq!(majority_size(set), MAJORITIES[n], "set {set}");
        assert_eq!(MAJORITY_SIZES[usize::from(set)], MAJORITIES[n], "set {set}");
    }
}

#[test]
fn how_often_each_size_stands_in_the_table() {
    // Of the sets of 8 boards 1, 8, 28, 56, 70, 56, 28, 8 and 1 have 0 to 8 boards.
    // Size 1 is for 0 and 1 boards, 2 for 2 and 3, 3 for 4 and 5, 4 for 6 and 7, 5 for 8.
    let mut often = [0; 6];
    for size in MAJORITY_SIZES {
        often[usize::from(size)] += 1;
    }
    assert_eq!(often, [0, 1 + 8, 28 + 56, 70 + 56, 28 + 8, 1]);
}

#[test]
fn entries_by_hand() {
    let entries = [
        // no board: named by the paper
        (0b0000_0000, 1),
        // board 1, board 8, board 5: half of 1 rounded down is 0, plus 1
        (0b0000_0001, 1),
        (0b1000_0000, 1),
        (0b0001_0000, 1),
        // boards 1 and 2, 1 and 8, 7 and 8: half of 2 is 1, plus 1
        (0b0000_0011, 2),
        (0b1000_0001, 2),
        (0b1100_0000, 2),
        // boards 1 2 3, 2 5 8: half of 3 rounded down is 1, plus 1
        (0b0000_0111, 2),
        (0b1001_0010, 2),
        // boards 1 to 4, 5 to 8, 1 3 5 7: half of 4 is 2, plus 1
        (0b0000_1111, 3),
        (0b1111_0000, 3),
        (0b0101_0101, 3),
        // boards 1 to 5: half of 5 rounded down is 2, plus 1
        (0b0001_1111, 3),
        // boards 1 to 6: half of 6 is 3, plus 1
        (0b0011_1111, 4),
        // all but board 8, all but board 1: half of 7 rounded down is 3, plus 1
        (0b0111_1111, 4),
        (0b1111_1110, 4),
        // all eight: half of 8 is 4, plus 1
        (0b1111_1111, 5),
    ];
    for (set, size) in entries {
        assert_eq!(majority_size(set), size, "set {set:08b}");
    }
}

/// The outcome of a record at a stage, where b leads, these are the members in its view and
/// the controller's, and b's log has one entry, which just the boards of `behind`, b among
/// them, are counted and heard to have.
fn outcome(members: u8, behind: u8, b: u8, stage: Stage, record: [u8; 8]) -> Outcome {
    let mut row = Row::open(b).unwrap();
    assert_eq!(row.step(&[1, b, 0, 0, 41, 0, 0, 0]).answer, 0);
    let board = &mut row.boards[usize::from(b) - 1];
    board.view.members = members;
    row.control.view.members = members;
    row.control.stage = stage;
    for n in 0..8 {
        let length = has(behind, n as u8 + 1).then_some(1);
        board.counts[n] = length.unwrap_or(0);
        row.control.heard[n] = Heard { length, joined: 0 };
    }
    row.step(&record)
}

/// The steps that ask for a majority, for every set of members and every set of boards
/// that qualify, members or not. No answer changes: it is 14 unless more than half of the
/// members qualify, so with no members always. All members that qualify are behind an
/// accepted one, and no board is behind a refused one.
#[test]
fn no_answer_changes_and_all_members_that_qualify_are_behind_it() {
    for members in 0..=255 {
        for behind in 1..=255 {
            let b = (1..=8).find(|&b| has(behind, b)).unwrap();
            let ask = |stage, record| outcome(members, behind, b, stage, record);
            let receipt = ask(Stage::Idle, [2, b, 0, 0, 0, 0, 0, 0]);
            let normal = ask(Stage::Boards, [13, 0, 0, 0, 0, 0, 0, 0]);
            let install = ask(Stage::Choosing, [15, b, 0, 0, 0, 0, 0, 0]);

            let more_than_half = 2 * boards(members & behind) > boards(members);
            let n = if more_than_half { 0 } else { 14 };
            // Only a member is installed [5].
            let answers = [n, n, if has(members, b) { n } else { 5 }];
            let expected = answers.map(|answer| Outcome {
                answer,
                behind: if answer == 0 { members & behind } else { 0 },
            });
            let sets = format!("members {members:08b}, behind {behind:08b}");
            assert_eq!([receipt, normal, install], expected, "{sets}");
        }
    }
}
