//! Rows that no run from an opening gives, but an image can say: the rules still say what
//! happens. Each image is read first, so that refusal 1 lets its row through.

use peer::image::{read, resume_sheet, saved, write, Resumed};
use peer::row::{Heard, Outcome, Row, Stage, Status};

/// A row opened with board 1, changed, and taken up from its image.
fn elsewhere(change: impl Fn(&mut Row)) -> Row {
    let mut row = Row::open(1).unwrap();
    change(&mut row);
    let taken_up = read(&write(&row)).expect("a row that refusal 1 lets through");
    assert!(taken_up.same(&row));
    taken_up
}

fn resumed(row: &Row, records: &[[u8; 8]]) -> Resumed {
    resume_sheet(&write(row), &records.concat()).unwrap()
}

fn on(step: u8, b: u8) -> [u8; 8] {
    [step, b, 0, 0, 0, 0, 0, 0]
}

const CHANGE: [u8; 8] = [5, 0, 0, 0, 0, 0, 0, 0];
const CONTROLLER_NEWS: [u8; 8] = [10, 0, 0, 0, 0, 0, 0, 0];
const READ_LEADER: [u8; 8] = [11, 0, 0, 0, 0, 0, 0, 0];
const SET_NORMAL: [u8; 8] = [13, 0, 0, 0, 0, 0, 0, 0];

/// The answer of a record on a row, and the row after it.
fn step(row: &Row, record: [u8; 8]) -> (u8, Row) {
    let resumed = resumed(row, &[record]);
    (resumed.outcomes[0].answer, resumed.row)
}

/// The set behind an accepted record, or its refusal.
fn behind(row: &Row, record: [u8; 8]) -> Result<u8, u8> {
    match resumed(row, &[record]).outcomes[0] {
        Outcome { answer: 0, behind } => Ok(behind),
        Outcome { answer, .. } => Err(answer),
    }
}

fn heard(length: usize, joined: u16) -> Heard {
    Heard {
        length: Some(length),
        joined,
    }
}

#[test]
fn a_change_with_a_leader_that_is_no_member_keeps_all_members() {
    let row = elsewhere(|row| {
        row.registry.leader = 5;
        row.registry.members = 0b0110;
    });
    let (answer, row) = step(&row, CHANGE);
    assert_eq!((answer, row.status), (0, Status::Choosing));
    let registry = row.registry;
    assert_eq!((registry.leader, registry.members), (0, 0b0110));
    assert_eq!((registry.epoch, registry.leader_epoch), (2, 1));
}

#[test]
fn a_change_asks_for_two_members_whoever_leads() {
    for members in [0, 0b1000] {
        let row = elsewhere(|row| row.registry.members = members);
        assert_eq!(step(&row, CHANGE).0, 6);
    }
}

#[test]
fn removing_the_last_member_leaves_none() {
    let row = elsewhere(|row| row.registry.members = 0b1000);
    let (answer, row) = step(&row, on(4, 4));
    assert_eq!((answer, row.status), (0, Status::Waiting));
    assert_eq!((row.registry.members, row.registry.leader), (0, 1));
    // Two spaces stand where no members are.
    let lines = resumed(&row, &[CONTROLLER_NEWS]).listing;
    let lines: Vec<_> = lines.lines().take(3).collect();
    assert_eq!(
        lines,
        ["1 10 0", "registry 2 1 1  waiting", "control 2 1 1  leader"]
    );
}

#[test]
fn removing_to_one_member_is_normal_whoever_is_left() {
    let row = elsewhere(|row| row.registry.members = 0b1010);
    let (answer, row) = step(&row, on(4, 2));
    assert_eq!((answer, row.status), (0, Status::Normal));
    assert_eq!((row.registry.members, row.registry.leader), (0b1000, 1));
}

#[test]
fn no_members_have_no_majority() {
    let heard_all = [heard(512, 4000); 8];
    let row = elsewhere(|row| {
        row.step(&[1, 1, 0, 0, 41, 0, 0, 0]);
        row.boards[0].counts = [512; 8];
        row.boards[0].view.members = 0;
        row.control.view.members = 0;
        row.control.stage = Stage::Boards;
        row.control.heard = heard_all;
    });
    assert_eq!(behind(&row, on(2, 1)), Err(14));
    assert_eq!(behind(&row, SET_NORMAL), Err(14));
    // A board that is no member is not installed [5], before any majority is asked for.
    let choosing = elsewhere(|row| {
        row.control.view.members = 0;
        row.control.stage = Stage::Choosing;
        row.control.heard = heard_all;
    });
    assert_eq!(behind(&choosing, on(15, 1)), Err(5));
}

/// Members 1 to 4, the stage boards, and what is heard of each; a majority is 3 of them.
fn at_boards(heard: [Option<usize>; 4]) -> Row {
    elsewhere(|row| {
        row.control.view.members = 0b1111;
        row.control.stage = Stage::Boards;
        for (place, length) in row.control.heard.iter_mut().zip(heard) {
            place.length = length;
        }
    })
}

#[test]
fn with_nothing_heard_of_the_leader_any_heard_length_qualifies() {
    let row = at_boards([None, Some(0), Some(7), Some(512)]);
    assert_eq!(behind(&row, SET_NORMAL), Ok(0b1110));
    // An unheard board never qualifies, the leader included.
    let row = at_boards([None, None, Some(7), Some(512)]);
    assert_eq!(behind(&row, SET_NORMAL), Err(14));
    assert_eq!(behind(&at_boards([None; 4]), SET_NORMAL), Err(14));
    // With the leader heard at 0, an unheard board does not qualify either.
    let row = at_boards([Some(0), Some(0), None, Some(3)]);
    assert_eq!(behind(&row, SET_NORMAL), Ok(0b1011));
}

#[test]
fn set_normal_with_a_leader_that_is_no_member() {
    // Members 2 to 4; the leader 1 is heard at 3 and stands behind nothing.
    let row = |lengths: [usize; 3]| {
        elsewhere(|row| {
            row.control.view.members = 0b1110;
            row.control.stage = Stage::Boards;
            row.control.heard[0] = heard(3, 0);
            for (place, length) in row.control.heard[1..].iter_mut().zip(lengths) {
                *place = heard(length, 0);
            }
        })
    };
    assert_eq!(behind(&row([3, 2, 4]), SET_NORMAL), Ok(0b1010));
    assert_eq!(behind(&row([3, 2, 2]), SET_NORMAL), Err(14));
}

#[test]
fn set_normal_and_install_ask_for_epochs_and_not_for_status() {
    for status in [Status::Normal, Status::Waiting, Status::Choosing] {
        let boards = elsewhere(|row| {
            row.status = status;
            row.control.stage = Stage::Boards;
            row.control.heard[0] = heard(0, 0);
        });
        let (answer, after) = step(&boards, SET_NORMAL);
        assert_eq!((answer, after.status), (0, Status::Normal));
        let choosing = elsewhere(|row| {
            row.status = status;
            row.control.stage = Stage::Choosing;
            row.control.heard[0] = heard(0, 1);
        });
        let (answer, after) = step(&choosing, on(15, 1));
        assert_eq!((answer, after.status), (0, Status::Waiting));
        // Step 15 has [16], which no run meets, after [5] and before [14].
        let behindhand = elsewhere(|row| {
            row.status = status;
            row.registry.epoch = 2;
            row.control.stage = Stage::Choosing;
        });
        assert_eq!(step(&behindhand, on(15, 1)).0, 16);
        assert_eq!(step(&behindhand, on(15, 2)).0, 5);
    }
}

/// Set normal while choosing with leader 0 gives a row that refusal 1 turns away: from then on
/// every step is answered 1, and no image is saved.
#[test]
fn normal_with_leader_0_is_turned_away() {
    let row = elsewhere(|row| {
        row.status = Status::Choosing;
        row.registry.leader = 0;
        row.control.stage = Stage::Boards;
        row.control.heard[0] = heard(0, 0);
    });
    let after = [
        SET_NORMAL,
        CHANGE,
        CONTROLLER_NEWS,
        on(6, 1),
        on(3, 2),
        on(1, 1),
    ];
    let resumed = resumed(&row, &after);
    let answers: Vec<u8> = resumed.outcomes.iter().map(|o| o.answer).collect();
    assert_eq!(answers, [0, 1, 1, 1, 1, 1]);
    assert_eq!(
        (resumed.row.status, resumed.row.registry.leader),
        (Status::Normal, 0)
    );
    assert_eq!(resumed.image, Err(1));
    assert_eq!(saved(&resumed.row), Err(1));
    assert_eq!(read(&write(&resumed.row)).err(), Some(18));
    assert!(resumed
        .listing
        .contains("\nregistry 2 1 0 1 normal\ncontrol 2 1 1 1 idle\n"));
}

/// While choosing the registry may name a leader, and a controller at idle or choosing none.
#[test]
fn leaders_that_refusal_1_lets_through() {
    let row = elsewhere(|row| {
        row.status = Status::Choosing;
        row.control.view.leader = 0;
    });
    assert_eq!(step(&row, CHANGE).0, 4);
    assert_eq!(step(&row, READ_LEADER).0, 15);
    assert_eq!(step(&row, on(12, 1)).0, 15);
    // Its news names the leader, at stage choosing.
    let row = elsewhere(|row| {
        row.status = Status::Choosing;
        row.registry.epoch = 2;
    });
    let (answer, row) = step(&row, CONTROLLER_NEWS);
    assert_eq!((answer, row.control.view.leader), (0, 1));
    assert_eq!(row.control.stage, Stage::Choosing);
}

/// A heard joined epoch without a heard length gives no rank: it is kept, and no more.
#[test]
fn heard_joined_without_a_length_is_not_heard() {
    let row = elsewhere(|row| {
        row.control.view.members = 0b0111;
        row.control.stage = Stage::Choosing;
        row.control.heard[0] = heard(0, 1);
        row.control.heard[1].joined = 4000;
        row.control.heard[2] = heard(0, 0);
    });
    // 2 is not heard: it stands behind nothing, and ranks above nobody.
    assert_eq!(behind(&row, on(15, 1)), Ok(0b101));
    assert_eq!(behind(&row, on(15, 2)), Err(14));
    assert_eq!(behind(&row, on(15, 3)), Err(14));
    // Kept through steps that do not hear it, and replaced by hearing.
    assert_eq!(resumed(&row, &[on(3, 2)]).row.control.heard[1].joined, 4000);
    assert_eq!(step(&row, on(14, 2)).1.control.heard[1], heard(0, 1));
}

/// Nothing is asked of counts against lengths, nor of the receipts against a log.
#[test]
fn counts_and_receipts_beyond_a_log() {
    let row = elsewhere(|row| {
        row.step(&[1, 1, 0, 0, 41, 0, 0, 0]);
        row.step(&on(2, 1));
        row.boards[0].counts = [512; 8];
        row.boards[1].view.leader = 2;
    });
    // Receipts of 1: board 1's log is not longer, board 2's is shorter; the count is above.
    assert_eq!(step(&row, on(2, 1)).0, 12);
    assert_eq!(step(&row, on(2, 2)).0, 12);
    // Board 2 leads in its own view; its members {1} do not have it.
    let (answer, row) = step(&row, [1, 2, 0, 0, 7, 0, 0, 0]);
    assert_eq!(answer, 0);
    assert_eq!(row.board(2).counts, [0, 1, 0, 0, 0, 0, 0, 0]);
    assert_eq!(step(&row, [9, 1, 2, 0, 0, 0, 0, 0]).0, 5);
}

/// Epochs at their end: raising is refused 7 as the last check, and news still comes.
#[test]
fn epochs_at_4000() {
    let row = elsewhere(|row| {
        row.registry.epoch = 4000;
        row.registry.leader_epoch = 4000;
        row.control.view.epoch = 4000;
        row.control.stage = Stage::Boards;
        row.control.heard[0] = heard(0, 0);
    });
    assert_eq!([on(3, 2), SET_NORMAL].map(|r| step(&row, r).0), [7, 7]);
    let (answer, row) = step(&row, on(6, 1));
    assert_eq!((answer, row.board(1).joined), (0, 4000));
    let (answer, row) = step(&row, [1, 1, 0, 0, 41, 0, 0, 0]);
    assert_eq!((answer, row.board(1).log.epochs()), (0, &[4000][..]));
}
