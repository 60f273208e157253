//! Keeping a row through a power cut: document 02, Paper 7. Images, rows and listings are
//! worked out from the papers by hand; errors are in `image_errors.rs`.

use peer::image::{
    read, renumbered, resume_sheet, save_sheet, saved, show_image, write, HEAD, RECORDS_MAX,
};
use peer::row::{Entry, Heard, Outcome, Row, Stage, Status, View};

/// The bytes that hexadecimal digits stand for; spaces and line ends are for the eye.
fn bytes(hex: &str) -> Vec<u8> {
    let digits: Vec<u8> = hex.bytes().filter(u8::is_ascii_hexdigit).collect();
    let digit = |d: u8| (d as char).to_digit(16).unwrap() as u8;
    let pairs = digits.chunks(2);
    pairs.map(|p| 16 * digit(p[0]) + digit(p[1])).collect()
}

/// A record of a sheet, with a board or none.
fn on(step: u8, b: u8) -> [u8; 8] {
    [step, b, 0, 0, 0, 0, 0, 0]
}

fn append(b: u8, value: u8) -> [u8; 8] {
    [1, b, 0, 0, value, 0, 0, 0]
}

/// An opened row with board 3: every epoch, leader epoch and joined is 1, every leader 3, all
/// members {3}, which is the bit of 4.
const OPENED_WITH_3: &str = "
    0100 0100 03 04 00 00   0100 0100 03 04 00 00
    FFFF 0000  FFFF 0000  FFFF 0000  FFFF 0000
    FFFF 0000  FFFF 0000  FFFF 0000  FFFF 0000
    0100 0100 0100 03 04  0000 0000 0000 0000 0000 0000 0000 0000  0000
    0100 0100 0100 03 04  0000 0000 0000 0000 0000 0000 0000 0000  0000
    0100 0100 0100 03 04  0000 0000 0000 0000 0000 0000 0000 0000  0000
    0100 0100 0100 03 04  0000 0000 0000 0000 0000 0000 0000 0000  0000
    0100 0100 0100 03 04  0000 0000 0000 0000 0000 0000 0000 0000  0000
    0100 0100 0100 03 04  0000 0000 0000 0000 0000 0000 0000 0000  0000
    0100 0100 0100 03 04  0000 0000 0000 0000 0000 0000 0000 0000  0000
    0100 0100 0100 03 04  0000 0000 0000 0000 0000 0000 0000 0000  0000
    0000";

#[test]
fn an_opened_row() {
    let image = bytes(OPENED_WITH_3);
    assert_eq!(image.len(), 258);
    assert_eq!(save_sheet(&on(0, 3)), Ok(image.clone()));
    assert_eq!(write(&Row::open(3).unwrap()), image);
    // Nothing ever stood in its places, so that it is equal in these too.
    assert_eq!(read(&image), Row::open(3));
}

/// Opening 1; append 1, 41; receipt by 1; add 2. The registry has epoch 2, members {1, 2} and
/// is waiting; board 1 has counted itself with 1. Its log is record 1, the receipts are 2.
const SAMPLE: &str = "
    0200 0100 01 03 01 00   0100 0100 01 01 00 00
    FFFF 0000  FFFF 0000  FFFF 0000  FFFF 0000
    FFFF 0000  FFFF 0000  FFFF 0000  FFFF 0000
    0100 0100 0100 01 01  0100 0000 0000 0000 0000 0000 0000 0000  0100
    0100 0100 0100 01 01  0000 0000 0000 0000 0000 0000 0000 0000  0000
    0100 0100 0100 01 01  0000 0000 0000 0000 0000 0000 0000 0000  0000
    0100 0100 0100 01 01  0000 0000 0000 0000 0000 0000 0000 0000  0000
    0100 0100 0100 01 01  0000 0000 0000 0000 0000 0000 0000 0000  0000
    0100 0100 0100 01 01  0000 0000 0000 0000 0000 0000 0000 0000  0000
    0100 0100 0100 01 01  0000 0000 0000 0000 0000 0000 0000 0000  0000
    0100 0100 0100 01 01  0000 0000 0000 0000 0000 0000 0000 0000  0000
    0200
    29000000 0100 0000
    29000000 0100 0000";

#[test]
fn the_sample() {
    let sheet = [on(0, 1), append(1, 41), on(2, 1), on(3, 2)].concat();
    assert_eq!(save_sheet(&sheet), Ok(bytes(SAMPLE)));
    // The sample's lines after the answers. Its boards' epochs are below the registry's; the
    // receipts' line has the epoch of Paper 4.
    let lines = "\
registry 2 1 1 12 waiting
control 1 1 1 1 idle
board 1 1 1 1 1 1 1 late
board 2 1 1 1 1 1 0 late
board 3 1 1 1 1 1 0 late
board 4 1 1 1 1 1 0 late
board 5 1 1 1 1 1 0 late
board 6 1 1 1 1 1 0 late
board 7 1 1 1 1 1 0 late
board 8 1 1 1 1 1 0 late
receipts 1 41@1
";
    assert_eq!(show_image(&bytes(SAMPLE)).as_deref(), Ok(lines));
}

#[test]
fn a_sheet_is_refused_2() {
    let sheets = [
        // The listing alone takes it: document 02, Paper 9.
        vec![],
        vec![0; 7],
        on(0, 0).to_vec(),
        on(0, 9).to_vec(),
        append(1, 41).to_vec(),
        [on(0, 1).as_slice(), &[10]].concat(),
        [on(0, 1), [10, 0, 0, 0, 0, 0, 0, 0]].concat()[1..].to_vec(),
        [on(0, 1); 4096].concat(),
    ];
    for sheet in sheets {
        assert_eq!(save_sheet(&sheet), Err(2), "{} bytes", sheet.len());
    }
    // 4,095 records are a sheet; step 0 in mid-sheet is answered 1.
    let opened = save_sheet(&on(0, 1));
    assert_eq!(save_sheet(&[on(0, 1); 4095].concat()), opened);
}

/// Three boards up to the choice of a leader: members 1 to 3, and board 1 and 2 have 41.
fn choosing() -> Vec<[u8; 8]> {
    let records = [
        [on(0, 1), on(3, 2), on(3, 3), on(6, 1)],
        [on(6, 2), on(6, 3), append(1, 41), on(10, 0)],
        // reads leader; 2 receives and is read; set normal, epoch 4
        [on(11, 0), on(8, 2), on(12, 2), on(13, 0)],
        // 1 counts 2, receipt, change to epoch 5, controller news
        [[9, 1, 2, 0, 0, 0, 0, 0], on(2, 1), on(5, 0), on(10, 0)],
    ];
    [&records.concat()[..], &[on(6, 2), on(14, 2)]].concat()
}

/// Board 2 has taken the news of epoch 5 and is heard at length 1, joined 1; members are
/// {2, 3}, 2 + 4. Boards 1 and 3 are at epoch 3, with members {1, 2, 3}, 1 + 2 + 4.
const CHOOSING: &str = "
    0500 0100 00 06 02 00   0500 0100 00 06 03 00
    FFFF 0000  0100 0100  FFFF 0000  FFFF 0000
    FFFF 0000  FFFF 0000  FFFF 0000  FFFF 0000
    0300 0100 0100 01 07  0100 0100 0000 0000 0000 0000 0000 0000  0100
    0500 0100 0100 00 06  0000 0000 0000 0000 0000 0000 0000 0000  0200
    0300 0100 0100 01 07  0000 0000 0000 0000 0000 0000 0000 0000  0000
    0100 0100 0100 01 01  0000 0000 0000 0000 0000 0000 0000 0000  0000
    0100 0100 0100 01 01  0000 0000 0000 0000 0000 0000 0000 0000  0000
    0100 0100 0100 01 01  0000 0000 0000 0000 0000 0000 0000 0000  0000
    0100 0100 0100 01 01  0000 0000 0000 0000 0000 0000 0000 0000  0000
    0100 0100 0100 01 01  0000 0000 0000 0000 0000 0000 0000 0000  0000
    0300
    29000000 0100 0000
    29000000 0100 0000
    29000000 0100 0000";

#[test]
fn a_row_that_is_choosing() {
    assert_eq!(save_sheet(&choosing().concat()), Ok(bytes(CHOOSING)));
}

/// The choice goes on: 3 takes news and is heard, 2 is installed with epoch 6, takes news and
/// appends 42; board 1, which still holds itself leader, appends 43.
fn two_logs() -> Vec<[u8; 8]> {
    let install = [on(6, 3), on(14, 3), on(15, 2), on(6, 2)];
    [&choosing()[..], &install, &[append(2, 42), append(1, 43)]].concat()
}

/// The head of that row with the firsts of boards 1 and 2 and of the receipts, and with these
/// records.
fn two_logs_image(firsts: [&str; 3], records: &str) -> Vec<u8> {
    let [one, two, receipts] = firsts;
    bytes(&format!(
        "
    0600 0600 02 06 01 00   0600 0600 02 06 01 00
    FFFF 0000  FFFF 0000  FFFF 0000  FFFF 0000
    FFFF 0000  FFFF 0000  FFFF 0000  FFFF 0000
    0300 0100 0100 01 07  0200 0100 0000 0000 0000 0000 0000 0000  {one}
    0600 0600 0600 02 06  0000 0200 0000 0000 0000 0000 0000 0000  {two}
    0500 0100 0100 00 06  0000 0000 0000 0000 0000 0000 0000 0000  0000
    0100 0100 0100 01 01  0000 0000 0000 0000 0000 0000 0000 0000  0000
    0100 0100 0100 01 01  0000 0000 0000 0000 0000 0000 0000 0000  0000
    0100 0100 0100 01 01  0000 0000 0000 0000 0000 0000 0000 0000  0000
    0100 0100 0100 01 01  0000 0000 0000 0000 0000 0000 0000 0000  0000
    0100 0100 0100 01 01  0000 0000 0000 0000 0000 0000 0000 0000  0000
    {receipts} {records}"
    ))
}

/// As the writer numbers it: board 1 has 41@1 and 43@1, board 2 has 41@1 and 42@6, and 41@1
/// is the receipt.
fn two_logs_written() -> Vec<u8> {
    let records = "29000000 0100 0200  2B000000 0100 0000
                   29000000 0100 0400  2A000000 0600 0000
                   29000000 0100 0000";
    two_logs_image(["0100", "0300", "0500"], records)
}

/// In another numbering: board 1's log is records 4 and 2, board 2's 1 and 5, the receipt 3.
fn two_logs_scrambled() -> Vec<u8> {
    let records = "29000000 0100 0500  2B000000 0100 0000
                   29000000 0100 0000
                   29000000 0100 0200  2A000000 0600 0000";
    two_logs_image(["0400", "0100", "0300"], records)
}

/// The entries of board b's log, as value and epoch.
fn log(row: &Row, b: u8) -> Vec<(u32, u16)> {
    let pair = |entry: Entry| (entry.value, entry.epoch);
    row.board(b).log.entries().map(pair).collect()
}

#[test]
fn a_scrambled_numbering_says_the_same_row() {
    assert_eq!(save_sheet(&two_logs().concat()), Ok(two_logs_written()));
    let row = read(&two_logs_scrambled()).unwrap();
    let led_by_2 = View {
        epoch: 6,
        leader_epoch: 6,
        leader: 2,
        members: 0b110,
    };
    assert_eq!((row.registry, row.status), (led_by_2, Status::Waiting));
    assert_eq!(
        (row.control.view, row.control.stage),
        (led_by_2, Stage::Leader)
    );
    let unheard = Heard {
        length: None,
        joined: 0,
    };
    assert_eq!(row.control.heard, [unheard; 8]);
    assert_eq!(row.board(2).view, led_by_2);
    assert_eq!(row.board(1).counts, [2, 1, 0, 0, 0, 0, 0, 0]);
    assert_eq!([1, 2, 3, 4].map(|b| row.board(b).joined), [1, 6, 1, 1]);
    assert_eq!(log(&row, 1), [(41, 1), (43, 1)]);
    assert_eq!(log(&row, 2), [(41, 1), (42, 6)]);
    assert!((3..=8).all(|b| log(&row, b).is_empty()));
    assert_eq!(
        (&*row.receipts, row.receipts.epochs()),
        (&[41][..], &[1][..])
    );
    // It is the row of the other numbering, and written as that.
    assert!(row.same(&read(&two_logs_written()).unwrap()));
    assert_eq!(write(&row), two_logs_written());
}

#[test]
fn records_are_renumbered_with_firsts_and_nexts() {
    // 1 and 2 become 4 and 2, 3 and 4 become 1 and 5, 5 becomes 3; and back again.
    let scrambled = renumbered(&two_logs_written(), &[4, 2, 1, 5, 3]);
    assert_eq!(scrambled, two_logs_scrambled());
    assert_eq!(renumbered(&scrambled, &[3, 2, 5, 1, 4]), two_logs_written());
    assert_eq!(renumbered(&bytes(OPENED_WITH_3), &[]), bytes(OPENED_WITH_3));
}

const GONE_ON: &str = "\
1 13 15
2 11 0
3 0 1
4 6 0
5 7 0
6 8 0
7 8 0
8 12 0
9 13 0 23
10 9 0
11 2 0 23
registry 7 6 2 23 normal
control 7 6 2 23 idle
board 1 3 1 1 123 1 2 late
board 2 6 6 2 23 6 2 late
board 3 6 6 2 23 6 2 late
board 4 1 1 1 1 1 0 late
board 5 1 1 1 1 1 0 late
board 6 1 1 1 1 1 0 late
board 7 1 1 1 1 1 0 late
board 8 1 1 1 1 1 0 late
receipts 2 41@1 42@6
";

/// Board 3 takes news, joins, receives 41 and 42 and is read at 2; then {2, 3} stand behind
/// set normal, and, once 2 has counted 3, behind the receipt of 42.
#[test]
fn a_run_goes_on_from_an_image() {
    // The stage is leader, not boards [15]; an opening stands nowhere in here [1].
    let catch_up = [on(6, 3), on(7, 3), on(8, 3), on(8, 3), on(12, 3)];
    let count = [9, 2, 3, 0, 0, 0, 0, 0];
    let begin = [on(13, 0), on(11, 0), on(0, 1)];
    let records = [&begin[..], &catch_up, &[on(13, 0), count, on(2, 2)]].concat();
    for image in [two_logs_written(), two_logs_scrambled()] {
        let resumed = resume_sheet(&image, &records.concat()).unwrap();
        assert_eq!(resumed.listing, GONE_ON);
        let carried = Outcome {
            answer: 0,
            behind: 0b110,
        };
        assert_eq!([resumed.outcomes[8], resumed.outcomes[10]], [carried; 2]);
        let sheet = [two_logs(), records.clone()].concat().concat();
        assert_eq!(resumed.image, save_sheet(&sheet));
    }
}

#[test]
fn no_records_leave_the_row_as_it_was() {
    let resumed = resume_sheet(&two_logs_scrambled(), &[]).unwrap();
    assert!(resumed.outcomes.is_empty());
    assert_eq!(resumed.image, Ok(two_logs_written()));
    assert_eq!(Ok(resumed.listing), show_image(&two_logs_written()));
}

#[test]
fn further_records_are_8_bytes_each() {
    assert_eq!(resume_sheet(&bytes(SAMPLE), &[10; 9]).err(), Some(2));
    assert_eq!(resume_sheet(&[], &[10; 9]).err(), Some(2));
    assert_eq!(resume_sheet(&[], &[10; 8]).err(), Some(17));
    assert_eq!(show_image(&[]), Err(17));
}

/// Nine lists of 512, numbered last to first through all of them: each chain falls by 1.
#[test]
fn the_longest_image() {
    let mut image = bytes(OPENED_WITH_3);
    for (list, place) in (1..=9_u16).zip([72, 98, 124, 150, 176, 202, 228, 254, 256]) {
        image[place..place + 2].copy_from_slice(&(512 * list).to_le_bytes());
    }
    for number in 1..=4608_u16 {
        let next = if number % 512 == 1 { 0 } else { number - 1 };
        image.extend(
            [
                number.to_le_bytes(),
                [0, 0],
                [0xA0, 0x0F],
                next.to_le_bytes(),
            ]
            .concat(),
        );
    }
    assert_eq!(image.len(), HEAD + 8 * RECORDS_MAX);
    let row = read(&image).unwrap();
    let falls = |list: u32| (1..=512).rev().map(move |n| 512 * (list - 1) + n);
    for (list, board) in (1..).zip(&row.boards) {
        assert!(board.log.iter().copied().eq(falls(list)));
        assert!(board.log.epochs() == [4000; 512]);
    }
    assert!(row.receipts.iter().copied().eq(falls(9)));
    assert_eq!(row.receipts.len(), 512);
    // Written, each list's 512 numbers run upwards: the numbering is turned list by list.
    let turned: Vec<u16> = (0..4608).map(|k| k / 512 * 512 + 512 - k % 512).collect();
    assert_eq!(write(&row), renumbered(&image, &turned));
    // The receipts are at 512, so no receipt is due, and a log of 512 is full.
    let full = resume_sheet(&image, &[on(2, 3), append(3, 41)].concat()).unwrap();
    assert_eq!([full.outcomes[0].answer, full.outcomes[1].answer], [12, 13]);
}

#[test]
fn a_row_that_refusal_1_turns_away_is_not_saved() {
    let mut row = Row::open(3).unwrap();
    assert_eq!(saved(&row), Ok(bytes(OPENED_WITH_3)));
    row.registry.leader = 0;
    assert_eq!(saved(&row), Err(1));
    row.status = Status::Choosing;
    assert_eq!(
        saved(&row).map(|image| image[4..7].to_vec()),
        Ok(vec![0, 4, 2])
    );
}
