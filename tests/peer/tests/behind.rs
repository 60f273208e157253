//! Which boards stood behind it: document 02, Paper 6. Sets and listings are worked out
//! from the papers by hand.

use peer::behind::{behind, Behind};
use peer::listing::{self, LENGTH_MAX, RECORD_LINE_MAX};
use peer::row::{Heard, Outcome, Row, Stage, Status, View};
use peer::seed::make;
use peer::words::explained;
use peer::{list, run};

const fn on(step: u8, b: u8) -> [u8; 8] {
    [step, b, 0, 0, 0, 0, 0, 0]
}

const fn append(b: u8, value: u32) -> [u8; 8] {
    let [v0, v1, v2, v3] = value.to_le_bytes();
    [1, b, 0, 0, v0, v1, v2, v3]
}

const fn count(a: u8, b: u8) -> [u8; 8] {
    [9, a, b, 0, 0, 0, 0, 0]
}

const CHANGE: [u8; 8] = on(5, 0);
const CONTROLLER_NEWS: [u8; 8] = on(10, 0);
const READ_LEADER: [u8; 8] = on(11, 0);
const SET_NORMAL: [u8; 8] = on(13, 0);

fn open(b: u8) -> [u8; 8] {
    on(0, b)
}
fn receipt(b: u8) -> [u8; 8] {
    on(2, b)
}
fn add(b: u8) -> [u8; 8] {
    on(3, b)
}
fn remove(b: u8) -> [u8; 8] {
    on(4, b)
}
fn news(b: u8) -> [u8; 8] {
    on(6, b)
}
fn receive(b: u8) -> [u8; 8] {
    on(8, b)
}
fn read(b: u8) -> [u8; 8] {
    on(12, b)
}
fn hear(b: u8) -> [u8; 8] {
    on(14, b)
}
fn install(b: u8) -> [u8; 8] {
    on(15, b)
}

/// The set that digits stand for, board 1 as the lowest bit.
fn set(digits: &str) -> u8 {
    digits.bytes().map(|digit| 1 << (digit - b'1')).sum()
}

/// A record on a row is accepted with just these boards behind it.
#[track_caller]
fn carried(mut row: Row, record: [u8; 8], digits: &str) {
    let expected = Outcome {
        answer: 0,
        behind: set(digits),
    };
    assert_eq!(row.step(&record), expected);
}

/// A record on a row is refused, with no boards behind it.
#[track_caller]
fn refused(mut row: Row, record: [u8; 8], answer: u8) {
    assert_eq!(row.step(&record), Outcome { answer, behind: 0 });
}

/// The last line of a sheet's records.
#[track_caller]
fn last_line(sheet: &[[u8; 8]]) -> String {
    let listing = list(&sheet.concat()).unwrap();
    listing.lines().nth(sheet.len() - 1).unwrap().to_string()
}

/// Five boards, of which 3 becomes the leader. A majority of them is 3 boards, and so is
/// one of the four that are left.
fn five_boards() -> Vec<[u8; 8]> {
    let records = [
        // members 1 to 5, leader 1, which has 41 and is heard at 1
        [open(1), add(2), add(3), add(4)],
        [add(5), news(1), append(1, 41), CONTROLLER_NEWS],
        // 9 and 13: stage leader; then only 1 is heard as long, 2 and 5 at 0
        [SET_NORMAL, READ_LEADER, read(5), read(2)],
        [SET_NORMAL, news(2), receive(2), read(2)],
        [news(3), receive(3), read(3), news(4)],
        // 23: 1 to 4 are heard at 1, 5 at 0. 24: 1 has counted no other.
        [receive(4), read(4), SET_NORMAL, receipt(1)],
        // 28: 1 to 4 are counted with 1
        [count(1, 2), count(1, 3), count(1, 4), receipt(1)],
        [append(1, 42), receive(2), receive(3), count(1, 2)],
        // 34: 1, 2 and 3 are counted with 2, 4 with 1, which is the receipts' length. 35
        // and 36: nothing is due, 2 is not the leader.
        [count(1, 3), receipt(1), receipt(1), receipt(2)],
        // 37 and 40: stage idle; then 1 is no member any more
        [install(2), CHANGE, CONTROLLER_NEWS, install(1)],
        [news(2), news(3), news(4), news(5)],
        // 48: 5 is not heard. 49: 2 and 3 rank above 4. 51: 4 and 5 do not.
        [hear(2), hear(3), hear(4), install(5)],
        // 52: 2 ranks as 3 does, 4 and 5 below
        [install(4), hear(5), install(4), install(3)],
    ];
    records.concat()
}

const FIVE_BOARDS: &str = "\
1 0 0
2 3 0
3 3 0
4 3 0
5 3 0
6 6 0
7 1 0
8 10 0
9 13 15
10 11 0
11 12 0
12 12 0
13 13 14
14 6 0
15 8 0
16 12 0
17 6 0
18 8 0
19 12 0
20 6 0
21 8 0
22 12 0
23 13 0 1234
24 2 14
25 9 0
26 9 0
27 9 0
28 2 0 1234
29 1 0
30 8 0
31 8 0
32 9 0
33 9 0
34 2 0 123
35 2 12
36 2 8
37 15 15
38 5 0
39 10 0
40 15 5
41 6 0
42 6 0
43 6 0
44 6 0
45 14 0
46 14 0
47 14 0
48 15 14
49 15 14
50 14 0
51 15 14
52 15 0 2345
registry 8 8 3 2345 waiting
control 8 8 3 2345 leader
board 1 5 1 1 12345 1 2 late
board 2 7 1 0 2345 1 2 late
board 3 7 1 0 2345 1 2 late
board 4 7 1 0 2345 1 1 late
board 5 7 1 0 2345 1 0 late
board 6 1 1 1 1 1 0 late
board 7 1 1 1 1 1 0 late
board 8 1 1 1 1 1 0 late
receipts 2 41@1 42@1
";

#[test]
fn the_listing_of_five_boards() {
    let sheet = five_boards().concat();
    assert_eq!(list(&sheet).unwrap(), FIVE_BOARDS);
    // [3] counts the bytes of the fourth fields too.
    let length = FIVE_BOARDS.len();
    let mut slice = vec![170; length + 5];
    assert_eq!(run(&sheet, &mut slice[..length - 1]), 3);
    assert!(slice.iter().all(|&byte| byte == 170));
    assert_eq!(run(&sheet, &mut slice), length);
    assert_eq!(slice[..length], *FIVE_BOARDS.as_bytes());
    assert_eq!(slice[length..], [170; 5]);
}

#[test]
fn lines_in_words_do_not_change() {
    let text = explained(&five_boards().concat()).unwrap();
    let lines: Vec<&str> = text.lines().collect();
    assert_eq!(lines[22], "set normal: accepted");
    assert_eq!(lines[27], "board 1 gives a receipt: accepted");
    assert_eq!(lines[51], "install board 3: accepted");
}

#[test]
fn the_run_of_five_boards() {
    let all = behind(&five_boards().concat()).unwrap();
    assert_eq!(all.len(), 52);
    // Records 23, 28 and 52 have one board more than the three that make a majority.
    for (number, one) in (1..).zip(all) {
        let (digits, larger) = match number {
            23 | 28 => ("1234", true),
            34 => ("123", false),
            52 => ("2345", true),
            _ => ("", false),
        };
        assert_eq!(one.outcome.behind, set(digits), "record {number}");
        assert_eq!(one.is_larger(), larger, "record {number}");
        let least = if digits.is_empty() { 0 } else { 3 };
        assert_eq!(one.least, least, "record {number}");
        let answer = match number {
            9 | 37 => 15,
            13 | 24 | 48 | 49 | 51 => 14,
            35 => 12,
            36 => 8,
            40 => 5,
            _ => 0,
        };
        assert_eq!(one.outcome.answer, answer, "record {number}");
    }
}

#[test]
fn the_run_of_the_sample() {
    let sheet = [open(1), append(1, 41), receipt(1), add(2)].concat();
    let accepted = Behind {
        outcome: Outcome::ACCEPTED,
        least: 0,
    };
    // A majority of board 1 alone is board 1.
    let receipt = Behind {
        outcome: Outcome {
            answer: 0,
            behind: 0b1,
        },
        least: 1,
    };
    let all = [accepted, accepted, receipt, accepted];
    assert_eq!(behind(&sheet).unwrap(), all);
    assert_eq!(behind(&sheet[..8]).unwrap(), all[..1]);
    // A sheet that is refused has none.
    assert_eq!(behind(&[]), Err(2));
    assert_eq!(behind(&open(9)), Err(2));
    assert_eq!(behind(&sheet[..31]), Err(2));
}

#[test]
fn the_smallest_majority_is_of_the_members_asked() {
    let last = |records: &[[u8; 8]]| *behind(&records.concat()).unwrap().last().unwrap();
    // The controller has the members of the opening; 1 has four, and then three or two.
    let counted = four_counted();
    let then = |records: &[[u8; 8]]| last(&[&counted, records].concat());
    assert_eq!(then(&[receipt(1)]).least, 3);
    assert_eq!(then(&[remove(4), news(1), receipt(1)]).least, 2);
    let removed = [remove(4), remove(2), news(1), receipt(1)];
    assert_eq!(then(&removed).least, 2);
    assert!(!then(&removed).is_larger());
    // The controller has four members, and then three.
    let sheet = four_heard();
    assert_eq!(last(&sheet[..11]).least, 3);
    assert_eq!(last(&[&sheet[..], &[install(4)]].concat()).least, 2);
    // Refused, and not asked.
    assert_eq!(last(&sheet).least, 0);
    assert_eq!(last(&[&sheet[..], &[install(1)]].concat()).least, 0);
    assert_eq!(last(&[&sheet[..20], &[install(2)]].concat()).least, 0);
}

#[test]
fn digits_ascend_whichever_board_leads() {
    let sheet = [
        [open(8), add(3), add(1), news(8)],
        [CONTROLLER_NEWS, READ_LEADER, read(3), read(1)],
        [SET_NORMAL, append(8, 41), news(1), receive(1)],
        [count(8, 1), receipt(8), news(3), CHANGE],
    ];
    // 1, 3 and 8 are read at 0. Of them 8 and 1 are counted with 41.
    assert_eq!(last_line(&sheet.concat()[..9]), "9 13 0 138");
    assert_eq!(last_line(&sheet.concat()[..14]), "14 2 0 18");
    assert_eq!(last_line(&sheet.concat()), "16 5 0");
}

/// 1 leads 2, 3 and 4, and has counted all of them with its one entry.
fn four_counted() -> Vec<[u8; 8]> {
    let records = [
        [open(1), add(2), add(3), add(4)],
        [news(1), news(2), news(3), news(4)],
        [append(1, 41), receive(2), receive(3), receive(4)],
    ];
    let counts = [count(1, 2), count(1, 3), count(1, 4)];
    [&records.concat()[..], &counts].concat()
}

#[test]
fn a_board_removed_after_it_was_counted() {
    let counted = four_counted();
    let then = |records: &[[u8; 8]]| last_line(&[&counted, records].concat());
    assert_eq!(then(&[receipt(1)]), "16 2 0 1234");
    // The members asked are those of 1's own view, not the registry's: 4 is still one.
    assert_eq!(then(&[remove(4), receipt(1)]), "17 2 0 1234");
    // The news has the same leader epoch, so 1 keeps its count for 4.
    assert_eq!(then(&[remove(4), news(1), receipt(1)]), "18 2 0 123");
    // Of 2, 3 and 4 just 3 is left.
    let removed = [remove(4), remove(2), news(1), receipt(1)];
    assert_eq!(then(&removed), "19 2 0 13");
}

/// 1 leads these members in its own view and has two entries. One receipt is given, and
/// these are its counts.
fn counting(members: &str, counts: [usize; 8]) -> Row {
    let mut row = Row::open(1).unwrap();
    for record in [append(1, 41), append(1, 42), receipt(1)] {
        assert_eq!(row.step(&record).answer, 0);
    }
    row.boards[0].view.members = set(members);
    row.boards[0].counts = counts;
    row
}

#[test]
fn a_receipt_has_the_members_counted_above_it() {
    // All members, where 3 of 5 would do.
    let row = counting("12345", [2, 2, 2, 2, 2, 0, 0, 0]);
    carried(row, receipt(1), "12345");
    // A count of 1 is the receipts' length: 2 and 5 do not have the second entry. That of
    // 4 is above all lengths.
    let row = counting("12345", [2, 1, 2, 512, 1, 0, 0, 0]);
    carried(row, receipt(1), "134");
    let row = counting("12345", [2, 1, 2, 1, 1, 0, 0, 0]);
    refused(row, receipt(1), 14);
    // 6, 7 and 8 are no members.
    let row = counting("12345", [2, 2, 0, 2, 1, 2, 2, 2]);
    carried(row, receipt(1), "124");
    let row = counting("12345", [2, 2, 0, 1, 1, 2, 2, 2]);
    refused(row, receipt(1), 14);
    // 1 is asked as all others are: by its count, and as a member.
    let row = counting("12345", [1, 2, 2, 2, 1, 0, 0, 0]);
    carried(row, receipt(1), "234");
    let row = counting("2345", [2, 2, 2, 2, 2, 0, 0, 0]);
    carried(row, receipt(1), "2345");
    let row = counting("", [2; 8]);
    refused(row, receipt(1), 14);
}

#[test]
fn set_normal_goes_by_the_leaders_heard_length() {
    // 1 is heard at 0 and has one entry when 2, with one, and 3, with none, are read.
    let mut sheet = vec![open(1), add(2), add(3), news(1), news(2)];
    sheet.extend([CONTROLLER_NEWS, READ_LEADER, append(1, 41)]);
    sheet.extend([receive(2), read(2), read(3), SET_NORMAL]);
    assert_eq!(last_line(&sheet), "12 13 0 123");
}

fn heard(length: Option<usize>, joined: u16) -> Heard {
    Heard { length, joined }
}

/// The controller has these members, with 1 as their leader, is at stage boards, and has
/// heard these lengths.
fn reading(members: &str, lengths: [Option<usize>; 8]) -> Row {
    let mut row = Row::open(1).unwrap();
    row.control.view.members = set(members);
    row.control.stage = Stage::Boards;
    row.control.heard = lengths.map(|length| heard(length, 0));
    row
}

#[test]
fn set_normal_has_the_members_heard_as_long_as_the_leader() {
    let lengths = [5, 4, 5, 6, 0, 512].map(Some);
    let [one, two, three, four, five, six] = lengths;
    // All members, where 3 of 4 would do.
    let row = reading("1346", [one, two, three, four, five, six, None, None]);
    carried(row, SET_NORMAL, "1346");
    // Below the leader's heard length 2 and 5 do not qualify.
    let row = reading("123456", [one, two, three, four, five, six, None, None]);
    carried(row, SET_NORMAL, "1346");
    // 7 is not heard, 8 is heard at the leader's length and no member.
    let row = reading("1234567", [one, two, three, four, five, six, None, one]);
    carried(row, SET_NORMAL, "1346");
    let row = reading("12345", [one, two, three, None, five, six, one, one]);
    refused(row, SET_NORMAL, 14);
    // A leader that is no member is not in the set.
    let row = reading("346", [one, two, three, four, five, six, None, None]);
    carried(row, SET_NORMAL, "346");
    // The leader asked is the controller's, 2, heard at 4; the registry's is still 1.
    let mut row = reading("1235", [one, two, three, four, five, six, None, None]);
    row.control.view.leader = 2;
    carried(row, SET_NORMAL, "123");
    let row = reading("", [one; 8]);
    refused(row, SET_NORMAL, 14);
}

#[test]
fn an_unheard_board_is_not_behind_set_normal() {
    // Where nothing is heard of the leader, any heard length qualifies. The leader and 5
    // are not heard.
    let lengths = [None, Some(0), Some(1), Some(512), None, None, None, None];
    carried(reading("12345", lengths), SET_NORMAL, "234");
    carried(reading("1234", lengths), SET_NORMAL, "234");
    // Two of 1, 2, 3 and 5 are heard, and one of two, where a majority is three and two.
    refused(reading("1235", lengths), SET_NORMAL, 14);
    refused(reading("12", lengths), SET_NORMAL, 14);
    // Nothing is heard at all.
    refused(reading("12345", [None; 8]), SET_NORMAL, 14);
    refused(reading("1", [None; 8]), SET_NORMAL, 14);
}

/// 1 to 4 are members and 1 leads; all are read, and 4 alone receives 41 from 1. Then 2, 3
/// and 4 are heard: 4 at 1, the others at 0.
fn four_heard() -> Vec<[u8; 8]> {
    let records = [
        [open(1), add(2), add(3), add(4)],
        [news(1), CONTROLLER_NEWS, READ_LEADER, read(2)],
        [read(3), read(4), SET_NORMAL, news(4)],
        [append(1, 41), receive(4), CHANGE, news(2)],
        [news(3), news(4), CONTROLLER_NEWS, hear(2)],
    ];
    [&records.concat()[..], &[hear(3), hear(4)]].concat()
}

#[test]
fn a_member_heard_and_ranked_above_is_not_behind_an_install() {
    let sheet = four_heard();
    // All four are read, where three would do.
    assert_eq!(last_line(&sheet[..11]), "11 13 0 1234");
    // 4 is heard with an entry more than 2 and 3.
    let then = |record| last_line(&[&sheet[..], &[record]].concat());
    assert_eq!(then(install(2)), "23 15 0 23");
    assert_eq!(then(install(3)), "23 15 0 23");
    // All three, where two would do.
    assert_eq!(then(install(4)), "23 15 0 234");
    // Before it is heard, 4 is not behind 2, nor 3 behind 4.
    let then = |record| last_line(&[&sheet[..21], &[record]].concat());
    assert_eq!(then(install(2)), "22 15 0 23");
    let then = |records: &[[u8; 8]]| last_line(&[&sheet[..20], records].concat());
    assert_eq!(then(&[hear(4), install(4)]), "22 15 0 24");
    assert_eq!(then(&[hear(4), install(2)]), "22 15 14");
}

/// The controller has these members, is at stage choosing, and has heard this.
fn choosing(members: &str, ranks: [Heard; 8]) -> Row {
    let mut row = Row::open(1).unwrap();
    row.status = Status::Choosing;
    row.registry.leader = 0;
    row.control.view.leader = 0;
    row.control.view.members = set(members);
    row.control.stage = Stage::Choosing;
    row.control.heard = ranks;
    row
}

#[test]
fn an_install_has_the_members_heard_and_not_ranked_above() {
    let ranks = [
        // as the new leader, 2
        heard(Some(3), 5),
        heard(Some(3), 5),
        // above: a longer log, a later joined epoch
        heard(Some(4), 5),
        heard(Some(0), 6),
        // below: an earlier joined epoch, however long
        heard(Some(512), 4),
        // not heard
        heard(None, 0),
        // below: a shorter log, and the lowest rank
        heard(Some(2), 5),
        heard(Some(0), 0),
    ];
    carried(choosing("12345678", ranks), install(2), "12578");
    // All members, where 3 of 5 would do.
    carried(choosing("12578", ranks), install(2), "12578");
    // 1 is heard, but no member; nor is 8.
    carried(choosing("2345678", ranks), install(2), "2578");
    refused(choosing("234567", ranks), install(2), 14);
    carried(choosing("23457", ranks), install(2), "257");
    // With the highest rank all that are heard are behind it, with the lowest 8 alone.
    carried(choosing("12345678", ranks), install(4), "1234578");
    refused(choosing("12345678", ranks), install(8), 14);
    carried(choosing("8", ranks), install(8), "8");
}

#[test]
fn an_unheard_board_is_not_behind_an_install() {
    // In a run a joined epoch is heard with a length only. Here 2 and 3 have one without,
    // and 3's is not above 1's.
    let mut ranks = [heard(None, 0); 8];
    ranks[0] = heard(Some(0), 4);
    ranks[1] = heard(None, 4000);
    ranks[2] = heard(None, 1);
    ranks[3] = heard(Some(0), 4);
    carried(choosing("134", ranks), install(1), "14");
    refused(choosing("123", ranks), install(1), 14);
    // 1 and 4 are heard, and not ranked above 2; but no majority of these contains 2.
    refused(choosing("124", ranks), install(2), 14);
}

/// All checks of set normal and install hold but the last: their majority stands behind
/// them, and still no set is handed back.
#[test]
fn a_step_refused_7_has_no_boards_behind_it() {
    let mut row = reading("123", [Some(0); 8]);
    (row.registry.epoch, row.control.view.epoch) = (4000, 4000);
    refused(row.clone(), SET_NORMAL, 7);
    (row.registry.epoch, row.control.view.epoch) = (3999, 3999);
    carried(row, SET_NORMAL, "123");

    let mut row = choosing("123", [heard(Some(0), 1); 8]);
    (row.registry.epoch, row.control.view.epoch) = (4000, 4000);
    refused(row.clone(), install(2), 7);
    (row.registry.epoch, row.control.view.epoch) = (3999, 3999);
    carried(row, install(2), "123");
}

#[test]
fn a_step_refused_before_its_majority_is_asked_has_no_boards_behind_it() {
    let mut row = counting("1", [3; 8]);
    refused(row.clone(), on(2, 9), 1);
    // 2 follows 1.
    refused(row.clone(), receipt(2), 8);
    // The count of 3 is above both receipts, but 1 has no third entry.
    assert_eq!(row.step(&receipt(1)).behind, set("1"));
    refused(row, receipt(1), 12);

    let mut row = reading("1", [Some(0); 8]);
    refused(row.clone(), on(13, 1), 1);
    row.registry.epoch = 2;
    refused(row.clone(), SET_NORMAL, 16);
    row.control.stage = Stage::Leader;
    refused(row, SET_NORMAL, 15);

    let mut row = choosing("12", [heard(Some(0), 1); 8]);
    refused(row.clone(), on(15, 0), 1);
    refused(row.clone(), install(3), 5);
    row.registry.epoch = 2;
    refused(row.clone(), install(2), 16);
    row.control.stage = Stage::Boards;
    refused(row, install(2), 15);
}

/// To epoch 3,998 with members 1 to 4, where set normal and change take the last two.
#[test]
fn lines_of_refusal_7_have_three_fields() {
    let mut sheet = vec![open(1), add(2)];
    for _ in 0..1997 {
        sheet.extend([add(3), remove(3)]);
    }
    sheet.extend([add(3), add(4), news(1), CONTROLLER_NEWS]);
    sheet.extend([READ_LEADER, read(2), read(3), SET_NORMAL]);
    // 2 + 3,994 + 8 records. 4 is not read.
    assert_eq!(last_line(&sheet), "4004 13 0 123");
    let changed = [CHANGE, news(2), news(3), CONTROLLER_NEWS];
    let end = [hear(2), hear(3), install(2)];
    let chosen = [&sheet[..], &changed, &end].concat();
    assert_eq!(last_line(&chosen), "4011 15 7");
    // With 5 and 6 added instead, the epoch is 4,000. Four of the six members are read.
    *sheet.last_mut().unwrap() = add(5);
    sheet.extend([add(6), news(1), CONTROLLER_NEWS, READ_LEADER]);
    sheet.extend([read(2), read(3), read(4), SET_NORMAL]);
    assert_eq!(last_line(&sheet), "4012 13 7");
}

/// A line has a fourth field if its step is 2, 13 or 15 and accepted, and only then. It has
/// a majority, in ascending digits.
#[track_caller]
fn fields_are_right(sheet: &[u8]) {
    let listing = list(sheet).unwrap();
    assert!(listing.len() <= LENGTH_MAX);
    for (line, one) in listing.lines().zip(behind(sheet).unwrap()) {
        let fields: Vec<&str> = line.split(' ').collect();
        assert_eq!(fields[2], one.outcome.answer.to_string(), "{line}");
        assert!(line.len() < RECORD_LINE_MAX, "{line}");
        if let ("2" | "13" | "15", "0") = (fields[1], fields[2]) {
            let [_, _, _, digits] = fields[..] else {
                panic!("{line}");
            };
            assert!(digits.bytes().is_sorted_by(|a, b| a < b), "{line}");
            assert_eq!(set(digits), one.outcome.behind, "{line}");
            assert!(one.least > 0, "{line}");
            assert!(digits.len() >= one.least.into(), "{line}");
        } else {
            assert_eq!(fields.len(), 3, "{line}");
            assert_eq!((one.outcome.behind, one.least), (0, 0), "{line}");
        }
    }
}

#[test]
fn fields_of_sheets() {
    fields_are_right(&five_boards().concat());
    fields_are_right(&four_counted().concat());
    fields_are_right(&four_heard().concat());
    for seed in 0..100 {
        let mut sheet = vec![0; 8 * 4095];
        make(seed, 4095, &mut sheet);
        fields_are_right(&sheet);
        // Every fifth record with one bit changed: many are malformed.
        let (records, _) = sheet.as_chunks_mut::<8>();
        for (n, record) in records.iter_mut().enumerate().skip(1).step_by(5) {
            record[n % 8] ^= 1 << (n / 8 % 8);
        }
        fields_are_right(&sheet);
    }
}

#[test]
fn the_longest_line() {
    // Records 1 to 985 do next to nothing; all eight boards are members and are read.
    let mut sheet = vec![open(1)];
    sheet.resize(985, CONTROLLER_NEWS);
    sheet.extend((2..=8).map(add));
    sheet.extend([news(1), CONTROLLER_NEWS, READ_LEADER]);
    sheet.extend((2..=8).map(read));
    sheet.push(SET_NORMAL);
    // 985 + 7 + 3 + 7 + 1
    let line = last_line(&sheet);
    assert_eq!(line, "1003 13 0 12345678");
    // With byte 10.
    assert_eq!(line.len() + 1, 19);
    assert_eq!(RECORD_LINE_MAX, 19);
}

/// A listing as long as its parts can be, if not all at once.
#[test]
fn the_length_of_a_listing() {
    let mut row = Row::open(1).unwrap();
    for b in 1..=8 {
        let board = &mut row.boards[usize::from(b) - 1];
        board.view = View {
            epoch: 4000,
            leader_epoch: 4000,
            leader: b,
            members: set("12345678"),
        };
        board.joined = 4000;
        board.counts = [512; 8];
        for _ in 0..512 {
            assert_eq!(row.step(&append(b, 4_294_967_295)), Outcome::ACCEPTED);
        }
    }
    for _ in 0..512 {
        assert_eq!(row.step(&receipt(1)).answer, 0);
    }
    row.registry = row.boards[7].view;
    row.control.view = row.boards[7].view;
    row.status = Status::Choosing;
    row.control.stage = Stage::Choosing;
    let outcome = Outcome {
        answer: 0,
        behind: set("12345678"),
    };
    let length = listing::length(&[SET_NORMAL; 4095], &[outcome; 4095], &row);
    // Of the numbers of records 9 have three digits fewer than four, 90 two, 900 one. The
    // word `control` has one letter fewer than `registry`.
    assert_eq!(length, LENGTH_MAX - 9 * 3 - 90 * 2 - 900 - 1);
    // 77,805 and 78 and 368 and 13 and 8,192
    assert_eq!(LENGTH_MAX, 86_456);
}
