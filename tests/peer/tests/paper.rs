//! The trials and refusals of document 01, and of document 02 the marks of Paper 1
//! and the entries of Paper 4. Lines of accepted receipts, set normal and install have
//! the fourth field of Paper 6. All that is expected is worked out from the papers by
//! hand.

use peer::row::{majority, Entry, Row, Status, View};
use peer::tally::{tally, Tally};
use peer::{list, listing, run};

/// A record of a step's number, its board or boards, and a value.
fn record(step: u8, a: u8, b: u8, value: u32) -> [u8; 8] {
    let [v0, v1, v2, v3] = value.to_le_bytes();
    [step, a, b, 0, v0, v1, v2, v3]
}

const fn on(step: u8, b: u8) -> [u8; 8] {
    [step, b, 0, 0, 0, 0, 0, 0]
}

fn open(b: u8) -> [u8; 8] {
    on(0, b)
}
fn append(b: u8, value: u32) -> [u8; 8] {
    record(1, b, 0, value)
}
fn receipt(b: u8) -> [u8; 8] {
    on(2, b)
}
fn add(b: u8) -> [u8; 8] {
    on(3, b)
}
fn remove(b: u8) -> [u8; 8] {
    on(4, b)
}
const CHANGE: [u8; 8] = on(5, 0);
fn news(b: u8) -> [u8; 8] {
    on(6, b)
}
fn join(b: u8) -> [u8; 8] {
    on(7, b)
}
fn receive(b: u8) -> [u8; 8] {
    on(8, b)
}
fn count(a: u8, b: u8) -> [u8; 8] {
    record(9, a, b, 0)
}
const CONTROLLER_NEWS: [u8; 8] = on(10, 0);
const READ_LEADER: [u8; 8] = on(11, 0);
fn read(b: u8) -> [u8; 8] {
    on(12, b)
}
const SET_NORMAL: [u8; 8] = on(13, 0);
fn hear(b: u8) -> [u8; 8] {
    on(14, b)
}
fn install(b: u8) -> [u8; 8] {
    on(15, b)
}

/// A row opened with a board, on which steps are tried one after the other.
struct Trial(Row);

impl Trial {
    fn opened(b: u8) -> Trial {
        Trial(Row::open(b).unwrap())
    }

    /// Each record gets its answer; a refused one leaves the row as it was.
    #[track_caller]
    fn gives<const N: usize>(&mut self, answers: [([u8; 8], u8); N]) -> &mut Trial {
        for (record, answer) in answers {
            let before = self.0.clone();
            assert_eq!(self.0.step(&record).answer, answer, "{record:?}");
            assert!(answer == 0 || self.0 == before, "{record:?}");
        }
        self
    }

    #[track_caller]
    fn accepts<const N: usize>(&mut self, records: [[u8; 8]; N]) -> &mut Trial {
        self.gives(records.map(|record| (record, 0)))
    }

    /// A listing of the row, without the lines of records.
    fn listing(&self) -> String {
        let mut slice = vec![0; listing::length(&[], &[], &self.0)];
        listing::write(&mut slice, &[], &[], &self.0);
        String::from_utf8(slice).unwrap()
    }

    /// The log of board b has these entries, each a value and an epoch.
    #[track_caller]
    fn holds<const N: usize>(&mut self, b: u8, entries: [(u32, u16); N]) -> &mut Trial {
        let entries = entries.map(|(value, epoch)| Entry { value, epoch });
        let log: Vec<Entry> = self.0.board(b).log.entries().collect();
        assert_eq!(log, entries, "board {b}");
        self
    }

    /// A listing of the row ends in this line.
    #[track_caller]
    fn ends_in(&mut self, line: &str) -> &mut Trial {
        assert_eq!(self.listing().lines().next_back(), Some(line));
        self
    }

    /// A listing of the row marks these boards `current` and all others `late`.
    #[track_caller]
    fn current<const N: usize>(&mut self, boards: [u8; N]) -> &mut Trial {
        let listing = self.listing();
        for b in 1..=8 {
            let word = if boards.contains(&b) {
                "current"
            } else {
                "late"
            };
            assert_eq!(mark(&listing, b), word, "board {b}");
        }
        self
    }
}

/// The last word of board b's line in a listing.
fn mark(listing: &str, b: u8) -> &str {
    let start = format!("board {b} ");
    let line = listing.lines().find(|line| line.starts_with(&start));
    line.unwrap().split(' ').next_back().unwrap()
}

const SAMPLE: &str = "\
1 0 0
2 1 0
3 2 0 1
4 3 0
registry 2 1 1 12 waiting
control 1 1 1 1 idle
board 1 1 1 1 1 1 1 late
board 2 1 1 1 1 1 0 late
board 3 1 1 1 1 1 0 late
board 4 1 1 1 1 1 0 late
board 5 1 1 1 1 1 0 late
board 6 1 1 1 1 1 0 late
board 7 1 1 1 1 1 0 late
board 8 1 1 1 1 1 0 late
receipts 1 41@1
";

fn sample() -> Vec<u8> {
    [open(1), append(1, 41), receipt(1), add(2)].concat()
}

#[test]
fn the_sample_listing() {
    assert_eq!(list(&sample()).unwrap(), SAMPLE);
    assert!(list(&sample()).unwrap().ends_with("\nreceipts 1 41@1\n"));
}

#[test]
fn p1_majorities() {
    let majorities: Vec<u32> = (1..=8).map(majority).collect();
    assert_eq!(majorities, [1, 2, 2, 3, 3, 4, 4, 5]);
}

#[test]
fn p2_opening() {
    for b in [0, 9] {
        assert_eq!(Row::open(b), Err(1));
        assert_eq!(list(&open(b)), Err(2));
    }
    assert!(Row::open(8).is_ok());
    assert!(list(&open(8)).is_ok());
}

#[test]
fn p3_receipt() {
    Trial::opened(1)
        .gives([(receipt(1), 12)])
        .accepts([append(1, 41), receipt(1)])
        .ends_in("receipts 1 41@1");
}

#[test]
fn p4_append_on_another() {
    Trial::opened(1).gives([(append(2, 41), 8)]);
}

#[test]
fn p5_alone() {
    Trial::opened(1).gives([(CHANGE, 6), (remove(1), 6), (remove(2), 5)]);
}

#[test]
fn p6_add_twice() {
    Trial::opened(1).gives([(add(2), 0), (add(2), 5)]);
}

#[test]
fn p7_to_p9_a_second_board() {
    let mut trial = Trial::opened(1);
    trial.accepts([add(2)]);
    trial.gives([
        (CHANGE, 4),
        (READ_LEADER, 15),
        (CONTROLLER_NEWS, 0),
        (READ_LEADER, 16),
        (news(1), 0),
        (READ_LEADER, 0),
    ]);
    trial.gives([(SET_NORMAL, 14), (read(2), 0), (SET_NORMAL, 0)]);
    assert_eq!(trial.0.registry.epoch, 3);
    trial.accepts([CHANGE]);
    let news = View {
        epoch: 4,
        leader_epoch: 4,
        leader: 2,
        members: 0b10,
    };
    assert_eq!(trial.0.registry, news);
    assert_eq!(trial.0.status, Status::Normal);
}

#[test]
fn a_log_holds_512() {
    let mut trial = Trial::opened(1);
    for value in 1..=512 {
        trial.accepts([append(1, value)]);
    }
    trial.gives([(append(1, 513), 13)]);
}

#[test]
fn epochs_end_at_4000() {
    let mut trial = Trial::opened(1);
    for n in 0..3999 {
        trial.accepts([if n % 2 == 0 { add(2) } else { remove(2) }]);
    }
    assert_eq!(trial.0.registry.epoch, 4000);
    trial.gives([(remove(2), 7), (add(3), 7)]);
}

/// Members 1 to 4, leader 1, normal, news taken, logs empty.
fn four_boards() -> Trial {
    let mut trial = Trial::opened(1);
    trial
        .accepts([add(2), add(3), add(4), news(1), CONTROLLER_NEWS])
        .accepts([READ_LEADER, read(2), read(3), SET_NORMAL])
        .accepts([news(1), news(2), news(3), news(4)]);
    trial
}

#[test]
fn four_boards_change_their_leader() {
    let mut trial = four_boards();
    trial
        .accepts([append(1, 41), receive(4)])
        .accepts([CHANGE, news(2), news(3), CONTROLLER_NEWS])
        .accepts([hear(2), hear(3), install(2), news(2), append(2, 42)])
        .holds(4, [(41, 1)])
        .gives([(news(4), 0), (count(2, 4), 11), (join(4), 0)])
        .holds(2, [(42, 7)])
        .holds(4, []);
}

#[test]
fn a_later_joined_epoch_ranks_above_a_longer_log() {
    let mut trial = four_boards();
    // 2 and 3 join under leader epoch 7; 4 holds a longer log of epoch 1.
    trial
        .accepts([append(1, 41), append(1, 42), receive(4), receive(4)])
        .accepts([CHANGE, news(2), news(3), CONTROLLER_NEWS])
        .accepts([hear(2), hear(3), install(2), news(2), append(2, 43)])
        .accepts([news(3), join(3), receive(3), READ_LEADER, read(3)])
        .accepts([SET_NORMAL, CHANGE, CONTROLLER_NEWS, news(3), news(4)])
        .accepts([hear(3), hear(4)])
        .gives([(install(4), 14), (install(3), 0)]);
}

#[test]
fn a_join_keeps_what_is_shared() {
    let mut trial = four_boards();
    trial
        .accepts([append(1, 41), receive(2), receive(4)])
        .accepts([append(1, 42), receive(4)])
        .accepts([CHANGE, news(2), news(3), CONTROLLER_NEWS])
        .accepts([hear(2), hear(3), install(2), news(2), append(2, 43)])
        .holds(2, [(41, 1), (43, 7)])
        .holds(4, [(41, 1), (42, 1)])
        .accepts([news(4), join(4)])
        .holds(4, [(41, 1)]);
}

#[test]
fn news_keeps_counts_within_a_leader_epoch() {
    let mut trial = four_boards();
    trial
        .accepts([append(1, 41), receive(2), receive(3)])
        .accepts([count(1, 2), count(1, 3), add(5), news(1), receipt(1)])
        .ends_in("receipts 1 41@1");
}

#[test]
fn lengths_heard_in_an_earlier_epoch_are_dropped() {
    let mut trial = Trial::opened(1);
    trial
        .accepts([add(2), news(1), CONTROLLER_NEWS, READ_LEADER, read(2)])
        .accepts([add(3), news(1)])
        .gives([(SET_NORMAL, 16), (CONTROLLER_NEWS, 0), (SET_NORMAL, 15)])
        .gives([(READ_LEADER, 0), (SET_NORMAL, 14)]);
}

#[test]
fn checks_are_made_in_the_order_written() {
    let mut trial = four_boards();
    // Board 2 is no leader and its log is empty; 5 is no member and follows 1.
    trial.gives([(receipt(2), 8), (join(5), 5), (receive(5), 5)]);
    trial.gives([(count(2, 5), 8), (count(1, 5), 5), (hear(5), 15)]);
    trial.accepts([CHANGE]);
    // Choosing comes before membership.
    trial.gives([(add(2), 4), (remove(1), 4), (CHANGE, 4)]);
    // Membership comes before epochs, epochs before lengths.
    trial.accepts([CONTROLLER_NEWS]);
    trial.gives([
        (hear(1), 5),
        (hear(2), 16),
        (install(1), 5),
        (install(2), 14),
    ]);
}

#[test]
fn malformed_records_are_answered_1() {
    let mut trial = Trial::opened(1);
    for step in 0..=255 {
        // Each unused byte must be 0.
        let (board, used) = match step {
            1 => (1, &[1, 4, 5, 6, 7][..]),
            5 | 10 | 11 | 13 => (0, &[][..]),
            9 => (1, &[1, 2][..]),
            _ => (1, &[1][..]),
        };
        let whole = record(step, board, if step == 9 { 2 } else { 0 }, 0);
        for byte in (1..8).filter(|byte| !used.contains(byte)) {
            let mut spoiled = whole;
            spoiled[byte] = 1;
            trial.gives([(spoiled, 1)]);
        }
        // Boards are 1 to 8.
        for byte in [1, 2].into_iter().filter(|byte| used.contains(byte)) {
            for b in [0, 9, 255] {
                let mut spoiled = whole;
                spoiled[byte] = b;
                trial.gives([(spoiled, 1)]);
            }
        }
        if step == 0 || step > 15 {
            trial.gives([(whole, 1)]);
        }
    }
    trial.gives([(count(1, 1), 1)]);
}

#[test]
fn a_sheet_goes_on_after_a_refusal() {
    let sheet = [open(1), open(1), on(200, 7), append(2, 5), append(1, 5)].concat();
    let listing = list(&sheet).unwrap();
    assert!(listing.starts_with("1 0 0\n2 0 1\n3 200 1\n4 1 8\n5 1 0\nregistry "));
}

#[test]
fn refusal_2() {
    let sheet_of = |records: usize| [open(1).to_vec(), vec![0; 8 * records - 8]].concat();
    // Document 02, Paper 9: not for the empty sheet.
    assert_eq!(list(&[]).as_deref(), Ok("unopened\n"));
    assert!(list(&sheet_of(4095)).is_ok());
    assert_eq!(list(&sheet_of(4096)), Err(2));
    for length in (1..24).filter(|length| length % 8 != 0) {
        assert_eq!(list(&sheet_of(3)[..length]), Err(2), "{length} bytes");
    }
    for byte in 2..8 {
        let mut opening = open(1);
        opening[byte] = 1;
        assert_eq!(list(&opening), Err(2), "byte {byte}");
    }
    assert_eq!(list(&append(1, 41)), Err(2));
    // 2 comes before 3.
    assert_eq!(run(&open(0), &mut []), 2);
}

#[test]
fn refusal_3_and_what_the_slice_keeps() {
    // 285 bytes before Paper 4, which puts @1 after 41, and Paper 6, which puts a space
    // and board 1 after the receipt's answer.
    assert_eq!(SAMPLE.len(), 289);
    assert_eq!(run(&sample(), &mut []), 3);
    let mut short = [170; 288];
    assert_eq!(run(&sample(), &mut short), 3);
    assert_eq!(short, [170; 288]);
    let mut long = [170; 300];
    assert_eq!(run(&sample(), &mut long), 289);
    assert_eq!(&long[..289], SAMPLE.as_bytes());
    assert_eq!(long[289..], [170; 11]);
    assert_eq!(run(&open(9), &mut long), 2);
    assert_eq!(&long[..289], SAMPLE.as_bytes());
}

#[test]
fn all_boards_of_an_opened_row_are_current() {
    // Every epoch, leader epoch and joined is 1.
    for b in 1..=8 {
        let mut opened = format!("1 0 0\nregistry 1 1 {b} {b} normal\n");
        opened += &format!("control 1 1 {b} {b} idle\n");
        for n in 1..=8 {
            opened += &format!("board {n} 1 1 {b} {b} 1 0 current\n");
        }
        opened += "receipts 0\n";
        assert_eq!(list(&open(b)).unwrap(), opened);
    }
}

/// Four boards, where 1 appended 41, only 4 received it, and 2 is installed: the
/// registry's epoch and leader epoch are 7. 2 and 3 have epoch 6, 1 and 4 have 5.
fn board_2_installed() -> Trial {
    let mut trial = four_boards();
    trial
        .accepts([append(1, 41), receive(4)])
        .accepts([CHANGE, news(2), news(3), CONTROLLER_NEWS])
        .accepts([hear(2), hear(3), install(2)]);
    trial
}

#[test]
fn a_board_with_a_replaced_leaders_entry_is_late_until_it_joins() {
    let mut trial = board_2_installed();
    // Its leader has no news yet, so 4 cannot join yet.
    trial
        .accepts([news(4)])
        .current([])
        .gives([(join(4), 10)])
        .accepts([news(2), append(2, 42)])
        .current([2])
        .holds(4, [(41, 1)]);
    // 41@1 is not shared with the leader's log, 42@7: it is cut.
    trial.accepts([join(4)]).current([2, 4]).holds(4, []);
    // A board with nothing to cut must join as well.
    trial
        .accepts([news(3)])
        .current([2, 4])
        .accepts([join(3)])
        .current([2, 3, 4]);
}

#[test]
fn a_board_is_current_with_the_replaced_leaders_entries_that_its_join_keeps() {
    let mut trial = four_boards();
    trial
        .accepts([append(1, 41), receive(2), receive(4)])
        .accepts([append(1, 42), receive(4)])
        .accepts([CHANGE, news(2), news(3), CONTROLLER_NEWS])
        .accepts([hear(2), hear(3), install(2), news(2), append(2, 43)])
        .accepts([news(4)])
        .current([2])
        .holds(4, [(41, 1), (42, 1)])
        .accepts([join(4)])
        .current([2, 4])
        .holds(4, [(41, 1)]);
}

#[test]
fn an_installed_leader_is_late_until_its_news() {
    let mut trial = board_2_installed();
    // Installing changes no board: 2 still has epoch 6, leader 0 and joined 1.
    assert_eq!(trial.0.board(2).joined, 1);
    trial.current([]).gives([(join(2), 9)]);
    // Its news makes joined the new leader epoch; it has no other to join.
    trial.accepts([news(2)]).current([2]);
    assert_eq!(trial.0.registry.leader_epoch, 7);
    assert_eq!(trial.0.board(2).joined, 7);
    trial.gives([(join(2), 9)]);
}

#[test]
fn a_board_that_is_no_member_any_more_stays_late() {
    let mut trial = board_2_installed();
    // 1 was replaced and 4 is removed: the members they take are 2 and 3.
    trial
        .accepts([remove(4), news(1), news(2), news(3), news(4)])
        .current([2])
        .gives([(join(1), 5), (join(4), 5), (join(3), 0)])
        .current([2, 3])
        .accepts([CONTROLLER_NEWS, READ_LEADER, read(3), SET_NORMAL])
        .current([])
        .accepts([news(1), news(2), news(3), news(4)])
        .current([2, 3])
        .gives([(join(1), 5), (join(4), 5)])
        .holds(1, [(41, 1)])
        .holds(4, [(41, 1)]);
    // Added again, 1 is still late after its news, and can join. 2 and 3 have no news.
    trial
        .accepts([add(1), news(1)])
        .current([])
        .accepts([join(1)])
        .current([1])
        .holds(1, []);
}

#[test]
fn a_joined_board_is_late_while_its_epoch_is_below_the_registrys() {
    let mut trial = board_2_installed();
    trial
        .accepts([news(2), news(4), join(4)])
        .current([2, 4])
        .accepts([add(5)])
        .current([]);
    // The registry's epoch is 8 now, its leader epoch is still 7.
    assert_eq!(trial.0.registry.leader_epoch, 7);
    assert_eq!(trial.0.board(2).joined, 7);
    assert_eq!(trial.0.board(4).joined, 7);
    // Under the same leader epoch news is enough, but not for 5, which joined none.
    trial
        .accepts([news(2), news(4), news(5)])
        .current([2, 4])
        .gives([(join(4), 11), (join(5), 0)])
        .current([2, 4, 5]);
}

#[test]
fn while_choosing_the_leader_epoch_is_kept() {
    // 1 is no member any more, but its joined is still the registry's leader epoch.
    let mut trial = four_boards();
    trial
        .current([1, 2, 3, 4])
        .accepts([append(1, 41), receive(4), CHANGE])
        .current([])
        .accepts([news(1), news(2), news(4)])
        .current([1, 2, 4])
        .gives([(join(1), 9), (join(4), 9)]);
}

#[test]
fn a_mark_asks_for_no_membership() {
    // 5 was never a member, but no leader was changed since the opening.
    four_boards().accepts([news(5)]).current([1, 2, 3, 4, 5]);
    // 4 joins while it is still in its own members.
    board_2_installed()
        .accepts([news(2), news(4), remove(4), join(4)])
        .current([])
        .accepts([news(4)])
        .current([4]);
}

#[test]
fn the_listing_of_a_replaced_leader() {
    let sheet = [
        open(1),
        add(2),
        news(1),
        CONTROLLER_NEWS,
        READ_LEADER,
        read(2),
        SET_NORMAL,
        append(1, 41),
        CHANGE,
        news(1),
        news(2),
        join(1),
    ];
    let listing = "\
1 0 0
2 3 0
3 6 0
4 10 0
5 11 0
6 12 0
7 13 0 12
8 1 0
9 5 0
10 6 0
11 6 0
12 7 5
registry 4 4 2 2 normal
control 3 1 1 12 idle
board 1 4 4 2 2 1 1 late
board 2 4 4 2 2 4 0 current
board 3 1 1 1 1 1 0 late
board 4 1 1 1 1 1 0 late
board 5 1 1 1 1 1 0 late
board 6 1 1 1 1 1 0 late
board 7 1 1 1 1 1 0 late
board 8 1 1 1 1 1 0 late
receipts 0
";
    assert_eq!(list(&sheet.concat()).unwrap(), listing);
}

/// 1 appends 41 and 4 receives it; 2, which does not have it, is installed and appends
/// the same value, or another one, and 4 joins 2.
fn the_same_value_twice(second: u32) -> Vec<u8> {
    let records = [
        open(1),
        // members 1 to 4, leader 1, normal, epoch 5
        add(2),
        add(3),
        add(4),
        news(1),
        CONTROLLER_NEWS,
        READ_LEADER,
        read(2),
        read(3),
        SET_NORMAL,
        news(1),
        news(2),
        news(3),
        news(4),
        // 1 and 4 have 40@1 41@1, 2 has 40@1
        append(1, 40),
        receive(2),
        receive(4),
        append(1, 41),
        receive(4),
        // 2 is installed: epoch and leader epoch 7
        CHANGE,
        news(2),
        news(3),
        CONTROLLER_NEWS,
        hear(2),
        hear(3),
        install(2),
        news(2),
        // 2 has 40@1 41@7
        append(2, second),
        news(4),
        count(2, 4),
        // 4 keeps 40@1 alone, and is counted with 1
        join(4),
        count(2, 4),
        receipt(2),
        receipt(2),
        // 4 has 40@1 41@7, and is counted with 2
        receive(4),
        count(2, 4),
        receipt(2),
    ];
    records.concat()
}

/// By value alone 4 would keep two entries: record 32 would count both, record 34 would
/// give a receipt for 41@7, which 4 does not have, and record 35 would be refused 12.
#[test]
fn the_listing_of_the_same_value_twice() {
    let listing = "\
1 0 0
2 3 0
3 3 0
4 3 0
5 6 0
6 10 0
7 11 0
8 12 0
9 12 0
10 13 0 123
11 6 0
12 6 0
13 6 0
14 6 0
15 1 0
16 8 0
17 8 0
18 1 0
19 8 0
20 5 0
21 6 0
22 6 0
23 10 0
24 14 0
25 14 0
26 15 0 23
27 6 0
28 1 0
29 6 0
30 9 11
31 7 0
32 9 0
33 2 0 24
34 2 14
35 8 0
36 9 0
37 2 0 24
registry 7 7 2 234 waiting
control 7 7 2 234 leader
board 1 5 1 1 1234 1 2 late
board 2 7 7 2 234 7 2 current
board 3 6 1 0 234 1 0 late
board 4 7 7 2 234 7 2 current
board 5 1 1 1 1 1 0 late
board 6 1 1 1 1 1 0 late
board 7 1 1 1 1 1 0 late
board 8 1 1 1 1 1 0 late
receipts 2 40@1 41@7
";
    let sheet = the_same_value_twice(41);
    assert_eq!(list(&sheet).unwrap(), listing);
    // Cut off after the join, at record 31: 4 has one entry.
    let joined = list(&sheet[..8 * 31]).unwrap();
    assert!(joined.contains("\nboard 4 7 7 2 234 7 1 current\n"));
    assert!(joined.ends_with("\nreceipts 0\n"));
    // Another value is cut at the same place.
    let another = listing.replace("41@7", "42@7");
    assert_eq!(list(&the_same_value_twice(42)).unwrap(), another);
}

#[test]
fn a_join_cuts_the_same_value_of_another_epoch() {
    // The only entry.
    board_2_installed()
        .accepts([news(2), append(2, 41), news(4)])
        .holds(2, [(41, 7)])
        .holds(4, [(41, 1)])
        .accepts([join(4)])
        .holds(4, [])
        .accepts([receive(4)])
        .holds(4, [(41, 7)]);
    // What 2 received from 1 is shared with what 4 received from 1, also where the same
    // value stands at two places. The first entry of another epoch is cut, and all after
    // it.
    four_boards()
        .accepts([append(1, 41), append(1, 41), append(1, 41), append(1, 42)])
        .accepts([receive(4), receive(4), receive(4), receive(4)])
        .accepts([receive(2), receive(2)])
        .accepts([CHANGE, news(2), news(3), CONTROLLER_NEWS])
        .accepts([hear(2), hear(3), install(2), news(2)])
        .accepts([append(2, 41), append(2, 42), append(2, 43), news(4)])
        .holds(2, [(41, 1), (41, 1), (41, 7), (42, 7), (43, 7)])
        .holds(4, [(41, 1), (41, 1), (41, 1), (42, 1)])
        .accepts([join(4)])
        .holds(4, [(41, 1), (41, 1)])
        .accepts([receive(4), receive(4)])
        .holds(4, [(41, 1), (41, 1), (41, 7), (42, 7)]);
}

#[test]
fn a_join_cuts_another_value_of_the_same_epoch() {
    // In a run only one board appends under a leader epoch. In this row 1 and 2 both do,
    // and then 2 follows 1.
    let mut trial = Trial::opened(1);
    trial.0.boards[1].view.leader = 2;
    trial
        .accepts([append(1, 41), append(1, 42)])
        .accepts([append(2, 41), append(2, 43)])
        .holds(2, [(41, 1), (43, 1)]);
    let board = &mut trial.0.boards[1];
    board.view.leader = 1;
    board.view.members = 0b11;
    board.joined = 2;
    trial.accepts([join(2)]).holds(2, [(41, 1)]);
}

/// 41 goes from 1 to 2 and from 2 to 3, 42 from 2 to 3, and both, with 43, from 3 to 4.
fn from_leader_to_leader() -> Vec<u8> {
    let records = [
        open(1),
        // members 1 to 4, leader 1, normal, epoch 5
        add(2),
        add(3),
        add(4),
        news(1),
        CONTROLLER_NEWS,
        READ_LEADER,
        read(2),
        read(3),
        SET_NORMAL,
        news(1),
        news(2),
        news(3),
        news(4),
        append(1, 41),
        receive(2),
        // 2 is installed: epoch and leader epoch 7
        CHANGE,
        news(2),
        news(3),
        CONTROLLER_NEWS,
        hear(2),
        hear(3),
        install(2),
        news(2),
        news(3),
        join(3),
        receive(3),
        append(2, 42),
        receive(3),
        // normal at epoch 8
        READ_LEADER,
        read(3),
        SET_NORMAL,
        // 3 is installed: epoch and leader epoch 10
        CHANGE,
        news(3),
        news(4),
        CONTROLLER_NEWS,
        hear(3),
        hear(4),
        install(3),
        news(3),
        append(3, 43),
        news(4),
        join(4),
        receive(4),
        receive(4),
        receive(4),
        count(3, 4),
        receipt(3),
        receipt(3),
        receipt(3),
    ];
    records.concat()
}

#[test]
fn the_listing_of_entries_from_leader_to_leader() {
    // All records are accepted.
    let steps = [
        0, 3, 3, 3, 6, 10, 11, 12, 12, 13, 6, 6, 6, 6, 1, 8, 5, 6, 6, 10, 14, 14, 15, 6, 6, 7, 8,
        1, 8, 11, 12, 13, 5, 6, 6, 10, 14, 14, 15, 6, 1, 6, 7, 8, 8, 8, 9, 2, 2, 2,
    ];
    let mut listing = String::new();
    for (number, step) in (1..).zip(steps) {
        let behind = match number {
            // 1, 2 and 3 are read, 4 is not.
            10 => " 123",
            // 2 and 3 are heard, and then read, 4 is not.
            23 | 32 => " 23",
            // 3 and 4, the only members, are heard; 3 has counted 4 with three entries.
            39 | 48..=50 => " 34",
            _ => "",
        };
        listing += &format!("{number} {step} 0{behind}\n");
    }
    listing += "\
registry 10 10 3 34 waiting
control 10 10 3 34 leader
board 1 5 1 1 1234 1 1 late
board 2 7 7 2 234 7 2 late
board 3 10 10 3 34 10 3 current
board 4 10 10 3 34 10 3 current
board 5 1 1 1 1 1 0 late
board 6 1 1 1 1 1 0 late
board 7 1 1 1 1 1 0 late
board 8 1 1 1 1 1 0 late
receipts 3 41@1 42@7 43@10
";
    assert_eq!(list(&from_leader_to_leader()).unwrap(), listing);
}

#[test]
fn a_received_entry_keeps_the_epoch_of_the_board_that_appended_it() {
    let mut trial = four_boards();
    trial
        .accepts([append(1, 41), receive(2)])
        .holds(1, [(41, 1)])
        .holds(2, [(41, 1)])
        .accepts([CHANGE, news(2), news(3), CONTROLLER_NEWS])
        .accepts([hear(2), hear(3), install(2), news(2), news(3), join(3)]);
    // 3 takes it from 2, whose leader epoch is 7, as are the registry's and its own.
    assert_eq!(trial.0.registry.leader_epoch, 7);
    assert_eq!(trial.0.board(2).view.leader_epoch, 7);
    assert_eq!(trial.0.board(3).view.leader_epoch, 7);
    trial
        .accepts([receive(3)])
        .holds(3, [(41, 1)])
        .accepts([append(2, 42), receive(3)])
        .holds(2, [(41, 1), (42, 7)])
        .holds(3, [(41, 1), (42, 7)])
        .accepts([READ_LEADER, read(3), SET_NORMAL, CHANGE])
        .accepts([news(3), news(4), CONTROLLER_NEWS, hear(3), hear(4)])
        .accepts([install(3), news(3), append(3, 43), news(4), join(4)]);
    // 4 takes them from 3, whose leader epoch is 10.
    assert_eq!(trial.0.registry.leader_epoch, 10);
    assert_eq!(trial.0.board(3).view.leader_epoch, 10);
    trial
        .holds(4, [])
        .accepts([receive(4)])
        .holds(4, [(41, 1)])
        .accepts([receive(4), receive(4)])
        .holds(3, [(41, 1), (42, 7), (43, 10)])
        .holds(4, [(41, 1), (42, 7), (43, 10)]);
}

/// Members 1 and 2, leader 1, normal, epoch 3. 2 has this news, 1 has epoch 2.
fn two_boards() -> [[u8; 8]; 8] {
    [
        open(1),
        add(2),
        news(1),
        CONTROLLER_NEWS,
        READ_LEADER,
        read(2),
        SET_NORMAL,
        news(2),
    ]
}

/// 1 is replaced by 2 under leader epoch 4, has no news of it, and goes on.
fn a_replaced_leader_goes_on() -> Vec<u8> {
    let records = [
        CHANGE,
        // 2 has no news either: it follows 1, and 1 gives a receipt for 41@1
        append(1, 41),
        receive(2),
        count(1, 2),
        receipt(1),
        append(1, 42),
        // 2 leads with 41@1 42@4; 1 has 41@1 42@1 43@1
        news(2),
        append(2, 42),
        append(1, 43),
        // 1 has counted 2 with one entry, 2 is its only member
        receipt(1),
        receipt(2),
        receipt(2),
        // 1 joins 2 and keeps 41@1
        add(1),
        news(1),
        join(1),
    ];
    [&two_boards()[..], &records].concat().concat()
}

#[test]
fn the_listing_of_a_replaced_leader_that_goes_on() {
    let listing = "\
1 0 0
2 3 0
3 6 0
4 10 0
5 11 0
6 12 0
7 13 0 12
8 6 0
9 5 0
10 1 0
11 8 0
12 9 0
13 2 0 12
14 1 0
15 6 0
16 1 0
17 1 0
18 2 14
19 2 0 2
20 2 12
21 3 0
22 6 0
23 7 0
registry 5 4 2 12 waiting
control 3 1 1 12 idle
board 1 5 4 2 12 4 1 current
board 2 4 4 2 2 4 2 late
board 3 1 1 1 1 1 0 late
board 4 1 1 1 1 1 0 late
board 5 1 1 1 1 1 0 late
board 6 1 1 1 1 1 0 late
board 7 1 1 1 1 1 0 late
board 8 1 1 1 1 1 0 late
receipts 2 41@1 42@4
";
    assert_eq!(list(&a_replaced_leader_goes_on()).unwrap(), listing);
}

#[test]
fn a_replaced_leader_appends_under_its_own_leader_epoch() {
    let mut trial = board_2_installed();
    // 1 holds itself leader under leader epoch 1; the registry's is 7.
    assert_eq!(trial.0.registry.leader_epoch, 7);
    assert_eq!(trial.0.board(1).view.leader_epoch, 1);
    trial
        .accepts([append(1, 42)])
        .holds(1, [(41, 1), (42, 1)])
        .accepts([news(2), append(2, 42), append(1, 43), append(2, 43)])
        .holds(1, [(41, 1), (42, 1), (43, 1)])
        .holds(2, [(42, 7), (43, 7)]);
    // Another epoch of the registry's is no leader epoch: 2 has news of epoch 8.
    trial
        .accepts([add(5), news(2), append(2, 44)])
        .holds(2, [(42, 7), (43, 7), (44, 7)]);
    assert_eq!(trial.0.board(2).view.epoch, 8);
    // 4 has no news and follows 1: it receives the entries as they are.
    trial
        .accepts([receive(4), receive(4)])
        .holds(4, [(41, 1), (42, 1), (43, 1)]);
}

#[test]
fn an_entry_has_no_other_epoch_of_its_board() {
    // In a run a board that leads has joined equal to its leader epoch. In this row all
    // epochs differ.
    let mut trial = Trial::opened(1);
    let board = &mut trial.0.boards[0];
    (board.view.epoch, board.view.leader_epoch, board.joined) = (7, 5, 3);
    trial
        .accepts([append(1, 41), receipt(1)])
        .holds(1, [(41, 5)])
        .ends_in("receipts 1 41@5");
}

/// 2 receives 41 from 1 and gives the receipt for it under leader epoch 4.
fn a_receipt_for_an_older_entry() -> Vec<u8> {
    let records = [
        append(1, 41),
        receive(2),
        append(1, 42),
        CHANGE,
        // 2 has no news: it is not the leader yet
        receipt(2),
        news(2),
        append(2, 42),
        receipt(2),
        receipt(2),
    ];
    [&two_boards()[..], &records].concat().concat()
}

#[test]
fn the_listing_of_a_receipt_for_an_older_entry() {
    let listing = "\
1 0 0
2 3 0
3 6 0
4 10 0
5 11 0
6 12 0
7 13 0 12
8 6 0
9 1 0
10 8 0
11 1 0
12 5 0
13 2 8
14 6 0
15 1 0
16 2 0 2
17 2 0 2
registry 4 4 2 2 normal
control 3 1 1 12 idle
board 1 2 1 1 12 1 2 late
board 2 4 4 2 2 4 2 current
board 3 1 1 1 1 1 0 late
board 4 1 1 1 1 1 0 late
board 5 1 1 1 1 1 0 late
board 6 1 1 1 1 1 0 late
board 7 1 1 1 1 1 0 late
board 8 1 1 1 1 1 0 late
receipts 2 41@1 42@4
";
    assert_eq!(list(&a_receipt_for_an_older_entry()).unwrap(), listing);
}

#[test]
fn a_receipt_has_the_epoch_of_its_entry() {
    let mut trial = four_boards();
    trial
        .accepts([append(1, 41), receive(2)])
        .accepts([CHANGE, news(2), news(3), CONTROLLER_NEWS])
        .accepts([hear(2), hear(3), install(2), news(2), append(2, 41)])
        .holds(2, [(41, 1), (41, 7)])
        .accepts([news(3), join(3), receive(3), receive(3), count(2, 3)])
        .ends_in("receipts 0");
    // 2 gives both under leader epoch 7.
    assert_eq!(trial.0.board(2).view.leader_epoch, 7);
    trial
        .accepts([receipt(2)])
        .ends_in("receipts 1 41@1")
        .accepts([receipt(2)])
        .ends_in("receipts 2 41@1 41@7");
    let values: &[u32] = &trial.0.receipts;
    assert_eq!(values, [41, 41]);
    assert_eq!(trial.0.receipts.epochs(), [1, 7]);
}

#[test]
fn the_shortest_and_the_longest_receipts() {
    let mut trial = Trial::opened(1);
    trial
        .accepts([append(1, 0), append(1, 4_294_967_295)])
        .accepts([receipt(1), receipt(1)])
        .ends_in("receipts 2 0@1 4294967295@1");
    // To leader epoch 4,000: epoch 3,997 after 1,998 times add and remove, then 3,998
    // to 4,000 with add, set normal and change.
    let mut trial = Trial::opened(1);
    for _ in 0..1998 {
        trial.accepts([add(2), remove(2)]);
    }
    trial
        .accepts([add(2), news(1), CONTROLLER_NEWS, READ_LEADER, read(2)])
        .accepts([SET_NORMAL, CHANGE, news(2)]);
    assert_eq!(trial.0.registry.leader_epoch, 4000);
    for _ in 0..512 {
        trial.accepts([append(2, 4_294_967_295), receipt(2)]);
    }
    trial.gives([(append(2, 41), 13), (receipt(2), 12)]);
    // A space, ten digits, @ and four digits for each.
    let line = format!("receipts 512{}", " 4294967295@4000".repeat(512));
    assert_eq!(line.len(), 12 + 512 * 16);
    trial.ends_in(&line);
    assert!(4095 * 19 + trial.listing().len() <= listing::LENGTH_MAX);
}

#[test]
fn tallies_of_the_stories() {
    let none = Tally::default();
    // Record 31 cuts 41@1 where the leader has 41@7. 2 gives the receipt for 40@1 under
    // leader epoch 7.
    let expected = Tally {
        joins_cut_by_epoch: 1,
        receipts_of_older: 1,
        ..none
    };
    assert_eq!(tally(&the_same_value_twice(41)), Ok(expected));
    // 41@1 and 42@7 differ in value already.
    let expected = Tally {
        receipts_of_older: 1,
        ..none
    };
    assert_eq!(tally(&the_same_value_twice(42)), Ok(expected));
    // 41@1 is received under leader epochs 7 and 10, 42@7 under 10, and 3 gives the
    // receipts for both under 10. Both joins have nothing to cut.
    let expected = Tally {
        receives_of_older: 3,
        receipts_of_older: 2,
        ..none
    };
    assert_eq!(tally(&from_leader_to_leader()), Ok(expected));
    // 1 appends 41, 42 and 43 under 1 while the registry has 4, and its join cuts 42@1
    // where the leader has 42@4. Each gives a receipt for an entry of its own.
    let expected = Tally {
        joins_cut_by_epoch: 1,
        appends_under_replaced: 3,
        ..none
    };
    assert_eq!(tally(&a_replaced_leader_goes_on()), Ok(expected));
    // 2 gives the receipt for 41@1 under 4.
    let expected = Tally {
        receipts_of_older: 1,
        ..none
    };
    assert_eq!(tally(&a_receipt_for_an_older_entry()), Ok(expected));
}

#[test]
fn a_tally_counts_accepted_joins_alone() {
    // 1 tries to join while it holds itself leader, then with news by which it is no
    // member, and once more after it has joined. The second time its log and its leader's
    // differ as at the accepted join.
    let story = a_replaced_leader_goes_on();
    let (before, end) = story.split_at(8 * 20);
    let tried = [before, &join(1), &news(1), &join(1), end, &join(1)].concat();
    let listing = list(&tried).unwrap();
    for line in ["21 7 9", "23 7 5", "26 7 0", "27 7 11"] {
        assert!(listing.contains(&format!("\n{line}\n")), "{line}");
    }
    let tally_of_tried = tally(&tried).unwrap();
    assert_eq!(tally_of_tried.joins_cut_by_epoch, 1);
    assert_eq!(tally_of_tried, tally(&story).unwrap());
    // Malformed records and an opening alone count for nothing, refused sheets have none.
    let malformed = [open(1), on(7, 0), on(7, 9), on(8, 255), on(200, 7)].concat();
    assert_eq!(tally(&malformed), Ok(Tally::default()));
    assert_eq!(tally(&sample()), Ok(Tally::default()));
    assert_eq!(tally(&open(1)), Ok(Tally::default()));
    assert_eq!(tally(&open(9)), Err(2));
    assert_eq!(tally(&[]), Err(2));
}
