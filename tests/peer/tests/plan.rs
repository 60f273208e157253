//! How many steps back to normal: document 02, Paper 10. Lists of small rows are worked out
//! from the paper by hand; lists of random rows are played.

mod random;

use peer::image::{read, save_sheet, write};
use peer::plan::{plan, plan_image, plan_in, plan_sheet, PLAN_BYTES, PLAN_MAX};
use peer::row::{Heard, Row, Stage, Status, View};
use peer::seed::make;
use random::{row_of, Random};

const fn on(step: u8, b: u8) -> [u8; 8] {
    [step, b, 0, 0, 0, 0, 0, 0]
}

const fn open(b: u8) -> [u8; 8] {
    on(0, b)
}

const fn append(b: u8, value: u8) -> [u8; 8] {
    [1, b, 0, 0, value, 0, 0, 0]
}

const fn add(b: u8) -> [u8; 8] {
    on(3, b)
}

const fn remove(b: u8) -> [u8; 8] {
    on(4, b)
}

const CHANGE: [u8; 8] = on(5, 0);

const fn news(b: u8) -> [u8; 8] {
    on(6, b)
}

const fn join(b: u8) -> [u8; 8] {
    on(7, b)
}

const fn receive(b: u8) -> [u8; 8] {
    on(8, b)
}

const CONTROLLER_NEWS: [u8; 8] = on(10, 0);
const READ_LEADER: [u8; 8] = on(11, 0);

const fn reads(b: u8) -> [u8; 8] {
    on(12, b)
}

const SET_NORMAL: [u8; 8] = on(13, 0);

const fn hear(b: u8) -> [u8; 8] {
    on(14, b)
}

const fn install(b: u8) -> [u8; 8] {
    on(15, b)
}

/// The row after these records, each of them accepted.
#[track_caller]
fn after(mut row: Row, records: &[[u8; 8]]) -> Row {
    for record in records {
        assert_eq!(row.call(record).answer, 0, "{record:?}");
    }
    row
}

/// The row of a run: an opening, and records each of them accepted.
#[track_caller]
fn run(records: &[[u8; 8]]) -> Row {
    after(Row::open(records[0][1]).unwrap(), &records[1..])
}

/// The row has this list: each record of it is accepted in turn, and the status ends normal.
#[track_caller]
fn has_list(row: &Row, list: &[[u8; 8]]) {
    assert_eq!(plan(row).as_deref(), Ok(list));
    assert_eq!(after(row.clone(), list).status, Status::Normal);
}

/// The row has no list.
#[track_caller]
fn has_none(row: &Row) {
    assert!(!row.turned_away());
    assert_eq!(plan(row), Err(20));
}

/// Opened with 1, 2 added: waiting, and nobody has the news.
fn two() -> Row {
    run(&[open(1), add(2)])
}

/// Members 1 to 3, leader 1, waiting at epoch 3, and nobody has the news.
fn three() -> Row {
    run(&[open(1), add(2), add(3)])
}

/// Members 1 to 4, leader 1, normal at epoch 5, news taken, logs empty.
fn four() -> Row {
    let row = run(&[open(1), add(2), add(3), add(4), CONTROLLER_NEWS, news(1)]);
    let row = after(row, &[READ_LEADER, reads(2), reads(3), SET_NORMAL]);
    after(row, &[news(1), news(2), news(3), news(4)])
}

/// A board gets n entries that it did not receive, whoever leads in its view.
fn lengthen(row: &mut Row, b: u8, n: usize) {
    let place = usize::from(b) - 1;
    let leader = row.boards[place].view.leader;
    row.boards[place].view.leader = b;
    for _ in 0..n {
        assert_eq!(row.step(&append(b, 70 + b)).answer, 0);
    }
    row.boards[place].view.leader = leader;
}

fn heard(length: usize, joined: u16) -> Heard {
    Heard {
        length: Some(length),
        joined,
    }
}

/// Members 1 and 2, leader 1, waiting at epoch 2. Both and the controller have the news, and it
/// has read the leader.
fn read_two() -> Row {
    let news = [CONTROLLER_NEWS, news(1), news(2), READ_LEADER];
    after(two(), &news)
}

#[test]
fn how_many() {
    assert_eq!((PLAN_MAX, PLAN_BYTES), (2064, 16_512));
}

#[test]
fn none_if_normal() {
    for b in 1..=8 {
        has_list(&run(&[open(b)]), &[]);
    }
    has_list(&four(), &[]);
    // Also where nobody has the news.
    has_list(&run(&[open(1), append(1, 41), add(2), remove(2)]), &[]);
    // Whatever its members and epoch are: nothing is asked of a normal row.
    let mut row = four();
    row.registry.epoch = 4000;
    row.registry.members = 0;
    row.boards[0].view.leader = 7;
    has_list(&row, &[]);
}

#[test]
fn waiting_with_a_joined_board() {
    // Board 2 has joined under leader epoch 1: no join.
    let list = [CONTROLLER_NEWS, news(1), READ_LEADER];
    let list = [&list[..], &[news(2), reads(2), SET_NORMAL]].concat();
    has_list(&two(), &list);
    // At each place of the list, the rest of it.
    for done in 0..=list.len() {
        has_list(&after(two(), &list[..done]), &list[done..]);
    }
}

#[test]
fn as_many_receives_as_bring_it_to_the_leader() {
    let row = run(&[open(1), append(1, 41), append(1, 42), append(1, 43), add(2)]);
    let list = [
        CONTROLLER_NEWS,
        news(1),
        READ_LEADER,
        news(2),
        receive(2),
        receive(2),
        receive(2),
        reads(2),
        SET_NORMAL,
    ];
    has_list(&row, &list);
    for done in 0..=list.len() {
        has_list(&after(row.clone(), &list[..done]), &list[done..]);
    }
    // It has one of the three.
    let row = after(row, &[news(1), news(2), receive(2)]);
    let list = [CONTROLLER_NEWS, READ_LEADER, receive(2)];
    let list = [&list[..], &[receive(2), reads(2), SET_NORMAL]].concat();
    has_list(&row, &list);
}

#[test]
fn each_news_is_left_out_alone() {
    let full = [CONTROLLER_NEWS, news(1), READ_LEADER];
    let full = [&full[..], &[news(2), reads(2), SET_NORMAL]].concat();
    for taken in [CONTROLLER_NEWS, news(1), news(2)] {
        let rest: Vec<_> = full.iter().copied().filter(|&r| r != taken).collect();
        assert_eq!(rest.len(), 5);
        has_list(&after(two(), &[taken]), &rest);
    }
}

#[test]
fn at_stage_boards_the_leader_is_not_read_again() {
    has_list(&read_two(), &[reads(2), SET_NORMAL]);
    // It has appended since: the receives go to its length now, not to the one heard.
    let row = after(read_two(), &[append(1, 41), append(1, 42)]);
    let list = [receive(2), receive(2), reads(2), SET_NORMAL];
    has_list(&row, &list);
    // Board 2 was read before it had the entries: it is read again.
    let row = after(read_two(), &[reads(2), append(1, 41)]);
    has_list(&row, &[receive(2), reads(2), SET_NORMAL]);
}

#[test]
fn after_other_news_the_leader_is_read_again() {
    // The controller's news makes stage leader of stage boards.
    let row = after(read_two(), &[add(3)]);
    let list = [CONTROLLER_NEWS, news(1), READ_LEADER];
    let list = [&list[..], &[news(2), reads(2), SET_NORMAL]].concat();
    has_list(&row, &list);
}

#[test]
fn the_lowest_numbered_heard_before_or_not() {
    // 3 is read: set normal would be accepted. The list names 2, which is not read.
    let read = [CONTROLLER_NEWS, news(1), READ_LEADER, reads(3)];
    let row = after(three(), &read);
    assert_eq!(row.clone().step(&SET_NORMAL).answer, 0);
    has_list(&row, &[news(2), reads(2), SET_NORMAL]);
    // 2 is read, without its news: the news alone is missing.
    let row = after(row, &[reads(2)]);
    has_list(&row, &[news(2), SET_NORMAL]);
}

#[test]
fn as_many_as_make_a_majority_with_the_leader() {
    // Leader 5, and of 1 to 8 members the lowest others, as many as make 1, 2, 2, 3, ...
    let order = [8, 3, 1, 7, 2, 4, 6];
    let others: [&[u8]; 7] = [
        &[8],
        &[3],
        &[1, 3],
        &[1, 3],
        &[1, 2, 3],
        &[1, 2, 3],
        &[1, 2, 3, 4],
    ];
    let mut row = run(&[open(5)]);
    for (b, named) in order.into_iter().zip(others) {
        row = after(row, &[add(b)]);
        let mut list = vec![CONTROLLER_NEWS, news(5), READ_LEADER];
        for &b in named {
            list.extend([news(b), reads(b)]);
        }
        list.push(SET_NORMAL);
        has_list(&row, &list);
    }
}

/// Waiting with one member, the leader: no run gives it.
#[test]
fn a_leader_alone() {
    let mut row = run(&[open(1)]);
    row.status = Status::Waiting;
    row.control.stage = Stage::Leader;
    has_list(&row, &[READ_LEADER, SET_NORMAL]);
}

#[test]
fn choosing_with_a_tie() {
    // Members 2 to 4, of which 2 and 3 are the lowest majority, both heard at 0 and joined 1.
    let row = after(four(), &[CHANGE]);
    let list = [
        CONTROLLER_NEWS,
        news(2),
        hear(2),
        news(3),
        hear(3),
        install(2),
        // As waiting, at a new leader epoch. The controller has the news.
        news(2),
        READ_LEADER,
        news(3),
        join(3),
        reads(3),
        SET_NORMAL,
    ];
    has_list(&row, &list);
    // At each place of the list, the rest of it: what is left out is judged at its place.
    for done in 0..=list.len() {
        has_list(&after(row.clone(), &list[..done]), &list[done..]);
    }
    // 3 and 4 have the news, and 4 is heard: it is none of them.
    let row = after(row, &[CONTROLLER_NEWS, news(3), news(4), hear(4)]);
    let rest = [news(2), hear(2), hear(3), install(2)];
    has_list(&row, &[&rest[..], &list[6..]].concat());
}

#[test]
fn choosing_the_longer_log() {
    // 3 has an entry that 2 lacks.
    let row = after(four(), &[append(1, 41), receive(3), CHANGE]);
    let list = [
        CONTROLLER_NEWS,
        news(2),
        hear(2),
        news(3),
        hear(3),
        install(3),
        news(3),
        READ_LEADER,
        news(2),
        join(2),
        receive(2),
        reads(2),
        SET_NORMAL,
    ];
    has_list(&row, &list);
}

#[test]
fn choosing_with_a_board_ranked_above_and_heard_before() {
    // 4 has an entry and is heard; it is not of the lowest majority 2 and 3.
    let row = after(four(), &[append(1, 41), receive(4), CHANGE]);
    let row = after(row, &[CONTROLLER_NEWS, news(4), hear(4)]);
    assert_eq!(row.control.heard[3], heard(1, 1));
    let list = [
        news(2),
        hear(2),
        news(3),
        hear(3),
        install(2),
        news(2),
        READ_LEADER,
        news(3),
        join(3),
        reads(3),
        SET_NORMAL,
    ];
    has_list(&row, &list);
}

/// The row after a change, in which 2 and 3 are heard: a length and a joined epoch each.
fn choosing(two: Heard, three: Heard) -> Row {
    let mut row = after(four(), &[CHANGE, CONTROLLER_NEWS, news(2), news(3)]);
    row.control.heard[1] = two;
    row.control.heard[2] = three;
    row
}

#[test]
fn ranked_as_heard() {
    // The logs are empty: no hearing is due, and what was heard before ranks.
    let installs = |two, three, b: u8| {
        let other = 5 - b;
        let list = [install(b), news(b), READ_LEADER, news(other), join(other)];
        let list = [&list[..], &[reads(other), SET_NORMAL]].concat();
        has_list(&choosing(two, three), &list);
    };
    installs(heard(0, 1), heard(0, 1), 2);
    installs(heard(0, 1), heard(1, 1), 3);
    installs(heard(1, 1), heard(0, 1), 2);
    // By joined epoch first, then length.
    installs(heard(9, 1), heard(0, 2), 3);
    installs(heard(0, 2), heard(9, 1), 2);
    installs(heard(9, 2), heard(9, 2), 2);
    installs(heard(0, 0), heard(0, 1), 3);
}

#[test]
fn heard_again_where_it_is_longer_now() {
    // 2 was heard at joined 5; it is heard anew with its own, 1, and ties with 3.
    let mut row = choosing(heard(0, 5), heard(1, 1));
    lengthen(&mut row, 2, 1);
    let list = [hear(2), install(2), news(2), READ_LEADER];
    let list = [&list[..], &[news(3), join(3), receive(3)]].concat();
    has_list(&row, &[&list[..], &[reads(3), SET_NORMAL]].concat());
}

/// The last case of document 01: 2 is installed, takes news, appends 42; 4 takes news.
#[test]
fn boards_that_must_join() {
    let row = after(four(), &[append(1, 41), receive(4), CHANGE]);
    let row = after(row, &[news(2), news(3), CONTROLLER_NEWS, hear(2), hear(3)]);
    let row = after(row, &[install(2), news(2), append(2, 42), news(4)]);
    let list = [READ_LEADER, news(3), join(3)];
    let list = [&list[..], &[receive(3), reads(3), SET_NORMAL]].concat();
    has_list(&row, &list);
    // Without 3 it is 4, whose entry 41 is cut.
    let row = after(row, &[remove(3)]);
    let list = [CONTROLLER_NEWS, news(2), READ_LEADER, news(4), join(4)];
    let list = [&list[..], &[receive(4), reads(4), SET_NORMAL]].concat();
    has_list(&row, &list);
    let row = after(row, &list);
    assert_eq!(row.board(4).log[..], [42]);
}

#[test]
fn a_join_that_keeps_what_is_shared() {
    // 2 has 41, 3 has 41 and 42; 3 is installed.
    let row = after(four(), &[append(1, 41), append(1, 42), receive(2)]);
    let row = after(row, &[receive(3), receive(3), CHANGE]);
    let list = plan(&row).unwrap();
    let end = [news(3), READ_LEADER, news(2), join(2)];
    let end = [&end[..], &[receive(2), reads(2), SET_NORMAL]].concat();
    assert!(list.ends_with(&end), "{list:?}");
    has_list(&row, &list);
}

/// No run gives it: a joined board is never longer than its leader there.
#[test]
fn a_board_longer_than_the_leader_gets_no_receive() {
    for (own, leading) in [(1, 0), (5, 4), (512, 0), (512, 511)] {
        let mut row = two();
        lengthen(&mut row, 1, leading);
        lengthen(&mut row, 2, own);
        let list = [CONTROLLER_NEWS, news(1), READ_LEADER];
        let list = [&list[..], &[news(2), reads(2), SET_NORMAL]].concat();
        has_list(&row, &list);
    }
    // Of equal logs neither.
    let mut row = two();
    lengthen(&mut row, 1, 3);
    lengthen(&mut row, 2, 3);
    assert_eq!(plan(&row).map(|list| list.len()), Ok(6));
}

/// All records would be accepted: 3 is heard, and with 2 it is a majority of 2 and 3.
#[test]
fn a_leader_that_is_no_member() {
    let row = |members| {
        let mut row = read_two();
        row.registry.members = members;
        row.boards[1].view.members = members;
        row.control.view.members = members;
        row.control.heard[2] = heard(0, 0);
        row
    };
    has_list(&row(0b111), &[reads(2), SET_NORMAL]);
    has_none(&row(0b110));
    after(row(0b110), &[reads(2), SET_NORMAL]);
}

/// All records would be accepted: a joined board as long as its leader is read.
#[test]
fn another_leader_in_its_view_after_its_news() {
    has_list(&read_two(), &[reads(2), SET_NORMAL]);
    // Board 2 follows 3, under the same leader epoch, and has no news due.
    let mut row = read_two();
    row.boards[1].view.leader = 3;
    has_none(&row);
    after(row.clone(), &[reads(2), SET_NORMAL]);
    // With news due, it has the leader after it.
    row.boards[1].view.epoch = 1;
    has_list(&row, &[news(2), reads(2), SET_NORMAL]);
    // It leads itself, or follows none.
    for leader in [0, 2] {
        let mut row = read_two();
        row.boards[1].view.leader = leader;
        has_none(&row);
    }
    // The leader is included.
    for leader in [0, 2, 8] {
        let mut row = read_two();
        row.boards[0].view.leader = leader;
        has_none(&row);
        after(row.clone(), &[reads(2), SET_NORMAL]);
        row.boards[0].view.epoch = 1;
        has_list(&row, &[news(1), reads(2), SET_NORMAL]);
    }
}

#[test]
fn boards_that_are_not_named_may_have_another_leader() {
    let row = after(three(), &[CONTROLLER_NEWS, news(1), news(2), news(3)]);
    let mut row = after(row, &[READ_LEADER]);
    for b in 3..=8 {
        row.boards[b - 1].view.leader = 7;
    }
    has_list(&row, &[reads(2), SET_NORMAL]);
    // The rule is the waiting part's: in hearing they may have another one.
    let mut row = choosing(heard(0, 1), heard(0, 1));
    row.boards[1].view.leader = 7;
    row.boards[2].view.leader = 7;
    let list = [install(2), news(2), READ_LEADER];
    let list = [&list[..], &[news(3), join(3), reads(3), SET_NORMAL]].concat();
    has_list(&row, &list);
}

/// Waiting with members 1 and 2, or 1 to 3: 2 makes a majority with the leader 1 in both.
fn waiting_at(epoch: u16) -> Row {
    let mut row = two();
    while row.registry.epoch < epoch {
        let turn = if row.registry.has(3) { remove } else { add };
        row = after(row, &[turn(3)]);
    }
    assert_eq!((row.status, row.registry.epoch), (Status::Waiting, epoch));
    row
}

/// Choosing with members 2 and 3, or 2 to 4: 2 and 3 are the lowest majority of both.
fn choosing_at(epoch: u16) -> Row {
    let mut row = three();
    while row.registry.epoch < epoch - 2 {
        let turn = if row.registry.has(4) { remove } else { add };
        row = after(row, &[turn(4)]);
    }
    let row = after(row, &[CONTROLLER_NEWS, news(1), READ_LEADER]);
    let row = after(row, &[reads(2), reads(3), SET_NORMAL, CHANGE]);
    assert_eq!((row.status, row.registry.epoch), (Status::Choosing, epoch));
    row
}

#[test]
fn epochs_while_waiting() {
    let list = [CONTROLLER_NEWS, news(1), READ_LEADER];
    let list = [&list[..], &[news(2), reads(2), SET_NORMAL]].concat();
    for epoch in [3, 3997, 3998, 3999] {
        has_list(&waiting_at(epoch), &list);
        let end = after(waiting_at(epoch), &list);
        assert_eq!(end.registry.epoch, epoch + 1);
    }
    // Set normal is refused 7.
    let row = waiting_at(4000);
    has_none(&row);
    assert_eq!(after(row, &list[..5]).step(&SET_NORMAL).answer, 7);
}

#[test]
fn epochs_while_choosing() {
    let list = [
        CONTROLLER_NEWS,
        news(2),
        hear(2),
        news(3),
        hear(3),
        install(2),
        news(2),
        READ_LEADER,
        news(3),
        join(3),
        reads(3),
        SET_NORMAL,
    ];
    for epoch in [6, 3997, 3998] {
        has_list(&choosing_at(epoch), &list);
        let end = after(choosing_at(epoch), &list);
        assert_eq!(end.registry.epoch, epoch + 2);
    }
    // Set normal is refused 7; at 4,000 the install.
    let row = choosing_at(3999);
    has_none(&row);
    assert_eq!(after(row, &list[..11]).step(&SET_NORMAL).answer, 7);
    let row = choosing_at(4000);
    has_none(&row);
    assert_eq!(after(row, &list[..5]).step(&install(2)).answer, 7);
}

#[test]
fn epochs_while_normal() {
    let mut row = run(&[open(1)]);
    for epoch in [3998, 3999, 4000] {
        row.registry.epoch = epoch;
        has_list(&row, &[]);
    }
}

#[test]
fn no_members() {
    for status in [Status::Waiting, Status::Choosing] {
        let mut row = run(&[open(1)]);
        row.status = status;
        row.registry.members = 0;
        row.registry.epoch = 2;
        has_none(&row);
        // The registry may name no leader while choosing.
        row.registry.leader = 0;
        match status {
            Status::Choosing => has_none(&row),
            _ => assert_eq!(plan(&row), Err(1)),
        }
    }
}

/// Rows that no run gives, in which some record of the list would be refused.
#[test]
fn a_record_would_be_refused() {
    // The controller has the epoch, but another stage [15].
    for stage in [Stage::Idle, Stage::Choosing] {
        let mut row = read_two();
        row.control.stage = stage;
        has_none(&row);
    }
    let mut row = choosing(heard(0, 1), heard(0, 1));
    row.control.stage = Stage::Boards;
    row.control.view.leader = 1;
    has_none(&row);
    // Its epoch is ahead of the registry's [16].
    let mut row = read_two();
    row.control.view.epoch = 9;
    has_none(&row);
    // It has another leader: board 2, which is not read [6].
    let mut row = read_two();
    row.control.view.leader = 2;
    has_none(&row);
    // Its members lack board 2 [5].
    let mut row = read_two();
    row.control.view.members = 0b101;
    has_none(&row);
    // The leader's epoch is ahead of the controller's [16].
    let mut row = after(two(), &[CONTROLLER_NEWS, news(1)]);
    row.boards[0].view.epoch = 3;
    has_none(&row);
    // The leader was heard at more than it has, and board 2 cannot reach that [14].
    let mut row = read_two();
    row.control.heard[0] = heard(1, 0);
    has_none(&row);
    // A board to hear has an epoch ahead of the controller's [16].
    let mut row = choosing(heard(0, 1), heard(0, 1));
    row.boards[2].view.epoch = 4000;
    has_none(&row);
}

/// What is left out is so for one number alone, also if the rest would be accepted without it.
#[test]
fn a_hearing_or_a_reading_refused_before_12() {
    // Board 3 is heard before, and is ahead by one epoch, with 2 as its leader [16].
    let mut row = choosing(heard(0, 1), heard(0, 1));
    let next = row.registry.epoch + 1;
    row.boards[2].view = View {
        epoch: next,
        leader_epoch: next,
        leader: 2,
        members: row.registry.members,
    };
    let rest = [install(2), news(2), READ_LEADER];
    let rest = [&rest[..], &[join(3), reads(3), SET_NORMAL]].concat();
    after(row.clone(), &rest);
    has_none(&row);
    // Both boards are heard before, or board 3 in place of 2. Board 2 is the controller's leader
    // [6], or none of its members [5], or joined under another leader epoch [11].
    let mut row = read_two();
    row.control.heard[1] = heard(0, 0);
    row.control.heard[2] = heard(0, 0);
    has_list(&row, &[SET_NORMAL]);
    let mut leads = row.clone();
    leads.control.view.leader = 2;
    let mut no_member = row.clone();
    no_member.control.view.members = 0b101;
    let mut unjoined = row;
    unjoined.control.view.leader_epoch = 2;
    for (row, answer) in [(leads, 6), (no_member, 5), (unjoined, 11)] {
        assert_eq!(row.clone().step(&reads(2)).answer, answer);
        after(row.clone(), &[SET_NORMAL]);
        has_none(&row);
    }
}

/// No run gives it: at equal epochs the controller holds what the registry holds.
#[test]
fn members_and_leader_are_the_registrys() {
    // The registry's members are 2 to 4, the controller's 1 to 3.
    let mut row = choosing(heard(0, 1), heard(0, 1));
    row.control.view.members = 0b0111;
    let list = [install(2), news(2), READ_LEADER];
    let list = [&list[..], &[news(3), join(3), reads(3), SET_NORMAL]].concat();
    has_list(&row, &list);
    // They are 1, 3 and 4, and the controller's 1 to 3.
    let mut row = read_two();
    row.registry.members = 0b1101;
    row.control.view.members = 0b0111;
    has_list(&row, &[news(3), reads(3), SET_NORMAL]);
    // The controller's leader is 3, which is no member.
    let mut row = read_two();
    row.control.view.leader = 3;
    has_list(&row, &[reads(2), SET_NORMAL]);
    // A board's own leader and members do not matter before its news.
    let mut row = after(two(), &[CONTROLLER_NEWS, news(1), READ_LEADER]);
    row.boards[1].view.leader = 0;
    row.boards[1].view.members = 0;
    has_list(&row, &[news(2), reads(2), SET_NORMAL]);
}

/// No run gives it: a board that is heard while choosing has the news.
#[test]
fn heard_before_with_news_due() {
    let mut row = choosing(heard(0, 1), heard(0, 1));
    row.boards[1].view.epoch = 1;
    let list = [news(2), install(2), news(2), READ_LEADER];
    let list = [&list[..], &[news(3), join(3), reads(3), SET_NORMAL]].concat();
    has_list(&row, &list);
}

/// A join is left out for 11 alone, which is the last of its checks, also if board 2 has joined
/// and needs no receive.
#[test]
fn a_join_refused_before_11() {
    // Its own members lack it [5].
    let mut row = read_two();
    row.boards[1].view.members = 0b001;
    has_none(&row);
    // Leader epochs differ [10].
    let mut row = read_two();
    row.boards[0].view.leader_epoch = 2;
    has_none(&row);
    // Its leader's members lack it, which a receive asks and a join does not [5].
    let mut row = read_two();
    row.boards[0].view.members = 0b001;
    has_list(&row, &[reads(2), SET_NORMAL]);
    lengthen(&mut row, 1, 1);
    has_none(&row);
}

/// Seven leads alone after a change, with 512 entries; then all others are added, of which none
/// has joined under its leader epoch.
fn longest() -> Row {
    let row = run(&[open(8), add(7), CONTROLLER_NEWS, news(8), READ_LEADER]);
    let row = after(row, &[reads(7), SET_NORMAL, CHANGE, news(7)]);
    assert_eq!((row.registry.leader, row.registry.members), (7, 0b100_0000));
    let row = after(row, &[append(7, 41); 512]);
    after(row, &[1, 2, 3, 4, 5, 6, 8].map(add))
}

#[test]
fn the_longest_list() {
    let row = longest();
    let mut list = vec![CONTROLLER_NEWS, news(7), READ_LEADER];
    for b in 1..=4 {
        list.extend([news(b), join(b)]);
        list.extend([receive(b); 512]);
        list.push(reads(b));
    }
    list.push(SET_NORMAL);
    assert_eq!(list.len(), 2064);
    has_list(&row, &list);
    // It fills the slice.
    let mut slice = vec![170; 16_512];
    assert_eq!(plan_in(&row, &mut slice), Ok(2064));
    assert_eq!(slice, list.as_flattened());
    let (mut slice, mut scratch) = (vec![170; 16_512], [255; 576]);
    let length = plan_image(&write(&row), &mut slice, &mut scratch);
    assert_eq!(length, 16_512);
    assert_eq!(slice, list.as_flattened());
}

/// Choosing with eight members, which no run gives. Board 1 has entries that 2 to 5 lack.
fn eight_choosing(entries: usize, with_news: &[usize]) -> Row {
    let mut row = run(&[open(1)]);
    lengthen(&mut row, 1, entries);
    row.status = Status::Choosing;
    row.registry = View {
        epoch: 2,
        leader_epoch: 1,
        leader: 0,
        members: 255,
    };
    row.control.view = row.registry;
    row.control.stage = Stage::Choosing;
    for b in with_news {
        row.boards[b - 1].view = row.registry;
    }
    row
}

#[test]
fn more_than_2064() {
    // News and hearing of five, install, leader's news and reading, news, join, receives and
    // reading of four, set normal: 10 + 1 + 2 + 4 * (3 + 510) + 1 are 2,066.
    let row = eight_choosing(510, &[1, 2]);
    let list = plan(&row).unwrap();
    assert_eq!(list.len(), 2064);
    has_list(&row, &list);
    assert_eq!(plan_in(&row, &mut [170; 16_512]), Ok(2064));
    // All records are accepted, and they are too many: 2,065.
    let row = eight_choosing(510, &[2]);
    has_none(&row);
    let list = [&[news(1)], &list[..]].concat();
    assert_eq!(after(row.clone(), &list).status, Status::Normal);
    let mut slice = vec![170; 20_000];
    assert_eq!(plan_in(&row, &mut slice), Err(20));
    assert_eq!(slice, vec![170; 20_000]);
    has_none(&eight_choosing(510, &[]));
    has_none(&eight_choosing(512, &[1, 2, 3, 4, 5]));
    // 2,066 but four.
    let row = eight_choosing(509, &[]);
    assert_eq!(plan(&row).map(|list| list.len()), Ok(2062));
}

/// The list of a row in slices of any length from 16,512, in bytes that differ from each other.
#[track_caller]
fn stands_first(list: &[[u8; 8]], call: impl Fn(&mut [u8])) {
    for length in [16_512, 16_513, 20_000] {
        for seed in 0..3 {
            let mut random = Random::new(seed);
            let before: Vec<u8> = (0..length).map(|_| random.below(256) as u8).collect();
            let mut slice = before.clone();
            call(&mut slice);
            let end = 8 * list.len();
            assert_eq!(slice[..end], *list.as_flattened());
            assert_eq!(slice[end..], before[end..], "{length} bytes");
        }
    }
}

/// The call leaves a slice of this length untouched.
#[track_caller]
fn untouched(length: usize, call: impl Fn(&mut [u8])) {
    for dirt in [0, 1, 170, 255] {
        let mut slice = vec![dirt; length];
        call(&mut slice);
        assert_eq!(slice, vec![dirt; length], "{length} bytes");
    }
}

const SHORT: [usize; 6] = [0, 8, 48, 4096, 16_504, 16_511];
const LONG: [usize; 3] = [16_512, 16_513, 20_000];

#[test]
fn the_list_stands_first_in_the_slice() {
    let rows = [run(&[open(1)]), two(), after(four(), &[CHANGE])];
    for (row, records) in rows.into_iter().zip([0, 6, 12]) {
        let list = plan(&row).unwrap();
        assert_eq!(list.len(), records);
        stands_first(&list, |slice| assert_eq!(plan_in(&row, slice), Ok(records)));
        let image = write(&row);
        stands_first(&list, |slice| {
            assert_eq!(plan_image(&image, slice, &mut [255; 576]), 8 * records);
        });
    }
    let sheet = [open(1), add(2)].concat();
    let list = plan(&two()).unwrap();
    stands_first(&list, |slice| assert_eq!(plan_sheet(&sheet, slice), 48));
    stands_first(&[], |slice| assert_eq!(plan_sheet(&open(1), slice), 0));
}

#[test]
fn a_short_slice_3() {
    // Even for a normal row, and before 20.
    let mut none = two();
    none.registry.members = 0;
    has_none(&none);
    for row in [run(&[open(1)]), two(), longest(), none] {
        for length in SHORT {
            untouched(length, |slice| assert_eq!(plan_in(&row, slice), Err(3)));
            let image = write(&row);
            untouched(length, |slice| {
                let mut scratch = [255; 576];
                assert_eq!(plan_image(&image, slice, &mut scratch), 3);
                assert_eq!(scratch, [255; 576]);
            });
        }
    }
    for sheet in [open(1).to_vec(), [open(1), add(2)].concat()] {
        for length in SHORT {
            untouched(length, |slice| assert_eq!(plan_sheet(&sheet, slice), 3));
        }
    }
}

#[test]
fn no_list_20() {
    let row = waiting_at(4000);
    for length in LONG {
        untouched(length, |slice| assert_eq!(plan_in(&row, slice), Err(20)));
        let image = write(&row);
        untouched(length, |slice| {
            let mut scratch = [255; 600];
            assert_eq!(plan_image(&image, slice, &mut scratch), 20);
            assert_eq!(scratch, [0; 600]);
        });
    }
    // Adding and removing 2 in turn 3,999 times ends waiting at epoch 4,000.
    let mut sheet = open(1).to_vec();
    for turn in 0..3999 {
        sheet.extend(if turn % 2 == 0 { add(2) } else { remove(2) });
    }
    for length in LONG {
        untouched(length, |slice| assert_eq!(plan_sheet(&sheet, slice), 20));
    }
    untouched(16_511, |slice| assert_eq!(plan_sheet(&sheet, slice), 3));
    // One turn less ends normal.
    sheet.truncate(8 * 3999);
    assert_eq!(plan_sheet(&sheet, &mut [0; 16_512]), 0);
}

#[test]
fn a_row_turned_away_1() {
    // Whatever its status; 1 comes before 3 and 20.
    for status in [Status::Normal, Status::Waiting, Status::Choosing] {
        let mut no_epoch = two();
        no_epoch.status = status;
        no_epoch.registry.epoch = 0;
        let mut long_count = two();
        long_count.status = status;
        long_count.boards[7].counts[0] = 513;
        let mut no_leader = two();
        no_leader.status = status;
        no_leader.control.view.leader = 0;
        no_leader.control.stage = Stage::Boards;
        for row in [no_epoch, long_count, no_leader] {
            assert_eq!(plan(&row), Err(1));
            for length in SHORT.into_iter().chain(LONG) {
                untouched(length, |slice| assert_eq!(plan_in(&row, slice), Err(1)));
            }
        }
    }
    // The registry's leader 0 while status is not choosing.
    for status in [Status::Normal, Status::Waiting] {
        let mut row = two();
        row.status = status;
        row.registry.leader = 0;
        assert_eq!(plan(&row), Err(1));
    }
}

#[test]
fn a_bad_sheet_2() {
    let sheets = [
        vec![],
        open(0).to_vec(),
        add(2).to_vec(),
        open(1)[..7].to_vec(),
        [open(1), add(2)].concat()[..15].to_vec(),
        [open(1).to_vec(), CONTROLLER_NEWS.repeat(4095)].concat(),
    ];
    for sheet in sheets {
        // 2 comes before 3.
        for length in SHORT.into_iter().chain(LONG) {
            untouched(length, |slice| assert_eq!(plan_sheet(&sheet, slice), 2));
        }
    }
}

/// An accepted image, and one for each number of the reader, and 20.
fn images() -> [(Vec<u8>, usize); 5] {
    let image = write(&two());
    let mut epoch_0 = image.clone();
    epoch_0[..2].fill(0);
    let mut receipts = image.clone();
    receipts[256] = 1;
    let mut no_members = image.clone();
    no_members[5] = 0;
    [
        (image[1..].to_vec(), 17),
        (epoch_0, 18),
        (receipts, 19),
        (no_members, 20),
        (image, 48),
    ]
}

#[test]
fn the_numbers_of_an_image() {
    for (image, number) in images() {
        for length in LONG {
            for room in [576, 577, 4608] {
                let call = |slice: &mut [u8]| {
                    let mut scratch = vec![255; room];
                    assert_eq!(plan_image(&image, slice, &mut scratch), number);
                    assert_eq!(scratch, vec![0; room]);
                };
                match number {
                    48 => call(&mut vec![170; length]),
                    _ => untouched(length, call),
                }
            }
        }
        // 3 comes first, for either: nothing is changed.
        for (length, room) in [(16_511, 576), (16_512, 575), (0, 4608), (20_000, 0), (0, 0)] {
            untouched(length, |slice| {
                let mut scratch = vec![255; room];
                assert_eq!(plan_image(&image, slice, &mut scratch), 3);
                assert_eq!(scratch, vec![255; room]);
            });
        }
    }
}

/// The list of a run's row with nothing left out, as the paper has it; of each board there are
/// 512 receives.
fn whole_list(row: &Row) -> Vec<[u8; 8]> {
    let members: Vec<u8> = (1..=8).filter(|&b| row.registry.has(b)).collect();
    let majority = members.len() / 2 + 1;
    let mut list = vec![CONTROLLER_NEWS];
    let mut leader = row.registry.leader;
    if row.status == Status::Choosing {
        for &b in &members[..majority] {
            list.extend([news(b), hear(b)]);
        }
        // What is heard after these records; the first that none is ranked above.
        let mut row = row.clone();
        for record in &list {
            row.step(record);
        }
        let rank = |b: u8| {
            let heard = row.control.heard[usize::from(b) - 1];
            (heard.joined, heard.length.expect("heard"))
        };
        let above = |b, other: &u8| rank(*other) > rank(b);
        let mut highest = members[..majority].iter().copied();
        leader = highest
            .find(|&b| !members[..majority].iter().any(|other| above(b, other)))
            .unwrap();
        list.push(install(leader));
    }
    list.extend([news(leader), READ_LEADER]);
    let others = members.iter().copied().filter(|&b| b != leader);
    for b in others.take(majority - 1) {
        list.extend([news(b), join(b)]);
        list.extend([receive(b); 512]);
        list.push(reads(b));
    }
    list.push(SET_NORMAL);
    list
}

/// What a run's row at an epoch up to 3,998 is promised, and the list that it is: of the whole
/// one, what is accepted.
#[track_caller]
fn keeps_the_promise(row: &Row) -> Vec<[u8; 8]> {
    assert!(row.registry.epoch <= 3998);
    let list = plan(row).expect("the list exists");
    assert!(list.len() <= 2064);
    has_list(row, &list);
    let mut accepted = vec![];
    if row.status != Status::Normal {
        let mut row = row.clone();
        accepted = whole_list(&row);
        accepted.retain(|record| row.step(record).answer == 0);
    }
    assert_eq!(list, accepted);
    list
}

#[test]
fn random_runs_lead_to_normal() {
    // How many rows are of each status, and how many lists have a record of each step.
    let mut statuses = [0; 3];
    let mut steps = [0; 16];
    // How many lists of each status leave out the controller's news, and the leader's reading.
    let (mut in_news, mut at_boards) = ([0; 3], 0);
    for seed in 20_000..26_000 {
        let mut random = Random::new(seed);
        let records = random.records(600);
        let row = row_of(&records);
        let list = keeps_the_promise(&row);
        let status = row.status as usize;
        statuses[status] += 1;
        in_news[status] += usize::from(!list.is_empty() && list[0] != CONTROLLER_NEWS);
        let unread = !list.is_empty() && !list.contains(&READ_LEADER);
        at_boards += usize::from(unread);
        for (step, count) in (0..).zip(&mut steps) {
            *count += usize::from(list.iter().any(|record| record[0] == step));
        }

        // The calls on a sheet and on an image give the same list.
        let mut slice = [170; 16_512];
        let sheet = records.concat();
        assert_eq!(plan_sheet(&sheet, &mut slice), 8 * list.len());
        assert_eq!(slice[..8 * list.len()], *list.as_flattened());
        let image = random.scrambled(&save_sheet(&sheet).unwrap());
        let (mut again, mut scratch) = ([170; 16_512], [255; 576]);
        let length = plan_image(&image, &mut again, &mut scratch);
        assert_eq!(length, 8 * list.len());
        assert!(again == slice && scratch == [0; 576]);
    }
    assert!(statuses.iter().all(|&n| n > 200), "{statuses:?}");
    assert!(in_news[1..].iter().all(|&n| n > 50), "{in_news:?}");
    assert!(at_boards > 100, "{at_boards}");
    for step in [6, 7, 8, 10, 11, 12, 13, 14, 15] {
        assert!(steps[step] > 100, "{steps:?}");
    }
    assert_eq!([0, 1, 2, 3, 4, 5, 9].map(|step| steps[step]), [0; 7]);
}

/// Runs on all eight boards: of drawn records, and bench sheets of Paper 2.
#[test]
fn runs_on_eight_boards_lead_to_normal() {
    let mut longest = 0;
    for seed in 30_000..30_060 {
        let mut random = Random::new(seed);
        let mut row = Row::open(1 + random.below(8) as u8).unwrap();
        for n in 0..3000 {
            row.step(&random.record(8));
            if n % 25 == 0 {
                longest = longest.max(keeps_the_promise(&row).len());
            }
        }
        let mut sheet = vec![0; 8 * 4095];
        make(seed, 4095, &mut sheet);
        let (records, _) = sheet.as_chunks();
        longest = longest.max(keeps_the_promise(&row_of(records)).len());
    }
    assert!(longest > 20, "{longest}");
}

/// Rows of images with other bytes in them, most of which no run gives: where there is a list,
/// each record is accepted in turn and the status ends normal.
#[test]
fn rows_from_elsewhere() {
    // Normal, a list, none.
    let mut verdicts = [0; 3];
    for seed in 40_000..60_000 {
        let mut random = Random::new(seed);
        let mut image = save_sheet(&random.records(200).concat()).unwrap();
        for _ in 0..1 + random.below(3) {
            image[random.below(258)] = random.below(10) as u8;
        }
        let Ok(row) = read(&image) else {
            continue;
        };
        let mut slice = [170; 16_512];
        match plan(&row) {
            Ok(list) => {
                verdicts[usize::from(!list.is_empty())] += 1;
                assert_eq!(list.is_empty(), row.status == Status::Normal);
                assert_eq!(plan_in(&row, &mut slice), Ok(list.len()));
                assert_eq!(slice[..8 * list.len()], *list.as_flattened());
                has_list(&row, &list);
            }
            number => {
                verdicts[2] += 1;
                assert_eq!(number, Err(20));
                assert_eq!(plan_in(&row, &mut slice), Err(20));
                assert_eq!(slice, [170; 16_512]);
            }
        }
    }
    assert!(verdicts.iter().all(|&n| n > 500), "{verdicts:?}");
}
