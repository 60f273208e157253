//! How many steps back to normal: document 02, Paper 10. "From a row, a call gives the
//! records that lead to normal, and their number."

use crate::row::{at, has, majority_size, Row, Stage, Status};
use crate::scratch::{read_in, LENT};
use crate::{opened, outcomes};

/// "There are at most 2,064 records."
pub const PLAN_MAX: usize = 2064;

/// "The list slice holds 16,512 bytes, else 3."
pub const PLAN_BYTES: usize = 16_512;

/// Controller news, leader's news and reading; news, join, receives and reading of the four
/// boards that make a majority of eight with the leader; set normal.
const _: () = assert!(PLAN_MAX == 3 + 4 * (1 + 1 + 512 + 1) + 1);
const _: () = assert!(PLAN_BYTES == 8 * PLAN_MAX);

// The steps of a list.
const BOARD_NEWS: u8 = 6;
const JOIN: u8 = 7;
const RECEIVE: u8 = 8;
const CONTROLLER_NEWS: u8 = 10;
const READ_LEADER: u8 = 11;
const READ: u8 = 12;
const SET_NORMAL: u8 = 13;
const HEAR: u8 = 14;
const INSTALL: u8 = 15;

/// The board of a record whose step uses none.
const NO_BOARD: u8 = 0;

/// The records that lead a row to normal, or 1 or 20, in that order.
pub fn plan(row: &Row) -> Result<Vec<[u8; 8]>, u8> {
    // [1] a row that refusal 1 turns away
    if row.turned_away() {
        return Err(1);
    }
    let mut plan = Plan {
        row: row.clone(),
        records: Vec::new(),
    };
    plan.lead_to_normal()?;
    // [20] "there are more than 2,064"
    match plan.records.len() > PLAN_MAX {
        true => Err(20),
        false => Ok(plan.records),
    }
}

/// The call on a row: how many records its list has, 0 to 2,064, or 1, 3 or 20, in that
/// order, which leave the slice untouched. The list stands first in the slice; bytes past it
/// keep their values.
pub fn plan_in(row: &Row, slice: &mut [u8]) -> Result<usize, u8> {
    // [1] a row that refusal 1 turns away
    if row.turned_away() {
        return Err(1);
    }
    // [3] also where the list is shorter
    if slice.len() < PLAN_BYTES {
        return Err(3);
    }
    let records = plan(row)?;
    let list = records.as_flattened();
    slice[..list.len()].copy_from_slice(list);
    Ok(records.len())
}

/// The list of the row that a sheet ends with: its length in bytes, or 2, 3 or 20, in that
/// order, which leave the slice untouched; bytes past the list keep their values.
pub fn plan_sheet(sheet: &[u8], slice: &mut [u8]) -> usize {
    let Some((records, mut row)) = opened(sheet) else {
        return 2;
    };
    outcomes(records, &mut row);
    bytes(plan_in(&row, slice))
}

/// The list of an image's row: its length in bytes, or 3, 17, 18, 19 or 20, in that order,
/// which leave the slice untouched; bytes past the list keep their values. 3, for the slice or
/// the scratch, changes no scratch either; past it the whole scratch ends as zeros.
pub fn plan_image(image: &[u8], slice: &mut [u8], scratch: &mut [u8]) -> usize {
    // [3] for the slice; the reader gives it for the scratch, before its errors
    if slice.len() < PLAN_BYTES {
        return 3;
    }
    let row = read_in(image, LENT, scratch);
    bytes(row.and_then(|row| plan_in(&row, slice)))
}

/// A list's length in bytes, which is no refusal's number: it is a multiple of 8.
fn bytes(planned: Result<usize, u8>) -> usize {
    match planned {
        Ok(records) => 8 * records,
        Err(refusal) => refusal.into(),
    }
}

/// The lowest-numbered boards of a set, n of them if it has so many.
fn lowest(set: u8, n: u8) -> Vec<u8> {
    let boards = (1..=8).filter(|&b| has(set, b));
    boards.take(n.into()).collect()
}

/// A list as far as it is made. Each part of it gives 20 where there is no list.
struct Plan {
    /// The row after these records.
    row: Row,
    records: Vec<[u8; 8]>,
}

impl Plan {
    fn lead_to_normal(&mut self) -> Result<(), u8> {
        match self.row.status {
            // "None if normal."
            Status::Normal => Ok(()),
            Status::Waiting => self.waiting(),
            Status::Choosing => {
                self.choosing()?;
                // "then as waiting"
                self.waiting()
            }
        }
    }

    /// "If choosing: controller news; then for the lowest-numbered majority of members, news
    /// and hearing in turn; install the highest ranked of them as heard, lowest number on a
    /// tie". Members are the registry's.
    fn choosing(&mut self) -> Result<(), u8> {
        self.put_unless(12, CONTROLLER_NEWS, NO_BOARD)?;
        let members = self.row.registry.members;
        let majority = lowest(members, majority_size(members));
        for &b in &majority {
            self.put_unless(12, BOARD_NEWS, b)?;
            self.put_unless(12, HEAR, b)?;
        }
        // A board heard before may rank above all of these: it is none of them. Of equal ones
        // the last is taken, which is the lowest number from behind.
        let heard = |b: u8| self.row.control.heard[at(b)];
        let rank = |&b: &u8| (heard(b).joined, heard(b).length);
        let highest = majority.into_iter().rev().max_by_key(rank);
        // [20] "there is no leader or member to name"
        self.put(INSTALL, highest.ok_or(20)?)
    }

    /// "If waiting: controller news, leader's news, read leader; then for the lowest-numbered
    /// members other than the leader, as many as make a majority with it, heard before or not,
    /// news, join, as many receives as bring each to the leader's length, read; then set
    /// normal." Leader and members are the registry's; refusal 1 asks for that leader.
    fn waiting(&mut self) -> Result<(), u8> {
        let registry = self.row.registry;
        let leader = registry.leader;
        // [20] "the leader is no member"
        if !registry.has(leader) {
            return Err(20);
        }
        self.put_unless(12, CONTROLLER_NEWS, NO_BOARD)?;
        self.news_of_leader(leader, leader)?;
        // "Left out are ... the leader's reading in stage boards."
        if self.row.control.stage != Stage::Boards {
            self.put(READ_LEADER, NO_BOARD)?;
        }
        let others = registry.members & !(1 << at(leader));
        for b in lowest(others, majority_size(registry.members) - 1) {
            self.news_of_leader(b, leader)?;
            self.put_unless(11, JOIN, b)?;
            // The leader's length now, also where less of it was heard; none for a board that
            // is longer.
            let length = |b| self.row.board(b).log.len();
            for _ in length(b)..length(leader) {
                self.put(RECEIVE, b)?;
            }
            self.put_unless(12, READ, b)?;
        }
        self.put(SET_NORMAL, NO_BOARD)
    }

    /// News of board b in the waiting part, after which it must have this leader in its view,
    /// also where the news is left out.
    fn news_of_leader(&mut self, b: u8, leader: u8) -> Result<(), u8> {
        self.put_unless(12, BOARD_NEWS, b)?;
        // [20] "a board, it included, has another leader in its view after its news"
        match self.row.board(b).view.leader == leader {
            true => Ok(()),
            false => Err(20),
        }
    }

    /// A record of the list. [20] "some record of the list would be refused"
    fn put(&mut self, step: u8, b: u8) -> Result<(), u8> {
        match self.run(step, b) {
            0 => Ok(()),
            _ => Err(20),
        }
    }

    /// A record that is left out if it would be refused at its place with this number. [20] if
    /// it would be refused with another
    fn put_unless(&mut self, number: u8, step: u8, b: u8) -> Result<(), u8> {
        match self.run(step, b) {
            0 => Ok(()),
            answer if answer == number => Ok(()),
            _ => Err(20),
        }
    }

    /// The answer of a record at its place. It joins the list if it is accepted.
    fn run(&mut self, step: u8, b: u8) -> u8 {
        let record = [step, b, 0, 0, 0, 0, 0, 0];
        let answer = self.row.step(&record).answer;
        if answer == 0 {
            self.records.push(record);
        }
        answer
    }
}
