//! Keeping a row through a power cut: document 02, Paper 7. A row becomes an image, a head
//! of 258 bytes and records of 8, and an image a row again, or error 17, 18 or 19.

use std::array;
use std::mem;

use crate::ranges::is_epoch;
use crate::row::{Board, Control, Entry, Heard, Log, Outcome, Row, Stage, Status, View, LOG_MAX};
use crate::{listing, opened, outcomes};

/// Registry and controller of 8 bytes each, what is heard of each board in 4, each board in
/// 26, and the receipts' first record.
pub const HEAD: usize = 8 + 8 + 8 * 4 + 8 * 26 + 2;

/// Eight logs and the receipts, of at most 512 entries each.
pub const RECORDS_MAX: usize = 4608;

/// The heard length of a board of which nothing is heard.
const NONE: u16 = 65_535;

/// Where the nine first records stand in the head: at the end of each board, and last the
/// receipts'.
pub(crate) const FIRSTS: [usize; 9] = [72, 98, 124, 150, 176, 202, 228, 254, 256];

/// A row taken up from an image, after further records.
pub struct Resumed {
    /// One for each record: the answer, and the set behind it.
    pub outcomes: Vec<Outcome>,
    pub row: Row,
    /// The row's image, or 1 for a row that refusal 1 turns away: steps on a row that no
    /// run gives may end in one.
    pub image: Result<Vec<u8>, u8>,
    /// The lines of these records, numbered from 1, and the lines of the row.
    pub listing: String,
}

/// The image of a row that refusal 1 lets through. Board 1's log is numbered first, the
/// receipts last, each in order.
pub fn write(row: &Row) -> Vec<u8> {
    let mut image = Writer::default();
    image.view(&row.registry);
    // Status and stage are declared in document 01's order, so they number themselves.
    image.head.extend([row.status as u8, 0]);
    image.view(&row.control.view);
    image.head.extend([row.control.stage as u8, 0]);
    for heard in &row.control.heard {
        image.two(heard.length.map_or(NONE, |length| length as u16));
        image.two(heard.joined);
    }
    for board in &row.boards {
        image.board(board);
    }
    image.list(&row.receipts);
    [image.head, image.records].concat()
}

/// The image of a row, or 1 for a row that refusal 1 turns away.
pub fn saved(row: &Row) -> Result<Vec<u8>, u8> {
    match row.turned_away() {
        true => Err(1),
        false => Ok(write(row)),
    }
}

/// The row of an image, or 17, 18 or 19, in that order. Its records may have any numbering.
/// It knows of no scratch: `scratch::read_in` does.
pub fn read(image: &[u8]) -> Result<Row, u8> {
    read_by(image, chains)
}

/// The same, by any way to follow the chains: it gives the logs and the receipts, or none
/// for 19. Inlined, so that `read`, which is measured, is no slower for it.
#[inline(always)]
pub(crate) fn read_by(
    image: &[u8],
    follow: impl FnOnce(&[u8; HEAD], &[[u8; 8]]) -> Option<[Log; 9]>,
) -> Result<Row, u8> {
    // [17] the length is not 258 plus 8 times 0 to 4,608
    let (head, records) = parts(image).ok_or(17)?;
    // [18] a number outside its range, a zero byte that is not 0
    let mut row = read_head(head).ok_or(18)?;
    // [18] every record, before any chain is walked: one that no chain meets too
    if !records.iter().all(|record| is_epoch(entry(record).epoch)) {
        return Err(18);
    }
    // [18] a row that refusal 1 would turn away; the lists do not matter for that
    if row.turned_away() {
        return Err(18);
    }
    let logs = follow(head, records).ok_or(19)?;
    let [boards @ .., receipts] = logs;
    for (board, log) in row.boards.iter_mut().zip(boards) {
        board.log = log;
    }
    row.receipts = receipts;
    Ok(row)
}

/// The image of the row that a sheet's run ends in, or refusal 2.
pub fn save_sheet(sheet: &[u8]) -> Result<Vec<u8>, u8> {
    let (records, mut row) = opened(sheet).ok_or(2)?;
    outcomes(records, &mut row);
    saved(&row)
}

/// What a listing says of an image's row, the lines after the answers, or 17, 18 or 19.
pub fn show_image(image: &[u8]) -> Result<String, u8> {
    Ok(list(&[], &[], &read(image)?))
}

/// Takes the row up from an image and runs further records, any number of them. None is an
/// opening: step 0 is answered 1, as in mid-sheet. [2], if the records' length is no
/// multiple of 8, comes before 17, 18 and 19.
pub fn resume_sheet(image: &[u8], records: &[u8]) -> Result<Resumed, u8> {
    let (records, []) = records.as_chunks::<8>() else {
        return Err(2);
    };
    let mut row = read(image)?;
    let outcomes: Vec<_> = records.iter().map(|record| row.call(record)).collect();
    Ok(Resumed {
        image: saved(&row),
        listing: list(records, &outcomes, &row),
        outcomes,
        row,
    })
}

/// The image with its records in another numbering: record k becomes record
/// `permutation[k - 1]`, and firsts and nexts follow. It says the same row. What points past
/// the last record is kept, so an image with an error keeps its error.
///
/// # Panics
/// If the image has a wrong length, or its records are not just those numbered anew.
pub fn renumbered(image: &[u8], permutation: &[u16]) -> Vec<u8> {
    let (head, records) = parts(image).expect("258 plus 8 times 0 to 4,608 bytes");
    assert_eq!(records.len(), permutation.len(), "a number for each record");
    // 0 ends a chain in any numbering.
    let renumber = |number: u16| match number {
        0 => 0,
        k => permutation.get(usize::from(k) - 1).copied().unwrap_or(k),
    };
    let mut head = *head;
    for place in FIRSTS {
        let first = renumber(two(&head, place));
        head[place..place + 2].copy_from_slice(&first.to_le_bytes());
    }
    let mut moved = vec![None; records.len()];
    for (record, &number) in records.iter().zip(permutation) {
        let [entry @ .., n0, n1] = *record;
        let [n0, n1] = renumber(u16::from_le_bytes([n0, n1])).to_le_bytes();
        let [e0, e1, e2, e3, e4, e5] = entry;
        moved[usize::from(number) - 1] = Some([e0, e1, e2, e3, e4, e5, n0, n1]);
    }
    let moved = moved
        .into_iter()
        .map(|record| record.expect("no number twice"));
    [head.to_vec(), moved.collect::<Vec<_>>().concat()].concat()
}

/// The listing of these records on a row.
pub(crate) fn list(records: &[[u8; 8]], outcomes: &[Outcome], row: &Row) -> String {
    let mut slice = vec![0; listing::length(records, outcomes, row)];
    listing::write(&mut slice, records, outcomes, row);
    String::from_utf8(slice).expect("a listing is ASCII")
}

/// Head and records of an image, or none if its length is wrong.
fn parts(image: &[u8]) -> Option<(&[u8; HEAD], &[[u8; 8]])> {
    let (head, rest) = image.split_first_chunk()?;
    let (records, over) = rest.as_chunks();
    (over.is_empty() && records.len() <= RECORDS_MAX).then_some((head, records))
}

/// The two bytes at a place, low byte first.
pub(crate) fn two(bytes: &[u8], place: usize) -> u16 {
    u16::from_le_bytes([bytes[place], bytes[place + 1]])
}

/// A record's value and epoch.
fn entry(record: &[u8; 8]) -> Entry {
    let [value @ .., _, _, _, _] = *record;
    Entry {
        value: u32::from_le_bytes(value),
        epoch: two(record, 4),
    }
}

/// The row of a head, with empty lists; none if a status, a stage or a zero byte is none.
/// Other numbers are not asked for their ranges here.
fn read_head(head: &[u8; HEAD]) -> Option<Row> {
    let mut head = Reader(head);
    let registry = head.view();
    let status = match [head.one(), head.one()] {
        [0, 0] => Status::Normal,
        [1, 0] => Status::Waiting,
        [2, 0] => Status::Choosing,
        _ => return None,
    };
    let view = head.view();
    let stage = match [head.one(), head.one()] {
        [0, 0] => Stage::Idle,
        [1, 0] => Stage::Leader,
        [2, 0] => Stage::Boards,
        [3, 0] => Stage::Choosing,
        _ => return None,
    };
    let heard = array::from_fn(|_| head.heard());
    Some(Row {
        registry,
        status,
        control: Control { view, stage, heard },
        boards: array::from_fn(|_| head.board()),
        receipts: Log::EMPTY,
    })
}

/// The logs of boards 1 to 8, then the receipts; none if a chain points past the last record
/// or passes 512 entries, or a record is met twice or not at all.
fn chains(head: &[u8; HEAD], records: &[[u8; 8]]) -> Option<[Log; 9]> {
    let mut met = vec![false; records.len()];
    let mut logs = [const { Log::EMPTY }; 9];
    for (log, place) in logs.iter_mut().zip(FIRSTS) {
        let meet = |record: usize| mem::replace(&mut met[record], true);
        chain(log, two(head, place), records, meet)?;
    }
    met.iter().all(|&met| met).then_some(logs)
}

/// Follows one chain from its first record. What it meets is marked with `meet`, which gets
/// the record's place, from 0, and says whether it was met before.
pub(crate) fn chain(
    log: &mut Log,
    first: u16,
    records: &[[u8; 8]],
    mut meet: impl FnMut(usize) -> bool,
) -> Option<()> {
    let mut number = usize::from(first);
    while number != 0 {
        let record = records.get(number - 1)?;
        let twice = meet(number - 1);
        // 512 entries are fine, the 513th is not.
        if twice || log.len() == LOG_MAX {
            return None;
        }
        log.push(entry(record));
        number = usize::from(two(record, 6));
    }
    Some(())
}

/// What is written of an image.
#[derive(Default)]
struct Writer {
    head: Vec<u8>,
    records: Vec<u8>,
}

impl Writer {
    fn two(&mut self, n: u16) {
        self.head.extend(n.to_le_bytes());
    }

    fn view(&mut self, view: &View) {
        self.two(view.epoch);
        self.two(view.leader_epoch);
        self.head.extend([view.leader, view.members]);
    }

    /// A board has joined before its leader, unlike registry and controller.
    fn board(&mut self, board: &Board) {
        self.two(board.view.epoch);
        self.two(board.view.leader_epoch);
        self.two(board.joined);
        self.head.extend([board.view.leader, board.view.members]);
        for count in board.counts {
            self.two(count as u16);
        }
        self.list(&board.log);
    }

    /// The list's first record goes into the head, its records after those there are.
    fn list(&mut self, log: &Log) {
        let before = (self.records.len() / 8) as u16;
        let last = before + log.len() as u16;
        self.two(if log.is_empty() { 0 } else { before + 1 });
        for (number, entry) in (before + 1..).zip(log.entries()) {
            let next = if number == last { 0 } else { number + 1 };
            self.records.extend(entry.value.to_le_bytes());
            self.records.extend(entry.epoch.to_le_bytes());
            self.records.extend(next.to_le_bytes());
        }
    }
}

/// What is left to read of a head.
struct Reader<'a>(&'a [u8]);

impl Reader<'_> {
    fn one(&mut self) -> u8 {
        let n = self.0[0];
        self.0 = &self.0[1..];
        n
    }

    fn two(&mut self) -> u16 {
        u16::from_le_bytes([self.one(), self.one()])
    }

    fn view(&mut self) -> View {
        View {
            epoch: self.two(),
            leader_epoch: self.two(),
            leader: self.one(),
            members: self.one(),
        }
    }

    /// A heard joined epoch is kept also where no length is heard.
    fn heard(&mut self) -> Heard {
        let length = self.two();
        Heard {
            length: (length != NONE).then_some(length.into()),
            joined: self.two(),
        }
    }

    fn board(&mut self) -> Board {
        let [epoch, leader_epoch, joined] = array::from_fn(|_| self.two());
        let [leader, members] = array::from_fn(|_| self.one());
        let counts = array::from_fn(|_| self.two().into());
        // The first record: its chain is followed later.
        self.two();
        Board {
            view: View {
                epoch,
                leader_epoch,
                leader,
                members,
            },
            joined,
            log: Log::EMPTY,
            counts,
        }
    }
}
