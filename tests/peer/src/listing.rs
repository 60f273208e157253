//! The text of a listing. What lists serves twice: to count the bytes, and to
//! write them.

use crate::row::{has, Outcome, Row, Stage, Status, View};

/// No line of a record is longer: 4 digits of the record's number, 2 of step 13 or 15, 1 of
/// answer 0, 8 of the boards behind it, the three spaces between them, and byte 10. A line
/// of three fields has at most 4, 3 and 2 digits, two spaces and byte 10, which is 12.
pub const RECORD_LINE_MAX: usize = 4 + 1 + 2 + 1 + 1 + 1 + 8 + 1;

/// No listing is longer: 4,095 lines of records, two of at most 39 bytes, eight of at
/// most 46, and the receipts' of at most 13 + 512 * 16.
pub const LENGTH_MAX: usize = 4095 * RECORD_LINE_MAX + 2 * 39 + 8 * 46 + 13 + 512 * 16;

/// The listing of a sheet with no records, which has no row to list: document 02, Paper 9.
pub const UNOPENED: &[u8] = b"unopened\n";

/// The length of a listing in bytes.
pub fn length(records: &[[u8; 8]], outcomes: &[Outcome], row: &Row) -> usize {
    let mut count = Count(0);
    list(&mut count, records, outcomes, row);
    count.0
}

/// Writes a listing from the start of a slice that is long enough.
pub fn write(slice: &mut [u8], records: &[[u8; 8]], outcomes: &[Outcome], row: &Row) {
    list(&mut Place { slice, end: 0 }, records, outcomes, row);
}

/// Where a text goes: it is counted or written.
pub(crate) trait Out {
    fn byte(&mut self, byte: u8);
    fn text(&mut self, text: &[u8]);
    fn number(&mut self, n: u32);
}

pub(crate) struct Count(pub usize);

pub(crate) struct Place<'a> {
    pub slice: &'a mut [u8],
    pub end: usize,
}

/// How many digits a number has.
fn digits(n: u32) -> usize {
    match n {
        0..=9 => 1,
        10..=99 => 2,
        100..=999 => 3,
        1000..=9999 => 4,
        _ => 4 + digits(n / 10_000),
    }
}

impl Out for Count {
    fn byte(&mut self, _: u8) {
        self.0 += 1;
    }

    fn text(&mut self, text: &[u8]) {
        self.0 += text.len();
    }

    fn number(&mut self, n: u32) {
        self.0 += digits(n);
    }
}

impl Out for Place<'_> {
    fn byte(&mut self, byte: u8) {
        self.slice[self.end] = byte;
        self.end += 1;
    }

    fn text(&mut self, text: &[u8]) {
        let end = self.end + text.len();
        self.slice[self.end..end].copy_from_slice(text);
        self.end = end;
    }

    fn number(&mut self, mut n: u32) {
        if n < 10 {
            return self.byte(b'0' + n as u8);
        }
        let end = self.end + digits(n);
        for place in self.slice[self.end..end].iter_mut().rev() {
            *place = b'0' + (n % 10) as u8;
            n /= 10;
        }
        self.end = end;
    }
}

fn list(out: &mut impl Out, records: &[[u8; 8]], outcomes: &[Outcome], row: &Row) {
    // record, step (byte 0 as it is), answer
    for (number, (record, outcome)) in (1..).zip(records.iter().zip(outcomes)) {
        let (step, answer) = (record[0], outcome.answer);
        out.number(number);
        out.byte(b' ');
        out.number(step.into());
        out.byte(b' ');
        out.number(answer.into());
        // on acceptance of steps 2, 13 and 15 the boards behind it: document 02, Paper 6
        if let (2 | 13 | 15, 0) = (step, answer) {
            out.byte(b' ');
            boards(out, outcome.behind);
        }
        out.byte(b'\n');
    }
    out.text(b"registry ");
    view(out, &row.registry);
    out.text(match row.status {
        Status::Normal => b"normal\n",
        Status::Waiting => b"waiting\n",
        Status::Choosing => b"choosing\n",
    });
    out.text(b"control ");
    view(out, &row.control.view);
    out.text(match row.control.stage {
        Stage::Idle => b"idle\n",
        Stage::Leader => b"leader\n",
        Stage::Boards => b"boards\n",
        Stage::Choosing => b"choosing\n",
    });
    for (b, board) in (1..).zip(&row.boards) {
        out.text(b"board ");
        out.number(b);
        out.byte(b' ');
        view(out, &board.view);
        out.number(board.joined.into());
        out.byte(b' ');
        out.number(board.log.len() as u32);
        // late or current: document 02, Paper 1
        let behind = board.view.epoch < row.registry.epoch;
        let unjoined = board.joined != row.registry.leader_epoch;
        out.text(match behind || unjoined {
            true => b" late\n",
            false => b" current\n",
        });
    }
    // how many receipts, then each as value, `@`, epoch: document 02, Paper 4
    out.text(b"receipts ");
    out.number(row.receipts.len() as u32);
    for entry in row.receipts.entries() {
        out.byte(b' ');
        out.number(entry.value);
        out.byte(b'@');
        out.number(entry.epoch.into());
    }
    out.byte(b'\n');
}

/// Epoch, leader epoch, leader, members as digits, and a space after each.
fn view(out: &mut impl Out, view: &View) {
    for n in [view.epoch, view.leader_epoch, view.leader.into()] {
        out.number(n.into());
        out.byte(b' ');
    }
    boards(out, view.members);
    out.byte(b' ');
}

/// A set of boards as digits.
fn boards(out: &mut impl Out, set: u8) {
    for b in (1..=8).filter(|&b| has(set, b)) {
        out.number(b.into());
    }
}
