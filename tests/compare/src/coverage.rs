//! Which answers each step can give in a run, what lines a listing can have, and how
//! often they were met.

use peer::behind::{behind, Behind};
use peer::row::{Log, Row, View, EPOCH_MAX, LOG_MAX};
use peer::tally::{tally, Tally};
use peer::RECORDS_MAX;
use std::fmt;

/// Steps 0 to 15, and every step byte above as one.
const STEPS: usize = 17;
/// Answers 0 to 16.
const ANSWERS: usize = 17;
/// How often all but the pairs should be met: more often than by the edge sheets.
const ENOUGH: u64 = 5;

/// The answers that a run can meet, step by step. Besides 0 and 1 a step has the
/// refusals in its own text and no others; 2 and 3 are of whole sheets. One pair
/// of that text is never met: step 15 with 16. At stage choosing the controller
/// holds the epoch of a choosing registry, and until a board is installed no
/// step raises it: 3, 4 and 5 give 4, and 13 gives 15.
const CAN_MEET: [&[u8]; STEPS] = [
    &[0, 1],                   // 0, opening: 0 as the first record, 1 after it
    &[0, 1, 8, 13],            // 1, append
    &[0, 1, 8, 12, 14],        // 2, receipt
    &[0, 1, 4, 5, 7],          // 3, add
    &[0, 1, 4, 5, 6, 7],       // 4, remove
    &[0, 1, 4, 6, 7],          // 5, change leader
    &[0, 1, 12],               // 6, board takes news
    &[0, 1, 5, 9, 10, 11],     // 7, join
    &[0, 1, 5, 9, 10, 11, 12], // 8, receive
    &[0, 1, 5, 8, 10, 11, 12], // 9, count
    &[0, 1, 12],               // 10, controller takes news
    &[0, 1, 15, 16],           // 11, controller reads leader
    &[0, 1, 5, 6, 11, 12, 15], // 12, controller reads
    &[0, 1, 7, 14, 15, 16],    // 13, set normal
    &[0, 1, 5, 12, 15, 16],    // 14, controller hears
    &[0, 1, 5, 7, 14, 15],     // 15, install
    &[1],                      // 16 to 255, no step
];

/// Can a text in words tell this answer of a step? There 16 stands for every record
/// malformed by itself, whatever its step byte; a run answers 1 to it, and of the
/// others only to an opening.
fn can_tell(step: usize, answer: usize) -> bool {
    let alone = answer != 1 || [0, STEPS - 1].contains(&step);
    alone && can_meet(step, answer)
}

/// Is a record well formed by itself? An opening is.
fn formed(record: &[u8; 8]) -> bool {
    match *record {
        [1, 1..=8, 0, 0, ..] => true,
        [5 | 10 | 11 | 13, 0, 0, 0, 0, 0, 0, 0] => true,
        [9, a @ 1..=8, b @ 1..=8, 0, 0, 0, 0, 0] => a != b,
        [5 | 9 | 10 | 11 | 13 | 16.., ..] => false,
        [_, 1..=8, 0, 0, 0, 0, 0, 0] => true,
        _ => false,
    }
}

fn can_meet(step: usize, answer: usize) -> bool {
    CAN_MEET[step].contains(&(answer as u8))
}

/// A record's effect, and what came before it in the sheet.
struct Seen<'a> {
    before: &'a Row,
    after: &'a Row,
    step: u8,
    b: u8,
    /// Its answer, and the boards behind it.
    behind: Behind,
    /// Changes of leader, this one included.
    changes: u32,
    /// Boards that were members before.
    past: u8,
}

impl Seen<'_> {
    fn gives(&self, step: u8, answer: u8) -> bool {
        self.step == step && self.behind.outcome.answer == answer
    }

    fn lengths(&self) -> (usize, usize) {
        let length = |row: &Row| row.board(self.b).log.len();
        (length(self.before), length(self.after))
    }

    /// Has another board a longer log heard than b?
    fn longer_heard(&self) -> bool {
        (1..=8).any(|m| self.heard(m) > self.heard(self.b))
    }

    fn count(&self, m: u8) -> usize {
        self.before.board(self.b).counts[usize::from(m) - 1]
    }

    fn heard(&self, m: u8) -> Option<usize> {
        self.before.control.heard[usize::from(m) - 1].length
    }

    fn rank(&self, m: u8) -> (u16, Option<usize>) {
        let joined = self.before.control.heard[usize::from(m) - 1].joined;
        (joined, self.heard(m))
    }

    /// The view whose members step 2, 13 or 15 asks.
    fn asked(&self) -> &View {
        match self.step {
            2 => &self.before.board(self.b).view,
            _ => &self.before.control.view,
        }
    }

    /// Would board m stand behind step 2, 13 or 15, were it a member?
    fn qualifies(&self, m: u8) -> bool {
        match self.step {
            2 => self.count(m) > self.before.receipts.len(),
            13 => self.heard(m).is_some() && self.heard(m) >= self.heard(self.asked().leader),
            _ => self.heard(m).is_some() && self.rank(m) <= self.rank(self.b),
        }
    }

    /// Is there such a member among those asked?
    fn some_member(&self, is_such: impl Fn(u8) -> bool) -> bool {
        (1..=8).any(|m| self.asked().has(m) && is_such(m))
    }

    /// Does a board qualify that is no member?
    fn some_other(&self) -> bool {
        (1..=8).any(|m| !self.asked().has(m) && self.qualifies(m))
    }

    /// Is such a board behind it?
    fn some_behind(&self, is_such: impl Fn(u8) -> bool) -> bool {
        let set = self.behind.outcome.behind;
        (1..=8).any(|m| set >> (m - 1) & 1 == 1 && is_such(m))
    }

    /// Does board m's log begin with all receipts, this one too?
    fn holds_receipts(&self, m: u8) -> bool {
        begins(&self.after.board(m).log, &self.after.receipts, usize::MAX)
    }

    /// Has board m joined a later leader epoch than that of the board that gives a receipt?
    fn went_on(&self, m: u8) -> bool {
        self.before.board(m).joined > self.before.board(self.b).view.leader_epoch
    }

    /// Does board m's log begin with all that the controller's leader had when it was read?
    fn holds_read(&self, m: u8) -> bool {
        let leader = self.before.control.view.leader;
        let read = self.heard(leader).unwrap_or(0);
        begins(
            &self.before.board(m).log,
            &self.before.board(leader).log,
            read,
        )
    }

    /// Is board m as the controller heard it, and does it follow nobody?
    fn stands(&self, m: u8) -> bool {
        let board = self.before.board(m);
        self.rank(m) == (board.joined, Some(board.log.len())) && board.view.leader == 0
    }

    /// Is it this step, accepted with more boards behind it than the smallest majority?
    fn has_more(&self, step: u8) -> bool {
        self.gives(step, 0) && self.behind.is_larger()
    }

    /// Is it this step, refused 14 though some members qualify?
    fn has_too_few(&self, step: u8) -> bool {
        self.gives(step, 14) && self.some_member(|m| self.qualifies(m))
    }
}

/// Does a log begin with the list, or with the first `most` entries of it?
fn begins(log: &Log, list: &Log, most: usize) -> bool {
    let wanted = list.entries().take(most);
    log.len() >= list.len().min(most) && log.entries().zip(wanted).all(|(x, y)| x == y)
}

type Event = (&'static str, fn(&Seen) -> bool);

/// What the sheets should bring about besides the pairs.
const EVENTS: [Event; 29] = [
    ("change of leader that leaves one member", |s| {
        s.gives(5, 0) && s.after.registry.leader != 0
    }),
    ("third change of leader in a sheet", |s| {
        s.gives(5, 0) && s.changes == 3
    }),
    ("append by a replaced leader", |s| {
        s.gives(1, 0) && s.after.registry.leader != s.b
    }),
    ("receipt by a replaced leader", |s| {
        s.gives(2, 0) && s.after.registry.leader != s.b
    }),
    ("board added again", |s| {
        s.gives(3, 0) && s.past & (1 << (s.b - 1)) != 0
    }),
    ("join that cuts a part", |s| {
        s.gives(7, 0) && s.lengths().0 > s.lengths().1 && s.lengths().1 > 0
    }),
    ("join that keeps a log", |s| {
        s.gives(7, 0) && s.lengths().0 == s.lengths().1 && s.lengths().1 > 0
    }),
    ("append of entry 512", |s| {
        s.gives(1, 0) && s.lengths().1 == LOG_MAX
    }),
    ("receive of entry 512", |s| {
        s.gives(8, 0) && s.lengths().1 == LOG_MAX
    }),
    ("receipt 512", |s| {
        s.gives(2, 0) && s.after.receipts.len() == LOG_MAX
    }),
    ("epoch 4,000", |s| {
        s.before.registry.epoch < EPOCH_MAX && s.after.registry.epoch == EPOCH_MAX
    }),
    ("receipt of an entry of epoch 4,000", |s| {
        s.gives(2, 0) && s.after.receipts.epochs().last() == Some(&EPOCH_MAX)
    }),
    ("join refused 9 for want of a leader", |s| {
        s.gives(7, 9) && s.after.board(s.b).view.leader == 0
    }),
    ("receive refused 5 by the leader's members alone", |s| {
        s.gives(8, 5) && s.after.board(s.b).view.has(s.b)
    }),
    ("news that keeps counts of others", |s| {
        let some = |counts: &[usize]| counts.iter().filter(|&&n| n > 0).count();
        s.gives(6, 0) && some(&s.after.board(s.b).counts) > 1
    }),
    ("read of a board below the registry's epoch", |s| {
        s.gives(12, 0) && s.after.board(s.b).view.epoch < s.after.registry.epoch
    }),
    ("install over a longer log heard", |s| {
        s.gives(15, 0) && s.longer_heard()
    }),
    // Which boards stand behind (document 02, Paper 6): more than need be, and not those
    // that are no members, counted too low, heard too low, or ranked above.
    ("receipt with more than a majority behind it", |s| {
        s.has_more(2)
    }),
    ("set normal with more than a majority behind it", |s| {
        s.has_more(13)
    }),
    ("install with more than a majority behind it", |s| {
        s.has_more(15)
    }),
    ("receipt with a board counted that is no member", |s| {
        s.gives(2, 0) && s.some_other()
    }),
    ("receipt with a member counted just below it", |s| {
        let given = s.before.receipts.len();
        s.gives(2, 0) && given > 0 && s.some_member(|m| s.count(m) == given)
    }),
    ("late receipt with a board behind it that went on", |s| {
        s.gives(2, 0) && s.some_behind(|m| s.went_on(m))
    }),
    ("set normal with a member heard below the leader", |s| {
        s.gives(13, 0) && s.some_member(|m| s.heard(m).is_some() && !s.qualifies(m))
    }),
    ("install with a member ranked above", |s| {
        s.gives(15, 0) && s.some_member(|m| s.rank(m) > s.rank(s.b))
    }),
    ("install with a longer log behind it", |s| {
        s.gives(15, 0) && s.some_member(|m| s.qualifies(m) && s.heard(m) > s.heard(s.b))
    }),
    ("receipt refused 14 with too few behind it", |s| {
        s.has_too_few(2)
    }),
    ("set normal refused 14 with too few behind it", |s| {
        s.has_too_few(13)
    }),
    ("install refused 14 with too few behind it", |s| {
        s.has_too_few(15)
    }),
];

/// What no run brings about. For a receipt a board may be counted that is no member, but
/// the controller hears its members alone (its leader is one), and forgets what it heard
/// when it takes news of others. Who is behind a step holds what it stands for; of a board
/// that went on, and is behind a late receipt, that is not proved but seen here.
const NEVER: [Event; 4] = [
    (
        "set normal or install with a board heard that is no member",
        |s| (s.gives(13, 0) || s.gives(15, 0)) && s.some_other(),
    ),
    (
        "receipt with a board behind it that lacks it",
        |s| s.gives(2, 0) && s.some_behind(|m| !s.holds_receipts(m)),
    ),
    (
        "set normal with a board behind it that lacks what was read",
        |s| s.gives(13, 0) && s.some_behind(|m| !s.holds_read(m)),
    ),
    (
        "install with a board behind it that is not as it was heard",
        |s| s.gives(15, 0) && s.some_behind(|m| !s.stands(m)),
    ),
];

type Tallied = (&'static str, fn(&Tally) -> usize);

/// Where the sheets should show that an entry has an epoch, and whose (document 02,
/// Paper 4), as the second program tallies it.
const TALLIED: [Tallied; 4] = [
    ("join that cuts an equal value of another epoch", |t| {
        t.joins_cut_by_epoch
    }),
    ("append under a leader epoch below the registry's", |t| {
        t.appends_under_replaced
    }),
    ("receive of an entry of an earlier leader epoch", |t| {
        t.receives_of_older
    }),
    ("receipt of an entry of an earlier leader epoch", |t| {
        t.receipts_of_older
    }),
];

/// A board's line in a listing, and what came before it in the sheet.
struct Line<'a> {
    row: &'a Row,
    b: u8,
    /// Boards that were members before.
    past: u8,
}

impl Line<'_> {
    fn took_news(&self) -> bool {
        self.row.board(self.b).view.epoch == self.row.registry.epoch
    }

    fn joined(&self) -> bool {
        self.row.board(self.b).joined == self.row.registry.leader_epoch
    }

    /// Was it a member, and is it none now?
    fn left(&self) -> bool {
        self.past & (1 << (self.b - 1)) != 0 && !self.row.registry.has(self.b)
    }
}

/// The lines that the listings should have: the mark's two tests, each by itself.
const LINES: [(&str, fn(&Line) -> bool); 5] = [
    ("line of a board that took news and has not joined", |l| {
        l.took_news() && !l.joined()
    }),
    ("line of such a board that is no member any more", |l| {
        l.took_news() && !l.joined() && l.left()
    }),
    ("line of a board that has joined and took no news", |l| {
        l.joined() && !l.took_news()
    }),
    ("line of a board that is late for both", |l| {
        !l.joined() && !l.took_news()
    }),
    (
        "line of a board that is current under a later leader",
        |l| l.joined() && l.took_news() && l.row.registry.leader_epoch > 1,
    ),
];

/// Lengths in bytes that random sheets should have: that of the empty one, which has a
/// listing, and the wrong ones, which are still refused (document 02, Paper 9). Each sheet
/// goes into slices of its listing's length, a byte less, more, and none.
const LENGTHS: [(&str, fn(usize) -> bool); 4] = [
    ("empty sheet", |bytes| bytes == 0),
    ("sheet of 1 to 7 bytes", |bytes| bytes > 0 && bytes < 8),
    ("sheet with a part of a record at its end", |bytes| {
        bytes > 8 && bytes % 8 != 0
    }),
    ("sheet of more than 4,095 records", |bytes| {
        bytes > 8 * RECORDS_MAX
    }),
];

/// How often each answer of each step.
type Pairs = [[u64; ANSWERS]; STEPS];

#[derive(Default)]
pub struct Coverage {
    met: Pairs,
    /// In texts in words.
    told: Pairs,
    events: [u64; EVENTS.len()],
    never: [u64; NEVER.len()],
    tallied: [u64; TALLIED.len()],
    lines: [u64; LINES.len()],
    lengths: [u64; LENGTHS.len()],
}

impl Coverage {
    /// Notes the length of a random sheet that is broken.
    pub fn measure(&mut self, sheet: &[u8]) {
        for (number, (_, is_such)) in self.lengths.iter_mut().zip(LENGTHS) {
            *number += u64::from(is_such(sheet.len()));
        }
    }

    /// Plays a sheet, if it has a valid opening, and notes what it meets.
    pub fn play(&mut self, sheet: &[u8]) {
        let records = sheet.as_chunks::<8>().0;
        let Ok(behind) = behind(sheet) else {
            return;
        };
        let Ok(mut row) = Row::open(records[0][1]) else {
            return;
        };
        // It takes each record once that was looked at: a copy for each would take longer.
        let mut before = row.clone();
        self.met[0][0] += 1;
        let (mut changes, mut past) = (0, 0);
        for (record, behind) in records.iter().zip(behind).skip(1) {
            let [step, b, ..] = *record;
            let answer = row.step(record).answer;
            self.met[usize::from(step).min(STEPS - 1)][usize::from(answer)] += 1;
            if (step, answer) == (5, 0) {
                changes += 1;
            }
            past |= before.registry.members;
            let seen = Seen {
                before: &before,
                after: &row,
                step,
                b,
                behind,
                changes,
                past,
            };
            for (number, (_, came_about)) in self.events.iter_mut().zip(EVENTS) {
                *number += u64::from(came_about(&seen));
            }
            for (number, (_, came_about)) in self.never.iter_mut().zip(NEVER) {
                *number += u64::from(came_about(&seen));
            }
            before.step(record);
        }
        if let Ok(tally) = tally(sheet) {
            for (number, (_, how_often)) in self.tallied.iter_mut().zip(TALLIED) {
                *number += how_often(&tally) as u64;
            }
        }
        for b in 1..=8 {
            let row = &row;
            for (number, (_, stands)) in self.lines.iter_mut().zip(LINES) {
                *number += u64::from(stands(&Line { row, b, past }));
            }
        }
    }

    /// Notes a line of a text in words, of this record and the answer that a run gave.
    pub fn tell(&mut self, record: &[u8; 8], answer: usize) {
        let step = match record {
            [step, ..] if formed(record) => usize::from(*step),
            _ => STEPS - 1,
        };
        self.told[step][answer] += 1;
    }

    /// What is counted besides the pairs, with its number.
    fn counts(&self) -> impl Iterator<Item = (&'static str, u64)> {
        let events = EVENTS.map(|(name, _)| name).into_iter().zip(self.events);
        let tallied = TALLIED.map(|(name, _)| name).into_iter().zip(self.tallied);
        let lines = LINES.map(|(name, _)| name).into_iter().zip(self.lines);
        let lengths = LENGTHS.map(|(name, _)| name).into_iter().zip(self.lengths);
        events.chain(tallied).chain(lines).chain(lengths)
    }

    /// What can be met and was not, and what cannot and was.
    pub fn faults(&self) -> Vec<String> {
        let mut faults = pair_faults("met", &self.met, can_meet);
        faults.extend(pair_faults("told", &self.told, can_tell));
        let rare = self.counts().filter(|&(_, number)| number < ENOUGH);
        faults.extend(rare.map(|(name, _)| format!("not met {ENOUGH} times: {name}")));
        let met = self
            .never
            .iter()
            .zip(NEVER)
            .filter(|(&number, _)| number > 0);
        faults.extend(met.map(|(_, (name, _))| format!("met: {name}")));
        faults
    }
}

fn pair_faults(what: &str, pairs: &Pairs, can: fn(usize, usize) -> bool) -> Vec<String> {
    let mut faults = Vec::new();
    for (step, answers) in pairs.iter().enumerate() {
        for (answer, &number) in answers.iter().enumerate() {
            match (can(step, answer), number) {
                (true, 0) => faults.push(format!("not {what}: step {step}, answer {answer}")),
                (false, 1..) => faults.push(format!("{what}: step {step}, answer {answer}")),
                _ => {}
            }
        }
    }
    faults
}

impl fmt::Display for Coverage {
    fn fmt(&self, out: &mut fmt::Formatter) -> fmt::Result {
        writeln!(out, "answers by step, - where a run cannot meet the pair:")?;
        write!(out, "step")?;
        for answer in (0..ANSWERS).filter(|answer| ![2, 3].contains(answer)) {
            write!(out, "{answer:>8}")?;
        }
        for (step, answers) in self.met.iter().enumerate() {
            let name = if step < 16 {
                step.to_string()
            } else {
                "16+".into()
            };
            write!(out, "\n{name:>4}")?;
            for (answer, number) in answers.iter().enumerate() {
                match (answer, number) {
                    (2 | 3, _) => {}
                    (_, 0) if !can_meet(step, answer) => write!(out, "{:>8}", "-")?,
                    _ => write!(out, "{number:>8}")?,
                }
            }
        }
        for (name, number) in self.counts() {
            write!(out, "\n{number:>8} {name}")?;
        }
        Ok(())
    }
}
