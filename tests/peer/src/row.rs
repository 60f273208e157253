//! The row and its fifteen steps, in the paper's order and words.

use std::array;
use std::ops::Deref;

/// Entries of a log. The receipts need no limit of their own: a receipt is given
/// only where a log is longer than they are.
pub const LOG_MAX: usize = 512;
/// Epochs run from 1 to this.
pub const EPOCH_MAX: u16 = 4000;

#[derive(Clone, Copy, PartialEq, Eq, Debug)]
pub enum Status {
    Normal,
    Waiting,
    Choosing,
}

#[derive(Clone, Copy, PartialEq, Eq, Debug)]
pub enum Stage {
    Idle,
    Leader,
    Boards,
    Choosing,
}

/// What the registry says, and what boards and controller take from it.
#[derive(Clone, Copy, PartialEq, Eq, Debug)]
pub struct View {
    pub epoch: u16,
    pub leader_epoch: u16,
    /// 1 to 8; 0 is no board.
    pub leader: u8,
    /// Bit b - 1 stands for board b.
    pub members: u8,
}

/// A value, and the leader epoch of the board that appended it, as that board had
/// it in its view then. Two entries are equal only if both are: document 02, Paper 4.
#[derive(Clone, Copy, PartialEq, Eq, Debug)]
pub struct Entry {
    pub value: u32,
    pub epoch: u16,
}

/// A list of entries, or of receipts: the values in its own 512 places, and their
/// epochs at the same places of a second list.
#[derive(Clone, PartialEq, Eq, Debug)]
pub struct Log {
    values: [u32; LOG_MAX],
    epochs: [u16; LOG_MAX],
    length: usize,
}

#[derive(Clone, PartialEq, Eq, Debug)]
pub struct Board {
    pub view: View,
    /// The leader epoch whose leader's log its own log last followed.
    pub joined: u16,
    pub log: Log,
    /// A count for each of the 8 boards.
    pub counts: [usize; 8],
}

/// What the controller heard of a board.
#[derive(Clone, Copy, PartialEq, Eq, Debug)]
pub struct Heard {
    /// None is below 0, as in the order of `Option`.
    pub length: Option<usize>,
    pub joined: u16,
}

#[derive(Clone, PartialEq, Eq, Debug)]
pub struct Control {
    pub view: View,
    pub stage: Stage,
    pub heard: [Heard; 8],
}

#[derive(Clone, PartialEq, Eq, Debug)]
pub struct Row {
    pub registry: View,
    pub status: Status,
    pub control: Control,
    pub boards: [Board; 8],
    pub receipts: Log,
}

/// What a step hands back.
#[derive(Clone, Copy, PartialEq, Eq, Debug)]
pub struct Outcome {
    /// 0 if accepted, else the refusal.
    pub answer: u8,
    /// The boards that stood behind it, bits as in `View::members`: document 02, Paper 6.
    /// Empty for a refused step, and for one that asks for no majority.
    pub behind: u8,
}

/// A majority of n boards is n/2 rounded down, plus 1.
pub const fn majority(n: u32) -> u32 {
    n / 2 + 1
}

/// Majority sizes from a table, one for each set of boards, board 1 as the lowest
/// bit, as in `View::members`: document 02, Paper 3.
pub static MAJORITY_SIZES: [u8; 256] = majority_sizes();

const fn majority_sizes() -> [u8; 256] {
    let mut sizes = [0; 256];
    let mut set: usize = 0;
    while set < 256 {
        // 1 for the empty set needs no case of its own: it is half of 0, plus 1.
        sizes[set] = majority(set.count_ones()) as u8;
        set += 1;
    }
    sizes
}

/// The majority size of a set of boards, looked up.
pub fn majority_size(set: u8) -> u8 {
    MAJORITY_SIZES[usize::from(set)]
}

/// Where board b, 1 to 8, stands in an array of eight.
pub(crate) fn at(b: u8) -> usize {
    usize::from(b) - 1
}

/// Is board b in a set, bits as in `View::members`?
pub fn has(set: u8, b: u8) -> bool {
    set & (1 << at(b)) != 0
}

const UNHEARD: [Heard; 8] = [Heard {
    length: None,
    joined: 0,
}; 8];

/// A check of a step: where it does not hold, the step is refused with `n`.
macro_rules! check {
    ($holds:expr, $n:literal) => {
        if !$holds {
            return Outcome::refused($n);
        }
    };
}

impl Outcome {
    /// Accepted, and no majority was asked for.
    pub const ACCEPTED: Outcome = Outcome {
        answer: 0,
        behind: 0,
    };

    pub(crate) fn refused(answer: u8) -> Outcome {
        Outcome { answer, behind: 0 }
    }

    /// Accepted by a majority: `behind` is the set that the majority question gave.
    fn carried(behind: u8) -> Outcome {
        Outcome { answer: 0, behind }
    }
}

impl Log {
    pub(crate) const EMPTY: Log = Log {
        values: [0; LOG_MAX],
        epochs: [0; LOG_MAX],
        length: 0,
    };

    pub fn len(&self) -> usize {
        self.length
    }

    pub fn is_empty(&self) -> bool {
        self.length == 0
    }

    /// The epochs of its entries; the values are what it derefs to.
    pub fn epochs(&self) -> &[u16] {
        &self.epochs[..self.length]
    }

    pub fn entries(&self) -> impl Iterator<Item = Entry> + '_ {
        let both = self.iter().zip(self.epochs());
        both.map(|(&value, &epoch)| Entry { value, epoch })
    }

    /// Have both the same entries, whatever their places past them hold?
    fn same(&self, other: &Log) -> bool {
        self.entries().eq(other.entries())
    }

    /// The entry at a place below its length.
    fn entry(&self, place: usize) -> Entry {
        Entry {
            value: self[place],
            epoch: self.epochs()[place],
        }
    }

    /// The length of the longest beginning shared with another log, by value and
    /// epoch.
    fn shared(&self, other: &Log) -> usize {
        let both = self.entries().zip(other.entries());
        both.take_while(|(own, theirs)| own == theirs).count()
    }

    pub(crate) fn push(&mut self, entry: Entry) {
        self.values[self.length] = entry.value;
        self.epochs[self.length] = entry.epoch;
        self.length += 1;
    }

    fn truncate(&mut self, length: usize) {
        self.length = self.length.min(length);
    }
}

impl Board {
    fn same(&self, other: &Board) -> bool {
        self.view == other.view
            && self.joined == other.joined
            && self.counts == other.counts
            && self.log.same(&other.log)
    }
}

/// The values alone: to compare them compares no entries.
impl Deref for Log {
    type Target = [u32];

    fn deref(&self) -> &[u32] {
        &self.values[..self.length]
    }
}

impl View {
    pub fn has(&self, b: u8) -> bool {
        has(self.members, b)
    }

    pub fn size(&self) -> u32 {
        self.members.count_ones()
    }

    /// The majority question: the set of all members that qualify. It does not stop at
    /// the smallest majority: document 02, Paper 6.
    fn members_that(&self, qualify: impl Fn(u8) -> bool) -> u8 {
        let all = (1..=8).filter(|&b| self.has(b) && qualify(b));
        all.fold(0, |set, b| set | 1 << at(b))
    }

    /// Is a set of members a majority of them?
    fn is_majority(&self, set: u8) -> bool {
        set.count_ones() >= u32::from(majority_size(self.members))
    }
}

impl Row {
    /// Step 0, the opening with board b, or refusal 1.
    pub fn open(b: u8) -> Result<Row, u8> {
        if !(1..=8).contains(&b) {
            return Err(1);
        }
        let view = View {
            epoch: 1,
            leader_epoch: 1,
            leader: b,
            members: 1 << at(b),
        };
        Ok(Row {
            registry: view,
            status: Status::Normal,
            control: Control {
                view,
                stage: Stage::Idle,
                heard: UNHEARD,
            },
            boards: array::from_fn(|_| Board {
                view,
                joined: 1,
                log: Log::EMPTY,
                counts: [0; 8],
            }),
            receipts: Log::EMPTY,
        })
    }

    pub fn board(&self, b: u8) -> &Board {
        &self.boards[at(b)]
    }

    /// Are they the same row? Unlike `==`, this asks for no place past a list's length:
    /// an image keeps none of them.
    pub fn same(&self, other: &Row) -> bool {
        let boards = self.boards.iter().zip(&other.boards);
        (self.registry, self.status) == (other.registry, other.status)
            && self.control == other.control
            && boards.into_iter().all(|(own, theirs)| own.same(theirs))
            && self.receipts.same(&other.receipts)
    }

    fn board_mut(&mut self, b: u8) -> &mut Board {
        &mut self.boards[at(b)]
    }

    /// One record after the opening: the answer, 0 if accepted, and which boards stood
    /// behind it. A refused step leaves the row as it was. [1] comes before a step's own
    /// checks. The row is not asked for its own numbers: `call` does that.
    pub fn step(&mut self, record: &[u8; 8]) -> Outcome {
        match *record {
            [1, b @ 1..=8, 0, 0, value @ ..] => self.append(b, u32::from_le_bytes(value)),
            [2, b @ 1..=8, 0, 0, 0, 0, 0, 0] => self.receipt(b),
            [3, b @ 1..=8, 0, 0, 0, 0, 0, 0] => self.add(b),
            [4, b @ 1..=8, 0, 0, 0, 0, 0, 0] => self.remove(b),
            [5, 0, 0, 0, 0, 0, 0, 0] => self.change_leader(),
            [6, b @ 1..=8, 0, 0, 0, 0, 0, 0] => self.board_news(b),
            [7, b @ 1..=8, 0, 0, 0, 0, 0, 0] => self.join(b),
            [8, b @ 1..=8, 0, 0, 0, 0, 0, 0] => self.receive(b),
            [9, a @ 1..=8, b @ 1..=8, 0, 0, 0, 0, 0] if a != b => self.count(a, b),
            [10, 0, 0, 0, 0, 0, 0, 0] => self.controller_news(),
            [11, 0, 0, 0, 0, 0, 0, 0] => self.read_leader(),
            [12, b @ 1..=8, 0, 0, 0, 0, 0, 0] => self.read(b),
            [13, 0, 0, 0, 0, 0, 0, 0] => self.set_normal(),
            [14, b @ 1..=8, 0, 0, 0, 0, 0, 0] => self.hear(b),
            [15, b @ 1..=8, 0, 0, 0, 0, 0, 0] => self.install(b),
            // a field outside its values, a equal to b, step 0 in mid-sheet
            _ => Outcome::refused(1),
        }
    }

    /// Step 1: append b, value.
    fn append(&mut self, b: u8, value: u32) -> Outcome {
        let board = self.board_mut(b);
        check!(board.view.leader == b, 8);
        check!(board.log.len() < LOG_MAX, 13);
        // Its own leader epoch, which the registry's may have passed.
        let epoch = board.view.leader_epoch;
        board.log.push(Entry { value, epoch });
        board.counts[at(b)] = board.log.len();
        Outcome::ACCEPTED
    }

    /// Step 2: receipt by b.
    fn receipt(&mut self, b: u8) -> Outcome {
        let given = self.receipts.len();
        let board = self.board(b);
        check!(board.view.leader == b, 8);
        check!(board.log.len() > given, 12);
        // Counted above the receipt: a count at the receipts' length does not have it.
        let counted_above = |m| board.counts[at(m)] > given;
        let behind = board.view.members_that(counted_above);
        check!(board.view.is_majority(behind), 14);
        self.receipts.push(board.log.entry(given));
        Outcome::carried(behind)
    }

    /// Step 3: add b.
    fn add(&mut self, b: u8) -> Outcome {
        check!(self.status != Status::Choosing, 4);
        check!(!self.registry.has(b), 5);
        check!(self.registry.epoch < EPOCH_MAX, 7);
        self.registry.epoch += 1;
        self.registry.members |= 1 << at(b);
        self.status = Status::Waiting;
        Outcome::ACCEPTED
    }

    /// Step 4: remove b.
    fn remove(&mut self, b: u8) -> Outcome {
        check!(self.status != Status::Choosing, 4);
        check!(self.registry.has(b), 5);
        check!(self.registry.leader != b, 6);
        check!(self.registry.epoch < EPOCH_MAX, 7);
        self.registry.epoch += 1;
        self.registry.members &= !(1 << at(b));
        // Normal if exactly one member is left, else waiting.
        self.status = match self.registry.size() {
            1 => Status::Normal,
            _ => Status::Waiting,
        };
        Outcome::ACCEPTED
    }

    /// Step 5: change leader.
    fn change_leader(&mut self) -> Outcome {
        check!(self.status == Status::Normal, 4);
        check!(self.registry.size() >= 2, 6);
        check!(self.registry.epoch < EPOCH_MAX, 7);
        let registry = &mut self.registry;
        registry.epoch += 1;
        registry.members &= !(1 << at(registry.leader));
        if registry.size() == 1 {
            registry.leader = registry.members.trailing_zeros() as u8 + 1;
            registry.leader_epoch = registry.epoch;
        } else {
            registry.leader = 0;
            self.status = Status::Choosing;
        }
        Outcome::ACCEPTED
    }

    /// Step 6: board b takes news.
    fn board_news(&mut self, b: u8) -> Outcome {
        let news = self.registry;
        let board = self.board_mut(b);
        check!(board.view.epoch < news.epoch, 12);
        let changed = board.view.leader_epoch != news.leader_epoch;
        board.view = news;
        if changed {
            board.counts = [0; 8];
            board.counts[at(b)] = board.log.len();
            if news.leader == b {
                board.joined = news.leader_epoch;
            }
        }
        Outcome::ACCEPTED
    }

    /// Step 7: join b.
    fn join(&mut self, b: u8) -> Outcome {
        let board = self.board(b);
        let l = board.view.leader;
        check!(l != 0 && l != b, 9);
        let leader = self.board(l);
        check!(board.view.has(b), 5);
        check!(board.view.leader_epoch == leader.view.leader_epoch, 10);
        check!(board.joined != board.view.leader_epoch, 11);
        let shared = board.log.shared(&leader.log);
        let board = self.board_mut(b);
        board.log.truncate(shared);
        board.joined = board.view.leader_epoch;
        Outcome::ACCEPTED
    }

    /// Would a join of b, if it is accepted, cut at an entry that has the value of
    /// its leader's entry at that place, but another epoch? Joining by value alone
    /// would keep more there, and would keep the same everywhere else.
    pub fn join_cuts_by_epoch(&self, b: u8) -> bool {
        let board = self.board(b);
        let l = board.view.leader;
        if l == 0 {
            return false;
        }
        let leader = self.board(l);
        let shared = board.log.shared(&leader.log);
        // The first entries not shared, if both logs go on: they differ.
        let mut values = board.log.iter().zip(leader.log.iter());
        values.nth(shared).is_some_and(|(own, led)| own == led)
    }

    /// Step 8: receive b.
    fn receive(&mut self, b: u8) -> Outcome {
        let board = self.board(b);
        let l = board.view.leader;
        check!(l != 0 && l != b, 9);
        let leader = self.board(l);
        check!(board.view.has(b) && leader.view.has(b), 5);
        check!(board.view.leader_epoch == leader.view.leader_epoch, 10);
        check!(board.joined == board.view.leader_epoch, 11);
        check!(board.log.len() < leader.log.len(), 12);
        let entry = leader.log.entry(board.log.len());
        self.board_mut(b).log.push(entry);
        Outcome::ACCEPTED
    }

    /// Step 9: leader a counts b.
    fn count(&mut self, a: u8, b: u8) -> Outcome {
        let (leader, board) = (self.board(a), self.board(b));
        check!(leader.view.leader == a, 8);
        check!(board.view.has(b), 5);
        check!(leader.view.leader_epoch == board.view.leader_epoch, 10);
        check!(board.joined == board.view.leader_epoch, 11);
        let length = board.log.len();
        check!(leader.counts[at(b)] < length, 12);
        self.board_mut(a).counts[at(b)] = length;
        Outcome::ACCEPTED
    }

    /// Step 10: the controller takes news.
    fn controller_news(&mut self) -> Outcome {
        check!(self.control.view.epoch < self.registry.epoch, 12);
        self.control = Control {
            view: self.registry,
            stage: match self.status {
                Status::Normal => Stage::Idle,
                Status::Waiting => Stage::Leader,
                Status::Choosing => Stage::Choosing,
            },
            heard: UNHEARD,
        };
        Outcome::ACCEPTED
    }

    /// Step 11: the controller reads its leader.
    fn read_leader(&mut self) -> Outcome {
        check!(self.control.stage == Stage::Leader, 15);
        let l = self.control.view.leader;
        let leader = self.board(l);
        check!(leader.view.epoch == self.control.view.epoch, 16);
        self.control.heard[at(l)] = Heard {
            length: Some(leader.log.len()),
            joined: 0,
        };
        self.control.stage = Stage::Boards;
        Outcome::ACCEPTED
    }

    /// Step 12: the controller reads b.
    fn read(&mut self, b: u8) -> Outcome {
        let (control, board) = (&self.control, self.board(b));
        check!(control.stage == Stage::Boards, 15);
        check!(control.view.leader != b, 6);
        check!(control.view.has(b), 5);
        check!(board.joined == control.view.leader_epoch, 11);
        let length = Some(board.log.len());
        check!(control.heard[at(b)].length < length, 12);
        self.control.heard[at(b)] = Heard { length, joined: 0 };
        Outcome::ACCEPTED
    }

    /// Step 13: set normal.
    fn set_normal(&mut self) -> Outcome {
        let (control, registry) = (&mut self.control, &mut self.registry);
        check!(control.stage == Stage::Boards, 15);
        check!(control.view.epoch == registry.epoch, 16);
        // Where nothing is heard of the leader, any heard length is not below that; but an
        // unheard board never qualifies, the leader included.
        let length = |m| control.heard[at(m)].length;
        let least = length(control.view.leader);
        let heard_as_long = |m| length(m).is_some() && length(m) >= least;
        let behind = control.view.members_that(heard_as_long);
        check!(control.view.is_majority(behind), 14);
        check!(registry.epoch < EPOCH_MAX, 7);
        registry.epoch += 1;
        self.status = Status::Normal;
        control.stage = Stage::Idle;
        control.heard = UNHEARD;
        control.view.epoch = registry.epoch;
        Outcome::carried(behind)
    }

    /// Step 14: the controller hears b.
    fn hear(&mut self, b: u8) -> Outcome {
        let (control, board) = (&self.control, self.board(b));
        check!(control.stage == Stage::Choosing, 15);
        check!(control.view.has(b), 5);
        check!(board.view.epoch == control.view.epoch, 16);
        let length = Some(board.log.len());
        check!(control.heard[at(b)].length < length, 12);
        let joined = board.joined;
        self.control.heard[at(b)] = Heard { length, joined };
        Outcome::ACCEPTED
    }

    /// Step 15: install b.
    fn install(&mut self, b: u8) -> Outcome {
        let (control, registry) = (&mut self.control, &mut self.registry);
        check!(control.stage == Stage::Choosing, 15);
        check!(control.view.has(b), 5);
        check!(control.view.epoch == registry.epoch, 16);
        // Ranks go by joined epoch first, then length.
        let rank = |m| (control.heard[at(m)].joined, control.heard[at(m)].length);
        let heard = |m| control.heard[at(m)].length.is_some();
        let not_above = |m| heard(m) && rank(m) <= rank(b);
        let behind = control.view.members_that(not_above);
        // A majority contains b only if b itself qualifies: it must be heard.
        check!(has(behind, b) && control.view.is_majority(behind), 14);
        check!(registry.epoch < EPOCH_MAX, 7);
        registry.epoch += 1;
        registry.leader = b;
        registry.leader_epoch = registry.epoch;
        self.status = Status::Waiting;
        control.view.epoch = registry.epoch;
        control.view.leader = b;
        control.view.leader_epoch = registry.epoch;
        control.stage = Stage::Leader;
        control.heard = UNHEARD;
        Outcome::carried(behind)
    }
}
