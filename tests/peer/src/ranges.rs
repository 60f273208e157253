//! The ranges of document 01: which rows refusal 1 turns away. No run from an opening
//! gives one of them, but a row read from an image may become one.

use std::ops::RangeInclusive;

use crate::row::{Board, Heard, Outcome, Row, Stage, Status, View, EPOCH_MAX, LOG_MAX};

const EPOCHS: RangeInclusive<u16> = 1..=EPOCH_MAX;
const LENGTHS: RangeInclusive<usize> = 0..=LOG_MAX;
const LEADERS: RangeInclusive<u8> = 0..=8;

/// Is it an epoch that an entry can keep? Epochs run from 1 to 4,000.
pub fn is_epoch(epoch: u16) -> bool {
    EPOCHS.contains(&epoch)
}

impl Row {
    /// One record on a row that may come from anywhere: [1] also for a row that it turns
    /// away. In a run from an opening this is `step`.
    pub fn call(&mut self, record: &[u8; 8]) -> Outcome {
        match self.turned_away() {
            true => Outcome::refused(1),
            false => self.step(record),
        }
    }

    /// Is it a row that refusal 1 turns away? Lists and kept epochs are not asked: a `Log`
    /// is never longer than 512, and its entries come from an append under a leader epoch
    /// in its range, or from an image whose epochs were.
    pub fn turned_away(&self) -> bool {
        !self.is_in_range() || self.lacks_a_leader()
    }

    fn is_in_range(&self) -> bool {
        view(&self.registry)
            && view(&self.control.view)
            && self.control.heard.iter().all(heard)
            && self.boards.iter().all(board)
    }

    /// The registry's leader 0 while status is not choosing, or the controller's leader 0
    /// at stage leader or boards.
    fn lacks_a_leader(&self) -> bool {
        let registry = self.registry.leader == 0 && self.status != Status::Choosing;
        let reading = matches!(self.control.stage, Stage::Leader | Stage::Boards);
        registry || (self.control.view.leader == 0 && reading)
    }
}

/// The members may be any of the 256 sets, and need not have the leader among them.
fn view(view: &View) -> bool {
    is_epoch(view.epoch) && is_epoch(view.leader_epoch) && LEADERS.contains(&view.leader)
}

/// Heard joined epochs are 0 to 4,000, also where no length is heard.
fn heard(heard: &Heard) -> bool {
    heard.length.is_none_or(|length| LENGTHS.contains(&length)) && heard.joined <= EPOCH_MAX
}

/// A count may be above that board's length.
fn board(board: &Board) -> bool {
    let counts = board.counts.iter().all(|count| LENGTHS.contains(count));
    view(&board.view) && is_epoch(board.joined) && counts
}
