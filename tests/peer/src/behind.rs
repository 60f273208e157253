//! Which boards stood behind the records of a sheet: document 02, Paper 6. A listing
//! shows no more than the sets. This is for a comparer, to count the runs in which a
//! set that stops at a majority could show.

use crate::opened;
use crate::row::{majority_size, Outcome, Row};

/// What the run of a sheet handed back for a record.
#[derive(Clone, Copy, PartialEq, Eq, Debug)]
pub struct Behind {
    pub outcome: Outcome,
    /// How many boards make the smallest majority of the members asked. 0 where the set
    /// is empty: for a refused record, and for one that asks for no majority.
    pub least: u8,
}

impl Behind {
    /// Are more boards behind it than the smallest majority has?
    pub fn is_larger(&self) -> bool {
        self.outcome.behind.count_ones() > self.least.into()
    }
}

/// One for each record of a sheet, the opening included, or refusal 2.
pub fn behind(sheet: &[u8]) -> Result<Vec<Behind>, usize> {
    let (records, mut row) = opened(sheet).ok_or(2_usize)?;
    let opening = Behind {
        outcome: Outcome::ACCEPTED,
        least: 0,
    };
    let mut all = vec![opening];
    for record in &records[1..] {
        let outcome = row.step(record);
        let least = match outcome.answer {
            0 => least(&row, record),
            _ => 0,
        };
        all.push(Behind { outcome, least });
    }
    Ok(all)
}

/// The smallest majority that an accepted record asked for: of b's members for a
/// receipt, of the controller's for set normal and install. The row is the one after
/// it: none of the three changes the members it asked.
fn least(row: &Row, record: &[u8; 8]) -> u8 {
    match *record {
        [2, b, ..] => majority_size(row.board(b).view.members),
        [13 | 15, ..] => majority_size(row.control.view.members),
        _ => 0,
    }
}
