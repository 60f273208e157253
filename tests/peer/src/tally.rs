//! What the run of a sheet met of document 02, Paper 4. No listing shows it: it is
//! for a comparer, to count the runs in which a misreading of the paper could show.

use crate::opened;

/// How often a run met each place where the epochs of entries matter. Where a number
/// is 0, the run tells nothing about the mistake named beside it.
#[derive(Clone, Copy, PartialEq, Eq, Default, Debug)]
pub struct Tally {
    /// Accepted joins that cut at an entry that has the value of the leader's entry
    /// at that place, but another epoch. Joining by value alone keeps more there.
    pub joins_cut_by_epoch: usize,
    /// Accepted appends by a board whose leader epoch is not the registry's. An
    /// entry with the registry's leader epoch is wrong there.
    pub appends_under_replaced: usize,
    /// Accepted receives of an entry whose epoch is not the leader epoch of the
    /// leader it is taken from. An entry with that epoch is wrong there.
    pub receives_of_older: usize,
    /// Accepted receipts of an entry whose epoch is not the leader epoch of the board
    /// that gives it. A receipt with that epoch is wrong there.
    pub receipts_of_older: usize,
}

/// The tally of a sheet's run, or refusal 2.
pub fn tally(sheet: &[u8]) -> Result<Tally, usize> {
    let (records, mut row) = opened(sheet).ok_or(2_usize)?;
    let mut tally = Tally::default();
    for record in &records[1..] {
        // Before the join: afterwards what it cut is gone.
        let by_epoch = matches!(*record, [7, b @ 1..=8, ..] if row.join_cuts_by_epoch(b));
        if row.step(record).answer != 0 {
            continue;
        }
        // Neither an append nor a receive nor a receipt changes a leader epoch.
        let [step, b, ..] = *record;
        let own = |b| row.board(b).view.leader_epoch;
        let newest = |epochs: &[u16]| epochs.last().copied();
        match step {
            1 if own(b) != row.registry.leader_epoch => tally.appends_under_replaced += 1,
            2 if newest(row.receipts.epochs()) != Some(own(b)) => tally.receipts_of_older += 1,
            7 if by_epoch => tally.joins_cut_by_epoch += 1,
            // It and its leader have equal leader epochs [10].
            8 if newest(row.board(b).log.epochs()) != Some(own(b)) => tally.receives_of_older += 1,
            _ => {}
        }
    }
    Ok(tally)
}
