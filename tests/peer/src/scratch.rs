//! A smaller scratch for reading: document 02, Paper 8. An image is read as in `image`, but
//! which records were met is kept in the lent scratch, one bit for each of them.

use crate::image::{chain, list, read_by, two, FIRSTS, HEAD, RECORDS_MAX};
use crate::row::{Log, Row};

/// "The reader must give the same answers and row with 576 bytes of scratch or more, 3 with
/// fewer."
pub const SCRATCH_MIN: usize = 576;

/// They hold a bit for each record, and none is left over.
const _: () = assert!(8 * SCRATCH_MIN == RECORDS_MAX);

/// How many places are lent: the log store, the second store of its epochs, the receipts, and
/// the second list of theirs.
pub(crate) const LENT: [usize; 4] = [4096, 4096, 512, 512];

/// A whole call of the reader, which may be lent a dirty scratch: the row of an image, or 1,
/// 3, 17, 18 or 19, in that order. 1 and 3 change nothing; "past refusal 3 the whole scratch
/// ends as zeros".
pub fn read_in(image: &[u8], lent: [usize; 4], scratch: &mut [u8]) -> Result<Row, u8> {
    // [1] "in reading for the lent lengths alone"
    if lent != LENT {
        return Err(1);
    }
    // [3] "for a slice too short"
    let Some(bits) = scratch.first_chunk_mut::<SCRATCH_MIN>() else {
        return Err(3);
    };
    let mut met = Met::none(bits);
    let read = read_by(image, |head, records| chains(head, records, &mut met));
    scratch.fill(0);
    read
}

/// What a listing says of an image's row, as `image::show_image` does, by a call with the
/// right lent lengths: the lines after the answers, or 3, 17, 18 or 19.
pub fn show_in(image: &[u8], scratch: &mut [u8]) -> Result<String, u8> {
    Ok(list(&[], &[], &read_in(image, LENT, scratch)?))
}

/// Which records were met: bit k % 8 of byte k / 8, the lowest first, for the record at place
/// k, which is record k + 1. It stands in the scratch's first bytes.
struct Met<'a>(&'a mut [u8; SCRATCH_MIN]);

impl Met<'_> {
    /// None is met yet, whatever the bytes held before.
    fn none(bits: &mut [u8; SCRATCH_MIN]) -> Met<'_> {
        bits.fill(0);
        Met(bits)
    }

    fn has(&self, record: usize) -> bool {
        self.0[record / 8] & 1 << (record % 8) != 0
    }

    /// Marks a record, and says whether it was met before.
    fn meet(&mut self, record: usize) -> bool {
        let twice = self.has(record);
        self.0[record / 8] |= 1 << (record % 8);
        twice
    }
}

/// The logs of boards 1 to 8, then the receipts; none if "a chain points past the last record
/// or passes 512 entries, or a record is met twice, by one chain or two, or not at all".
fn chains(head: &[u8; HEAD], records: &[[u8; 8]], met: &mut Met) -> Option<[Log; 9]> {
    let mut logs = [const { Log::EMPTY }; 9];
    for (log, place) in logs.iter_mut().zip(FIRSTS) {
        chain(log, two(head, place), records, |record| met.meet(record))?;
    }
    let all = (0..records.len()).all(|record| met.has(record));
    all.then_some(logs)
}
