//! Majority sizes: the C entry `look_up_majority` and the second program's table.

use crate::both::{differs, Fault};

extern "C" {
    fn look_up_majority(set: u8) -> u8;
}

/// Every set of boards must have the same majority size in both. Returns the exit status.
pub fn compare() -> Result<u8, Fault> {
    for set in 0..=u8::MAX {
        // SAFETY: the entry takes a number and gives one.
        let size = unsafe { look_up_majority(set) };
        let expected = peer::row::majority_size(set);
        if size != expected {
            let said = format!("look_up_majority gives {size}, the second program {expected}");
            differs(format!("set {set:08b}: {said}"))?;
        }
    }
    println!("all 256 sets agree");
    Ok(0)
}
