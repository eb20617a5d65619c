//! Words with any choice of faults.

use super::SaveCase;
use crate::compare::faults::{self, Faults};
use crate::make::edges::balanced;

/// The refusals in the order in which they are given.
pub const ORDER: [u32; 7] = [12, 3, 4, 5, 6, 7, 13];

/// Every choice of faults.
pub fn every() -> impl Iterator<Item = Faults> {
    faults::every(&ORDER)
}

/// The words with these faults. 7: another type. 13: a buffer that is a byte too short, or far too short. 12: a sum of 2,100
/// leaves.
pub fn case(faults: Faults) -> SaveCase {
    let term = faults.sum(Some((12, balanced(21, 17, 2_100))));
    let case = SaveCase::new(if faults.has(7) { &[3, 1] } else { &[1] }, &term, 0);
    let bytes = case.file_bytes();
    match (faults.has(13), faults.nesting_first) {
        (true, true) => case.in_room(bytes - 1),
        (true, false) => case.in_room(7),
        (false, _) => case.in_room(bytes + faults.chosen as usize % 3),
    }
}
