//! The comparison of the engine with the model: the check, the run, the pricing, the card, the save, the reader of nodes, the
//! listing, and what is printed of them.

pub mod card;
mod case;
mod check;
mod counts;
mod deepest;
mod faults;
pub mod figures;
pub mod lent;
mod list;
pub mod mismatches;
mod nested;
pub mod node;
mod ownerless;
pub mod owners;
mod plan;
pub mod price;
mod report;
mod run;
pub mod save;
mod seen;
mod stack;
mod tested;

use crate::progress::Progress;

pub use card::{compare_card, CardCounts, CardingEngine};
pub use case::Case;
pub use check::{compare_check, compare_file};
pub use counts::{missing, table, Counts};
pub use deepest::FEWEST_WORDS;
pub use list::{compare_list, listed};
pub use node::{compare_node, NodeCounts, NodeReaders};
pub use ownerless::compare_ownerless;
pub use price::{compare_price, PriceCounts};
pub use report::show_file;
pub use run::{compare_once, compare_run};
pub use save::{compare_save, SaveCounts, SavingEngine};
pub use stack::{
    compare_asked_stack, compare_carded_stack, compare_checked_stack, compare_priced_stack, compare_saved_stack,
    compare_stack, Room,
};

/// How many random files, which ones, and whether everything must have been reached.
#[derive(Clone, Copy)]
pub struct Plan {
    pub files: u64,
    pub seed: u64,
    pub start: u64,
}

impl Plan {
    /// Compares each of the random files, by its index, and shows how far that is. A difference says which file it is.
    fn each_file(&self, mut compare: impl FnMut(u64) -> Result<(), String>) -> Result<(), String> {
        let mut progress = Progress::new("files", self.files);
        for index in self.start..self.start + self.files {
            compare(index).map_err(|shown| format!("random file {index} of seed {}\n{shown}", self.seed))?;
            progress.done(index - self.start);
        }
        Ok(())
    }
}
