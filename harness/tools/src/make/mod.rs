//! What to compare on: random well-typed recipes, cans, damaged files, edges, every small term, every test of if0, every place of an
//! owner, every way to have no type, price tables, words to save, and words to ask for nodes in.

pub mod cans;
mod damage;
pub mod edges;
mod every;
mod forms;
pub mod mismatches;
mod ml;
pub mod nodes;
pub mod owners;
mod plan;
pub mod prices;
pub mod saves;
mod scheme;
mod tests;
mod text;
mod types;

pub use damage::{damage, telling_word};
pub use edges::{deep_recipes, edges, nested};
pub use every::{every_small_recipe, every_small_term, every_small_type};
pub use mismatches::{every_mismatch, mismatched_file};
pub use owners::{every_owner, every_sealed, every_two_owners};
pub use plan::{damaged_file, mistaken_file, well_typed_file};
pub use tests::every_test;
pub use text::{file_of_text, sum};
