//! Document 01's reductions, with Scheme's if0 as document 02's request U4 has it: what a node becomes when it is its turn
//! and the parts that evaluation takes are values.

mod ml;
mod names;
mod scheme;

pub use ml::ml_rule;
pub use names::{Rule, RuleCounts};
pub use scheme::scheme_rule;
