//! Whole recipes: a step of the engine's run against the reducer on trees and a plain copy.

use super::recipes::recipes;
use super::table::head;
use super::works::measured;
use crate::old_engine::linked_run;

/// Steps of recipes that do not end by themselves.
const LIMIT: u32 = 20_000;

/// One row for each recipe.
pub fn tables() -> Vec<String> {
    let about = "Recipes run to their ends. The limit before the first step measured is 0.".to_string();
    let rows = recipes().into_iter().map(|recipe| measured(&recipe, 0, LIMIT).row());
    [about].into_iter().chain(head(linked_run().is_some())).chain(rows).collect()
}
