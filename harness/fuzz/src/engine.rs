//! The functions that are tried: the engine's, or some of the model's in their place.

use model::text::{parse_recipe, Fault, Parsed};
use tools::engine::*;

/// The reader of recipes as text.
pub type Read = fn(&str) -> Result<Parsed, Fault>;

/// All functions that a target may ask for.
#[derive(Clone, Copy)]
pub struct Engine {
    pub check: Check,
    pub run: Run,
    pub price: Price,
    pub card: Card,
    pub save: Save,
    pub node: Node,
    pub walked: Node,
    pub read: Read,
}

impl Engine {
    /// The engine's own, and the reader of text.
    pub fn linked() -> Option<Engine> {
        Some(Engine {
            check: linked_check()?,
            run: linked_run()?,
            price: linked_price()?,
            card: linked_card()?,
            save: linked_save()?,
            node: linked_node()?,
            walked: linked_node_walked()?,
            read: parse_recipe,
        })
    }
}
