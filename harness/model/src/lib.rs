//! Recipes on trees, written from documents 01 and 02 alone and apart from the engine.
//!
//! `check` answers a file with a recipe or a refusal; `run` reduces it to one of the four ends; `price` prices the value, and
//! `card` lays the price out; `save` makes what is left into a file again. Trees nest as deep as they have words: call all five
//! within `on_large_stack`. `nodes` finds the whole node at a place of any words, without trees.

#![forbid(unsafe_code)]

pub mod build;
pub mod card;
pub mod check;
pub mod class;
pub mod earlier;
pub mod file;
pub mod kinds;
pub mod laws;
pub mod node;
pub mod nodes;
pub mod owners;
pub mod price;
pub mod read;
pub mod rules;
pub mod run;
pub mod save;
pub mod scope;
pub mod stack;
pub mod step;
pub mod substitute;
pub mod text;
pub mod tree;
pub mod typing;
pub mod untyped;
pub mod values;

pub use card::{card, Carded};
pub use check::{check, Recipe, Refusal};
pub use class::{Class, ClassCounts};
pub use price::{price, Charges, Priced, Prices};
pub use run::{run, End, Ended, Run};
pub use save::{save, Saved};
pub use stack::on_large_stack;
pub use tree::{Ml, Scheme, Test, Type};
