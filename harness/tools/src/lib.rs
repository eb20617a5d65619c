//! Generators of files, the engine's C functions, and the comparison of the engine with the model.
#![deny(unsafe_code)]

pub mod args;
pub mod bench;
pub mod compare;
pub mod engine;
pub mod make;
pub mod old_engine;
pub mod output;
pub mod parallel;
pub mod progress;
pub mod random;
pub mod recipe;
pub mod shrink;
pub mod stand_in;
pub mod terminal;
