//! Recipes as text: made into files and shown, checked, run and stepped through by the engine.
#![forbid(unsafe_code)]

use std::io::{stderr, stdin, stdout, BufWriter};
use std::process::ExitCode;
use tools::recipe::{program, Desk, Engine, LEAST_WIDTH, WIDTH};
use tools::terminal::columns;

fn main() -> ExitCode {
    let (mut input, mut output) = (stdin(), BufWriter::new(stdout()));
    let width = columns().map_or(WIDTH, |columns| columns.max(LEAST_WIDTH));
    let mut desk =
        Desk { engine: Engine::linked(), width, input: &mut input, output: &mut output, note: String::new() };
    let words = std::env::args_os().skip(1).map(|word| word.to_string_lossy().into_owned()).collect();
    ExitCode::from(program(words, &mut desk, &mut stderr()))
}
