//! The stack that include/recipe.h says suffices, by operation and words: read out of the header, tried, and found anew. Each
//! try is a process of its own, because a stack that is too small ends it by a signal.

use super::deepest::FEWEST_WORDS;
use model::run::MOST_WORDS;
use std::path::Path;
use std::process::Command;

/// The header as the controller's engineer has it.
pub const HEADER: &str = include_str!(concat!(env!("CARGO_MANIFEST_DIR"), "/../../include/recipe.h"));

/// The words that are lent, or asked about, where the stack goes by them.
const WORDS: [usize; 4] = [FEWEST_WORDS, 1_024, 4_096, MOST_WORDS];

/// An operation with so many words, and the stack that the header says for it: run (with a price and a card and without), node,
/// check or save.
#[derive(Clone, Debug, PartialEq, Eq)]
pub struct Figure {
    pub operation: &'static str,
    pub words: usize,
    pub bytes: usize,
}

/// The number that a header defines by a name: one number, or several multiplied.
pub fn defined(header: &str, name: &str) -> Result<usize, String> {
    let lacks = || format!("the header does not define {name} as a number");
    let definition =
        |line: &str| line.strip_prefix("#define ")?.strip_prefix(name)?.strip_prefix(' ').map(str::to_owned);
    let text = header.lines().find_map(definition).ok_or_else(lacks)?;
    let factors = text.trim_matches(['(', ')']).split(" * ");
    let numbers = factors.map(|factor| factor.trim_end_matches('u').parse::<usize>().ok());
    numbers.product::<Option<usize>>().ok_or_else(lacks)
}

/// All figures of a header. The whole must hold what the most words take.
pub fn figures(header: &str) -> Result<Vec<Figure>, String> {
    let number = |name: &str| defined(header, name);
    let mut found = Vec::new();
    for (operation, name) in [("run", "RECIPE_STACK"), ("node", "RECIPE_NODE_STACK")] {
        let (base, each) = (number(&format!("{name}_BASE"))?, number(&format!("{name}_PER_WORD"))?);
        found.extend(WORDS.map(|words| Figure { operation, words, bytes: base + words * each }));
    }
    let bytes = number("RECIPE_STACK_BASE")?;
    found.extend(["check", "save"].map(|operation| Figure { operation, words: MOST_WORDS, bytes }));
    let whole = number("RECIPE_STACK_BYTES")?;
    match found.iter().find(|figure| figure.operation != "node" && figure.bytes > whole) {
        Some(figure) => Err(format!("RECIPE_STACK_BYTES is {whole}, less than what {figure:?} says")),
        None => Ok(found),
    }
}

/// Tries a figure by a program that does so with these options: `compare`. What it prints of a difference is passed on.
pub fn try_figure(program: &Path, figure: &Figure) -> Result<bool, String> {
    let Figure { operation, words, bytes } = figure;
    let options = ["stack", "--of", operation, "--words", &words.to_string(), "--bytes", &bytes.to_string()];
    let output =
        Command::new(program).args(options).output().map_err(|fault| format!("{}: {fault}\n", program.display()))?;
    match output.status.code() {
        Some(0) => Ok(true),
        None => Ok(false),
        Some(_) => Err(String::from_utf8_lossy(&[output.stdout, output.stderr].concat()).into_owned()),
    }
}

/// Whether a figure's stack serves.
pub type Serves<'a> = &'a dyn Fn(&Figure) -> Result<bool, String>;

/// Tries all figures, and tells each that serves.
pub fn try_all(serves: Serves, figures: &[Figure]) -> Result<Vec<String>, String> {
    let told = |figure: &Figure| {
        let Figure { operation, words, bytes } = figure;
        match serves(figure)? {
            true => Ok(format!("{operation}, {words} words: {bytes} bytes serve")),
            false => Err(format!("{operation}, {words} words: a stack of {bytes} bytes is too small\n")),
        }
    };
    figures.iter().map(told).collect()
}

/// A stack grows by pages; the smallest that a thread may have, and one that is larger than any need.
const PAGE: usize = 4_096;
const SMALLEST: usize = 16_384;
const LARGEST: usize = 8 << 20;

/// The smallest stack in whole pages that serves each, told beside what the header says.
pub fn find_all(serves: Serves, figures: &[Figure]) -> Result<Vec<String>, String> {
    let told = |figure: &Figure| {
        let Figure { operation, words, bytes } = figure;
        let smallest = find(serves, figure)?;
        let margin = *bytes as f64 / smallest as f64;
        Ok(format!(
            "{operation}, {words} words: {smallest} bytes serve; the header says {bytes}, {margin:.2} times that"
        ))
    };
    figures.iter().map(told).collect()
}

/// The smallest stack in whole pages that serves, by halves.
fn find(serves: Serves, figure: &Figure) -> Result<usize, String> {
    let (mut under, mut enough) = (SMALLEST / PAGE - 1, LARGEST / PAGE);
    while enough - under > 1 {
        let middle = (under + enough) / 2;
        match serves(&Figure { bytes: middle * PAGE, ..*figure })? {
            true => enough = middle,
            false => under = middle,
        }
    }
    Ok(enough * PAGE)
}
