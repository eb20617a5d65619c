//! `recipe outline`: the nodes of a recipe, one to a line, drawn by asking the engine for node after node.

use super::explain::explain;
use super::input::read_input;
use super::{without, Command, Desk, Failure, Outcome};
use crate::args::Args;
use crate::engine::Node;
use model::file::{regions, words_of};
use model::text::describe;
use model::Refusal;
use std::fmt::Write;

pub const COMMAND: Command = Command { name: "outline", help: HELP, work: outline };

const HELP: &str = "\
usage: recipe outline [FILE]

Draws the outline of a recipe file or of the file of a text: a line for each node of the declared type and then of the
term, with the place of its word in the file, counted from 0, and its kind, two blanks further in for each level: L for a
lump of owner 0, L7 for one of owner 7. The place is the one that a refusal names. Reads standard input where no FILE is
named.

A file that is refused by 4, 5, 6 or 7 is drawn as any other; `recipe check` checks. Where no whole node starts, the line
says so; there, and where words remain behind a node, the next word is asked about. Such a file is explained on standard
error behind its outline, and one that is refused by 1 or 2 has none. Status 0: drawn; 1: not one whole node for the
type and one for the term.
";

/// The first word behind the header.
const DECLARED: usize = 4;

/// The outline of the file, unless its words cannot be found.
fn outline(args: Args, desk: &mut Desk<'_>) -> Outcome {
    let (check, node) = desk.engine.check.zip(desk.engine.node).ok_or(without("run"))?;
    let input = read_input(args, desk)?;
    let answer = check(&input.bytes);
    let refusal = Refusal::new((answer % 256) as u32, (answer / 256) as usize);
    if matches!(refusal.number, 1 | 2) {
        return Err(Failure::Refused(explain(&input, &refusal)));
    }
    let words = words_of(&input.bytes).map_err(|_| "the engine has taken a file of a wrong size")?;
    let term = DECLARED + regions(&words).map_err(|_| "the engine has taken a wrong header")?.declared.len();
    let regions = [drawn(node, &words[..term], DECLARED), drawn(node, &words, term)];
    let text = regions.each_ref().map(|region| region.text.as_str()).concat();
    let printed = desk.output.write_all(text.as_bytes()).and_then(|()| desk.output.flush());
    match regions.iter().all(|region| region.is_whole) {
        true => Ok(printed?),
        false => Err(Failure::Refused(explain(&input, &refusal))),
    }
}

/// The lines of a region, and whether its words are those of one whole node.
struct Drawn {
    text: String,
    is_whole: bool,
}

/// Draws all words from a place on. A node is as deep as there are nodes before it that end behind it.
fn drawn(node: Node, words: &[u32], from: usize) -> Drawn {
    let (mut text, mut is_whole) = (String::new(), true);
    // Where the nodes around a place end, the outermost first.
    let mut ends: Vec<usize> = Vec::new();
    for place in from..words.len() {
        while ends.last().is_some_and(|end| *end <= place) {
            ends.pop();
        }
        let size = node(words, place);
        let _ = writeln!(text, "{place:>5}  {}{}", "  ".repeat(ends.len()), name(words[place], size));
        is_whole &= size > 0 && (place == from || !ends.is_empty());
        ends.extend((size > 0).then_some(place.saturating_add(size)));
    }
    Drawn { text, is_whole }
}

/// What is said of the word at a place, whose whole node has so many words.
fn name(word: u32, size: usize) -> String {
    let described = describe(word);
    match size {
        0 => "no whole node starts here".into(),
        _ => described.strip_prefix("type ").unwrap_or(&described).to_string(),
    }
}
