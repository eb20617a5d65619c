//! `recipe show`: a recipe file as text.

use super::explain::explain;
use super::input::{read_input, Input};
use super::{take_width, Command, Desk, Failure, Outcome};
use crate::args::Args;
use model::check::read_recipe;
use model::node::Node;
use model::text::{pretty, Style};
use model::Recipe;

pub const COMMAND: Command = Command { name: "show", help: HELP, work: show };

const HELP: &str = "\
usage: recipe show [FILE] [--numbers] [--width COLUMNS]

Writes a recipe file as text, from which `recipe make` makes the same file again: with names x, y, z, x1 and so on, with
let for the application of a function, and with lists in braces. A text keeps its own names; where an inner one would
hide an outer one, it is numbered. A function to which a variable of the other language points, which the check refuses,
has no name. With --numbers, functions have no names, variables are v and a number, and lists are conses, as in the file.
A lump's type is L for owner 0, L7 for owner 7.

A line has as many columns as the terminal, or 100; --width tells another number, at least 20. Reads standard input where
no FILE is named. Of a file whose words are not in order it says on standard error what is wrong and where; status 1.
";

/// The text of a file.
fn show(mut args: Args, desk: &mut Desk<'_>) -> Outcome {
    take_width(&mut args, desk)?;
    let numbers = args.flag("--numbers");
    let input = read_input(args, desk)?;
    match read_recipe(&input.bytes, usize::MAX) {
        Ok(recipe) => Ok(desk.output.write_all(text(&recipe, &input, numbers).as_bytes())?),
        Err(refusal) => Err(Failure::Refused(explain(&input, &refusal))),
    }
}

/// The declared type on a line, then the term.
fn text(recipe: &Recipe, input: &Input, numbers: bool) -> String {
    let style = Style { width: input.width, numbers, lets: true, names: input.names(), ..Style::PLAIN };
    format!("{}\n{}\n", pretty(Node::Type(&recipe.declared), &style), pretty(Node::Ml(&recipe.term), &style))
}
