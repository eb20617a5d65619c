//! A refusal in a sentence, its place shown in the text or among the words.

use super::input::Input;
use super::mismatch::{another_type, no_type, part_at_fault};
use super::places::{around, due_at, header};
use model::check::read_recipe;
use model::file::{words_of, MOST_BYTES};
use model::node::Node;
use model::text::{flat, pretty, Style};
use model::Refusal;

/// What a refusal says, for the one who wrote the recipe.
pub fn explain(input: &Input, refusal: &Refusal) -> String {
    let place = refusal.place as usize;
    let details = match refusal.number {
        1 if input.bytes.len() > MOST_BYTES => "  the file has more than 16,384 bytes\n".into(),
        1 => format!("  the file has {} bytes\n", input.bytes.len()),
        2 => words_of(&input.bytes).map_or(String::new(), |words| header(&words)),
        3 => around(&input.bytes, place) + &due_at(&input.bytes, place),
        4 => position(input, place) + &around(&input.bytes, place),
        5 => position(input, place) + &marked(input, place, None),
        6 => position(input, place) + &untyped(input, place),
        7 => position(input, place) + &otherwise_typed(input, place),
        9 => not_numbers(&input.bytes),
        10 => "  pumps 1 to 9 take one item each; recipe run shows the value\n".into(),
        _ => String::new(),
    };
    let no_text = input.no_text.as_ref().map_or(String::new(), |why| format!("  if it is meant as a text: {why}\n"));
    format!("refused {}: {}\n{details}{no_text}", refusal.number, sentence(refusal.number))
}

/// What the refusal of a save says, for the one whose run was to be saved; the type and the term have so many words.
pub fn explain_save(refusal: &Refusal, words: usize) -> String {
    const WHEN: &str = "let it run a little further, or stop it earlier";
    let Refusal { number, place } = *refusal;
    let (why, details) = match number {
        4 => (
            "the term left nests deeper than 256 levels, too deep to be a file",
            format!("  word {place} of the file to be written; {WHEN}\n"),
        ),
        12 => (sentence(12), format!("  it would have {} bytes; {WHEN}\n", 16 + 4 * words)),
        3 | 5..=7 => (sentence(number), format!("  word {place} of the file to be written\n")),
        _ => (sentence(number), String::new()),
    };
    format!("refused {number}: {why}\n{details}")
}

/// The documents' reason for a refusal.
fn sentence(number: u32) -> &'static str {
    match number {
        1 => "a recipe file has 24 to 16,384 bytes, a multiple of 4",
        2 => "the header is wrong: a count or an offset is not the one due",
        3 => "a word has no kind or operand that is due there, or words run out or remain",
        4 => "the term or the type nests deeper than 256 levels",
        5 => "a variable has no lambda of its own language at its operand",
        6 => "the term has no type",
        7 => "the term's type is not the declared one",
        8 => "the term has more words than the buffers hold",
        9 => "the declared type is not {N}; only a list of numbers is priced",
        10 => "the value has more than nine items",
        11 => "a price is over 1,000,000 cents for 1,000 pulses",
        12 => "the file would have more than 16,384 bytes",
        13 => "the buffer is shorter than the file",
        14 => "the buffer is shorter than the card",
        _ => "the engine gave a number that has no meaning",
    }
}

/// Where a word stands: in the text, where there is one, and in the file.
pub fn stands(input: &Input, place: usize) -> String {
    match input.position(place) {
        Some(at) => format!("{at} of the text, word {place} of the file"),
        None => format!("word {place} of the file"),
    }
}

/// The same on a line of its own.
fn position(input: &Input, place: usize) -> String {
    format!("  {}\n", stands(input, place))
}

/// Lines of a term that are shown; of a longer one so many before the line with the place, and that line and so many behind it.
const MOST_LINES: usize = 40;
const LINES_BEFORE: usize = 8;
const LINES_BEHIND: usize = 12;

/// Columns that stand before a line of a term.
const INDENT: usize = 2;

/// The term with the word at a place in double brackets, and the one at another place between << and >>; of a long one, the lines
/// around it.
fn marked(input: &Input, place: usize, part: Option<usize>) -> String {
    let bytes = &input.bytes;
    let Ok(recipe) = read_recipe(bytes, usize::MAX) else { return around(bytes, place) };
    let word = |place: usize| place.checked_sub(recipe.start());
    let (width, names) = (input.width - INDENT, input.names());
    let style = Style { width, names, marked: word(place), part: part.and_then(word), ..Style::PLAIN };
    let text = pretty(Node::Ml(&recipe.term), &style);
    let lines: Vec<&str> = text.lines().collect();
    let (from, to) = match lines.iter().position(|line| line.contains("[[")) {
        _ if lines.len() <= MOST_LINES => (0, lines.len()),
        Some(at) => (at.saturating_sub(LINES_BEFORE), lines.len().min(at + LINES_BEHIND)),
        None => return around(bytes, place),
    };
    let [before, behind] = [from > 0, to < lines.len()].map(|cut| cut.then_some(".."));
    before.iter().chain(&lines[from..to]).chain(&behind).map(|line| format!("  {line}\n")).collect()
}

/// The term with the node that has no type and its part at fault, and what is said of their types.
fn untyped(input: &Input, place: usize) -> String {
    let Ok(recipe) = read_recipe(&input.bytes, usize::MAX) else { return around(&input.bytes, place) };
    let part = part_at_fault(&recipe, place);
    let at = part.and_then(|part| input.position(part)).map_or(String::new(), |at| format!(", at {at},"));
    marked(input, place, part) + &no_type(&recipe, place, &at)
}

/// What is said of the declared type and the one found.
fn otherwise_typed(input: &Input, place: usize) -> String {
    read_recipe(&input.bytes, usize::MAX).map_or(String::new(), |recipe| another_type(&recipe, place))
}

/// The declared type, and the one that a can is due to have.
fn not_numbers(bytes: &[u8]) -> String {
    let Ok(recipe) = read_recipe(bytes, usize::MAX) else { return String::new() };
    format!("  declared: {}\n  due:      {{N}}\n", flat(Node::Type(&recipe.declared)))
}
