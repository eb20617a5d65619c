//! Cards with planted errors, and what the comparison shows of them.

use model::on_large_stack;
use tools::compare::card::{edges, faults, CardCase};
use tools::compare::{compare_card, CardingEngine, Plan};
use tools::engine::{Card, RecipeCard, RecipePriced, RecipePrices, RecipeRun};
use tools::stand_in;

pub const PLAN: Plan = Plan { files: 1_000, seed: 1, start: 0 };

/// The model in the engine's place.
pub const RIGHT: CardingEngine = CardingEngine { price: stand_in::price, card: stand_in::card };

/// What the comparison shows of a wrong card, whose recipe is small. The laws that need no model find it by themselves, too.
pub fn shown(card: Card) -> String {
    let engine = CardingEngine { card, ..RIGHT };
    let text = on_large_stack(|| compare_card(engine, PLAN)).err().expect("a difference");
    let term = text.lines().find_map(|line| line.strip_prefix("term:     ")).unwrap_or("");
    assert!(term.len() < 110, "{text}");
    assert!(on_large_stack(|| breaks_a_law(engine)), "no law is broken\n{text}");
    text
}

/// Whether the laws alone find a fault, at the edges or with a choice of faults.
pub fn breaks_a_law(engine: CardingEngine) -> bool {
    let broken = |case: CardCase| case.breaks_a_law(engine);
    edges::all().into_iter().any(broken) || faults::every().map(faults::case).any(broken)
}

/// The comparison shows answers that start so, the model's first. Answers with all that is shown.
pub fn answers(card: Card, model: &str, engine: &str) -> String {
    let text = shown(card);
    let due = text.contains(&format!("model:\n  {model}")) && text.contains(&format!("engine:\n  {engine}"));
    assert!(due, "{text}");
    text
}

/// The comparison shows these lines, the model's first, each with its line feed.
pub fn lines(card: Card, model: &str, engine: &str) {
    let text = shown(card);
    let (due, planted) = text.split_once("engine:\n").expect("both sides");
    let shows = |side: &str, line: &str| side.contains(&format!("  card:   \"{line}\"\n"));
    assert!(shows(due, model) && shows(planted, engine), "{text}");
}

/// All that a card is handed.
pub type Handed<'a> = (&'a RecipePrices, &'a [u8], u32, &'a mut [u32], &'a mut [u32], &'a mut [u8]);

/// The right card, its lines changed if one is written; what does not fit any more is cut off.
pub fn changed(handed: Handed<'_>, change: impl Fn(&mut Vec<String>)) -> RecipeCard {
    let (prices, file, limit, first, second, card) = handed;
    let told = stand_in::card(prices, file, limit, first, second, card);
    if told.bytes > 0 {
        let text = String::from_utf8(card[..told.bytes as usize].to_vec()).expect("text");
        let mut lines: Vec<String> = text.split_inclusive('\n').map(str::to_string).collect();
        change(&mut lines);
        write(&lines.concat(), card);
    }
    told
}

/// Writes a text into a buffer, cut off where it ends, and zeros behind it.
pub fn write(text: &str, card: &mut [u8]) {
    let length = text.len().min(card.len());
    card.fill(0);
    card[..length].copy_from_slice(&text.as_bytes()[..length]);
}

/// The right card, each of its pumps' lines changed.
pub fn pump_lines(handed: Handed<'_>, change: fn(&str) -> String) -> RecipeCard {
    changed(handed, |lines| {
        let last = lines.len() - 1;
        lines[..last].iter_mut().for_each(|line| *line = change(line));
    })
}

/// The right card, its last line changed.
pub fn last_line(handed: Handed<'_>, change: fn(&str) -> String) -> RecipeCard {
    changed(handed, |lines| {
        let last = lines.len() - 1;
        lines[last] = change(&lines[last]);
    })
}

/// The letters of a line from one column to another, counted from 1, both included.
pub fn columns(line: &str, from: usize, to: usize) -> &str {
    &line[from - 1..to]
}

/// A refusal, with all three buffers cleared.
pub fn refused(number: u32, first: &mut [u32], second: &mut [u32], card: &mut [u8]) -> RecipeCard {
    first.fill(0);
    second.fill(0);
    card.fill(0);
    let run = RecipeRun { refusal: number, ..RecipeRun::default() };
    RecipeCard { priced: RecipePriced { run, ..RecipePriced::default() }, bytes: 0 }
}
