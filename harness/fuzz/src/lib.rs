//! The targets: one input on each of the engine's functions beside the model, and on the reader of text.
#![forbid(unsafe_code)]

pub mod engine;
pub mod input;
pub mod planted;
mod text;

use crate::engine::Engine;
use crate::input::{Input, Make, Words};
use crate::text::text;
use model::End;
use tools::compare::card::CardCase;
use tools::compare::price::{any_file, PriceCase};
use tools::compare::save::SaveCase;
use tools::compare::{compare_file, compare_once, CardingEngine, Case, NodeReaders};
use tools::engine::RecipePrices;
use tools::make::cans::can_file;
use tools::make::nodes::any_node_words;
use tools::make::prices::any_prices;
use tools::make::saves::any_words;
use tools::make::{damaged_file, mismatched_file, mistaken_file, well_typed_file};
use tools::random::Random;

/// Tries an input. What is found comes back shown.
pub type Target = fn(&Engine, &[u8]) -> Result<(), String>;

/// The targets by their names.
pub const TARGETS: [(&str, Target); 7] =
    [("check", check), ("run", run), ("price", price), ("card", card), ("save", save), ("node", node), ("text", text)];

/// Files that are to be checked or run, and cans.
const FILES: [Make<Vec<u8>>; 4] = [well_typed_file, mistaken_file, damaged_file, mismatched_file];
const CANS: [Make<Vec<u8>>; 4] = [can_file, any_file, can_file, well_typed_file];

/// Words to save, and to ask for nodes in.
const SAVES: [Make<Words>; 1] = [any_words];
const NODES: [Make<Vec<u32>>; 1] = [any_node_words];

/// The steps that a run is lent at most, unless it ends by itself.
const STEPS: usize = 200;

/// Bytes of an input from which the prices are chosen.
const PRICE_BYTES: usize = 6;

/// Words of which every place is asked about; of more, some are.
const MANY: usize = 200;

/// Lengths of the card's buffer: longer than any card.
const ROOMS: usize = 453;

fn check(engine: &Engine, bytes: &[u8]) -> Result<(), String> {
    compare_file(engine.check, &Input(bytes).file(&FILES), &mut Default::default())
}

fn run(engine: &Engine, bytes: &[u8]) -> Result<(), String> {
    let mut input = Input(bytes);
    let numbers = Lent::taken(&mut input);
    let case = numbers.lent(input.file(&FILES));
    let ran = compare_once(engine.run, &case, &mut Default::default())?;
    match at_the_edge(&case, &ran, numbers.first % 2) {
        Some(edge) => compare_once(engine.run, &edge, &mut Default::default()).map(drop),
        None => Ok(()),
    }
}

/// The same run lent just what it has needed, or so many steps or words less; none where the limit has ended it.
fn at_the_edge(case: &Case, ran: &model::Run, less: usize) -> Option<Case> {
    let ended = ran.result.ok()?;
    let words = (ended.wanted as usize).saturating_sub(less);
    match ended.end {
        End::Spent => None,
        End::Full => Some(Case { first: words, second: words + 1, ..case.clone() }),
        End::Value | End::Error => Some(Case { limit: ended.steps.saturating_sub(less as u32), ..case.clone() }),
    }
}

fn price(engine: &Engine, bytes: &[u8]) -> Result<(), String> {
    priced(&mut Input(bytes)).compare(engine.price, &mut Default::default()).map(drop)
}

fn card(engine: &Engine, bytes: &[u8]) -> Result<(), String> {
    let mut input = Input(bytes);
    let room = input.number() % ROOMS;
    let both = CardingEngine { price: engine.price, card: engine.card };
    CardCase { priced: priced(&mut input), room }.compare(both, &mut Default::default()).map(drop)
}

fn save(engine: &Engine, bytes: &[u8]) -> Result<(), String> {
    let mut input = Input(bytes);
    let more = input.byte();
    let (declared, term) = input.type_and_term(&SAVES);
    let mut case = SaveCase { declared, term, room: 0 };
    case.room = room(more, case.file_bytes());
    case.compare(engine.save, &mut Default::default()).map(drop)
}

fn node(engine: &Engine, bytes: &[u8]) -> Result<(), String> {
    let readers = NodeReaders { node: engine.node, walked: engine.walked };
    let words = Input(bytes).words(&NODES);
    match words.len() > MANY {
        true => readers.ask_here_and_there(&words, &mut Default::default()),
        false => readers.ask_everywhere(&words, &mut Default::default()),
    }
}

/// A buffer for a file of so many bytes: none, or up to 128 bytes shorter or longer.
fn room(byte: usize, file_bytes: usize) -> usize {
    match byte {
        0 => 0,
        more => (file_bytes + more).saturating_sub(128),
    }
}

/// A pricing: the numbers, the prices, a can.
fn priced(input: &mut Input<'_>) -> PriceCase {
    let numbers = Lent::taken(input);
    let prices: RecipePrices = any_prices(&mut Random::of_choices(input.bytes(PRICE_BYTES)));
    PriceCase { prices, lent: numbers.lent(Input(input.0).file(&CANS)) }
}

/// The bytes from which the limit and the lengths of two buffers come.
struct Lent {
    limit: usize,
    first: usize,
    second: usize,
}

impl Lent {
    fn taken(input: &mut Input<'_>) -> Lent {
        Lent { limit: input.byte(), first: input.byte(), second: input.byte() }
    }

    /// What a run of the file is lent: up to 200 steps, or for the last bytes as many as there can be where that is not long; and
    /// buffers of up to 239 words, or for the last bytes of up to 4,096.
    fn lent(&self, file: Vec<u8>) -> Case {
        let most = u32::MAX - (255 - self.limit) as u32;
        let case = Case::new(file, most, length(self.first), length(self.second));
        let limit = if self.limit > STEPS && case.is_short() { most } else { self.limit.min(STEPS) as u32 };
        Case { limit, ..case }
    }
}

fn length(byte: usize) -> usize {
    match byte.checked_sub(240) {
        Some(more) => 256 * (more + 1),
        None => byte,
    }
}
