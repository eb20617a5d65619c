//! The engine on a small stack: the deepest terms that the words lent allow, and the deepest files, run, priced, with a
//! card and without, checked and saved; and the deepest nodes asked about.

use super::deepest::{deepest, deepest_cans, deepest_saves, Known, KnownSave, MOST_SAVED};
use super::nested::{nested, nodes, Nested};
use crate::engine::{Card, Check, Node, Price, RecipeCard, RecipePriced, RecipePrices, RecipeRun, Run, Save};
use crate::parallel::for_each;
use crate::stand_in;
use model::file::{file, MOST_BYTES};
use model::on_large_stack;
use model::stack::on_stack;
use std::fmt::Debug;

/// The words lent to each buffer of a run, or asked about, and the bytes of the stack.
#[derive(Clone, Copy)]
pub struct Room {
    pub words: usize,
    pub bytes: usize,
}

/// Runs each on a thread with a stack of the given size. A stack that is too small ends the program.
pub fn compare_stack(engine: Run, room: Room) -> Result<Vec<String>, String> {
    let run = |known: &Known| {
        let operation = |first: &mut [u32], second: &mut [u32]| engine(&known.file, u32::MAX, first, second);
        compare(known, known.answer, room, operation)
    };
    let nested = on_large_stack(|| nested().into_iter().map(|nested| nested.run(room.words)).collect::<Vec<_>>());
    for_each(&[deepest(room.words), nested].concat(), run).into_iter().collect()
}

/// The same with a pricing of those that can be priced.
pub fn compare_priced_stack(engine: Price, room: Room) -> Result<Vec<String>, String> {
    let prices = RecipePrices::default();
    let price = |known: &Known| {
        let operation = |first: &mut [u32], second: &mut [u32]| engine(&prices, &known.file, u32::MAX, first, second);
        let answer = RecipePriced { run: known.answer, ..RecipePriced::default() };
        compare(known, answer, room, operation).map(|told| format!("priced: {told}"))
    };
    for_each(&deepest_cans(room.words), price).into_iter().collect()
}

/// The same with a card, which none of these cans has, since none comes to a value.
pub fn compare_carded_stack(engine: Card, room: Room) -> Result<Vec<String>, String> {
    let prices = RecipePrices::default();
    let card = |known: &Known| {
        let operation = |first: &mut [u32], second: &mut [u32]| {
            let mut card = [7; 410];
            (engine(&prices, &known.file, u32::MAX, first, second, &mut card), card)
        };
        let priced = RecipePriced { run: known.answer, ..RecipePriced::default() };
        let answer = (RecipeCard { priced, bytes: 0 }, [0; 410]);
        compare(known, answer, room, operation).map(|told| format!("card: {told}"))
    };
    for_each(&deepest_cans(room.words), card).into_iter().collect()
}

/// Checks the deepest files and files whose words nest deeper than a file may, on a stack of the given size. The answers
/// that are due are the model's.
pub fn compare_checked_stack(engine: Check, bytes: usize) -> Result<Vec<String>, String> {
    let known = deepest(MOST_SAVED).into_iter().map(|known| (known.name, known.file));
    let files: Vec<(String, Vec<u8>)> = known.chain(nested().into_iter().map(Nested::file)).collect();
    let dues = on_large_stack(|| files.iter().map(|(_, file)| stand_in::check(file)).collect::<Vec<u64>>());
    let check = |((name, file), due): (&(String, Vec<u8>), u64)| {
        let seen = on_stack(bytes, || engine(file));
        told("checked", name, due, seen)
    };
    files.iter().zip(dues).map(check).collect()
}

/// The same with a save of words that nest as deep as a file does, or deeper.
pub fn compare_saved_stack(engine: Save, bytes: usize) -> Result<Vec<String>, String> {
    let nested = on_large_stack(|| nested().into_iter().map(Nested::saved).collect::<Vec<_>>());
    deepest_saves().iter().chain(&nested).map(|known| compare_save(engine, known, bytes)).collect()
}

/// Asks for the deepest nodes of so many words, which are whole, on a stack of the given size.
pub fn compare_asked_stack(engine: Node, room: Room) -> Result<Vec<String>, String> {
    let ask = |(name, words): &(String, Vec<u32>)| {
        let seen = on_stack(room.bytes, || engine(words, 0));
        told("asked", name, words.len(), seen)
    };
    nodes(room.words).iter().map(ask).collect()
}

/// What was done with something named, and the answer, if it is the one that is due.
fn told<A: PartialEq + Debug>(what: &str, name: &str, due: A, seen: A) -> Result<String, String> {
    match seen == due {
        true => Ok(format!("{what}: {name}: {due:?}")),
        false => Err(format!("{what}: {name}: {due:?} is due, not {seen:?}")),
    }
}

/// Saves one, and says what it came to.
fn compare_save(engine: Save, known: &KnownSave, bytes: usize) -> Result<String, String> {
    let KnownSave { name, declared, term, answer } = known;
    let (seen, buffer) = on_stack(bytes, || {
        let mut buffer = vec![7; MOST_BYTES];
        (engine(declared, term, &mut buffer), buffer)
    });
    let mut due = if answer.refusal == 0 { file(declared, term) } else { Vec::new() };
    due.resize(MOST_BYTES, 0);
    if seen != *answer || buffer != due {
        return Err(format!("saved: {name}: {answer:?} is due, not {seen:?}, or the bytes left are others"));
    }
    Ok(format!("saved: {name}: {answer}"))
}

/// Does one, and says what it came to.
fn compare<A: PartialEq + Debug + Send>(
    known: &Known,
    answer: A,
    room: Room,
    operation: impl FnOnce(&mut [u32], &mut [u32]) -> A + Send,
) -> Result<String, String> {
    let (seen, words) = on_stack(room.bytes, || {
        let (mut first, mut second) = (vec![7; room.words], vec![7; room.words]);
        let seen = operation(&mut first, &mut second);
        (seen, first)
    });
    let name = &known.name;
    if seen != answer || !words.starts_with(&known.left) {
        return Err(format!("{name}: {answer:?} is due, not {seen:?}, or the words left are others"));
    }
    let RecipeRun { refusal, place, left, steps, .. } = known.answer;
    Ok(match refusal {
        0 => format!("{name}: {left} words after {steps} steps"),
        _ => format!("{name}: refused {refusal} at place {place}"),
    })
}
