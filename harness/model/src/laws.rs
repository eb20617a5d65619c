//! Demand 3, the laws of owners, that of the counts and that of going on as tests of terms and runs: what the proofs say of the
//! definitions, tried on the definitions here.

use crate::check::{check, Recipe, Refusal};
use crate::class::{Class, ClassCounts};
use crate::node::{ml_words, Node};
use crate::owners::{forgotten, without_owners};
use crate::run::{run, End, Ended, Run};
use crate::save::save;
use crate::scope::unbound;
use crate::step::{step, turn, Step};
use crate::tree::{Ml, Scheme, Type};
use crate::typing::type_of;
use crate::values::is_ml_value;
use std::rc::Rc;

/// Follows a recipe's reduction for some steps, or until a term has more words than `most`, and tries each term
/// reached. Answers with the count of terms tried, or with the law that failed and the term.
pub fn try_reduction(recipe: &Recipe, steps: u32, most: usize) -> Result<u32, String> {
    let mut term = recipe.term.clone();
    for made in 0..=steps {
        try_term(&term, &recipe.declared).map_err(|law| format!("after {made} steps: {law}"))?;
        match step(&term) {
            Step::Next(_, next) if Node::Ml(&next).size() <= most => term = next,
            _ => return Ok(made + 1),
        }
    }
    Ok(steps + 1)
}

/// A term reached has the declared type, and is exactly one of a value, a raised error and a term that reduces.
pub fn try_term(term: &Rc<Ml>, declared: &Type) -> Result<(), String> {
    if unbound(term).is_some() {
        return Err("a variable has lost its lambda".into());
    }
    match type_of(term) {
        Some(found) if *found == *declared => {}
        _ => return Err("the term has lost the declared type".into()),
    }
    try_lumps(Node::Ml(term))?;
    let found = step(term);
    let (raised, reduces) = (matches!(found, Step::Raised(_)), matches!(found, Step::Next(..)));
    match [is_ml_value(term), raised, reduces].iter().filter(|&&yes| yes).count() {
        1 => Ok(()),
        n => Err(format!("{n} of value, raised error and reducible hold")),
    }
}

/// "sm at an owner's L takes an ms at that same owner's L": wherever the part of an sm at an owner's L is a value, it is such an
/// ms, at every node of a term that has a type, under its lambdas too.
pub fn try_lumps(node: Node<'_>) -> Result<(), String> {
    if let Node::Scheme(e) = node {
        if let Scheme::Sm(t, value) = &**e {
            let sealed = matches!(&**value, Ml::Ms(owner, _) if owner == t);
            if matches!(**t, Type::Lump(_)) && is_ml_value(value) && !sealed {
                return Err("sm at an owner's L has met another value than an ms at that same owner's L".into());
            }
        }
    }
    node.parts().into_iter().flatten().try_for_each(try_lumps)
}

/// Owners refuse recipes and change no run: a recipe that is accepted is accepted too with owner 0 for every lump, and then ends the
/// same under every limit and capacity. Answers whether the file is one that is accepted.
pub fn try_ownerless(bytes: &[u8], limit: u32, lengths: [usize; 2]) -> Result<bool, String> {
    let plain = without_owners(bytes);
    match (check(bytes), check(&plain)) {
        (Err(_), _) => return Ok(false),
        (Ok(_), Err(refusal)) => return Err(format!("accepted, but without owners refused by {}", refusal.number)),
        (Ok(_), Ok(_)) => {}
    }
    let [owned, ownerless] = [bytes, &plain].map(|bytes| run(bytes, limit, lengths[0], lengths[1]));
    match alike_but_owners(&owned, &ownerless) {
        true => Ok(true),
        false => Err(format!("{:?}, but without owners {:?}", owned.result, ownerless.result)),
    }
}

/// A run and that of the same recipe without owners: the same answer, and the same words left but for the owners.
pub fn alike_but_owners(owned: &Run, ownerless: &Run) -> bool {
    owned.result == ownerless.result && forgotten(&owned.first) == ownerless.first && owned.second == ownerless.second
}

/// If the first run ended as a value or an error, the second, lent at least as much, ended the same.
pub fn ends_alike(first: &Run, second: &Run) -> bool {
    match &first.result {
        Ok(ended) if is_final(ended) => second.result == first.result && left(first) == left(second),
        _ => true,
    }
}

/// "For every run the three add up to the steps made, each equal to a count over the reduction."
pub fn try_counts(recipe: &Recipe, ended: &Ended) -> Result<(), String> {
    if ended.classes.sum() != ended.steps {
        return Err(format!("{:?} do not add up to {} steps", ended.classes, ended.steps));
    }
    match over_the_reduction(recipe, ended.steps) {
        Some(counted) if counted == ended.classes => Ok(()),
        counted => Err(format!("{:?}, but over the reduction {counted:?}", ended.classes)),
    }
}

/// The steps of a recipe's reduction counted by the words at which they happen; none where it has not so many.
fn over_the_reduction(recipe: &Recipe, steps: u32) -> Option<ClassCounts> {
    let mut term = recipe.term.clone();
    let mut counted = ClassCounts::default();
    for _ in 0..steps {
        let turn = turn(&term)?;
        counted.count(class_at(ml_words(&term)[turn.place()]));
        if let Step::Next(_, next) = turn.step() {
            term = next;
        }
    }
    Some(counted)
}

/// By the kind of the word: 19 and 35 are applications, 20 is fix, 30 ms and 45 sm.
pub fn class_at(word: u32) -> Class {
    match word % 256 {
        19 | 20 | 35 => Class::Call,
        30 | 45 => Class::Conversion,
        _ => Class::Other,
    }
}

/// What became of a run that was to be saved and to go on.
#[derive(Debug, PartialEq, Eq)]
pub enum WentOn {
    /// The run was refused, or came to a value or an error.
    NothingLeft,
    /// The save was refused.
    Unsaved(Refusal),
    /// The ends of the first run and of the second.
    Ended(End, End),
}

/// "Running, saving and running again in the same capacity ends, after an accepted save and reading, as one run under the
/// summed limit does: end, code, words, and steps and U1's counts added up. The save of such a run is refused only by 4, 12
/// or 13." The buffer lent to the save has `room` bytes; the second limit is at least 1.
pub fn try_going_on(bytes: &[u8], limits: [u32; 2], lengths: [usize; 2], room: usize) -> Result<WentOn, String> {
    let lent = |bytes: &[u8], limit: u32| run(bytes, limit, lengths[0], lengths[1]);
    let first = lent(bytes, limits[0]);
    let (Ok(recipe), Ok(made)) = (check(bytes), first.result) else { return Ok(WentOn::NothingLeft) };
    if is_final(&made) {
        return Ok(WentOn::NothingLeft);
    }
    let saved = save(&Node::Type(&recipe.declared).words(), left(&first), room);
    let length = match saved.result {
        Err(refusal) if matches!(refusal.number, 4 | 12 | 13) => return Ok(WentOn::Unsaved(refusal)),
        Err(refusal) => return Err(format!("the save of a run is refused by {}", refusal.number)),
        Ok(length) => length,
    };
    let (second, whole) = (lent(&saved.buffer[..length], limits[1]), lent(bytes, limits[0] + limits[1]));
    let together = second.result.map(|more| added(&made, more));
    match together == whole.result && (&second.first, &second.second) == (&whole.first, &whole.second) {
        true => Ok(WentOn::Ended(made.end, second.result.map_or(End::Error, |more| more.end))),
        false => Err(format!("{together:?} after a save, but {:?} in one run", whole.result)),
    }
}

/// The second end, with the steps of both runs and where they went.
fn added(first: &Ended, second: Ended) -> Ended {
    Ended { steps: first.steps + second.steps, classes: first.classes.added(&second.classes), ..second }
}

fn is_final(ended: &Ended) -> bool {
    matches!(ended.end, End::Value | End::Error)
}

/// The words that a run leaves.
fn left(run: &Run) -> &[u32] {
    match &run.result {
        Ok(ended) => &run.first[..ended.left as usize],
        Err(_) => &[],
    }
}
