//! What Scheme's if0 has tested in a run that it brought to wrong 1: which value, and whether it came from ML.

use model::node::Tree;
use model::rules::Rule;
use model::step::{turn, Step, Turn};
use model::{check, Ml, Run, Scheme, Type};
use std::rc::Rc;

/// Tests that are no numbers; the last three came through sm.
pub const TESTS: [&str; 6] =
    ["a lambda", "nil", "a cons", "a function from ML", "a list from ML", "a sealed value that sm L opens"];

/// Which of these a run of a file has come to: none or more of them, since a run comes to no test after one of them.
pub fn tested(file: &[u8], ran: &Run) -> [bool; TESTS.len()] {
    let none = [false; TESTS.len()];
    match check(file) {
        Ok(recipe) if ran.rules.of(Rule::SchemeIf0NoNumber) > 0 => first_test(recipe.term).unwrap_or(none),
        _ => none,
    }
}

/// The same of a term whose reduction comes to such a test.
fn first_test(mut term: Rc<Ml>) -> Option<[bool; TESTS.len()]> {
    let mut from_ml = None;
    loop {
        let turn = turn(&term)?;
        from_ml = tested_from_ml(&turn).or(from_ml);
        let Step::Next(rule, next) = turn.step() else { return None };
        match rule {
            Rule::SchemeIf0NoNumber => return kinds(&turn.node, from_ml.as_deref()),
            Rule::SchemeIf0Zero | Rule::SchemeIf0Other => from_ml = None,
            _ => {}
        }
        term = next;
    }
}

/// The type of an sm whose turn it is as the test of an if0. From then on until the turn of that if0 there are only
/// conversions of what it gives.
fn tested_from_ml(turn: &Turn) -> Option<Rc<Type>> {
    let (Tree::Scheme(around), Tree::Scheme(node)) = (&turn.context.last()?.node, &turn.node) else { return None };
    match (&**around, &**node) {
        (Scheme::If0(..), Scheme::Sm(t, _)) => Some(t.clone()),
        _ => None,
    }
}

/// Which kinds the test of an if0 is of, by its value and by the type at which it came from ML.
fn kinds(if0: &Tree, from_ml: Option<&Type>) -> Option<[bool; TESTS.len()]> {
    let Tree::Scheme(if0) = if0 else { return None };
    let Scheme::If0(test, ..) = &**if0 else { return None };
    Some([
        matches!(**test, Scheme::Lambda(_)),
        matches!(**test, Scheme::Nil),
        matches!(**test, Scheme::Cons(..)),
        matches!(from_ml, Some(Type::Function(..))),
        matches!(from_ml, Some(Type::List(_))),
        matches!(from_ml, Some(Type::Lump(_))),
    ])
}
