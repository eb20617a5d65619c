//! The reduction of the releases before document 02's request U4: files that were run and saved under it are gone on with
//! under the one of today.

use crate::node::Tree;
use crate::rules::Rule;
use crate::step::{Step, Turn};
use crate::tree::Scheme;

/// The one rule that was another: "In Scheme every value other than the number 0 takes the third." All else is as today.
pub fn before_u4(turn: &Turn) -> Step {
    match (turn.step(), third_part(&turn.node)) {
        (Step::Next(Rule::SchemeIf0NoNumber, _), Some(third)) => Step::Next(Rule::SchemeIf0Other, turn.with(third)),
        (step, _) => step,
    }
}

/// The third part of a Scheme if0.
fn third_part(node: &Tree) -> Option<Tree> {
    match node {
        Tree::Scheme(e) => match &**e {
            Scheme::If0(_, _, third) => Some(Tree::Scheme(third.clone())),
            _ => None,
        },
        _ => None,
    }
}
