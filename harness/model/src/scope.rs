//! Refusal 5: each variable's operand counts the lambda words, of both languages, between it and its own lambda,
//! which must be of its own language.

use crate::kinds::Sort;
use crate::node::Node;
use crate::tree::{Ml, Scheme};
use std::rc::Rc;

/// How many words come before the first variable without a lambda of its language, if there is one.
pub fn unbound(term: &Rc<Ml>) -> Option<usize> {
    walk(Node::Ml(term), &mut Vec::new(), &mut 0)
}

fn walk(node: Node<'_>, lambdas: &mut Vec<Sort>, words: &mut usize) -> Option<usize> {
    let here = *words;
    *words += 1;
    if variable(node).is_some_and(|operand| !bound(node.sort(), operand, lambdas)) {
        return Some(here);
    }
    let lambda = is_lambda(node);
    if lambda {
        lambdas.push(node.sort());
    }
    let found = node.parts().into_iter().flatten().find_map(|part| walk(part, lambdas, words));
    if lambda {
        lambdas.pop();
    }
    found
}

fn bound(language: Sort, operand: u32, lambdas: &[Sort]) -> bool {
    lambdas.iter().rev().nth(operand as usize) == Some(&language)
}

/// The operand of a variable.
pub fn variable(node: Node<'_>) -> Option<u32> {
    match node {
        Node::Ml(e) => match **e {
            Ml::Variable(n) => Some(n),
            _ => None,
        },
        Node::Scheme(e) => match **e {
            Scheme::Variable(n) => Some(n),
            _ => None,
        },
        Node::Type(_) => None,
    }
}

/// Whether a node is a lambda, of either language.
pub fn is_lambda(node: Node<'_>) -> bool {
    match node {
        Node::Ml(e) => matches!(**e, Ml::Lambda(..)),
        Node::Scheme(e) => matches!(**e, Scheme::Lambda(_)),
        Node::Type(_) => false,
    }
}
