//! How the arguments of functions are called where a term is written: by the writer's own names or by x, y, z, x1 and so on, so
//! that no two functions around a place have the same.

use super::spelling::is_name;
use crate::kinds::Sort;
use crate::node::Node;
use crate::scope::{is_lambda, variable};
use std::collections::{HashMap, HashSet};

/// The functions around a place, the innermost last.
#[derive(Default)]
pub struct Called {
    functions: Vec<Function>,
    /// The names that they have.
    used: HashSet<String>,
    /// How many have a name that was made of another.
    made_of: HashMap<String, usize>,
}

/// A function around a place: its name and what that was made of, and how many up to it, itself included, have none.
struct Function {
    name: Option<(String, String)>,
    unnamed: usize,
}

impl Called {
    /// Goes into a function, which gets a name unless none is asked for: the one wished for if it is free, or one that is made of it.
    pub fn enter(&mut self, wished: Option<Option<&str>>) -> Option<String> {
        let unnamed = self.unnamed() + usize::from(wished.is_none());
        let base = wished.map(|name| name.filter(|name| is_name(name)).map_or_else(|| self.usual(), str::to_string));
        let name = base.map(|base| (self.free(&base), base));
        if let Some((name, base)) = &name {
            self.used.insert(name.clone());
            *self.made_of.entry(base.clone()).or_default() += 1;
        }
        let given = name.as_ref().map(|(name, _)| name.clone());
        self.functions.push(Function { name, unnamed });
        given
    }

    /// Goes out of the innermost function.
    pub fn leave(&mut self) {
        if let Some((name, base)) = self.functions.pop().and_then(|function| function.name) {
            self.used.remove(&name);
            self.made_of.entry(base).and_modify(|count| *count -= 1);
        }
    }

    /// A variable: its function's name; or its number, which counts the functions without names alone.
    pub fn variable(&self, operand: u32) -> String {
        let around = self.functions.len();
        let function = around.checked_sub(operand as usize + 1).map(|at| &self.functions[at]);
        match function {
            Some(Function { name: Some((name, _)), .. }) => name.clone(),
            Some(Function { name: None, unnamed }) => format!("v{}", self.unnamed() - unnamed),
            None => format!("v{}", operand as usize - (around - self.unnamed())),
        }
    }

    /// How many functions have no name.
    fn unnamed(&self) -> usize {
        self.functions.last().map_or(0, |function| function.unnamed)
    }

    /// The name by how many functions are around.
    fn usual(&self) -> String {
        let around = self.functions.len();
        let letter = ["x", "y", "z"][around % 3];
        match around / 3 {
            0 => letter.to_string(),
            number => format!("{letter}{number}"),
        }
    }

    /// The name itself or with the first number behind it that makes it free. As many as were made of it are taken.
    fn free(&self, base: &str) -> String {
        if !self.used.contains(base) {
            return base.to_string();
        }
        let first = self.made_of.get(base).map_or(1, |count| (*count).max(1));
        let numbered = |number: usize| {
            let name = format!("{base}{number}");
            if is_name(&name) {
                name
            } else {
                format!("{base}_{number}")
            }
        };
        (first..).map(numbered).find(|name| !self.used.contains(name)).expect("numbers do not end")
    }
}

/// The functions to which a variable of the other language points, by their words counted from the root's.
pub fn crossed(root: Node<'_>) -> HashSet<usize> {
    let mut found = HashSet::new();
    walk(root, &mut Vec::new(), &mut 0, &mut found);
    found
}

/// Looks at the variables of a node among the functions around it.
fn walk(node: Node<'_>, around: &mut Vec<(usize, Sort)>, words: &mut usize, found: &mut HashSet<usize>) {
    let here = *words;
    *words += 1;
    let own = variable(node).and_then(|operand| around.iter().rev().nth(operand as usize));
    found.extend(own.filter(|(_, sort)| *sort != node.sort()).map(|(word, _)| *word));
    let lambda = is_lambda(node);
    if lambda {
        around.push((here, node.sort()));
    }
    for part in node.parts().into_iter().flatten() {
        walk(part, around, words, found);
    }
    if lambda {
        around.pop();
    }
}
