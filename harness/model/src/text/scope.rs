//! The functions around the place that is read, with the names of their arguments.

use super::tokens::Position;
use crate::kinds::Sort;
use crate::tree::Type;
use crate::typing::Lambdas;
use std::collections::HashMap;
use std::rc::Rc;

/// A function around a place: its language, its argument's name and where that stands, and in ML the argument's type.
pub struct Function<'a> {
    pub sort: Sort,
    pub name: Option<(&'a str, Position)>,
    pub argument: Option<Rc<Type>>,
}

/// All functions around a place, the innermost last.
#[derive(Default)]
pub struct Scope<'a> {
    functions: Vec<Function<'a>>,
    /// Which of them have no name.
    unnamed: Vec<usize>,
    /// Which of them have a name, by that name.
    named: HashMap<&'a str, Vec<usize>>,
}

impl<'a> Scope<'a> {
    /// Goes into a function.
    pub fn enter(&mut self, function: Function<'a>) {
        let here = self.functions.len();
        match function.name {
            Some((name, _)) => self.named.entry(name).or_default().push(here),
            None => self.unnamed.push(here),
        }
        self.functions.push(function);
    }

    /// Goes out of the innermost function.
    pub fn leave(&mut self) {
        match self.functions.pop().and_then(|function| function.name) {
            Some((name, _)) => self.named.get_mut(name).and_then(Vec::pop),
            None => self.unnamed.pop(),
        };
    }

    /// The operand of a variable by its number, which counts the functions without names alone: past all of them it is past the
    /// named ones, too.
    pub fn by_number(&self, number: u32) -> u32 {
        match self.unnamed.iter().rev().nth(number as usize) {
            Some(function) => self.operand(*function),
            None => number + (self.functions.len() - self.unnamed.len()) as u32,
        }
    }

    /// The innermost function whose argument has the name, and the operand of its variable.
    pub fn by_name(&self, name: &str) -> Option<(&Function<'a>, u32)> {
        let function = *self.named.get(name)?.last()?;
        Some((&self.functions[function], self.operand(function)))
    }

    /// The names whose innermost function is of a language, from outside to inside.
    pub fn names(&self, sort: Sort) -> Vec<&'a str> {
        let named = self.functions.iter().enumerate().filter(|(_, function)| function.sort == sort);
        let innermost = |at: usize, name: &str| self.named.get(name).and_then(|all| all.last()) == Some(&at);
        named.filter_map(|(at, f)| f.name.map(|(name, _)| name).filter(|name| innermost(at, name))).collect()
    }

    /// The functions as the typing rules have them.
    pub fn lambdas(&self) -> Lambdas {
        self.functions.iter().map(|function| function.argument.clone()).collect()
    }

    /// How many functions stand between the place and one of them.
    fn operand(&self, function: usize) -> u32 {
        (self.functions.len() - 1 - function) as u32
    }
}
