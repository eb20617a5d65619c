//! Text to words: functions, with names and without, and `let`, which is an application of one.

use super::faults::{form, no_name};
use super::parse::{fault, Fault, Parser};
use super::scope::Function;
use super::spelling::{is_name, is_type, variable_digits};
use super::tokens::{Position, Token, Tokens};
use crate::kinds::{ml, scheme, Sort};
use crate::read::read_type;
use crate::tree::Type;
use std::rc::Rc;

impl<'a> Parser<'a> {
    /// A function, behind its word: in ML `(x t)` or `t`, in Scheme `(x)` or nothing, and then its term.
    pub fn function(&mut self, sort: Sort, position: Position, head: &str) -> Result<(), Fault> {
        let name = self.argument(sort)?;
        self.lambda(sort, position, name)?;
        let argument = self.argument_type(sort, "fn")?;
        if name.is_some() {
            self.close()?;
        }
        self.body(Function { sort, name: name.map(|name| (name.text, name.position)), argument }, head)?;
        self.closed(head, "an argument and a term")
    }

    /// `let`, behind its word. The words of the function's term come before those of the argument, which is read first.
    pub fn binding(&mut self, sort: Sort, position: Position) -> Result<(), Fault> {
        let bracket = self.next("(")?;
        if bracket.text != "(" {
            return Err(fault(bracket.position, format!("let has its name in brackets: {}", form(sort, "let"))));
        }
        self.open.push(bracket);
        let name = self.next("a name")?;
        if let Some(fault) = no_name(name) {
            return Err(fault);
        }
        self.put(if sort == Sort::Ml { ml::APPLICATION } else { scheme::APPLICATION }, position)?;
        self.lambda(sort, bracket.position, Some(name))?;
        let argument = self.argument_type(sort, "let")?;
        let start = self.words.len();
        self.value(sort, name)?;
        self.close()?;
        let behind = self.words.len() - start;
        self.body(Function { sort, name: Some((name.text, name.position)), argument }, "let")?;
        self.words[start..].rotate_left(behind);
        self.positions[start..].rotate_left(behind);
        self.names[start..].rotate_left(behind);
        self.closed("let", "its name in brackets and a term")
    }

    /// The bracket and the name of a function's argument, if it has one.
    fn argument(&mut self, sort: Sort) -> Result<Option<Token<'a>>, Fault> {
        let mut ahead = self.tokens;
        let [first, second] = [ahead.take(), ahead.take()];
        let (Some(first), text) = (first, second.map_or("", |second| second.text)) else { return Ok(None) };
        match (first.text, second) {
            ("(", Some(name)) if is_name(name.text) && (sort == Sort::Ml || names_argument(ahead)) => {
                self.open.push(first);
                self.tokens.take();
                Ok(self.tokens.take())
            }
            ("(", Some(name)) if variable_digits(text).is_some() => no_name(name).map_or(Ok(None), Err),
            (word, _) if is_name(word) && (sort == Sort::Ml || text != ")") => {
                let brackets = format!("the argument of fn stands in brackets: {}", form(sort, "fn"));
                Err(fault(first.position, brackets))
            }
            _ => Ok(None),
        }
    }

    /// Puts the word of a function, with its argument's name.
    fn lambda(&mut self, sort: Sort, position: Position, name: Option<Token<'a>>) -> Result<(), Fault> {
        self.put(if sort == Sort::Ml { ml::LAMBDA } else { scheme::LAMBDA }, position)?;
        if let (Some(last), Some(name)) = (self.names.last_mut(), name) {
            *last = Some(name.text.to_string());
        }
        Ok(())
    }

    /// The type of an argument, which ML has and Scheme has not.
    fn argument_type(&mut self, sort: Sort, head: &str) -> Result<Option<Rc<Type>>, Fault> {
        let here = self.peek("a type")?;
        let form = form(sort, head);
        match sort {
            Sort::Scheme if is_type_next(self.tokens) => {
                Err(fault(here.position, format!("an argument has no type in Scheme: {form}")))
            }
            Sort::Scheme => Ok(None),
            _ if here.text == ")" || self.is_term_next() || is_name(here.text) => {
                Err(fault(here.position, format!("an argument has its type in ML: {form}")))
            }
            _ => {
                let start = self.words.len();
                self.read_type()?;
                Ok(read_type(&self.words[start..], 0, usize::MAX).ok())
            }
        }
    }

    /// The term that a let gives its name to.
    fn value(&mut self, sort: Sort, name: Token<'_>) -> Result<(), Fault> {
        let here = self.peek("a term")?;
        match here.text {
            ")" => Err(fault(here.position, format!("the term of {} is missing: {}", name.text, form(sort, "let")))),
            _ => self.term(sort),
        }
    }

    /// A function's term, inside the function.
    fn body(&mut self, function: Function<'a>, head: &str) -> Result<(), Fault> {
        let (here, sort) = (self.peek("a term")?, function.sort);
        if here.text == ")" {
            return Err(fault(here.position, format!("the term of {head} is missing: {}", form(sort, head))));
        }
        self.scope.enter(function);
        self.term(sort)?;
        self.scope.leave();
        Ok(())
    }

    /// The bracket behind a function's term.
    fn closed(&mut self, head: &str, takes: &str) -> Result<(), Fault> {
        let token = self.peek(")")?;
        match token.text {
            ")" | "}" => self.close().map(drop),
            _ => Err(fault(token.position, format!("{head} takes {takes}; this is too much"))),
        }
    }
}

/// Whether a name in brackets is an argument's in Scheme, by what stands behind it: the other bracket, or a type by mistake.
fn names_argument(behind: Tokens<'_>) -> bool {
    behind.peek().is_some_and(|token| token.text == ")") || is_type_next(behind)
}

/// Whether a type comes next that cannot be a term.
fn is_type_next(tokens: Tokens<'_>) -> bool {
    let mut ahead = tokens;
    let [first, second] = [ahead.take(), ahead.take()].map(|token| token.map_or("", |token| token.text));
    is_type(first) || (matches!(first, "(" | "{") && is_type(second))
}
