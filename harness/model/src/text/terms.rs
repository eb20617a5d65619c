//! Text to words: terms. A name is resolved to the number that a file has, a list to its conses.

use super::faults::{a_term, missing, no_atom, no_head, others_name, too_many, unbound};
use super::names::{headed, shows_operand};
use super::numbers::{is_number, operand};
use super::parse::{fault, Fault, Parser};
use super::spelling::{is_name, is_type, shown, variable_digits};
use super::tokens::{Position, Token};
use crate::kinds::{kind, ml, scheme, Kind, Sort};
use crate::node::Node;
use crate::read::read_ml;
use crate::tree::{Type, MOST};
use crate::untyped::type_among;
use std::ops::Range;
use std::rc::Rc;

impl<'a> Parser<'a> {
    /// A term of a language.
    pub fn term(&mut self, sort: Sort) -> Result<(), Fault> {
        let token = self.next(a_term(sort))?;
        match token.text {
            "(" => self.node(sort, token),
            "{" => self.list(sort, token),
            ")" | "}" => Err(self.closes(token, a_term(sort))),
            "nil" if sort == Sort::Scheme => self.put(scheme::NIL, token.position),
            word if is_name(word) => self.named(sort, token),
            word => match variable_digits(word) {
                Some(digits) => self.numbered(sort, digits, token),
                None if is_number(word) => self.number(sort, token),
                None => Err(no_atom(sort, token)),
            },
        }
    }

    /// A number.
    fn number(&mut self, sort: Sort, token: Token<'a>) -> Result<(), Fault> {
        let row = row(if sort == Sort::Ml { ml::NUMBER } else { scheme::NUMBER });
        let number = operand(row, token.text, "number").map_err(|why| fault(token.position, why))?;
        self.put(row.number + 256 * number, token.position)
    }

    /// A variable by its number.
    fn numbered(&mut self, sort: Sort, digits: &str, token: Token<'a>) -> Result<(), Fault> {
        let number = operand(row(variable(sort)), digits, "variable's number");
        let number = number.map_err(|why| fault(token.position, format!("v{why}")))?;
        self.numbered.get_or_insert(token.position);
        match self.scope.by_number(number) {
            operand if operand <= MOST => self.put(variable(sort) + 256 * operand, token.position),
            _ => Err(fault(token.position, format!("{} counts past {MOST} functions", shown(token.text)))),
        }
    }

    /// A variable by its name.
    fn named(&mut self, sort: Sort, token: Token<'a>) -> Result<(), Fault> {
        let operand = match self.scope.by_name(token.text) {
            Some((function, operand)) if function.sort == sort => operand,
            Some((function, _)) => return Err(others_name(sort, token, function)),
            None => return Err(unbound(sort, token, &self.scope.names(sort))),
        };
        self.put(variable(sort) + 256 * operand, token.position)
    }

    /// A node in parentheses: the word behind the bracket, its operand, its parts.
    fn node(&mut self, sort: Sort, bracket: Token<'a>) -> Result<(), Fault> {
        self.open.push(bracket);
        let word = self.next("a word")?;
        match word.text {
            "fn" | "lambda" => return self.function(sort, bracket.position, word.text),
            "let" => return self.binding(sort, bracket.position),
            _ => {}
        }
        let Some((row, told)) = headed(sort, word.text) else {
            return Err(no_head(sort, word, self.scope.by_name(word.text).is_some()));
        };
        let operand = match told {
            Some(operand) => operand,
            None if shows_operand(row) => self.code(row)?,
            None => 0,
        };
        self.put(row.number + 256 * operand, bracket.position)?;
        for (index, part) in row.parts.iter().enumerate() {
            self.part(row, word.text, index + usize::from(shows_operand(row)), *part)?;
        }
        self.finish(row, word.text)
    }

    /// The code of a wrong.
    fn code(&mut self, row: &Kind) -> Result<u32, Fault> {
        let token = self.peek("a code")?;
        match token.text {
            ")" => return Err(missing(row, "wrong", 0, token)),
            "}" => return Err(self.closes(token, "a code")),
            text if is_type(text) || matches!(text, "(" | "{") => {
                let form = if row.sort == Sort::Ml {
                    "its code and then its type: (wrong 300 N)"
                } else {
                    "a code alone: (wrong 300)"
                };
                return Err(fault(token.position, format!("wrong takes {form}")));
            }
            _ => {}
        }
        self.tokens.take();
        operand(row, token.text, "code").map_err(|why| fault(token.position, why))
    }

    /// A part of a node, which may be missing.
    fn part(&mut self, row: &Kind, head: &str, index: usize, sort: Sort) -> Result<(), Fault> {
        let token = self.peek(a_term(sort))?;
        match sort {
            _ if token.text == ")" => Err(missing(row, head, index, token)),
            Sort::Type if self.is_term_next() => Err(missing(row, head, index, token)),
            Sort::Type => self.read_type(),
            _ => self.term(sort),
        }
    }

    /// The bracket behind the last part; there may be a part too many.
    fn finish(&mut self, row: &Kind, head: &str) -> Result<(), Fault> {
        let token = self.peek(")")?;
        match token.text {
            ")" | "}" => self.close().map(drop),
            text if row.number == scheme::WRONG && is_type(text) => {
                Err(fault(token.position, "wrong takes a code alone in Scheme: (wrong 300)"))
            }
            _ => Err(too_many(row, head, token)),
        }
    }

    /// A list in braces: a cons for each item, then nil. The cons of the first item stands where the brace does.
    fn list(&mut self, sort: Sort, bracket: Token<'a>) -> Result<(), Fault> {
        self.open.push(bracket);
        let mut items = Vec::new();
        loop {
            let token = self.peek("}")?;
            if matches!(token.text, "}" | ")") {
                break;
            }
            let here = if items.is_empty() { bracket.position } else { token.position };
            self.put(if sort == Sort::Ml { ml::CONS } else { scheme::CONS }, here)?;
            let start = self.words.len();
            self.term(sort)?;
            items.push(start..self.words.len());
        }
        let end = self.close()?.position;
        match sort {
            Sort::Scheme => self.put(scheme::NIL, end),
            _ if items.is_empty() => Err(fault(bracket.position, "in ML the empty list has its type: (nil t) is due")),
            _ => self.nil(&items, end),
        }
    }

    /// The nil behind the items of an ML list, by their words: it has the type of the last that has one, and N where none has, so
    /// that the check finds the fault.
    fn nil(&mut self, items: &[Range<usize>], end: Position) -> Result<(), Fault> {
        let lambdas = self.scope.lambdas();
        let read = |item: &Range<usize>| read_ml(&self.words[item.clone()], 0, usize::MAX).ok();
        let found = items.iter().rev().find_map(|item| type_among(&read(item)?, lambdas.clone()));
        let found = found.unwrap_or(Rc::new(Type::Number));
        self.put(ml::NIL, end)?;
        Node::Type(&found).words().into_iter().try_for_each(|word| self.put(word, end))
    }
}

/// The kind of a language's variables.
fn variable(sort: Sort) -> u32 {
    if sort == Sort::Ml {
        ml::VARIABLE
    } else {
        scheme::VARIABLE
    }
}

/// The row of a kind that is one.
fn row(number: u32) -> &'static Kind {
    kind(number).expect("variables and numbers are kinds")
}
