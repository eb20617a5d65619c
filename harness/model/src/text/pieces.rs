//! Trees to pieces of text: what opens a node, its parts, what closes it.

use super::calling::{crossed, Called};
use super::names::{atom, head, lump_name, shows_operand, Atom};
use super::print::Style;
use crate::kinds::{ml, row_of, scheme, Sort, FUNCTION, LIST};
use crate::node::Node;
use crate::scope::{is_lambda, variable};
use crate::tree::Type;
use crate::untyped::types_within;
use std::collections::{HashMap, HashSet};
use std::rc::Rc;

/// A node's text in pieces: what opens it, its parts with what stands between them, what closes it.
pub struct Piece {
    pub open: String,
    pub between: &'static str,
    pub parts: Vec<Piece>,
    pub close: String,
    /// How many parts stay behind what opens the piece, however long it is.
    pub leading: usize,
    /// Whether the parts fill their lines.
    pub fills: bool,
    /// The letters of the whole piece on one line.
    pub width: usize,
}

impl Piece {
    /// A piece with blanks between its parts.
    fn new(open: impl Into<String>, parts: Vec<Piece>, close: &str) -> Piece {
        Piece::with(open.into(), " ", parts, close)
    }

    /// A piece with anything between its parts.
    fn with(open: String, between: &'static str, parts: Vec<Piece>, close: &str) -> Piece {
        let gaps = between.len() * parts.len().saturating_sub(1);
        let width = open.len() + parts.iter().map(|part| part.width).sum::<usize>() + gaps + close.len();
        Piece { open, between, parts, close: close.into(), leading: 0, fills: false, width }
    }

    /// Writes the piece on one line.
    pub fn flat(&self, text: &mut String) {
        text.push_str(&self.open);
        for (index, part) in self.parts.iter().enumerate() {
            if index > 0 {
                text.push_str(self.between);
            }
            part.flat(text);
        }
        text.push_str(&self.close);
    }

    /// The piece between two marks.
    fn between_marks(mut self, open: &str, close: &str) -> Piece {
        self.open.insert_str(0, open);
        self.close.push_str(close);
        self.width += open.len() + close.len();
        self
    }
}

/// The pieces of a node, by the style.
pub fn piece(node: Node<'_>, style: &Style<'_>) -> Piece {
    let types = if style.numbers { HashMap::new() } else { types_within(node) };
    Writer { style, crossed: crossed(node), types, called: Called::default(), words: 0 }.piece(node)
}

/// A walk over the nodes of a term, each becoming a piece.
struct Writer<'a> {
    style: &'a Style<'a>,
    /// The functions to which a variable of the other language points.
    crossed: HashSet<usize>,
    /// The types of ML nodes.
    types: HashMap<usize, Rc<Type>>,
    /// The functions around the node that comes next.
    called: Called,
    /// How many words come before it.
    words: usize,
}

/// A function taken apart: its argument's name and type, and its term.
struct Lambda {
    name: Option<String>,
    argument: Option<Piece>,
    body: Piece,
}

impl Writer<'_> {
    /// The piece of a node, with its marks.
    fn piece(&mut self, node: Node<'_>) -> Piece {
        let here = self.words;
        let piece = match (node.word() % 256, node.parts()) {
            _ if is_lambda(node) => self.function(node),
            (ml::APPLICATION | scheme::APPLICATION, [Some(function), ..]) if self.is_let(function) => {
                self.binding(node, function)
            }
            (ml::CONS | scheme::CONS, _) if !self.style.numbers => self.conses(node),
            _ => self.plain(node),
        };
        self.with_marks(here, piece)
    }

    /// A piece with the marks of the node at a word.
    fn with_marks(&self, here: usize, mut piece: Piece) -> Piece {
        if self.style.part == Some(here) {
            piece = piece.between_marks("<<", ">>");
        }
        if self.style.marked == Some(here) {
            piece = piece.between_marks("[[", "]]");
        }
        piece
    }

    /// Whether a word has a mark.
    fn is_marked(&self, word: usize) -> bool {
        [self.style.marked, self.style.part].contains(&Some(word))
    }

    /// A node that has no form of its own.
    fn plain(&mut self, node: Node<'_>) -> Piece {
        let word = node.word();
        self.words += 1;
        let parts: Vec<Piece> = node.parts().into_iter().flatten().map(|part| self.piece(part)).collect();
        let (row, operand) = (row_of(word).expect("a tree's words are in order"), word / 256);
        let alone = |text: String| Piece::new(text, Vec::new(), "");
        match (row.number, atom(row)) {
            (_, Some(Atom::Variable)) => alone(self.called.variable(variable(node).unwrap_or(operand))),
            (_, Some(Atom::Number)) => alone(operand.to_string()),
            (_, Some(Atom::Lump)) => alone(lump_name(operand)),
            (_, Some(Atom::Name)) => alone(row.name.to_string()),
            (LIST, _) => Piece::new("{", parts, "}"),
            (FUNCTION, _) => Piece::with("(".into(), " to ", parts, ")"),
            _ => {
                let code = if shows_operand(row) { format!(" {operand}") } else { String::new() };
                let gap = if parts.is_empty() { "" } else { " " };
                let leading = usize::from(row.parts.first() == Some(&Sort::Type));
                Piece { leading, ..Piece::new(format!("({}{code}{gap}", head(row, operand)), parts, ")") }
            }
        }
    }

    /// The parts of a function, its own word being the next.
    fn lambda(&mut self, node: Node<'_>) -> Lambda {
        let here = self.words;
        let unnamed = self.style.numbers || self.crossed.contains(&here);
        let hint = self.style.names.get(here).and_then(|name| name.as_deref());
        self.words += 1;
        let (argument, body) = match node.parts() {
            [Some(argument), Some(body), _] => (Some(self.piece(argument)), body),
            [Some(body), ..] => (None, body),
            _ => unreachable!("a function has a term"),
        };
        let name = self.called.enter((!unnamed).then_some(hint));
        let body = self.piece(body);
        self.called.leave();
        Lambda { name, argument, body }
    }

    /// A function: `(fn (x t) e)` in ML, `(fn (x) e)` in Scheme, without the name where it has none.
    fn function(&mut self, node: Node<'_>) -> Piece {
        let Lambda { name, argument, body } = self.lambda(node);
        let mut parts: Vec<Piece> = match name {
            Some(name) => vec![named(name, argument.into_iter().collect())],
            None => argument.into_iter().collect(),
        };
        let leading = parts.len();
        parts.push(body);
        Piece { leading, ..Piece::new("(fn ", parts, ")") }
    }

    /// Whether the application of a function, which is the node behind the next word, is written as a let.
    fn is_let(&self, function: Node<'_>) -> bool {
        let here = self.words + 1;
        let named = !self.style.numbers && !self.crossed.contains(&here);
        self.style.lets && is_lambda(function) && named && !self.is_marked(here)
    }

    /// An application of a function: `(let (x t e) body)` in ML, `(let (x e) body)` in Scheme.
    fn binding(&mut self, node: Node<'_>, function: Node<'_>) -> Piece {
        self.words += 1;
        let Lambda { name, argument, body } = self.lambda(function);
        let value = node.parts()[1].map(|value| self.piece(value));
        let parts: Vec<Piece> = argument.into_iter().chain(value).collect();
        let leading = parts.len() - 1;
        let bound = Piece { leading, ..named(name.unwrap_or_default(), parts) };
        Piece { leading: 1, ..Piece::new("(let ", vec![bound, body], ")") }
    }

    /// Conses one in the other: a list in braces from the first one on from which reading gives the same words back.
    fn conses(&mut self, node: Node<'_>) -> Piece {
        let (cons, mut tail) = (node.word(), node);
        let (mut starts, mut items) = (Vec::new(), Vec::new());
        while let (true, [Some(item), Some(rest), _]) = (tail.word() == cons, tail.parts()) {
            starts.push(self.words);
            self.words += 1;
            items.push(self.piece(item));
            tail = rest;
        }
        let nil = self.words;
        let mut piece = self.piece(tail);
        let listed = starts.iter().rposition(|start| self.is_marked(*start)).unwrap_or(0);
        let listed = if self.ends_list(tail, &starts[listed..], nil) { listed } else { items.len() };
        if listed < items.len() {
            piece = Piece { fills: true, ..Piece::new("{", items.split_off(listed), "}") };
            piece = self.with_inner_marks(listed, starts[listed], piece);
        }
        for (index, item) in items.into_iter().enumerate().rev() {
            piece = self.with_inner_marks(index, starts[index], Piece::new("(cons ", vec![item, piece], ")"));
        }
        piece
    }

    /// A piece with the marks of its word, but for the first cons of all, which has them from elsewhere.
    fn with_inner_marks(&self, index: usize, here: usize, piece: Piece) -> Piece {
        match index {
            0 => piece,
            _ => self.with_marks(here, piece),
        }
    }

    /// Whether conses end as a list in braces does, by the last tail and the words of the conses and of the tail: a nil without a
    /// mark, in ML of the type of the last item that has one, and N where none has.
    fn ends_list(&self, tail: Node<'_>, conses: &[usize], nil: usize) -> bool {
        let unmarked = !(nil..self.words).any(|word| self.is_marked(word));
        let found = || conses.iter().rev().find_map(|cons| self.types.get(&(cons + 1)));
        match (tail.word() % 256, tail.parts()) {
            (scheme::NIL, _) => unmarked,
            (ml::NIL, [Some(Node::Type(t)), ..]) => unmarked && **t == *found().map_or(&Type::Number, |found| &**found),
            _ => false,
        }
    }
}

/// A name in brackets with what stands behind it.
fn named(name: String, parts: Vec<Piece>) -> Piece {
    let gap = if parts.is_empty() { "" } else { " " };
    Piece::new(format!("({name}{gap}"), parts, ")")
}
