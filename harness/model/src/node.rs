//! One view of the nodes of all three sorts: a word followed by its parts in order.

use crate::kinds::Sort;
use crate::tree::{Ml, Scheme, Test, Type};
use std::rc::Rc;

/// A node of any sort.
#[derive(Clone, Debug, PartialEq, Eq)]
pub enum Tree {
    Type(Rc<Type>),
    Ml(Rc<Ml>),
    Scheme(Rc<Scheme>),
}

/// A node of any sort, borrowed.
#[derive(Clone, Copy)]
pub enum Node<'a> {
    Type(&'a Rc<Type>),
    Ml(&'a Rc<Ml>),
    Scheme(&'a Rc<Scheme>),
}

/// The parts of a node, at most three.
pub type Parts<'a> = [Option<Node<'a>>; 3];

impl Tree {
    pub fn node(&self) -> Node<'_> {
        match self {
            Tree::Type(t) => Node::Type(t),
            Tree::Ml(e) => Node::Ml(e),
            Tree::Scheme(e) => Node::Scheme(e),
        }
    }
}

impl<'a> Node<'a> {
    pub fn owned(self) -> Tree {
        match self {
            Node::Type(t) => Tree::Type(t.clone()),
            Node::Ml(e) => Tree::Ml(e.clone()),
            Node::Scheme(e) => Tree::Scheme(e.clone()),
        }
    }

    pub fn sort(self) -> Sort {
        match self {
            Node::Type(_) => Sort::Type,
            Node::Ml(_) => Sort::Ml,
            Node::Scheme(_) => Sort::Scheme,
        }
    }

    /// The node's own word: kind + 256 x operand.
    pub fn word(self) -> u32 {
        let (kind, operand) = match self {
            Node::Type(t) => type_kind(t),
            Node::Ml(e) => ml_kind(e),
            Node::Scheme(e) => scheme_kind(e),
        };
        kind + 256 * operand
    }

    pub fn parts(self) -> Parts<'a> {
        match self {
            Node::Type(t) => type_parts(t),
            Node::Ml(e) => ml_parts(e),
            Node::Scheme(e) => scheme_parts(e),
        }
    }

    /// Writes the node's words in prefix order.
    pub fn put(self, words: &mut Vec<u32>) {
        words.push(self.word());
        for part in self.parts().into_iter().flatten() {
            part.put(words);
        }
    }

    pub fn words(self) -> Vec<u32> {
        let mut words = Vec::new();
        self.put(&mut words);
        words
    }

    /// The count of the node's words.
    pub fn size(self) -> usize {
        1 + self.parts().into_iter().flatten().map(Node::size).sum::<usize>()
    }
}

pub fn ml_words(term: &Rc<Ml>) -> Vec<u32> {
    Node::Ml(term).words()
}

fn type_kind(t: &Type) -> (u32, u32) {
    match t {
        Type::Number => (1, 0),
        Type::Lump(owner) => (2, *owner),
        Type::List(_) => (3, 0),
        Type::Function(..) => (4, 0),
    }
}

fn ml_kind(term: &Ml) -> (u32, u32) {
    match term {
        Ml::Variable(n) => (16, *n),
        Ml::Number(n) => (17, *n),
        Ml::Lambda(..) => (18, 0),
        Ml::Application(..) => (19, 0),
        Ml::Fix(_) => (20, 0),
        Ml::Add(..) => (21, 0),
        Ml::Subtract(..) => (22, 0),
        Ml::If0(..) => (23, 0),
        Ml::Nil(_) => (24, 0),
        Ml::Cons(..) => (25, 0),
        Ml::Hd(_) => (26, 0),
        Ml::Tl(_) => (27, 0),
        Ml::Null(_) => (28, 0),
        Ml::Wrong(code, _) => (29, *code),
        Ml::Ms(..) => (30, 0),
    }
}

fn scheme_kind(term: &Scheme) -> (u32, u32) {
    match term {
        Scheme::Variable(n) => (32, *n),
        Scheme::Number(n) => (33, *n),
        Scheme::Lambda(_) => (34, 0),
        Scheme::Application(..) => (35, 0),
        Scheme::Add(..) => (36, 0),
        Scheme::Subtract(..) => (37, 0),
        Scheme::If0(..) => (38, 0),
        Scheme::Nil => (39, 0),
        Scheme::Cons(..) => (40, 0),
        Scheme::Hd(_) => (41, 0),
        Scheme::Tl(_) => (42, 0),
        Scheme::Test(test, _) => (43, test_operand(*test)),
        Scheme::Wrong(code) => (44, *code),
        Scheme::Sm(..) => (45, 0),
    }
}

pub fn test_operand(test: Test) -> u32 {
    match test {
        Test::Fun => 0,
        Test::List => 1,
        Test::Null => 2,
        Test::Num => 3,
    }
}

fn type_parts(t: &Type) -> Parts<'_> {
    match t {
        Type::Number | Type::Lump(_) => [None, None, None],
        Type::List(t) => [Some(Node::Type(t)), None, None],
        Type::Function(t, u) => [Some(Node::Type(t)), Some(Node::Type(u)), None],
    }
}

fn ml_parts(term: &Ml) -> Parts<'_> {
    match term {
        Ml::Variable(_) | Ml::Number(_) => [None, None, None],
        Ml::Lambda(t, e) => [Some(Node::Type(t)), Some(Node::Ml(e)), None],
        Ml::Application(a, b) | Ml::Add(a, b) | Ml::Subtract(a, b) | Ml::Cons(a, b) => {
            [Some(Node::Ml(a)), Some(Node::Ml(b)), None]
        }
        Ml::Fix(e) | Ml::Hd(e) | Ml::Tl(e) | Ml::Null(e) => [Some(Node::Ml(e)), None, None],
        Ml::If0(a, b, c) => [Some(Node::Ml(a)), Some(Node::Ml(b)), Some(Node::Ml(c))],
        Ml::Nil(t) | Ml::Wrong(_, t) => [Some(Node::Type(t)), None, None],
        Ml::Ms(t, e) => [Some(Node::Type(t)), Some(Node::Scheme(e)), None],
    }
}

fn scheme_parts(term: &Scheme) -> Parts<'_> {
    use Scheme::*;
    match term {
        Variable(_) | Number(_) | Nil | Wrong(_) => [None, None, None],
        Lambda(e) | Hd(e) | Tl(e) | Test(_, e) => [Some(Node::Scheme(e)), None, None],
        Application(a, b) | Add(a, b) | Subtract(a, b) | Cons(a, b) => {
            [Some(Node::Scheme(a)), Some(Node::Scheme(b)), None]
        }
        If0(a, b, c) => [Some(Node::Scheme(a)), Some(Node::Scheme(b)), Some(Node::Scheme(c))],
        Sm(t, e) => [Some(Node::Type(t)), Some(Node::Ml(e)), None],
    }
}
