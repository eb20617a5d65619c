//! Trees: types, ML terms and Scheme terms, in the order of document 01's list of kinds.

use std::rc::Rc;

#[derive(Debug, PartialEq, Eq)]
pub enum Type {
    Number,
    /// A sealed Scheme value, by its owner.
    Lump(u32),
    List(Rc<Type>),
    Function(Rc<Type>, Rc<Type>),
}

#[derive(Debug, PartialEq, Eq)]
pub enum Ml {
    Variable(u32),
    Number(u32),
    Lambda(Rc<Type>, Rc<Ml>),
    Application(Rc<Ml>, Rc<Ml>),
    Fix(Rc<Ml>),
    Add(Rc<Ml>, Rc<Ml>),
    Subtract(Rc<Ml>, Rc<Ml>),
    If0(Rc<Ml>, Rc<Ml>, Rc<Ml>),
    Nil(Rc<Type>),
    Cons(Rc<Ml>, Rc<Ml>),
    Hd(Rc<Ml>),
    Tl(Rc<Ml>),
    Null(Rc<Ml>),
    Wrong(u32, Rc<Type>),
    Ms(Rc<Type>, Rc<Scheme>),
}

/// Scheme's tests, by their operands 0 to 3.
#[derive(Clone, Copy, Debug, PartialEq, Eq)]
pub enum Test {
    Fun,
    List,
    Null,
    Num,
}

#[derive(Debug, PartialEq, Eq)]
pub enum Scheme {
    Variable(u32),
    Number(u32),
    Lambda(Rc<Scheme>),
    Application(Rc<Scheme>, Rc<Scheme>),
    Add(Rc<Scheme>, Rc<Scheme>),
    Subtract(Rc<Scheme>, Rc<Scheme>),
    If0(Rc<Scheme>, Rc<Scheme>, Rc<Scheme>),
    Nil,
    Cons(Rc<Scheme>, Rc<Scheme>),
    Hd(Rc<Scheme>),
    Tl(Rc<Scheme>),
    Test(Test, Rc<Scheme>),
    Wrong(u32),
    Sm(Rc<Type>, Rc<Ml>),
}

/// The largest number, and the largest operand of a variable.
pub const MOST: u32 = 16_777_215;

/// The largest code of a wrong.
pub const MOST_CODE: u32 = 65_535;

/// The last owner of a lump: "The operand of L becomes an owner, 0 to 255."
pub const MOST_OWNER: u32 = 255;
