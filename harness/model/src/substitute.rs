//! A closed term put for a lambda's variable in its body.
//!
//! What is put is closed, since evaluation never goes under a lambda: no operand in it, and no other operand of the
//! body, changes.

use crate::tree::{Ml, Scheme};
use std::rc::Rc;

/// A closed term of either language.
pub enum Closed<'a> {
    Ml(&'a Rc<Ml>),
    Scheme(&'a Rc<Scheme>),
}

/// The body of an ML lambda with the term for its variable.
pub fn ml_body(body: &Rc<Ml>, term: &Rc<Ml>) -> Rc<Ml> {
    in_ml(body, 0, &Closed::Ml(term))
}

/// The body of a Scheme lambda with the term for its variable.
pub fn scheme_body(body: &Rc<Scheme>, term: &Rc<Scheme>) -> Rc<Scheme> {
    in_scheme(body, 0, &Closed::Scheme(term))
}

/// `around` counts the lambda words between here and the variable's own lambda.
fn in_ml(body: &Rc<Ml>, around: u32, term: &Closed<'_>) -> Rc<Ml> {
    use Ml::*;
    let go = |e: &Rc<Ml>| in_ml(e, around, term);
    Rc::new(match &**body {
        Variable(n) => match term {
            Closed::Ml(term) if *n == around => return Rc::clone(term),
            _ => Variable(*n),
        },
        Number(n) => Number(*n),
        Lambda(t, e) => Lambda(t.clone(), in_ml(e, around + 1, term)),
        Application(a, b) => Application(go(a), go(b)),
        Fix(e) => Fix(go(e)),
        Add(a, b) => Add(go(a), go(b)),
        Subtract(a, b) => Subtract(go(a), go(b)),
        If0(a, b, c) => If0(go(a), go(b), go(c)),
        Nil(t) => Nil(t.clone()),
        Cons(a, b) => Cons(go(a), go(b)),
        Hd(e) => Hd(go(e)),
        Tl(e) => Tl(go(e)),
        Null(e) => Null(go(e)),
        Wrong(code, t) => Wrong(*code, t.clone()),
        Ms(t, e) => Ms(t.clone(), in_scheme(e, around, term)),
    })
}

fn in_scheme(body: &Rc<Scheme>, around: u32, term: &Closed<'_>) -> Rc<Scheme> {
    use Scheme::*;
    let go = |e: &Rc<Scheme>| in_scheme(e, around, term);
    Rc::new(match &**body {
        Variable(n) => match term {
            Closed::Scheme(term) if *n == around => return Rc::clone(term),
            _ => Variable(*n),
        },
        Number(n) => Number(*n),
        Lambda(e) => Lambda(in_scheme(e, around + 1, term)),
        Application(a, b) => Application(go(a), go(b)),
        Add(a, b) => Add(go(a), go(b)),
        Subtract(a, b) => Subtract(go(a), go(b)),
        If0(a, b, c) => If0(go(a), go(b), go(c)),
        Nil => Nil,
        Cons(a, b) => Cons(go(a), go(b)),
        Hd(e) => Hd(go(e)),
        Tl(e) => Tl(go(e)),
        Test(test, e) => Test(*test, go(e)),
        Wrong(code) => Wrong(*code),
        Sm(t, e) => Sm(t.clone(), in_ml(e, around, term)),
    })
}
