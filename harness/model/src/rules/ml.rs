//! The reductions of ML nodes, the conversions ms among them. A wrong carries the type of the term it replaces.

use super::Rule;
use crate::substitute::ml_body;
use crate::tree::{Ml, Scheme, Type, MOST};
use std::rc::Rc;

type Outcome = Option<(Rule, Rc<Ml>)>;

/// What the node becomes, and by which rule, if one fits. Not for a wrong: that ends the run.
pub fn ml_rule(node: &Rc<Ml>) -> Outcome {
    match &**node {
        Ml::Application(f, a) => application(f, a),
        Ml::Fix(f) => fix(node, f),
        Ml::Add(a, b) => add(a, b),
        Ml::Subtract(a, b) => subtract(a, b),
        Ml::If0(test, yes, no) => if0(test, yes, no),
        Ml::Hd(e) => hd(e),
        Ml::Tl(e) => tl(e),
        Ml::Null(e) => null(e),
        Ml::Ms(t, e) => ms(t, e),
        _ => None,
    }
}

fn application(f: &Ml, a: &Rc<Ml>) -> Outcome {
    match f {
        Ml::Lambda(_, body) => Some((Rule::MlApplication, ml_body(body, a))),
        _ => None,
    }
}

/// The whole fix term goes in for the variable.
fn fix(node: &Rc<Ml>, f: &Ml) -> Outcome {
    match f {
        Ml::Lambda(_, body) => Some((Rule::MlFix, ml_body(body, node))),
        _ => None,
    }
}

fn add(a: &Ml, b: &Ml) -> Outcome {
    match (a, b) {
        (Ml::Number(n), Ml::Number(m)) if n + m > MOST => Some((Rule::MlAddOver, wrong(5, &Rc::new(Type::Number)))),
        (Ml::Number(n), Ml::Number(m)) => Some((Rule::MlAdd, number(n + m))),
        _ => None,
    }
}

fn subtract(a: &Ml, b: &Ml) -> Outcome {
    match (a, b) {
        (Ml::Number(n), Ml::Number(m)) => Some((Rule::MlSubtract, number(n.saturating_sub(*m)))),
        _ => None,
    }
}

fn if0(test: &Ml, yes: &Rc<Ml>, no: &Rc<Ml>) -> Outcome {
    match test {
        Ml::Number(0) => Some((Rule::MlIf0Zero, yes.clone())),
        Ml::Number(_) => Some((Rule::MlIf0Other, no.clone())),
        _ => None,
    }
}

fn hd(e: &Ml) -> Outcome {
    match e {
        Ml::Cons(head, _) => Some((Rule::MlHdCons, head.clone())),
        Ml::Nil(t) => Some((Rule::MlHdNil, wrong(4, t))),
        _ => None,
    }
}

fn tl(e: &Ml) -> Outcome {
    match e {
        Ml::Cons(_, tail) => Some((Rule::MlTlCons, tail.clone())),
        Ml::Nil(t) => Some((Rule::MlTlNil, wrong(4, &Rc::new(Type::List(t.clone()))))),
        _ => None,
    }
}

fn null(e: &Ml) -> Outcome {
    match e {
        Ml::Nil(_) => Some((Rule::MlNullYes, number(0))),
        Ml::Cons(..) => Some((Rule::MlNullNo, number(1))),
        _ => None,
    }
}

fn ms(t: &Rc<Type>, e: &Rc<Scheme>) -> Outcome {
    Some(match (&**t, &**e) {
        (Type::Number, Scheme::Number(n)) => (Rule::MsNumber, number(*n)),
        (Type::Number, _) => (Rule::MsNumberOther, wrong(1, t)),
        (Type::List(element), Scheme::Nil) => (Rule::MsListNil, Rc::new(Ml::Nil(element.clone()))),
        (Type::List(element), Scheme::Cons(v, w)) => (Rule::MsListCons, ms_cons(element, t, v, w)),
        (Type::List(_), _) => (Rule::MsListOther, wrong(3, t)),
        (Type::Function(from, to), Scheme::Lambda(_)) => (Rule::MsFunction, ms_function(from, to, e)),
        (Type::Function(..), _) => (Rule::MsFunctionOther, wrong(2, t)),
        (Type::Lump(_), _) => return None,
    })
}

fn ms_cons(element: &Rc<Type>, whole: &Rc<Type>, v: &Rc<Scheme>, w: &Rc<Scheme>) -> Rc<Ml> {
    let head = Ml::Ms(element.clone(), v.clone());
    let tail = Ml::Ms(whole.clone(), w.clone());
    Rc::new(Ml::Cons(Rc::new(head), Rc::new(tail)))
}

/// A new lambda, whose body is ms u of the old lambda applied to sm t of the new variable.
fn ms_function(t: &Rc<Type>, u: &Rc<Type>, old: &Rc<Scheme>) -> Rc<Ml> {
    let argument = Scheme::Sm(t.clone(), Rc::new(Ml::Variable(0)));
    let call = Scheme::Application(old.clone(), Rc::new(argument));
    Rc::new(Ml::Lambda(t.clone(), Rc::new(Ml::Ms(u.clone(), Rc::new(call)))))
}

fn number(n: u32) -> Rc<Ml> {
    Rc::new(Ml::Number(n))
}

fn wrong(code: u32, t: &Rc<Type>) -> Rc<Ml> {
    Rc::new(Ml::Wrong(code, t.clone()))
}
