//! Document 01's values of both languages; ms at any owner's L of a Scheme value is one (document 02, U6).

use crate::tree::{Ml, Scheme, Type};

pub fn is_ml_value(term: &Ml) -> bool {
    match term {
        Ml::Lambda(..) | Ml::Number(_) | Ml::Nil(_) => true,
        Ml::Cons(a, b) => is_ml_value(a) && is_ml_value(b),
        Ml::Ms(t, e) => matches!(**t, Type::Lump(_)) && is_scheme_value(e),
        _ => false,
    }
}

pub fn is_scheme_value(term: &Scheme) -> bool {
    match term {
        Scheme::Lambda(_) | Scheme::Number(_) | Scheme::Nil => true,
        Scheme::Cons(a, b) => is_scheme_value(a) && is_scheme_value(b),
        _ => false,
    }
}
