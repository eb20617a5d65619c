//! Names in a text: resolved to numbers, printed, and let.

use crate::common::*;
use model::node::Node;
use model::read::read_ml;
use model::text::{parse_recipe, pretty, Parsed, Style};

/// The words and names of a text.
fn parsed(text: &str) -> Parsed {
    parse_recipe(text).unwrap_or_else(|fault| panic!("{fault}\n{text}"))
}

/// The term's words of a text with the type N before it.
fn words(term: &str) -> Vec<u32> {
    parsed(&format!("N {term}")).term
}

/// A term as a style writes it, which reads back to the same words.
fn shown(words: &[u32], style: &Style<'_>) -> String {
    let term = read_ml(words, 0, usize::MAX).expect("words in order");
    let text = pretty(Node::Ml(&term), style);
    assert_eq!(parsed(&format!("N {text}")).term, words, "{text}");
    text
}

const LETS: Style<'static> = Style { lets: true, ..Style::PLAIN };
const NUMBERS: Style<'static> = Style { numbers: true, lets: true, ..Style::PLAIN };

/// Each text, and the one by numbers that has the same words.
const SAME: [(&str, &str); 16] = [
    ("(fn (x N) x)", "(fn N v0)"),
    ("(lambda (x N) (fn (y {N}) (cons x y)))", "(fn N (fn {N} (cons v1 v0)))"),
    ("(ms N (fn (x) (add x 1)))", "(ms N (fn (add v0 1)))"),
    // An inner name hides an outer one, and is forgotten behind its function.
    ("(fn (x N) (add (app (fn (x N) x) 1) x))", "(fn N (add (app (fn N v0) 1) v0))"),
    // The functions of both languages are counted.
    ("(fn (f (N to N)) (ms N (fn (x) (sm (N to N) f))))", "(fn (N to N) (ms N (fn (sm (N to N) v1))))"),
    ("(let (x N 5) (add x x))", "(app (fn N (add v0 v0)) 5)"),
    // The name of a let is not known in its own term.
    ("(fn (x N) (let (x N (add x 1)) x))", "(fn N (app (fn N v0) (add v0 1)))"),
    ("(let (a N 1) (let (b N (add a 1)) (add a b)))", "(app (fn N (app (fn N (add v1 v0)) (add v0 1))) 1)"),
    ("(ms N (let (x 5) (let (y x) (cons x y))))", "(ms N (app (fn (app (fn (cons v1 v0)) v0)) 5))"),
    ("(let (f (N to N) (fn (x N) x)) (app f 2))", "(app (fn (N to N) (app v0 2)) (fn N v0))"),
    // A number counts the functions without names alone.
    ("(fn N (fn (x N) (add v0 x)))", "(fn N (fn N (add v1 v0)))"),
    (
        "(fn (x N) (fn N (fn (y N) (fn N (add v0 (add v1 (add x y)))))))",
        "(fn N (fn N (fn N (fn N (add v0 (add v2 (add v3 v1)))))))",
    ),
    ("(fn N (let (x N v0) (add x v0)))", "(fn N (app (fn N (add v0 v1)) v0))"),
    // Past all of them it is past the named ones, too.
    ("(fn (x N) v0)", "(fn N v1)"),
    ("(fn (x N) (fn N (fn (y N) (add v1 v7))))", "(fn N (fn N (fn N (add v3 v9))))"),
    (
        "(fn (v N) (fn (Lx N) (fn (a-b_c?' N) (fn (n0 N) (add v (add Lx a-b_c?'))))))",
        "(fn N (fn N (fn N (fn N (add v3 (add v2 v1))))))",
    ),
];

#[test]
fn names_are_the_numbers_of_the_file() {
    for (named, numbered) in SAME {
        assert_eq!(words(named), words(numbered), "{named}");
        assert_eq!(shown(&words(named), &NUMBERS), numbered);
    }
}

#[test]
fn the_words_of_a_let() {
    let parsed = parsed("N\n(let (x N 5)\n  (add x 7))");
    assert_eq!(parsed.term, [19, 18, 1, 21, 16, w(17, 7), w(17, 5)]);
    let positions: Vec<_> = parsed.positions.iter().map(|at| (at.line, at.column)).collect();
    assert_eq!(positions, [(1, 1), (2, 1), (2, 6), (2, 9), (3, 3), (3, 8), (3, 10), (2, 11)]);
    let names: Vec<_> = parsed.names.iter().map(Option::as_deref).collect();
    assert_eq!(names, [None, None, Some("x"), None, None, None, None, None]);
}

#[test]
fn names_move_with_the_words_of_a_let() {
    let parsed = parsed("{N} (let (f (N to N) (fn (a N) a)) (app (fn (b N) (nil N)) (app f 1)))");
    // The declared type has two words; the functions are the second word of the term, the one in its body and the one behind it.
    let named: Vec<_> = parsed.names.iter().enumerate().filter_map(|(at, name)| Some((at, name.as_deref()?))).collect();
    assert_eq!(parsed.term, [19, 18, 4, 1, 1, 19, 18, 1, 24, 1, 19, 16, w(17, 1), 18, 1, 16]);
    assert_eq!(named, [(3, "f"), (8, "b"), (15, "a")]);
}

#[test]
fn terms_are_written_with_names() {
    assert_eq!(
        shown(&words("(fn N (fn N (fn N (fn N v3))))"), &Style::PLAIN),
        "(fn (x N) (fn (y N) (fn (z N) (fn (x1 N) x))))"
    );
    assert_eq!(shown(&words("(app (fn N v0) (fn N v0))"), &Style::PLAIN), "(app (fn (x N) x) (fn (x N) x))");
    assert_eq!(shown(&words("(ms N (fn (sm N (fn N v0))))"), &Style::PLAIN), "(ms N (fn (x) (sm N (fn (y N) y))))");
    // A variable without a function.
    assert_eq!(shown(&words("(fn N (add v0 v1))"), &Style::PLAIN), "(fn (x N) (add x v0))");
    assert_eq!(shown(&words("v16777215"), &Style::PLAIN), "v16777215");
}

#[test]
fn a_function_with_a_variable_of_the_other_language_has_no_name() {
    let crossing = words("(fn N (fn N (add v0 (add v1 (ms N v1)))))");
    assert_eq!(shown(&crossing, &Style::PLAIN), "(fn N (fn (y N) (add y (add v0 (ms N v0)))))");
    let both = words("(ms N (fn (sm N (fn N (add v1 (ms N (cons v0 v1)))))))");
    assert_eq!(shown(&both, &Style::PLAIN), "(ms N (fn (sm N (fn N (add v1 (ms N (cons v0 v1)))))))");
    let applied = words("(app (fn N (ms N v0)) 3)");
    assert_eq!(shown(&applied, &LETS), "(app (fn N (ms N v0)) 3)");
}

#[test]
fn lets_are_written_where_asked() {
    let sum = words("(app (fn N (app (fn N (add v1 v0)) 2)) 1)");
    assert_eq!(shown(&sum, &Style::PLAIN), "(app (fn (x N) (app (fn (y N) (add x y)) 2)) 1)");
    assert_eq!(shown(&sum, &LETS), "(let (x N 1) (let (y N 2) (add x y)))");
    assert_eq!(shown(&words("(ms N (app (fn (add v0 1)) 2))"), &LETS), "(ms N (let (x 2) (add x 1)))");
    // Neither is a let: no function is applied, and an application is.
    assert_eq!(shown(&words("(app (fix (fn N v0)) 2)"), &LETS), "(app (fix (fn (x N) x)) 2)");
    // A mark at the function shows it.
    let marked = |word| {
        let term = read_ml(&sum, 0, usize::MAX).expect("words in order");
        pretty(Node::Ml(&term), &Style { marked: Some(word), ..LETS })
    };
    assert_eq!(marked(0), "[[(let (x N 1) (let (y N 2) (add x y)))]]");
    assert_eq!(marked(1), "(app [[(fn (x N) (let (y N 2) (add x y)))]] 1)");
    assert_eq!(marked(2), "(let (x [[N]] 1) (let (y N 2) (add x y)))");
}

/// A text written again with its own names.
fn again(text: &str) -> String {
    let parsed = parsed(text);
    shown(&parsed.term, &Style { names: &parsed.names[parsed.declared.len()..], ..LETS })
}

#[test]
fn the_writers_own_names_are_kept() {
    let own = "(let (pulses N 5) (app (fn (lime N) (add lime pulses)) (ms N (app (fn (s) s) 3))))";
    let lets = "(let (pulses N 5) (let (lime N (ms N (let (s 3) s))) (add lime pulses)))";
    assert_eq!(again(&format!("N {own}")), lets);
    // A name that a function around has is numbered.
    assert_eq!(again("N (fn (a N) (fn (a N) (fn (a N) a)))"), "(fn (a N) (fn (a1 N) (fn (a2 N) a2)))");
    assert_eq!(
        again("N (fn (a N) (fn (a1 N) (fn (a N) (add a a1))))"),
        "(fn (a N) (fn (a1 N) (fn (a2 N) (add a2 a1))))"
    );
    assert_eq!(again("N (add (fn (a N) a) (fn (a N) a))"), "(add (fn (a N) a) (fn (a N) a))");
    // v1 would be a number, not a name.
    assert_eq!(again("N (fn (v N) (fn (v N) v))"), "(fn (v N) (fn (v_1 N) v_1))");
    // A function without a name gets another than those around it: y is taken, and then y1 and x1.
    assert_eq!(again("N (fn (y N) (fn N v0))"), "(fn (y N) (fn (y1 N) y1))");
    let taken = "N (fn (y N) (fn N (fn (x1 N) (fn N (add v0 (add v1 (add x1 y)))))))";
    assert_eq!(again(taken), "(fn (y N) (fn (y1 N) (fn (x1 N) (fn (x11 N) (add x11 (add y1 (add x1 y)))))))");
}

#[test]
fn names_that_are_none_are_not_taken() {
    let names: Vec<Option<String>> =
        [None, Some("add"), Some("v0"), Some("2x"), Some("")].map(|n| n.map(String::from)).into();
    let text = shown(&words("(fix (fn N (fn N v0)))"), &Style { names: &names, ..Style::PLAIN });
    assert_eq!(text, "(fix (fn (x N) (fn (y N) y)))");
}

#[test]
fn the_same_name_thousands_deep_is_written_at_once() {
    on_deep(|| {
        let deep = "(ms N ".to_string() + &"(fn (a) ".repeat(4_000) + "a" + &")".repeat(4_001);
        let text = again(&format!("N {deep}"));
        assert!(["(fn (a)", "(fn (a1)", "(fn (a3999)"].iter().all(|name| text.contains(name)), "{}", text.len());
    });
}

/// The work on a stack for the deepest terms.
fn on_deep(work: fn()) {
    model::on_large_stack(work);
}
