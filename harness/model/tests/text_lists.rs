//! Lists in braces, read and written in both languages, and numbers with `_` in them.

use crate::common::*;
use model::node::Node;
use model::read::read_ml;
use model::text::{parse_recipe, pretty, Style};

/// The term's words of a text with the type {N} before it.
fn words(term: &str) -> Vec<u32> {
    parse_recipe(&format!("{{N}} {term}")).unwrap_or_else(|fault| panic!("{fault}\n{term}")).term
}

/// The message and the place of a text's fault.
fn fault(text: &str) -> (usize, usize, String) {
    let fault = parse_recipe(text).expect_err(text);
    (fault.line, fault.column, fault.message)
}

/// A term written as a style has it.
fn shown(words: &[u32], style: &Style<'_>) -> String {
    pretty(Node::Ml(&read_ml(words, 0, usize::MAX).expect("words in order")), style)
}

/// Lists, and the conses that they are.
const SAME: [(&str, &str); 9] = [
    ("{12 3 0 7}", "(cons 12 (cons 3 (cons 0 (cons 7 (nil N)))))"),
    ("{(add 1 2)}", "(cons (add 1 2) (nil N))"),
    ("{{1} {2 3}}", "(cons (cons 1 (nil N)) (cons (cons 2 (cons 3 (nil N))) (nil {N})))"),
    ("{(fn (x N) {x})}", "(cons (fn (x N) (cons x (nil N))) (nil (N to {N})))"),
    ("(fn (x L7) {x (ms L7 3)})", "(fn (x L7) (cons x (cons (ms L7 3) (nil L7))))"),
    ("(fn (x L7) {1 x})", "(fn (x L7) (cons 1 (cons x (nil L7))))"),
    ("(ms {N} {1 nil {2} {}})", "(ms {N} (cons 1 (cons nil (cons (cons 2 nil) (cons nil nil)))))"),
    (
        "(ms N (fn (x) (sm {N} (fn (y N) {y (ms N x)}))))",
        "(ms N (fn (x) (sm {N} (fn (y N) (cons y (cons (ms N x) (nil N)))))))",
    ),
    ("(let (x N 1) {x 2 x})", "(let (x N 1) (cons x (cons 2 (cons x (nil N)))))"),
];

#[test]
fn a_list_in_braces_is_its_conses() {
    for (list, conses) in SAME {
        assert_eq!(words(list), words(conses), "{list}");
    }
    let numbers = [25, w(17, 12), 25, w(17, 3), 24, 1];
    assert_eq!(words("{12 3}"), numbers);
    assert_eq!(words("(ms L {})"), [30, 2, 39]);
}

#[test]
fn lists_are_written_in_braces() {
    for (list, conses) in SAME {
        let braces = list.replace("{}", "nil");
        assert_eq!(shown(&words(conses), &Style { lets: true, ..Style::PLAIN }), braces);
    }
    let numbers = Style { numbers: true, ..Style::PLAIN };
    assert_eq!(shown(&words("{1 2}"), &numbers), "(cons 1 (cons 2 (nil N)))");
}

/// Each of these is written as it stands: reading braces would give other words.
#[test]
fn conses_that_are_no_list_in_braces_stay() {
    for text in [
        "(cons 1 2)",
        "(cons 1 (cons 2 (nil L)))",
        "(cons {1} (nil N))",
        "(cons v0 (nil L))",
        "(cons (hd 1) (nil L))",
        "(cons 1 (tl {2}))",
        "(nil N)",
        "(ms N (cons 1 2))",
    ] {
        assert_eq!(shown(&words(text), &Style::PLAIN), text);
    }
    // The last item is ML's own variable, whatever points at its function besides; a variable of Scheme's function has no type.
    let crossed = words("(fn N (cons (ms N v0) (cons v0 (nil N))))");
    assert_eq!(shown(&crossed, &Style::PLAIN), "(fn N {(ms N v0) v0})");
    let other = "(ms N (fn (sm N (cons v0 (nil L)))))";
    assert_eq!(shown(&words(other), &Style::PLAIN), other);
}

#[test]
fn where_a_word_appears_in_the_text() {
    let parsed = parse_recipe("{N}\n{1\n (add 2 3)}").expect("a recipe");
    assert_eq!(parsed.term, [25, w(17, 1), 25, 21, w(17, 2), w(17, 3), 24, 1]);
    let positions: Vec<_> = parsed.positions[2..].iter().map(|at| (at.line, at.column)).collect();
    assert_eq!(positions, [(2, 1), (2, 2), (3, 2), (3, 2), (3, 7), (3, 9), (3, 11), (3, 11)]);
}

#[test]
fn conses_are_written_down_to_the_marked_one() {
    let list = words("{1 2 3}");
    let marked = |word| shown(&list, &Style { marked: Some(word), ..Style::PLAIN });
    let due = [
        "[[{1 2 3}]]",
        "{[[1]] 2 3}",
        "(cons 1 [[{2 3}]])",
        "{1 [[2]] 3}",
        "(cons 1 (cons 2 [[{3}]]))",
        "{1 2 [[3]]}",
        "(cons 1 (cons 2 (cons 3 [[(nil N)]])))",
        "(cons 1 (cons 2 (cons 3 (nil [[N]]))))",
        "{1 2 3}",
    ];
    assert_eq!((0..9).map(marked).collect::<Vec<_>>(), due);
    let both = shown(&list, &Style { marked: Some(0), part: Some(2), ..Style::PLAIN });
    assert_eq!(both, "[[(cons 1 <<{2 3}>>)]]");
    let scheme = words("(ms {N} {1 2})");
    let nil = shown(&scheme, &Style { part: Some(7), ..Style::PLAIN });
    assert_eq!(nil, "(ms {N} (cons 1 (cons 2 <<nil>>)))");
}

/// The check then finds what has no type.
#[test]
fn nil_has_the_type_of_the_last_item_that_has_one() {
    assert_eq!(words("{(nil L) (hd 2)}"), words("(cons (nil L) (cons (hd 2) (nil {L})))"));
    assert_eq!(words("{(hd 1) (hd 2)}"), words("(cons (hd 1) (cons (hd 2) (nil N)))"));
    assert_eq!(words("{v0}"), words("(cons v0 (nil N))"));
    assert_eq!(shown(&words("{(nil L) (hd 2)}"), &Style::PLAIN), "{(nil L) (hd 2)}");
    assert_eq!(shown(&words("(cons (hd 1) (nil L))"), &Style::PLAIN), "(cons (hd 1) (nil L))");
    // Where conses are written down to a mark, the braces are read by the items in them.
    let marked = shown(&words("{(nil L) (hd 2)}"), &Style { marked: Some(3), ..Style::PLAIN });
    assert_eq!(marked, "(cons (nil L) [[(cons (hd 2) (nil {L}))]])");
}

#[test]
fn lists_that_are_not_in_order() {
    assert_eq!(fault("{N}\n {}"), (2, 2, "in ML the empty list has its type: (nil t) is due".into()));
    assert_eq!(fault("{N} {1 2"), (1, 9, "the text ends, and the { of line 1, column 5 is not closed".into()));
    assert_eq!(fault("{N} {1 2)"), (1, 9, "} is due here for the { of line 1, column 5, not )".into()));
    assert_eq!(fault("{N} {1 2}}"), (1, 10, "this } closes nothing; it is one too many".into()));
}

#[test]
fn digits_may_be_parted() {
    assert_eq!(words("{16_777_215 1_0 0_1}"), words("{16777215 10 1}"));
    assert_eq!(words("(wrong 1_000 {N})"), words("(wrong 1000 {N})"));
    for (number, column) in [("1_", 3), ("1__0", 3), ("(add 1 2_)", 10), ("(wrong _1 N)", 10), ("(wrong 1_ N)", 10)] {
        let word = number.split([' ', '(', ')']).find(|word| word.contains('_')).expect("the number");
        assert_eq!(
            fault(&format!("N {number}")),
            (1, column, format!("{word} has a _ that is not between two digits"))
        );
    }
    // With a _ before it, it is no number at all.
    assert_eq!(fault("N _1"), (1, 3, "_1 is no ML term".into()));
}
