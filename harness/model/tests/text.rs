//! The text form: printed and read back, and faults with their positions.

use crate::common::*;
use model::node::Node;
use model::read::{read_ml, read_type};
use model::text::{describe, flat, flat_marked, parse_recipe, pretty, Style};
use std::rc::Rc;

fn term(words: &[u32]) -> Rc<model::Ml> {
    read_ml(words, 0, usize::MAX).expect("words in order")
}

#[test]
fn terms_read_as_in_the_document() {
    let cases: [(&[u32], &str); 12] = [
        (&[21, 529, 785], "(add 2 3)"),
        (&[19, 30, 4, 1, 1, 34, 32, w(17, 7)], "(app (ms (N to N) (fn (x) x)) 7)"),
        (&[30, 1, 45, 2, 30, 2, w(33, 4)], "(ms N (sm L (ms L 4)))"),
        (&[30, w(2, 9), 45, w(2, 7), 30, w(2, 7), w(33, 4)], "(ms L9 (sm L7 (ms L7 4)))"),
        (&[18, 4, 3, w(2, 1), w(2, 255), 24, w(2, 10)], "(fn (x ({L1} to L255)) (nil L10))"),
        (&[20, 18, 1, 16], "(fix (fn (x N) x))"),
        (&[30, 3, 1, 40, w(33, 1), w(33, 2)], "(ms {N} (cons 1 2))"),
        (&[26, 24, 1], "(hd (nil N))"),
        (&[30, 1, 38, 39, w(33, 1), w(33, 2)], "(ms N (if0 nil 1 2))"),
        (&[30, 1, 36, 34, 32, w(44, 300)], "(ms N (add (fn (x) x) (wrong 300)))"),
        (&[w(29, 9), 4, 3, 2, 1], "(wrong 9 ({L} to N))"),
        (&[30, 1, w(43, 3), w(43, 0), w(43, 1), w(43, 2), w(32, 5)], "(ms N (num? (fun? (list? (null? v5)))))"),
    ];
    for (words, text) in cases {
        assert_eq!(flat(Node::Ml(&term(words))), text);
        let parsed = parse_recipe(&format!("N {text}")).expect(text);
        assert_eq!(parsed.term, words);
    }
}

#[test]
fn long_names_comments_and_lines() {
    let text = "(N to N) ; the type\n(lambda N\n  (application (fn N v0) v0)) ; the end";
    let parsed = parse_recipe(text).expect("a recipe");
    assert_eq!(parsed.declared, [4, 1, 1]);
    assert_eq!(parsed.term, [18, 1, 19, 18, 1, 16, 16]);
    let last = parsed.positions.last().map(|p| (p.line, p.column));
    assert_eq!(last, Some((3, 26)));
}

/// As zeros may stand before a variable's number; what is shown has none.
#[test]
fn zeros_before_an_owner_say_nothing() {
    for (text, owner, shown) in
        [("L", 0, "L"), ("L0", 0, "L"), ("L00", 0, "L"), ("L007", 7, "L7"), ("L0255", 255, "L255")]
    {
        let parsed = parse_recipe(&format!("{text} v007")).expect(text);
        assert_eq!((&parsed.declared[..], &parsed.term[..]), (&[w(2, owner)][..], &[w(16, 7)][..]));
        assert_eq!(flat(Node::Type(&read_type(&parsed.declared, 0, 1).expect("a type"))), shown);
    }
}

#[test]
fn long_terms_are_laid_out() {
    let sum = term(&balanced(21, w(17, 1000), 16));
    let text = pretty(Node::Ml(&sum), &Style::PLAIN);
    assert!(text.lines().count() > 1 && text.lines().all(|line| line.len() <= 100), "{text}");
    assert_eq!(parse_recipe(&format!("N {text}")).expect("a recipe").term, balanced(21, w(17, 1000), 16));
}

#[test]
fn one_node_is_marked_and_a_part() {
    let t = term(&[19, 30, 4, 1, 1, 34, 32, w(17, 7)]);
    let marked = |marked, part| pretty(Node::Ml(&t), &Style { marked, part, ..Style::PLAIN });
    assert_eq!(marked(Some(1), None), "(app [[(ms (N to N) (fn (x) x))]] 7)");
    assert_eq!(marked(Some(7), None), "(app (ms (N to N) (fn (x) x)) [[7]])");
    assert_eq!(marked(Some(0), Some(7)), "[[(app (ms (N to N) (fn (x) x)) <<7>>)]]");
    assert_eq!(marked(Some(5), Some(5)), "(app (ms (N to N) [[<<(fn (x) x)>>]]) 7)");
    assert_eq!(marked(Some(6), Some(2)), "(app (ms <<(N to N)>> (fn (x) [[x]])) 7)");
    let declared = read_type(&[4, 3, 1, 2], 0, usize::MAX).expect("a type");
    assert_eq!(pretty(Node::Type(&declared), &Style { marked: Some(1), ..Style::PLAIN }), "([[{N}]] to L)");
    let marked = [2, 3, 4].map(|word| flat_marked(Node::Type(&declared), Some(word)));
    assert_eq!(marked, ["({[[N]]} to L)", "({N} to [[L]])", "({N} to L)"]);
}

#[test]
fn words_are_described() {
    assert_eq!(describe(99), "no kind has the number 99");
    assert_eq!(describe(w(17, 7)), "ML number 7");
    assert_eq!(describe(w(43, 1)), "Scheme list?");
    assert_eq!(describe(1), "type N");
    assert_eq!([0, 7, 255].map(|owner| describe(w(2, owner))), ["type L", "type L7", "type L255"]);
    assert_eq!(describe(w(2, 256)), "type L with owner 256, outside 0 to 255");
    assert_eq!(describe(w(21, 1)), "ML add with operand 1, outside 0 to 0");
}
