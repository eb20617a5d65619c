//! Terms laid out on lines of a width.

use crate::common::*;
use model::node::Node;
use model::read::read_ml;
use model::text::{parse_recipe, pretty, Style};

/// A text laid out on lines of so many columns, with its own names and lets; it reads back to the same words.
fn laid_out(text: &str, width: usize) -> String {
    let parsed = parse_recipe(&format!("N {text}")).unwrap_or_else(|fault| panic!("{fault}\n{text}"));
    let term = read_ml(&parsed.term, 0, usize::MAX).expect("words in order");
    let style = Style { width, lets: true, names: &parsed.names[1..], ..Style::PLAIN };
    let shown = pretty(Node::Ml(&term), &style);
    assert_eq!(parse_recipe(&format!("N {shown}")).expect("a recipe").term, parsed.term, "{shown}");
    shown
}

#[test]
fn a_list_stands_on_one_line_where_it_fits_and_else_fills_its_lines() {
    let nine = "{12 3 0 7 1500 16777215 4 0 9}";
    assert_eq!(nine.len(), 30);
    assert_eq!(laid_out(nine, 30), nine);
    assert_eq!(laid_out(nine, 29), "{12 3 0 7 1500 16777215 4 0\n 9}");
    assert_eq!(laid_out(nine, 20), "{12 3 0 7 1500\n 16777215 4 0 9}");
    assert_eq!(laid_out("{1 (add 2 (add 3 4)) 5 6}", 20), "{1 (add 2 (add 3 4))\n 5 6}");
    assert_eq!(laid_out("{1 (add 1000 (add 3000 4000)) 5}", 20), "{1\n (add\n   1000\n   (add 3000 4000))\n 5}");
}

#[test]
fn names_and_types_stay_behind_what_opens_them() {
    let text = "(let (pulses N (add 12 30)) (let (lime N 5) (add pulses lime)))";
    assert_eq!(text.len(), 63);
    assert_eq!(laid_out(text, 63), text);
    assert_eq!(laid_out(text, 40), "(let (pulses N (add 12 30))\n  (let (lime N 5) (add pulses lime)))");
    assert_eq!(
        laid_out(text, 20),
        "(let (pulses N\n    (add 12 30))\n  (let (lime N 5)\n    (add\n      pulses\n      lime)))"
    );
    assert_eq!(
        laid_out("(ms N (fn (x) (add (add x x) (add x x))))", 24),
        "(ms N\n  (fn (x)\n    (add\n      (add x x)\n      (add x x))))"
    );
}

#[test]
fn what_closes_a_term_fits_its_line_too() {
    // 20 letters with the last bracket, 19 columns.
    assert_eq!(laid_out("(add 1 (add 222 33))", 20), "(add 1 (add 222 33))");
    assert_eq!(
        laid_out("(add 1111 (add 1111 (add 2222 3333)))", 21),
        "(add\n  1111\n  (add\n    1111\n    (add 2222 3333)))"
    );
    assert_eq!(
        laid_out("(add 1111 (add 1111 (add 2222 3333)))", 20),
        "(add\n  1111\n  (add\n    1111\n    (add\n      2222\n      3333)))"
    );
}

#[test]
fn deep_terms_are_indented_no_further_than_three_fifths() {
    for width in [20, 40, 100] {
        let deep = "(add 1 ".repeat(90) + "2" + &")".repeat(90);
        let shown = laid_out(&deep, width);
        let indents = shown.lines().map(|line| line.len() - line.trim_start().len());
        assert_eq!(indents.max(), Some(width * 3 / 5), "{shown}");
    }
}

#[test]
fn lines_keep_to_the_width() {
    let sum = balanced(21, w(17, 1000), 64);
    let term = read_ml(&sum, 0, usize::MAX).expect("words in order");
    let mut before = usize::MAX;
    for width in 30..120 {
        let shown = pretty(Node::Ml(&term), &Style { width, ..Style::PLAIN });
        assert!(shown.lines().all(|line| line.len() <= width), "{width}\n{shown}");
        assert!(shown.lines().count() <= before, "{width}\n{shown}");
        before = shown.lines().count();
    }
    // In 119 columns stand eight numbers, (add (add (add 1000 1000) ..) ..), on a line: the sum of 64 has 7 lines above these.
    assert_eq!(before, 15);
}
