//! What the program `recipe` says of refusals 6 and 7, written by hand from documents 01 and 02: the node that the engine names, the
//! types that are due and found there, and the first word in which two types differ.

use crate::common::{model_as_engine, printed, typed_by};
use model::file::bytes_of;
use tools::engine::Check;
use tools::recipe::Engine;

/// What `recipe check` says of a text behind its first line, which is this refusal's.
fn said(text: &str, first: &str) -> String {
    let (status, told, errors) = printed(&["check"], text.as_bytes());
    assert_eq!((status, told.as_str()), (1, ""), "{text}");
    errors.strip_prefix(&format!("{first}\n")).unwrap_or_else(|| panic!("{text}: {errors}")).to_string()
}

const NO_TYPE: &str = "refused 6: the term has no type";
const OTHER_TYPE: &str = "refused 7: the term's type is not the declared one";

/// Of a recipe of one line: the column and the word of the node, the term with it, and what is said of it.
fn explained(text: &str, column: usize, word: usize, marked: &str, lines: &[&str]) {
    let due = format!(
        "  line 1, column {column} of the text, word {word} of the file\n  {marked}\n  {}\n",
        lines.join("\n  ")
    );
    assert_eq!(said(text, NO_TYPE), due, "{text}");
}

#[test]
fn what_is_no_function() {
    let why = |column: usize| format!("the first part of app, at line 1, column {column}, is no function");
    let lines = [&why(15)[..], "due:   a function, (t to u)", "found: N", "parts: N, N"];
    explained("N (add 3 (app 1 2))", 10, 7, "(add 3 [[(app <<1>> 2)]])", &lines);
    let lines = [&why(8)[..], "due:   a function, (t to u)", "found: {(N to L7)}", "parts: {(N to L7)}, N"];
    explained("N (app (nil (N to L7)) 2)", 3, 5, "[[(app <<(nil (N to L7))>> 2)]]", &lines);
    let lines = ["the part of fix, at line 1, column 9, is no function", "due:   a function, (t to t)", "found: L7"];
    explained("L7 (fix (ms L7 nil))", 4, 5, "[[(fix <<(ms L7 nil)>>)]]", &lines);
}

#[test]
fn an_argument_that_does_not_fit() {
    let why = |column: usize| {
        format!("the second part of app, at line 1, column {column}, is not of the type that the function takes")
    };
    let marked = "(add 1 [[(app (fn (x N) x) <<(nil N)>>)]])";
    explained(
        "N (add 1 (app (fn N v0) (nil N)))",
        10,
        7,
        marked,
        &[&why(25), "due:   N", "found: {N}", "parts: (N to N), {N}"],
    );
    // Both begin with a function from N.
    let text = "N (app (fn (N to {N}) 1) (fn N v0))";
    explained(
        text,
        3,
        5,
        "[[(app (fn (x (N to {N})) 1) <<(fn (x N) x)>>)]]",
        &[&why(26), "due:   (N to [[{N}]])", "found: (N to [[N]])", "parts: ((N to {N}) to N), (N to N)"],
    );
}

#[test]
fn sides_of_a_fix_that_are_unequal() {
    let why =
        |column: usize| format!("the function of fix, at line 1, column {column}, takes one type and gives another");
    explained("N (fix (fn N (nil N)))", 3, 5, "[[(fix <<(fn (x N) (nil N))>>)]]", &[&why(8), "takes: N", "gives: {N}"]);
    let marked = "[[(fix <<(fn (x {N}) (nil L))>>)]]";
    explained("{N} (fix (fn {N} (nil L)))", 5, 6, marked, &[&why(10), "takes: {[[N]]}", "gives: {[[L]]}"]);
}

#[test]
fn parts_that_are_no_numbers() {
    for (name, text, column) in [("add", "N (add (nil N) 1)", 8), ("subtract", "N (subtract (nil N) 1)", 13)] {
        let why = format!("the first part of {name}, at line 1, column {column}, is no number");
        explained(
            text,
            3,
            5,
            &format!("[[({name} <<(nil N)>> 1)]]"),
            &[&why, "due:   N", "found: {N}", "parts: {N}, N"],
        );
    }
    for (name, text, column) in [("add", "N (add 1 (fn N v0))", 10), ("subtract", "N (subtract 1 (fn N v0))", 15)] {
        let why = format!("the second part of {name}, at line 1, column {column}, is no number");
        explained(
            text,
            3,
            5,
            &format!("[[({name} 1 <<(fn (x N) x)>>)]]"),
            &[&why, "due:   N", "found: (N to N)", "parts: N, (N to N)"],
        );
    }
    let why = "the first part of if0, at line 1, column 8, is no number";
    explained(
        "N (if0 (nil L9) 1 2)",
        3,
        5,
        "[[(if0 <<(nil L9)>> 1 2)]]",
        &[why, "due:   N", "found: {L9}", "parts: {L9}, N, N"],
    );
}

#[test]
fn branches_of_two_types() {
    let why = "the second and the third part of if0 are of two types";
    let lines = [why, "second: {N}", "third:  N"];
    explained("N (add 1 (if0 0 (nil N) 2))", 10, 7, "(add 1 [[(if0 0 (nil N) 2)]])", &lines);
    let lines = [why, "second: (N to [[N]])", "third:  (N to [[L]])"];
    let marked = "[[(if0 0 (fn (x N) 1) (fn (x N) (ms L 1)))]]";
    explained("(N to N) (if0 0 (fn N 1) (fn N (ms L 1)))", 10, 7, marked, &lines);
}

#[test]
fn a_tail_that_is_no_list_of_the_head() {
    let why = |column: usize| {
        format!("the second part of cons, at line 1, column {column}, is no list of what the first part is")
    };
    explained("{N} (cons 1 2)", 5, 6, "[[(cons 1 <<2>>)]]", &[&why(13), "due:   {N}", "found: N", "parts: N, N"]);
    let marked = "(cons 1 [[(cons 2 <<(nil L)>>)]])";
    explained(
        "{N} (cons 1 (cons 2 (nil L)))",
        13,
        8,
        marked,
        &[&why(21), "due:   {[[N]]}", "found: {[[L]]}", "parts: N, {L}"],
    );
}

#[test]
fn parts_that_are_no_lists() {
    for (name, column) in [("hd", 14), ("tl", 14), ("null?", 17)] {
        let (text, marked) =
            (format!("N (add 1 ({name} (fn N v0)))"), format!("(add 1 [[({name} <<(fn (x N) x)>>)]])"));
        let why = format!("the part of {name}, at line 1, column {column}, is no list");
        explained(&text, 10, 7, &marked, &[&why, "due:   a list, {t}", "found: (N to N)"]);
    }
}

#[test]
fn an_sm_of_another_type() {
    let why = "the term of sm, at line 1, column 24, is not of the type that sm names";
    let marked = "(ms N (add 1 [[(sm {N} <<2>>)]]))";
    explained("N (ms N (add 1 (sm {N} 2)))", 16, 9, marked, &[why, "due:   {N}", "found: N"]);
}

#[test]
fn the_node_is_named_whose_parts_are_in_order() {
    let why = |column: usize| format!("the part of hd, at line 1, column {column}, is no list");
    let lines = [&why(20)[..], "due:   a list, {t}", "found: N"];
    explained("N (if0 (nil N) (hd 3) 1)", 16, 8, "(if0 (nil N) [[(hd <<3>>)]] 1)", &lines);
    let lines = [&why(12)[..], "due:   a list, {t}", "found: N"];
    explained("N (add (hd 3) (tl 4))", 8, 6, "(add [[(hd <<3>>)]] (tl 4))", &lines);
}

#[test]
fn a_file_that_is_no_text_has_words_alone() {
    let (status, _, errors) = printed(&["check"], &bytes_of(&[1, 4, 4, 5, 1, 21, 17, 26, 17]));
    let due =
        "  word 7 of the file\n  (add 0 [[(hd <<0>>)]])\n  the part of hd is no list\n  due:   a list, {t}\n  found: N\n";
    assert_eq!((status, errors), (1, format!("{NO_TYPE}\n{due}")));
}

#[test]
fn of_a_long_term_the_lines_around_the_node_are_shown() {
    // A sum of 99 sums, the 70th of which is of no number. Each sum begins a line of its own.
    let item = |at: usize| if at == 70 { "(add 70 (nil N))".to_string() } else { format!("(add {at} 1)") };
    let sum = (1..100).rev().fold("0".to_string(), |rest, at| format!("(add {} {rest})", item(at)));
    let told = said(&format!("N\n{sum}"), NO_TYPE);
    // The type, then 69 sums of a word and a sum of three words each, then the 70th's word.
    assert!(told.contains(", word 282 of the file\n") && told.starts_with("  line 2, column "), "{told}");
    let lines: Vec<&str> = told.lines().map(str::trim).collect();
    let at = lines.iter().position(|line| *line == "[[(add 70 <<(nil N)>>)]]").expect("the node");
    assert_eq!((lines[1], lines[2], lines[at - 2], lines[at + 2]), ("..", "(add 66 1)", "(add 69 1)", "(add 71 1)"));
    // Nine sums have 15 letters with what is before and behind them, 60 have 16; then come `(add (add 70 `.
    let why = "the second part of add, at line 2, column 1109, is no number";
    assert_eq!(lines[lines.len() - 5..], ["..", why, "due:   N", "found: {N}", "parts: N, {N}"]);
    assert!(lines.len() < 30, "{told}");
}

#[test]
fn a_declared_type_that_differs() {
    let at = |column: usize, word: usize| format!("  line 1, column {column} of the text, word {word} of the file\n");
    assert_eq!(said("L 3", OTHER_TYPE), at(1, 4) + "  declared: [[L]]\n  found:    [[N]]\n");
    let told = at(8, 6) + "  declared: (N to [[{N}]])\n  found:    (N to [[N]])\n";
    assert_eq!(said("(N to  {N}) (fn N v0)", OTHER_TYPE), told);
    let told = at(7, 6) + "  declared: (N to [[L]])\n  found:    (N to [[(L to {N})]])\n";
    assert_eq!(said("(N to L) (fn N (fn L (nil N)))", OTHER_TYPE), told);
    let told = at(13, 8) + "  declared: (N to (N to [[L]]))\n  found:    (N to (N to [[N]]))\n";
    assert_eq!(said("(N to (N to L)) (fn N (fn N 1))", OTHER_TYPE), told);
    let (_, _, errors) = printed(&["check"], &bytes_of(&[2, 4, 2, 6, 3, 2, 24, 1]));
    assert_eq!(errors, format!("{OTHER_TYPE}\n  word 5 of the file\n  declared: {{[[L]]}}\n  found:    {{[[N]]}}\n"));
}

/// (N to (N to .. (N to t) ..)), so many times.
fn arrows(count: usize, last: &str) -> String {
    "(N to ".repeat(count) + last + &")".repeat(count)
}

#[test]
fn long_types_are_cut_around_the_difference() {
    // 40 arrows, then N or L: 24 letters before the difference are four arrows of 6 letters; 68 letters are shown in all.
    let text = format!("{} (wrong 1 {})", arrows(40, "N"), arrows(40, "L"));
    let window = "(N to (N to (N to (N to ";
    let closed = ")".repeat(33);
    let due = format!(
        "  line 1, column 241 of the text, word 84 of the file\n  declared: .. {window}[[N]]{closed} ..\n  found:    .. {window}[[L]]{closed} ..\n"
    );
    assert_eq!(said(&text, OTHER_TYPE), due);
    assert!(due.lines().all(|line| line.len() <= 80), "{due}");
    // At the first word, a long type is cut behind it.
    let told = said(&format!("L (wrong 1 {})", arrows(40, "N")), OTHER_TYPE);
    let found = "(N to ".repeat(10) + "(N ..";
    assert_eq!(
        told,
        format!("  line 1, column 1 of the text, word 4 of the file\n  declared: [[L]]\n  found:    [[{found}\n")
    );
}

#[test]
fn lines_fit_a_terminal_and_names_are_not_cut() {
    for count in 0..60 {
        let owners = |last: &str| "(L255 to {".repeat(count) + last + &"})".repeat(count);
        let told = said(&format!("{} (wrong 1 {})", owners("L254"), owners("{N}")), OTHER_TYPE);
        for line in told.lines().skip(1) {
            assert!(line.len() <= 80, "{line}");
            let names = line.split(|letter: char| !letter.is_ascii_alphanumeric()).filter(|name| !name.is_empty());
            let mut names = names.filter(|name| !["declared", "found", "to", "L255", "L254", "N"].contains(name));
            assert_eq!(names.next(), None, "{line}");
            assert_eq!(line.matches("[[").count(), 1, "{line}");
        }
    }
}

#[test]
fn a_type_longer_than_any_file_is_shown_in_part() {
    // A type of 4,083 words: the function from it to itself has 8,167.
    let wide = tools::make::edges::balanced(4, 1, 2_042);
    let file = model::file::file(&[1], &[&[21, 18][..], &wide, &[16, 17]].concat());
    let (_, _, errors) = printed(&["check"], &file);
    let lines: Vec<&str> = errors.lines().collect();
    assert_eq!(lines[..2], [NO_TYPE, "  word 5 of the file"]);
    let [why, due, found, parts] = lines[lines.len() - 4..] else { panic!("{errors}") };
    assert_eq!((why, due), ("  the first part of add is no number", "  due:   N"));
    assert!(found.starts_with("  found: (((((((((((N to ") && found.ends_with(" ..") && found.len() <= 80, "{found}");
    assert!(
        parts.starts_with("  parts: (((((((((((N to ") && parts.ends_with(" .., N") && parts.len() <= 80,
        "{parts}"
    );
}

/// What is said where the engine's check gives this answer.
fn said_of(check: Check, text: &str) -> String {
    let (mut output, mut errors) = (Vec::new(), Vec::new());
    let engine = Engine { check: Some(check), ..model_as_engine() };
    assert_eq!(typed_by(engine, &["check"], text.as_bytes(), &mut output, &mut errors), 1);
    String::from_utf8(errors).expect("text")
}

#[test]
fn the_engines_own_place_is_taken() {
    // Of two nodes the engine names the second.
    let told = said_of(|_| 6 + 256 * 8, "N (add (hd 3) (tl 4))");
    assert!(
        told.contains(
            "word 8 of the file\n  (add (hd 3) [[(tl <<4>>)]])\n  the part of tl, at line 1, column 19, is no list\n"
        ),
        "{told}"
    );
}

#[test]
fn an_engine_that_names_another_place_is_said_to_be_wrong() {
    let wrong = |place: usize| {
        format!("  the engine is wrong: at word {place} is no node that has no type while all its parts are in order\n")
    };
    // No place; the header; the declared type; the add, whose part has no type; 3, which has one; a word past the file.
    let checks: [(Check, usize); 6] = [
        (|_| 6, 0),
        (|_| 6 + 256 * 3, 3),
        (|_| 6 + 256 * 4, 4),
        (|_| 6 + 256 * 5, 5),
        (|_| 6 + 256 * 7, 7),
        (|_| 6 + 256 * 4_000_000, 4_000_000),
    ];
    for (check, place) in checks {
        let told = said_of(check, "N (add (hd 3) 4)");
        assert!(told.starts_with(NO_TYPE) && told.ends_with(&wrong(place)), "{place}: {told}");
    }
    let told = said_of(|_| 6 + 256 * 5, "N (add 3 4)");
    assert!(told.contains("  [[(add 3 4)]]\n") && told.ends_with(&wrong(5)), "{told}");
    // Refusal 7 at another word, of equal types, and of a term without a type.
    let told = said_of(|_| 7, "(N to N) (fn N (nil N))");
    assert!(told.ends_with("  the engine is wrong: it names word 0, and word 6 is the first that differs\n"), "{told}");
    let told = said_of(|_| 7 + 256 * 4, "N 3");
    assert!(told.ends_with("  the engine is wrong: the two types are equal\n"), "{told}");
    let told = said_of(|_| 7 + 256 * 4, "N (hd 3)");
    assert!(told.ends_with("  the engine is wrong: the term has no type\n"), "{told}");
}

#[test]
fn runs_prices_and_cards_explain_the_same() {
    let prices = concat!(env!("CARGO_MANIFEST_DIR"), "/../../recipes/shop.prices");
    for text in ["{N} (cons 1 (hd 2))", "{N} (nil L7)"] {
        let checked = printed(&["check"], text.as_bytes()).2;
        assert!(checked.lines().count() > 3, "{checked}");
        let commands: [&[&str]; 4] =
            [&["run"], &["step"], &["price", "--prices", prices], &["card", "--prices", prices]];
        for command in commands {
            assert_eq!(printed(command, text.as_bytes()), (1, "".into(), checked.clone()), "{command:?}");
        }
    }
}
