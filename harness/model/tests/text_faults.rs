//! What is said of a text that is not in order, with line and column.

use model::text::{early_fault, parse_recipe};

/// Each text with the place and the message of its fault.
fn faulty(cases: &[(&str, (usize, usize), &str)]) {
    for (text, place, message) in cases {
        let fault = parse_recipe(text).expect_err(text);
        assert_eq!(((fault.line, fault.column), fault.message.as_str()), (*place, *message), "{text}");
    }
}

#[test]
fn types() {
    faulty(&[
        ("", (1, 1), "the text ends where a type is due"),
        ("N", (1, 2), "the text ends where an ML term is due"),
        ("M 1", (1, 1), "M is no type: N, L, L1 to L255, {t} or (t to u)"),
        ("Lx 1", (1, 1), "Lx is no type: N, L, L1 to L255, {t} or (t to u)"),
        ("L-1 1", (1, 1), "L-1 is no type: N, L, L1 to L255, {t} or (t to u)"),
        ("l7 1", (1, 1), "l7 is no type: N, L, L1 to L255, {t} or (t to u)"),
        ("N\n(nil L256)", (2, 6), "L256 names no owner: an owner is 0 to 255"),
        ("(L255 to L99999999999) 1", (1, 10), "L99999999999 names no owner: an owner is 0 to 255"),
        ("(N N) 1", (1, 4), "to is due here, not N"),
        ("(N) 1", (1, 3), "to is due here, not )"),
        ("(N to) 1", (1, 6), "a type is due here, not )"),
        ("{} 1", (1, 2), "a type is due here, not }"),
        ("{L 7} 1", (1, 4), "} is due here for the { of line 1, column 1, not 7"),
    ]);
    let first = "a recipe starts with the type of its result, as in N (add 2 3)";
    faulty(&[
        ("5", (1, 1), first),
        ("; sum\n(add 1 2)", (2, 1), first),
        ("nil", (1, 1), first),
        ("(let (x N 1) x)", (1, 1), first),
    ]);
}

#[test]
fn brackets() {
    faulty(&[
        ("N (add 2", (1, 9), "the text ends, and the ( of line 1, column 3 is not closed"),
        ("N (add\n (add 2 3)", (2, 11), "the text ends, and the ( of line 1, column 3 is not closed"),
        ("N (", (1, 4), "the text ends, and the ( of line 1, column 3 is not closed"),
        ("(N to N", (1, 8), "the text ends, and the ( of line 1, column 1 is not closed"),
        ("N (fn (x N", (1, 11), "the text ends, and the ( of line 1, column 7 is not closed"),
        ("N (fn (x N) x", (1, 14), "the text ends, and the ( of line 1, column 3 is not closed"),
        ("N (let (x N 5) x ; )", (1, 17), "the text ends, and the ( of line 1, column 3 is not closed"),
        ("N (add 1 2}", (1, 11), ") is due here for the ( of line 1, column 3, not }"),
        ("N (add 1 }", (1, 10), ") is due here for the ( of line 1, column 3, not }"),
        ("{N) 1", (1, 3), "} is due here for the { of line 1, column 1, not )"),
        ("N (add 1 2))", (1, 12), "this ) closes nothing; it is one too many"),
        ("N) 1", (1, 2), "this ) closes nothing; it is one too many"),
        (") 1", (1, 1), "this ) closes nothing; it is one too many"),
        ("N 1 2", (1, 5), "the term is complete; nothing may follow it"),
        (
            "N [[(add 1 2)]]",
            (1, 3),
            "[ stands in no recipe; where a term is shown, [[ ]] and << >> only mark a part of it",
        ),
    ]);
}

#[test]
fn parts_that_are_missing() {
    faulty(&[
        ("N (app f)", (1, 8), "f is not bound here; no ML name is"),
        ("N (app 1)", (1, 9), "app takes two terms, the second is missing"),
        ("N (add)", (1, 7), "add takes two terms, the first is missing"),
        ("N (application 1)", (1, 17), "application takes two terms, the second is missing"),
        ("N (if0 1 2)", (1, 11), "if0 takes three terms, the third is missing"),
        ("N (hd)", (1, 6), "hd takes one term, and it is missing"),
        ("N (nil)", (1, 7), "nil takes a type, and it is missing"),
        ("N (nil 5)", (1, 8), "nil takes a type, and it is missing"),
        ("N (ms)", (1, 6), "ms takes a type and a Scheme term, the type is missing"),
        ("N (ms N)", (1, 8), "ms takes a type and a Scheme term, the Scheme term is missing"),
        ("N (ms (add 1 2))", (1, 7), "ms takes a type and a Scheme term, the type is missing"),
        ("N (ms N (sm 5))", (1, 13), "sm takes a type and an ML term, the type is missing"),
        ("N (ms N (sm N))", (1, 14), "sm takes a type and an ML term, the ML term is missing"),
        ("N (wrong)", (1, 9), "wrong takes a code and a type, the code is missing"),
        ("N (wrong 300)", (1, 13), "wrong takes a code and a type, the type is missing"),
        ("N (ms N (wrong))", (1, 15), "wrong takes a code, and it is missing"),
        ("N (ms N (num?))", (1, 14), "num? takes one term, and it is missing"),
        ("N (fn (x N))", (1, 12), "the term of fn is missing: (fn (x t) e)"),
        ("N (ms N (fn (x)))", (1, 16), "the term of fn is missing: (fn (x) e)"),
        ("N (let (x N) 1)", (1, 12), "the term of x is missing: (let (x t e) body)"),
        ("N (ms N (let (x) 1))", (1, 16), "the term of x is missing: (let (x e) body)"),
        ("N (let (x N 1))", (1, 15), "the term of let is missing: (let (x t e) body)"),
        ("N ()", (1, 4), "a word is due behind (, as in (add a b); a function is called by (app f a)"),
        ("N ((fn N v0) 1)", (1, 4), "a word is due behind (, as in (add a b); a function is called by (app f a)"),
    ]);
}

#[test]
fn parts_too_many() {
    faulty(&[
        ("N (add 1 2 3)", (1, 12), "add takes two terms; this is a third"),
        ("N (if0 1 2 3 4)", (1, 14), "if0 takes three terms; this is a fourth"),
        ("N (hd 1 (tl 2))", (1, 9), "hd takes one term; this is a second"),
        ("N (nil N N)", (1, 10), "nil takes a type; this is too much"),
        ("N (ms N 1 2)", (1, 11), "ms takes a type and a Scheme term; this is too much"),
        ("N (wrong 1 N 2)", (1, 14), "wrong takes a code and a type; this is too much"),
        ("N (fn (x N) x x)", (1, 15), "fn takes an argument and a term; this is too much"),
        ("N (let (x N 1) x x)", (1, 18), "let takes its name in brackets and a term; this is too much"),
        ("N (let (x N 1 2) x)", (1, 15), ") is due here for the ( of line 1, column 8, not 2"),
        ("N (fn (x N N) x)", (1, 12), ") is due here for the ( of line 1, column 7, not N"),
        ("N (ms N (wrong 300 N))", (1, 20), "wrong takes a code alone in Scheme: (wrong 300)"),
        ("N (ms N (wrong N 300))", (1, 16), "wrong takes a code alone: (wrong 300)"),
        ("N (wrong N 300)", (1, 10), "wrong takes its code and then its type: (wrong 300 N)"),
        ("N (wrong {N} 300)", (1, 10), "wrong takes its code and then its type: (wrong 300 N)"),
    ]);
}

#[test]
fn arguments() {
    let due = "an argument has its type in ML: (fn (x t) e)";
    let none = "an argument has no type in Scheme: (fn (x) e)";
    faulty(&[
        ("N (fn (add v0 1))", (1, 7), due),
        ("N (fn (x) x)", (1, 9), due),
        ("N (fn (x 5) x)", (1, 10), due),
        ("N (fn 5)", (1, 7), due),
        ("N (fn)", (1, 6), due),
        ("N (fn x x)", (1, 7), "the argument of fn stands in brackets: (fn (x t) e)"),
        ("N (ms N (fn x x))", (1, 13), "the argument of fn stands in brackets: (fn (x) e)"),
        ("N (ms N (fn (x N) x))", (1, 16), none),
        ("N (ms N (fn (x {N}) x))", (1, 16), none),
        ("N (ms N (fn N v0))", (1, 13), none),
        (
            "N (fn (v1 N) v1)",
            (1, 8),
            "v1 is no name; a name is a letter, then letters, digits, _ - ? ', and not v and digits",
        ),
        ("N (let (x 5) x)", (1, 11), "an argument has its type in ML: (let (x t e) body)"),
        ("N (let x 5 x)", (1, 8), "let has its name in brackets: (let (x t e) body)"),
        ("N (ms N (let x 5 x))", (1, 14), "let has its name in brackets: (let (x e) body)"),
        ("N (ms N (let (x N 5) x))", (1, 17), "an argument has no type in Scheme: (let (x e) body)"),
        ("N (let (add N 5) x)", (1, 9), "add has a meaning of its own; choose another name"),
        ("N (let (L7 N 5) x)", (1, 9), "L7 is a type; choose another name"),
        ("N (let (N 5) x)", (1, 9), "N is a type; choose another name"),
        ("N (let () x)", (1, 9), "a name is due here, not )"),
        (
            "N (let (2x N 5) x)",
            (1, 9),
            "2x is no name; a name is a letter, then letters, digits, _ - ? ', and not v and digits",
        ),
    ]);
}

#[test]
fn names() {
    faulty(&[
        ("N x", (1, 3), "x is not bound here; no ML name is"),
        ("N (fn (a N) (fn (b N) x))", (1, 23), "x is not bound here; bound are: a, b"),
        ("N (add (fn (pulses N) 1) pulses)", (1, 26), "pulses is not bound here; no ML name is"),
        ("N (fn (pulses N) pulse)", (1, 18), "pulse is not bound here; did you mean pulses?"),
        ("N (fn (a N) ad)", (1, 13), "ad is not bound here; did you mean add?"),
        ("N (let (x N x) x)", (1, 13), "x is not bound here; no ML name is"),
        ("N (app (fn (x N) x) x)", (1, 21), "x is not bound here; no ML name is"),
        // Names of the other language are not listed, and one that is hidden is listed once.
        ("N (fn (a N) (ms N (fn (s) (fn (a) q))))", (1, 35), "q is not bound here; bound are: s, a"),
        ("N (fn (a N) (ms N q))", (1, 19), "q is not bound here; no Scheme name is"),
        (
            "N (fn (a N) (fn (b N) (fn (c N) (fn (d N) (fn (e N) (fn (f N) (fn (g N) (fn (h N) (fn (i N) q)))))))))",
            (1, 93),
            "q is not bound here; bound are: a, b, c, d, e, f, g, h, ..",
        ),
        ("N (fn (f (N to N)) (f 5))", (1, 21), "f is an argument; a function is called by (app f a)"),
        ("N (ms N (fn (f) (fn (f 5))))", (1, 22), "f is an argument; a function is called by (app f a)"),
    ]);
}

#[test]
fn names_of_the_other_language() {
    faulty(&[
        (
            "N\n(app (fn (x N) (ms N (add x 1))) 2)",
            (2, 27),
            "x is ML's, from line 2, column 11; here a Scheme term is due: (sm N x) brings it over",
        ),
        (
            "N (fn (f ({L7} to N)) (ms N (app f 1)))",
            (1, 34),
            "f is ML's, from line 1, column 8; here a Scheme term is due: (sm ({L7} to N) f) brings it over",
        ),
        (
            "N (ms N (fn (x) (sm N (add x 1))))",
            (1, 28),
            "x is Scheme's, from line 1, column 14; here an ML term is due: (ms t x) brings it over at a type t",
        ),
        // The outer x is ML's, and hidden.
        (
            "N (fn (x N) (ms N (let (x 5) (sm N x))))",
            (1, 36),
            "x is Scheme's, from line 1, column 25; here an ML term is due: (ms t x) brings it over at a type t",
        ),
    ]);
}

#[test]
fn words() {
    faulty(&[
        ("N\n(sum 1 2)", (2, 2), "no ML term is called sum"),
        ("N (ad 1 2)", (1, 4), "no ML term is called ad; did you mean add?"),
        ("N (+ 1 2)", (1, 4), "no ML term is called +; did you mean add?"),
        ("N (- 1 2)", (1, 4), "no ML term is called -; did you mean subtract?"),
        ("N (ms N (car {1}))", (1, 10), "no Scheme term is called car; did you mean hd?"),
        ("N (subtrakt 1 2)", (1, 4), "no ML term is called subtrakt; did you mean subtract?"),
        ("N (ms N (lst? 1))", (1, 10), "no Scheme term is called lst?; did you mean list??"),
        ("N (ms N (test 1))", (1, 10), "no Scheme term is called test"),
        ("N (num? 1)", (1, 4), "num? is Scheme's; here an ML term is due"),
        ("N (sm N 1)", (1, 4), "sm is Scheme's; here an ML term is due"),
        ("N (ms N (fix 1))", (1, 10), "fix is ML's; here a Scheme term is due"),
        ("N (ms N (nil N))", (1, 10), "nil is written alone in Scheme, without brackets and without a type"),
        ("N (N to N)", (1, 4), "N is a type; here an ML term is due"),
        ("N nil", (1, 3), "in ML the empty list has its type, as in (nil N)"),
        ("N add", (1, 3), "add stands in brackets with what it takes: (add a b)"),
        ("N (add hd 1)", (1, 8), "hd stands in brackets with what it takes: (hd e)"),
        ("N fn", (1, 3), "fn stands in brackets with what it takes: (fn (x t) e)"),
        ("N num?", (1, 3), "num? is Scheme's; here an ML term is due"),
        ("N (ms N fix)", (1, 9), "fix is ML's; here a Scheme term is due"),
        ("N to", (1, 3), "to stands in types alone; here an ML term is due"),
        ("N L7", (1, 3), "L7 is a type; here an ML term is due"),
        ("N @", (1, 3), "@ is no ML term"),
        ("N (ms N \u{7})", (1, 9), "\\u{7} is no Scheme term"),
    ]);
}

#[test]
fn numbers() {
    faulty(&[
        ("N 16777216", (1, 3), "16777216 is too large; a number is 0 to 16777215"),
        ("N 99999999999", (1, 3), "99999999999 is too large; a number is 0 to 16777215"),
        ("N -1", (1, 3), "-1 has a sign; a number is 0 to 16777215"),
        ("N +1", (1, 3), "+1 has a sign; a number is 0 to 16777215"),
        ("N 1,000", (1, 3), "1,000 has a comma; write 1000 or put _ for it"),
        ("{N} {1, 2}", (1, 6), "1, ends with a comma; between items stand blanks alone"),
        ("N 3.5", (1, 3), "3.5 is no whole number; a number is 0 to 16777215"),
        ("N .5", (1, 3), ".5 is no whole number; a number is 0 to 16777215"),
        ("N 2x", (1, 3), "2x is no number; a number is 0 to 16777215"),
        ("N (wrong 0 N)", (1, 10), "0 is no code; a code is 1 to 65535"),
        ("N (wrong 65536 N)", (1, 10), "65536 is too large; a code is 1 to 65535"),
        ("N (wrong x N)", (1, 10), "x is no code; a code is 1 to 65535"),
        ("N v16777216", (1, 3), "v16777216 is too large; a variable's number is 0 to 16777215"),
        ("N (fn (x N) v16777215)", (1, 13), "v16777215 counts past 16777215 functions"),
    ]);
}

#[test]
fn long_words_are_cut_in_messages() {
    let digits = "1".repeat(50);
    let forty = &digits[..40];
    let fault = parse_recipe(&format!("N {digits}")).expect_err("too large");
    assert_eq!(fault.message, format!("{forty}.. is too large; a number is 0 to 16777215"));
}

const TOO_LARGE: &str = "the recipe has more than 4,092 words; a file has at most 16,384 bytes";

#[test]
fn a_recipe_has_no_more_words_than_a_file() {
    // The type, 2,045 sums, 2,046 numbers.
    let sums = |count: usize| format!("N {}1{}", "(add 1 ".repeat(count), ")".repeat(count));
    model::on_large_stack(|| {
        let most = parse_recipe(&sums(2_045)).expect("as many as a file has");
        assert_eq!(most.declared.len() + most.term.len(), 4_092);
        let fault = parse_recipe(&sums(2_046)).expect_err("two too many");
        // The sum that is too much stands behind 2,045 others of 7 letters.
        assert_eq!((fault.line, fault.column, fault.message.as_str()), (1, 3 + 2_045 * 7, TOO_LARGE));
        // A list of 1,363 has 1,363 conses and numbers and (nil N); one of 2,045 and the type has 4,093 words.
        let list = |count: usize| format!("{{N}} {{{}}}", "7 ".repeat(count));
        assert_eq!(parse_recipe(&list(2_044)).expect("as many as a file has").term.len(), 4_090);
        assert_eq!(parse_recipe(&list(2_045)).expect_err("two too many").message, TOO_LARGE);
    });
}

/// Bytes of a long text.
const MEGABYTES: usize = 4 << 20;

/// Each text is told so, and comes back.
fn told_of_long(cases: impl IntoIterator<Item = (String, String)> + Send) {
    model::on_large_stack(|| {
        for (text, message) in cases {
            assert_eq!(parse_recipe(&text).expect_err("a fault").to_string(), message);
        }
    });
}

#[test]
fn long_texts_of_any_shape_come_back() {
    // A file has 4,092 words; each of these adds as many as its parts to the type and the term that are due.
    let too_large = |column: usize| format!("line 1, column {column}: {TOO_LARGE}");
    let start = |start: &str, piece: &str| start.to_string() + &piece.repeat(MEGABYTES / piece.len());
    let digits = format!("line 1, column 3: {}.. is too large; a number is 0 to 16777215", "1".repeat(40));
    let name = format!("line 1, column 3: {}.. is not bound here; no ML name is", "x".repeat(40));
    told_of_long([
        (start("", ";"), "line 1, column 1: the text ends where a type is due".to_string()),
        (start("", " "), "line 1, column 1: the text ends where a type is due".into()),
        (start("N ", "1"), digits),
        (start("N ", "(add 1 "), too_large(3 + 2_045 * 7)),
        (start("N ", "(hd "), too_large(3 + 4_091 * 4 - 4)),
        (start("N (ms N ", "(let (x "), too_large(9 + 8 * 1_362 + 5)),
        (start("N ", "x"), name),
    ]);
}

#[test]
fn a_million_brackets_come_back() {
    let (word, stands) = (
        "a word is due behind (, as in (add a b); a function is called by (app f a)",
        "[ stands in no recipe; where a term is shown, [[ ]] and << >> only mark a part of it",
    );
    let cases = [
        ("N ", "(", 4, word),
        ("", "(", 2_046, TOO_LARGE),
        ("N ", "{", 3 + 2_045, TOO_LARGE),
        ("", "{", 4_091, TOO_LARGE),
        ("", "[", 1, "[ is no type: N, L, L1 to L255, {t} or (t to u)"),
        ("N ", "[", 3, stands),
    ];
    told_of_long(cases.map(|(start, bracket, column, message)| {
        (start.to_string() + &bracket.repeat(1_000_000), format!("line 1, column {column}: {message}"))
    }));
}

#[test]
fn of_a_text_that_is_cut_only_an_early_fault_is_told() {
    assert_eq!(early_fault("N (add 1"), None);
    assert_eq!(early_fault("N (add 1 2)"), None);
    assert_eq!(early_fault("N ad"), None);
    // Behind the last token stand blanks and a comment.
    assert_eq!(early_fault("N \n; more"), None);
    // The name might go on as adds, with its type behind it.
    assert_eq!(early_fault("N (app (fn (add"), None);
    let told = |text| early_fault(text).map(|fault| fault.message);
    assert_eq!(told("N (ad 1"), Some("no ML term is called ad; did you mean add?".into()));
    assert_eq!(told("N 1)"), Some("this ) closes nothing; it is one too many".into()));
    assert_eq!(told("N (app (fn (add 1"), Some("an argument has its type in ML: (fn (x t) e)".into()));
}
