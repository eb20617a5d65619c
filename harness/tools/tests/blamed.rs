//! Where an error was made, by line and column worked out by hand.

use crate::common::{model_as_engine, printed, typed_by};
use model::file::bytes_of;
use model::rules::Rule;
use tools::engine::{RecipeRun, Run};
use tools::recipe::Engine;
use tools::stand_in;

/// A value that a rule looked at: what it is called, its text, and its column and word.
type Value = (&'static str, &'static str, usize, usize);

/// A smallest recipe for a rule that makes a wrong, all on line 1: the rule, the text, what the node is called, its column, its
/// word and its text, and the values.
type Case = (Rule, &'static str, &'static str, usize, usize, &'static str, &'static [Value]);

const IT: &str = "the value";
const CASES: [Case; 15] = [
    (
        Rule::MlAddOver,
        "N (add 16777215 1)",
        "add",
        3,
        5,
        "(add 16777215 1)",
        &[("the first number", "16777215", 8, 6), ("the second number", "1", 17, 7)],
    ),
    (Rule::MlHdNil, "N (hd (nil N))", "hd", 3, 5, "(hd (nil N))", &[(IT, "(nil N)", 7, 6)]),
    (Rule::MlTlNil, "{N} (tl (nil N))", "tl", 5, 6, "(tl (nil N))", &[(IT, "(nil N)", 9, 7)]),
    (Rule::MsNumberOther, "N (ms N nil)", "boundary", 3, 5, "(ms N nil)", &[(IT, "nil", 9, 7)]),
    (Rule::MsListOther, "{N} (ms {N} 3)", "boundary", 5, 6, "(ms {N} 3)", &[(IT, "3", 13, 9)]),
    (Rule::MsFunctionOther, "(N to N) (ms (N to N) 3)", "boundary", 10, 7, "(ms (N to N) 3)", &[(IT, "3", 23, 11)]),
    (Rule::SchemeApplicationOther, "N (ms N (app 3 4))", "app", 9, 7, "(app 3 4)", &[(IT, "3", 14, 8)]),
    (
        Rule::SchemeAddOver,
        "N (ms N (add 16777215 1))",
        "add",
        9,
        7,
        "(add 16777215 1)",
        &[("the first number", "16777215", 14, 8), ("the second number", "1", 23, 9)],
    ),
    (Rule::SchemeAddOther, "N (ms N (add 1 nil))", "add", 9, 7, "(add 1 nil)", &[(IT, "nil", 16, 9)]),
    (
        Rule::SchemeSubtractOther,
        "N (ms N (subtract nil 1))",
        "subtract",
        9,
        7,
        "(subtract nil 1)",
        &[(IT, "nil", 19, 8)],
    ),
    (Rule::SchemeIf0NoNumber, "N (ms N (if0 nil 1 2))", "if0", 9, 7, "(if0 nil 1 2)", &[(IT, "nil", 14, 8)]),
    (Rule::SchemeHdNil, "N (ms N (hd nil))", "hd", 9, 7, "(hd nil)", &[(IT, "nil", 13, 8)]),
    (Rule::SchemeHdOther, "N (ms N (hd 3))", "hd", 9, 7, "(hd 3)", &[(IT, "3", 13, 8)]),
    (Rule::SchemeTlNil, "N (ms N (tl nil))", "tl", 9, 7, "(tl nil)", &[(IT, "nil", 13, 8)]),
    (Rule::SchemeTlOther, "N (ms N (tl 3))", "tl", 9, 7, "(tl 3)", &[(IT, "3", 13, 8)]),
];

#[test]
fn each_rule_that_makes_a_wrong_has_its_blame() {
    let makers = Rule::ALL.into_iter().filter(|rule| rule.code().is_some());
    assert_eq!(makers.collect::<Vec<_>>(), CASES.map(|case| case.0));
    for (rule, text, name, column, word, node, values) in CASES {
        let stands = |column, word| format!("line 1, column {column} of the text, word {word} of the file");
        let mut due = format!("made by a rule at step 0: {}\n", rule.name());
        due += &format!("from the {name} at {}: {node}\n", stands(column, word));
        for (what, value, column, word) in values {
            due += &format!("{what}: {value}, from {}\n", stands(*column, *word));
        }
        let (status, told, said) = printed(&["run"], text.as_bytes());
        assert_eq!((status, said.as_str()), (3, ""));
        assert_eq!(told.lines().skip(2).map(|line| format!("{line}\n")).collect::<String>(), due, "{text}");
        assert!(!told.contains("own code"), "{told}");
        // `recipe step` tells the same.
        let steps = printed(&["step"], text.as_bytes()).1;
        assert!(steps.contains(&(told + "rules:\n")), "{steps}");
    }
}

#[test]
fn an_error_three_wrappings_deep_leads_back_to_the_first_boundary() {
    // The function goes through the ms of line 7, the sm of line 6 and the ms of line 5, and then is called.
    let text = "N\n(app\n  (app\n    (fn (N to N)\n      (ms (N to N)\n        (sm (N to N) v0)))\n    (ms (N to N)\n      (fn nil)))\n  7)\n";
    let due = "error 1 after 13 steps: no number for add, subtract, if0 or ms N\n5 calls, 7 conversions, 1 other\n\
               made by a rule at step 11: ms N of another value: wrong 1\n\
               from the boundary at line 7, column 5 of the text, word 20 of the file: (ms (N to N) (fn (x) nil))\n\
               the value: nil, from line 8, column 11 of the text, word 25 of the file\n";
    assert_eq!(printed(&["run"], text.as_bytes()), (3, due.into(), "".into()));
}

/// What is said behind the two lines of the end.
fn blame(text: &str) -> String {
    let told = printed(&["run"], text.as_bytes()).1;
    told.lines().skip(2).map(|line| format!("{line}\n")).collect()
}

#[test]
fn a_wrapper_has_the_blame_for_what_it_is_handed() {
    // The sm is at fault in its ms N, which its wrapper made; a long node is cut to the line.
    let due = "made by a rule at step 2: ms N of another value: wrong 1\n\
               from the boundary at line 1, column 14 of the text, word 8 of the file: (sm (N to N) (fn (x N) ..))\n\
               the value: nil, from line 1, column 46 of the text, word 17 of the file\n";
    assert_eq!(blame("N (ms N (app (sm (N to N) (fn N (add v0 1))) nil))"), due);
}

#[test]
fn a_value_that_a_node_made_names_it() {
    let due = "made by a rule at step 1: Scheme application of another value: wrong 2\n\
               from the app at line 1, column 9 of the text, word 7 of the file: (app (add 1 2) 4)\n\
               the value: 3, made by the add at line 1, column 14 of the text, word 8 of the file\n";
    assert_eq!(blame("N (ms N (app (add 1 2) 4))"), due);
    // The wrapper of an sm is no number; a number that has crossed comes from where it was written.
    let due = "made by a rule at step 1: Scheme add of no number: wrong 1\n\
               from the add at line 1, column 9 of the text, word 7 of the file: (add 1 (sm (N to N) (fn (x N) x)))\n\
               the value: (fn (x) (sm N ..)), made by the boundary at line 1, column 16 of the text, word 9 of the file\n";
    assert_eq!(blame("N (ms N (add 1 (sm (N to N) (fn N v0))))"), due);
    let due = "made by a rule at step 1: Scheme hd of another value: wrong 3\n\
               from the hd at line 1, column 9 of the text, word 7 of the file: (hd (sm N 8))\n\
               the value: 8, from line 1, column 19 of the text, word 10 of the file\n";
    assert_eq!(blame("N (ms N (hd (sm N 8)))"), due);
}

#[test]
fn names_are_those_of_the_writer() {
    // The script is handed to a formula that calls it.
    let text = "N\n(app\n  (fn (curve (N to N)) (app curve 3))\n  (ms (N to N)\n    (fn (dose) (hd dose))))\n";
    let due = "made by a rule at step 5: Scheme hd of another value: wrong 3\n\
               from the hd at line 5, column 16 of the text, word 18 of the file: (hd dose)\n\
               the value: 3, from line 3, column 35 of the text, word 12 of the file\n";
    assert_eq!(blame(text), due);
}

#[test]
fn a_wrong_of_the_recipe_is_told_by_its_place() {
    let own = |code: u32, line: usize, column: usize, word: usize| {
        format!("made by the recipe's own wrong {code} at line {line}, column {column} of the text, word {word} of the file\n")
    };
    let told = |text: &str| printed(&["run"], text.as_bytes()).1;
    assert_eq!(
        told("N\n(add 1\n  (wrong 300 N))"),
        "error 300 after 1 step: the recipe's own code\n0 calls, 0 conversions, 1 other\n".to_string()
            + &own(300, 3, 3, 7)
    );
    // A code that the rules have too.
    assert_eq!(
        told("N (wrong 1 N)"),
        "error 1 after 1 step: the recipe's own code\n0 calls, 0 conversions, 1 other\n".to_string() + &own(1, 1, 3, 5)
    );
    // In a Scheme function that is wrapped.
    assert_eq!(
        told("N (app (ms (N to N) (fn (wrong 7))) 3)"),
        "error 7 after 5 steps: the recipe's own code\n2 calls, 2 conversions, 1 other\n".to_string()
            + &own(7, 1, 25, 11)
    );
    // In a function that an application copies twice; its second call takes the branch with the wrong.
    let twice =
        "N\n(app\n  (fn (N to N) (add (app v0 1) (app v0 2)))\n  (fn N (if0 (subtract v0 1) 5\n    (wrong 9 N))))";
    assert_eq!(
        told(twice),
        "error 9 after 8 steps: the recipe's own code\n3 calls, 0 conversions, 5 others\n".to_string()
            + &own(9, 5, 5, 24)
    );
}

#[test]
fn of_a_file_without_text_the_words_are_told() {
    let told = printed(&["run"], &bytes_of(&[1, 4, 3, 5, 1, 30, 1, 39])).1;
    let due = "from the boundary at word 5 of the file: (ms N nil)\nthe value: nil, from word 7 of the file\n";
    assert!(told.ends_with(due), "{told}");
    let told = printed(&["run"], &bytes_of(&[1, 4, 2, 5, 1, 29 + 256 * 9, 1])).1;
    assert!(told.ends_with("made by the recipe's own wrong 9 at word 5 of the file\n"), "{told}");
}

/// What a run with a planted error prints of `(ms N nil)`.
fn planted(run: Run) -> String {
    let (mut output, mut errors) = (Vec::new(), Vec::new());
    let engine = Engine { run: Some(run), ..model_as_engine() };
    assert_eq!(typed_by(engine, &["run"], b"N (ms N nil)", &mut output, &mut errors), 3);
    String::from_utf8(output).expect("text")
}

#[test]
fn where_the_programs_own_steps_end_otherwise_that_is_said() {
    fn another_code(file: &[u8], limit: u32, first: &mut [u32], second: &mut [u32]) -> RecipeRun {
        RecipeRun { code: 2, ..stand_in::run(file, limit, first, second) }
    }
    fn a_step_more(file: &[u8], limit: u32, first: &mut [u32], second: &mut [u32]) -> RecipeRun {
        RecipeRun { steps: 3, ..stand_in::run(file, limit, first, second) }
    }
    fn a_step_less(file: &[u8], limit: u32, first: &mut [u32], second: &mut [u32]) -> RecipeRun {
        RecipeRun { steps: 1, ..stand_in::run(file, limit, first, second) }
    }
    let due =
        "where it was made is not told: the program's own steps are not the engine's, which is a fault of one of them\n";
    for run in [another_code as Run, a_step_more, a_step_less] {
        let told = planted(run);
        assert!(told.contains(", or the recipe's own code\n") && told.ends_with(due), "{told}");
    }
}

#[test]
fn a_late_error_is_not_looked_for() {
    fn late(file: &[u8], limit: u32, first: &mut [u32], second: &mut [u32]) -> RecipeRun {
        RecipeRun { steps: 2_000_001, ..stand_in::run(file, limit, first, second) }
    }
    let due = "error 1 after 2000001 steps: no number for add, subtract, if0 or ms N, or the recipe's own code\n\
               0 calls, 1 conversion, 1 other\n\
               where it was made is not told: only the first 2000000 steps are looked through for it\n";
    assert_eq!(planted(late), due);
}
