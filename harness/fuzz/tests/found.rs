//! Each planted error is found and shown, and where none is planted nothing is found.

use model::on_large_stack;
use targets::engine::Engine;
use targets::planted::engine;
use targets::TARGETS;
use tools::random::Random;

/// Inputs of up to so many bytes.
const LONGEST: usize = 40;

/// What a target finds in the first of so many random inputs in which it finds something.
fn found(target: &str, engine: Engine, inputs: u64) -> Option<String> {
    let (_, target) = TARGETS.into_iter().find(|(name, _)| *name == target).expect("a target");
    on_large_stack(|| {
        (0..inputs).find_map(|index| {
            let mut random = Random::new(3, index);
            let bytes: Vec<u8> = (0..random.below(LONGEST)).map(|_| random.word() as u8).collect();
            target(&engine, &bytes).err()
        })
    })
}

/// The same with an error planted.
fn planted(target: &str, error: &str) -> String {
    found(target, engine(error).expect("an error"), 200_000).expect("a difference")
}

#[test]
fn nothing_is_found_where_nothing_is_planted() {
    for (target, _) in TARGETS {
        assert_eq!(found(target, engine("none").expect("none"), 2_000), None, "{target}");
        assert_eq!(found(target, Engine::linked().expect("the engine"), 2_000), None, "{target}");
    }
}

#[test]
fn planted_errors_of_the_c_functions_are_found() {
    let shown = planted("check", "check-owners");
    assert!(shown.contains("model:    refused 7") && shown.contains("engine:   accepted"), "{shown}");
    let shown = planted("run", "run-earlier");
    assert!(shown.contains("(if0 nil 0 0)"), "{shown}");
    let shown = planted("run", "run-spent");
    assert!(shown.contains("model:\n  value (end 0)") && shown.contains("engine:\n  spent (end 1)"), "{shown}");
    let shown = planted("run", "run-rubbish");
    assert!(shown.contains("error (end 2), code 3"), "{shown}");
    let shown = planted("price", "price-band");
    assert!(shown.contains("{0 0 100000}"), "{shown}");
    let shown = planted("card", "card-short");
    assert!(shown.contains("card buffer of 40 bytes") && shown.contains("refused 13"), "{shown}");
    let shown = planted("save", "save-order");
    assert!(shown.contains("refused 7 at place 4") && shown.contains("refused 13 at place 0"), "{shown}");
    let shown = planted("node", "node-owner");
    assert!(shown.contains("words:              65538"), "{shown}");
}

/// What the target finds in a text if that is read in another way.
fn misread(text: &str, read: targets::engine::Read) -> String {
    let (_, target) = TARGETS.into_iter().find(|(name, _)| *name == "text").expect("a target");
    let engine = Engine { read, ..engine("none").expect("none") };
    target(&engine, text.as_bytes()).expect_err("a fault")
}

#[test]
fn a_reader_of_text_that_contradicts_itself_is_found() {
    use model::text::{parse_recipe, Fault};
    let shown = misread("N v265536", |text| engine("text-digits").and_then(|it| Ok((it.read)(text))).expect("it"));
    assert!(shown.contains("words: [1] [67977488]\nread again: [1] [67977744]"), "{shown}");
    let shown = misread("N\n5 6", |text| parse_recipe(text).map_err(|fault| Fault { column: 5, ..fault }));
    assert!(shown.contains("the fault does not point into the text: line 2, column 5: "), "{shown}");
    let shown = misread("N 5", |text| parse_recipe(text).map(|it| model::text::Parsed { names: vec![], ..it }));
    assert!(shown.contains("2 words have 2 positions and 0 names"), "{shown}");
    let shown = misread("N 5", |text| parse_recipe(text).map(|it| model::text::Parsed { term: vec![99], ..it }));
    assert!(shown.contains("the words are not in order: Refusal { number: 3, place: 5 } [1] [99]"), "{shown}");
}

#[test]
fn an_error_that_is_not_known_is_told() {
    let told = engine("other").err().expect("a message");
    assert!(told.starts_with("an error to plant is one of none, check-owners, "), "{told}");
}
