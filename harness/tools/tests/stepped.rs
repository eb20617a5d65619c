//! `recipe step`: what it shows of a run, worked out by hand.

use crate::commands::{FIVE_STEPS, WRAPPED};
use crate::common::{model_as_engine, printed, typed_by};
use model::rules::Rule;
use tools::engine::{RecipeRun, Run};
use tools::make::well_typed_file;
use tools::random::Random;
use tools::recipe::Engine;
use tools::stand_in;

/// Adds ten numbers, two and two.
const SUM: &[u8] = b"N (add (add 1000001 1000002) (add (add 1000003 1000004) (add (add 1000005 1000006) \
                     (add (add 1000007 1000008) (add 1000009 1000010)))))";

#[test]
fn a_term_that_is_too_long_for_a_line_is_cut_to_what_changes() {
    let next = "  -> ML add, the sum (other)\n";
    let shown = [
        "step 0, 19 words\n  (add [[(add 1000001 1000002)]] ..)\n",
        "step 1, 17 words\n  (add 2000003 (add [[(add 1000003 1000004)]] ..))\n",
        "step 2, 15 words\n  .. (add 2000007 (add [[(add 1000005 1000006)]] ..)) ..\n",
        "step 3, 13 words\n  (add 2000003 (add 2000007 (add 2000011 (add [[(add 1000007 1000008)]] (add 1000009 1000010)))))\n",
    ];
    let due = shown.map(|text| text.to_string() + next).concat() + "stopped at step 3; --to goes further\n";
    assert_eq!(printed(&["step", "--to", "3"], SUM), (0, due, "".into()));
}

#[test]
fn names_are_those_of_the_writer_wherever_a_function_is_copied_to() {
    let text = b"N (app (fn (curve (N to N)) (app curve 1)) (fn (dose N) (add dose 2)))";
    let shown = printed(&["step", "--to", "2"], text).1;
    let terms: Vec<&str> = shown.lines().filter(|line| line.contains("[[")).collect();
    let due = [
        "  [[(app (fn (curve (N to N)) (app curve 1)) (fn (dose N) (add dose 2)))]]",
        "  [[(app (fn (dose N) (add dose 2)) 1)]]",
        "  [[(add 1 2)]]",
    ];
    assert_eq!(terms, due);
}

#[test]
fn whole_shows_all_of_a_term() {
    let due = "step 0, 19 words\n  (add\n    (add 1000001 1000002)\n    (add\n      (add 1000003 1000004)\n      \
               (add (add 1000005 1000006) (add [[(add 1000007 1000008)]] (add 1000009 1000010)))))\n";
    let shown = printed(&["step", "--whole", "--to", "0"], SUM).1;
    let unmarked = |text: &str| text.replace("[[", "").replace("]]", "");
    assert!(unmarked(&shown).starts_with(&unmarked(due)) && shown.contains("[[(add 1000001 1000002)]]"), "{shown}");
}

#[test]
fn a_node_that_is_long_itself_has_three_lines_at_most() {
    let mut seen = 0;
    for index in 0..150 {
        let file = well_typed_file(&mut Random::new(17, index));
        let shown = printed(&["step", "--to", "30"], &file).1;
        // What stands between the line with the words and the one with the rule.
        for before in shown.split("\n  -> ") {
            let term = before.rsplit_once("step ").map_or("", |(_, term)| term);
            if term.contains("[[") {
                let mut lines = term.lines().skip(1);
                assert!(lines.clone().count() <= 3 && lines.all(|line| line.chars().count() <= 100), "{shown}");
                seen += 1;
            }
        }
        assert_eq!(shown.matches("[[").count(), shown.matches("  -> ").count(), "{shown}");
    }
    assert!(seen > 500, "{seen}");
}

#[test]
fn the_last_steps_and_the_end() {
    assert_eq!(printed(&["step", "--last", "2"], WRAPPED), (0, FIVE_STEPS[3..].concat(), "".into()));
    assert_eq!(printed(&["step", "--last", "0"], WRAPPED).1, FIVE_STEPS[5..].concat());
    assert_eq!(printed(&["step", "--last", "99"], WRAPPED).1, FIVE_STEPS.concat());
    let limited = FIVE_STEPS[2..4].concat() + "stopped at step 3; --limit goes further\n";
    assert_eq!(printed(&["step", "--last", "2", "--limit", "3"], WRAPPED).1, limited);
    // An error's last two steps are the one that makes it and the one that raises it.
    let error = printed(&["step", "--last", "2"], b"N (add 1 (ms N (hd 1)))").1;
    let due = "step 0, 6 words\n  (add 1 (ms N [[(hd 1)]]))\n  -> Scheme hd of another value: wrong 3 (other)\n\
               step 1, 5 words\n  (add 1 (ms N [[(wrong 3)]]))\n  -> wrong 3 ends the run (other)\nerror 3 after 2 steps: no list\n";
    assert!(error.starts_with(due), "{error}");
    for option in ["--from", "--to"] {
        let message = "recipe: --last shows the end of the run; leave out --from and --to\n";
        assert_eq!(printed(&["step", "--last", "2", option, "3"], WRAPPED), (2, "".into(), message.into()));
    }
}

#[test]
fn only_the_steps_of_a_rule() {
    let of_sm = FIVE_STEPS[2].to_string() + FIVE_STEPS[6];
    assert_eq!(printed(&["step", "--rule", "SM N"], WRAPPED), (0, of_sm, "".into()));
    let calls = [FIVE_STEPS[1], FIVE_STEPS[3], FIVE_STEPS[6]].concat();
    assert_eq!(printed(&["step", "--rule", "application"], WRAPPED).1, calls);
    assert_eq!(
        printed(&["step", "--rule", "application", "--last", "1"], WRAPPED).1,
        FIVE_STEPS[3].to_string() + FIVE_STEPS[6]
    );
    let (status, shown, said) = printed(&["step", "--rule", "bake"], WRAPPED);
    assert_eq!((status, shown.as_str()), (2, ""));
    let names: Vec<&str> = said.lines().skip(1).map(str::trim).collect();
    assert_eq!(said.lines().next(), Some("recipe: no rule has bake in its name; the names are"));
    assert_eq!(names, Rule::ALL.map(|rule| rule.name()));
    assert_eq!(printed(&["step", "--rule"], WRAPPED).2, "recipe: --rule needs a part of a rule's name\n");
    // A thousand of them are shown.
    let counting = b"N (app (fix (fn (N to N) (fn N (app v1 (add v0 1))))) 0)";
    let shown = printed(&["step", "--rule", "ML fix"], counting).1;
    assert_eq!(shown.matches("  -> ML fix of a lambda (call)\n").count(), 1_000);
    // Each turn of the loop has a fix, an add and a call; the first fix is that of step 0.
    assert!(shown.ends_with("stopped at step 2996; --limit goes further\n"), "{shown}");
}

#[test]
fn a_run_that_comes_back_to_a_term_is_told() {
    // With the loop's function as fix makes it, step 1 applies it to 5; then come the call, the fix and the subtract.
    let loops = b"N (app (fix (fn (N to N) (fn N (app v1 (subtract v0 0))))) 5)";
    let again = "step 4 is the term of step 1 again: the run repeats 3 steps for ever\n";
    let shown = printed(&["step"], loops).1;
    assert!(shown.ends_with(again) && shown.contains("\nstep 3, ") && !shown.contains("\nstep 4, "), "{shown}");
    // Where later steps are asked for, they are shown.
    let later = printed(&["step", "--from", "6", "--to", "7"], loops).1;
    let starts: Vec<&str> = later.lines().filter(|line| line.starts_with("st")).collect();
    let due = [again.trim_end(), "step 6, 22 words", "step 7, 20 words", "stopped at step 7; --to goes further"];
    assert_eq!(starts, due);
    let last = printed(&["step", "--last", "1"], loops).1;
    assert!(last.starts_with("step 3, ") && last.ends_with(again), "{last}");
    let spinning = printed(&["step"], b"N (fix (fn N v0))").1;
    assert!(spinning.ends_with("step 1 is the term of step 0 again: the run repeats 1 step for ever\n"), "{spinning}");
}

#[test]
fn the_rules_are_counted_the_most_frequent_first() {
    // Ten turns: each has a fix, a call, an if0 and a subtract; the last if0 is of 0.
    let down = b"N (app (fix (fn (N to N) (fn N (if0 v0 0 (app v1 (subtract v0 1)))))) 10)";
    let rules = [
        "rules:",
        "  11 ML application of a lambda",
        "  11 ML fix of a lambda",
        "  10 ML subtract",
        "  10 ML if0 of another number: the third part",
        "   1 ML if0 of 0: the second part\n",
    ];
    let due = "value after 43 steps, 1 word\n22 calls, 0 conversions, 21 others\n".to_string() + &rules.join("\n");
    assert!(printed(&["step", "--last", "0"], down).1.ends_with(&due));
    // A run without steps has none.
    assert_eq!(
        printed(&["step"], b"N 7").1,
        "step 0, 1 word\n  7\nvalue after 0 steps, 1 word\n0 calls, 0 conversions, 0 others\n"
    );
}

#[test]
fn an_engine_that_does_otherwise_is_found_out() {
    fn another(file: &[u8], limit: u32, first: &mut [u32], second: &mut [u32]) -> RecipeRun {
        let result = stand_in::run(file, limit, first, second);
        first[0] += if first[0] == 17 + 256 * 3 { 256 } else { 0 };
        result
    }
    let engine = Engine { run: Some(another as Run), ..model_as_engine() };
    let (mut output, mut errors) = (Vec::new(), Vec::new());
    assert_eq!(typed_by(engine, &["step"], b"N (add 1 2)", &mut output, &mut errors), 2);
    assert_eq!(errors, b"recipe: the engine and the program differ at step 1\n");
}
