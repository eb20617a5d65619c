//! The tables of the benchmarks: their figures and their width. Nothing here is timed.

use tools::bench::nodes::{self, Asked};
use tools::bench::prices::{self, Priced};
use tools::bench::saves::{self, Saved};
use tools::bench::table::{head, Measured};
use tools::bench::{ABOUT, ABOUT_OLD, PARTS};

/// Ten steps of terms of 100 words, with times that are easily divided.
fn measured(engine: Option<f64>, old: Option<f64>) -> Measured {
    let name = "a-name-of-23-letters...".to_string();
    Measured { name, steps: 10, words: 1_000, lent: 128, tree: 4e-6, engine, old, copy: 2e-7 }
}

/// A row without its name.
fn figures(row: &str) -> Vec<&str> {
    row.split_whitespace().skip(1).collect()
}

#[test]
fn a_row_has_times_for_each_step_and_word_and_ratios() {
    let row = measured(Some(2e-6), None).row();
    let expected = ["10", "100", "128", "400", "200", "20.0", "4.00", "2.00", "0.20", "2.00", "10.0"];
    assert_eq!(figures(&row), expected);
}

#[test]
fn an_old_archive_has_its_times_and_the_ratio_of_new_to_old() {
    let row = measured(Some(2e-6), Some(1e-6)).row();
    let steps = ["10", "100", "128", "400", "200", "100", "20.0"];
    assert_eq!(figures(&row), [&steps[..], &["4.00", "2.00", "1.00", "0.20", "2.00", "10.0", "2.00"]].concat());
}

#[test]
fn without_the_engine_its_figures_are_dashes() {
    let row = measured(None, None).row();
    assert_eq!(row.split_whitespace().filter(|figure| *figure == "-").count(), 4);
}

#[test]
fn a_name_stands_over_each_figure() {
    for old in [None, Some(1e-6)] {
        let row = measured(Some(2e-6), old).row();
        let [groups, names] = head(old.is_some());
        assert_eq!((groups.len(), names.len()), (row.len(), row.len()));
        assert_eq!(names.split_whitespace().count(), row.split_whitespace().count());
    }
}

#[test]
fn tables_fit_120_columns() {
    let small = measured(Some(9.0), Some(9.0));
    let large = Measured { steps: 20_000, words: 20_000 * 16_384, lent: 16_384, tree: 20.0, ..small };
    let texts = PARTS.map(|part| part.about.to_string()).into_iter().chain([ABOUT, ABOUT_OLD].map(str::to_string));
    for text in head(false).into_iter().chain(head(true)).chain([large.row()]).chain(texts) {
        assert!(text.lines().all(|line| line.len() <= 120), "{text}");
    }
}

#[test]
fn a_can_has_the_times_of_a_run_of_a_pricing_and_of_a_card_and_their_ratios() {
    let (run, price, card) = (Some(2e-6), Some(3e-6), Some(3.6e-6));
    let can = Priced { name: "can".into(), steps: 9, lent: 64, run, price, card };
    assert_eq!(figures(&can.row()), ["9", "64", "2000", "3000", "3600", "1.50", "1.20"]);
    assert_eq!(prices::head().len(), can.row().len());
    let unknown = Priced { run: None, price: None, card: None, ..can };
    assert_eq!(figures(&unknown.row()), ["9", "64", "-", "-", "-", "-", "-"]);
    let (name, most) = ("x".repeat(34), Some(9.0));
    let long = Priced { name, steps: 20_000, lent: 16_384, run: most, price: most, card: most };
    assert!(long.row().len() <= 120 && prices::head().len() <= 120);
}

#[test]
fn a_file_has_the_time_of_its_check_and_of_its_save_and_their_ratio() {
    let file = Saved { name: "file".into(), words: 96, check: Some(2e-6), save: Some(5e-6) };
    assert_eq!(figures(&file.row()), ["96", "2000", "5000", "2.50"]);
    assert_eq!(saves::head().len(), file.row().len());
    let unknown = Saved { check: None, save: None, ..file };
    assert_eq!(figures(&unknown.row()), ["96", "-", "-", "-"]);
    let long = Saved { name: "x".repeat(34), words: 4_096, check: Some(9.0), save: Some(9.0) };
    assert!(long.row().len() <= 120 && saves::head().len() <= 120);
}

#[test]
fn a_term_has_the_times_of_both_ways_and_their_ratio() {
    let asked = Asked { name: "term".into(), at: "here", places: 100, before: Some(2e-6), after: Some(5e-7) };
    assert_eq!(figures(&asked.row()), ["here", "100", "2.00", "0.50", "20.0", "5.00", "4.00"]);
    assert!(nodes::head().iter().all(|line| line.len() == asked.row().len()));
    let unknown = Asked { before: None, after: None, ..asked };
    assert_eq!(figures(&unknown.row()), ["here", "100", "-", "-", "-", "-", "-"]);
    let name = "x".repeat(24);
    let long = Asked { name, at: "one-word nodes", places: 16_384, before: Some(9.0), after: Some(1e-6) };
    assert!(long.row().len() <= 120);
}

#[test]
fn the_terms_asked_about_have_their_places() {
    // Without the engine: {{N}} and ms take 4 words, 60 rows of 66 words and a nil the rest. A row is a cons, 32 conses with
    // their numbers, and a nil; so 33 of its words have no parts.
    if tools::engine::linked_node().is_none() {
        let lines = nodes::tables();
        assert_eq!(lines.len(), 2 + 2 * 4);
        assert!(lines[2].starts_with("4,000-word curve         one-word nodes   1982 "), "{}", lines[2]);
        assert!(lines[3].starts_with("4,000-word curve         every place      3965 "), "{}", lines[3]);
    }
}
