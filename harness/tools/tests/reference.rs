//! docs/REFERENCE.md and include/recipe.h held against the model: the table of kinds, the names of the rules, the refusals, and the
//! listings of the examples.

use model::file::bytes_of;
use model::kinds::{Kind, Sort, KINDS};
use model::on_large_stack;
use model::rules::Rule;
use tools::compare::listed;

const PAGE: &str = include_str!("../../../docs/REFERENCE.md");

/// The rows of the table under a heading, each as its columns.
fn rows(heading: &str) -> Vec<Vec<&'static str>> {
    let (_, section) = PAGE.split_once(&format!("\n## {heading}\n")).expect("the section");
    let section = section.split("\n## ").next().expect("a section");
    let lines = section.lines().filter(|line| line.starts_with("| "));
    lines.skip(1).map(|line| line.trim_matches('|').split('|').map(str::trim).collect()).collect()
}

/// The first five columns of a kind's row.
fn row(kind: &Kind) -> Vec<String> {
    let name = |sort: &Sort| ["type", "ML", "Scheme"][*sort as usize];
    let operand = match (kind.least, kind.most) {
        (least, most) if least == most => least.to_string(),
        (least, most) => format!("{least} to {most}"),
    };
    let parts: Vec<&str> = kind.parts.iter().map(name).collect();
    let parts = if parts.is_empty() { "none".into() } else { parts.join(", ") };
    vec![kind.number.to_string(), name(&kind.sort).into(), kind.name.into(), operand, parts]
}

#[test]
fn the_table_of_kinds_is_the_models() {
    let due: Vec<Vec<String>> = KINDS.iter().map(row).collect();
    let seen: Vec<Vec<&str>> = rows("Words").into_iter().map(|row| row[..5].to_vec()).collect();
    assert_eq!(seen, due);
}

/// The header's name for a kind: RECIPE_ML_NUMBER.
fn header_name(kind: &Kind) -> String {
    let sort = ["TYPE", "ML", "SCHEME"][kind.sort as usize];
    format!("RECIPE_{sort}_{}", kind.name.trim_end_matches('?').to_uppercase())
}

#[test]
fn the_header_has_the_same_kinds_by_number() {
    let header = include_str!("../../../include/recipe.h");
    let (_, kinds) = header.split_once("enum {\n    RECIPE_TYPE_N").expect("the kinds");
    let kinds = format!("RECIPE_TYPE_N{}", kinds.split('}').next().expect("their end"));
    let seen: Vec<String> = kinds.split(',').map(|line| line.trim().to_string()).collect();
    let due: Vec<String> = KINDS.iter().map(|kind| format!("{} = {}", header_name(kind), kind.number)).collect();
    assert_eq!(seen, due);
}

#[test]
fn each_rule_has_its_name_in_the_table_of_steps_once() {
    let named: Vec<&str> = rows("Reduction").iter().flat_map(|row| row[2].split('`').skip(1).step_by(2)).collect();
    for rule in Rule::ALL {
        assert_eq!(named.iter().filter(|name| **name == rule.name()).count(), 1, "{}", rule.name());
    }
    assert_eq!(named.len(), Rule::ALL.len());
}

#[test]
fn each_refusal_stands_in_the_table_in_order() {
    let rows = rows("Refusals");
    let numbers: Vec<String> = (1..=14).map(|number| number.to_string()).collect();
    assert_eq!(rows.iter().map(|row| row[0]).collect::<Vec<_>>(), numbers);
    let without: Vec<&str> = rows.iter().filter(|row| row[2] == "0").map(|row| row[0]).collect();
    assert_eq!(without, ["1", "2", "8", "9", "10", "11", "12", "13", "14"]);
}

#[test]
fn the_examples_are_listed_as_the_page_says() {
    let rows = rows("The listing");
    assert!(rows.len() >= 12, "{}", rows.len());
    for row in rows {
        let words: Vec<u32> = row[1].split(' ').map(|word| word.parse().expect("a word")).collect();
        let lines: String = row[2].split(", ").map(|line| format!("{}\n", line.trim_matches('`'))).collect();
        assert_eq!(on_large_stack(|| listed(&bytes_of(&words))), lines, "{}", row[0]);
    }
}
