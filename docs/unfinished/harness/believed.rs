//! README's order of reading held against the contracts of the demands, both ways: what these cite, whatever way down, has
//! to be believed, and nothing else stands in the list. And its table of promises has a row for each function of their
//! rooms.

use crate::common::specs::{files_of_rooms, Definition, Specs};
use std::collections::{BTreeMap, BTreeSet};

/// Some names of each of some modules.
type Names = BTreeMap<String, BTreeSet<String>>;

/// The section of README that says what is promised and what must be believed.
fn section() -> &'static str {
    let readme = include_str!("../../../README.md");
    let (_, section) = readme.split_once("\n## What is promised, and what must be believed\n").expect("the section");
    section.split("\n## ").next().expect("a section")
}

/// The sources of the rooms of the demands, each with its room.
fn demands() -> Vec<(String, String)> {
    let sources = files_of_rooms("src").into_iter().filter(|(room, _, _)| room.starts_with("demands"));
    sources.map(|(room, _, text)| (room, text)).collect()
}

/// `room/Module`, and neither a file nor a folder.
fn is_module(text: &str) -> bool {
    let named = |name: &str| name.starts_with(char::is_uppercase) && !name.contains(['/', '.']);
    text.split_once('/').is_some_and(|(_, name)| named(name))
}

/// A line of a numbered list.
fn is_item(line: &str) -> bool {
    line.split_once(". ").is_some_and(|(number, _)| number.parse::<u32>().is_ok())
}

/// What a line says of modules: `room/Module` is the whole module, with names in parentheses behind it these alone, and with
/// (but for ..) all others. A name behind `but for` that the module does not have is kept, so that it is told.
fn listed_in(line: &str, specs: &Specs) -> Names {
    let pieces: Vec<&str> = line.split('`').chain([""]).collect();
    let mut listed = Names::new();
    for at in (1..pieces.len() - 1).step_by(2).filter(|at| is_module(pieces[*at])) {
        let ended = pieces[at + 1..].iter().step_by(2).position(|between| between.contains(')')).unwrap_or(0);
        let named = pieces[at + 2..].iter().step_by(2).take(ended).map(|name| name.to_string()).collect();
        let all = specs.names(pieces[at]);
        listed.entry(pieces[at].to_string()).or_default().extend(match pieces[at + 1] {
            " (" => named,
            " (but for " => all.symmetric_difference(&named).cloned().collect(),
            _ => all,
        });
    }
    listed
}

/// How these names of a module are written in the list.
fn written(module: &str, names: &BTreeSet<String>, specs: &Specs) -> String {
    let quoted = |names: Vec<&String>| names.iter().map(|name| format!("`{name}`")).collect::<Vec<_>>().join(", ");
    match specs.names(module).difference(names).collect::<Vec<_>>() {
        others if others.is_empty() => format!("`{module}`"),
        others if others.len() < names.len() => format!("`{module}` (but for {})", quoted(others)),
        _ => format!("`{module}` ({})", quoted(names.iter().collect())),
    }
}

/// Where the numbered lines of a text differ from what is cited, and what to write there. What is said of a module on
/// several lines is taken together.
fn faults(text: &str, cited: &BTreeSet<Definition>, specs: &Specs) -> Vec<String> {
    let (mut due, mut listed) = (Names::new(), Names::new());
    for (module, name) in cited.iter().cloned() {
        due.entry(module).or_default().insert(name);
    }
    for (module, names) in text.lines().filter(|line| is_item(line)).flat_map(|line| listed_in(line, specs)) {
        listed.entry(module).or_default().extend(names);
    }
    let fault = |module: &String| match (due.get(module), listed.get(module)) {
        (due, listed) if due == listed => None,
        (Some(due), Some(listed)) => Some(format!(
            "{module}: missing {:?}, cited by no contract {:?}; in all it is {}",
            due - listed,
            listed - due,
            written(module, due, specs)
        )),
        (Some(due), None) => Some(format!("{module}: missing; write {}", written(module, due, specs))),
        _ => Some(format!("{module}: cited by no contract; take it out")),
    };
    due.keys().chain(listed.keys()).collect::<BTreeSet<_>>().into_iter().filter_map(fault).collect()
}

/// What the contracts of the demands cite.
fn cited_by_demands(specs: &Specs) -> BTreeSet<Definition> {
    demands().iter().flat_map(|(_, source)| specs.cited(source)).collect()
}

#[test]
fn the_order_of_reading_is_what_the_contracts_cite() {
    let specs = Specs::of_all_rooms();
    let faults = faults(section(), &cited_by_demands(&specs), &specs);
    assert!(faults.is_empty(), "README's order of reading is not what the contracts cite:\n{}", faults.join("\n"));
}

#[test]
fn what_is_said_to_need_no_belief_is_cited_nowhere() {
    let specs = Specs::of_all_rooms();
    let cited = cited_by_demands(&specs);
    let sentence = "What computes the operations need not be believed";
    let line = section().lines().find(|line| line.starts_with(sentence)).expect(sentence);
    for (module, names) in listed_in(line, &specs) {
        assert!(!names.is_empty() && names.is_subset(&specs.names(&module)), "{module} does not have {names:?}");
        let found: Vec<_> = names.iter().filter(|name| cited.contains(&(module.clone(), name.to_string()))).collect();
        assert!(found.is_empty(), "README says: {sentence}; but a contract cites {found:?} of {module}");
    }
}

/// The function and the room stand first in a row.
#[test]
fn each_promise_has_its_row() {
    let rows = section().lines().filter(|line| line.starts_with("| `")).map(|line| line.split('`').collect::<Vec<_>>());
    let rows: Vec<(String, String)> = rows.map(|row| (row[3].to_string(), row[1].to_string())).collect();
    let name = |line: &str| line.strip_prefix("pub fn ").and_then(|rest| rest.split('(').next()).map(str::to_string);
    let sources = demands();
    let functions =
        sources.iter().flat_map(|(room, text)| text.lines().filter_map(name).map(|name| (room.clone(), name)));
    let functions: Vec<(String, String)> = functions.collect();
    let missing: Vec<_> = functions.iter().filter(|function| !rows.contains(function)).collect();
    assert!(missing.is_empty(), "README's table of promises has no row of {missing:?}");
    let needless: Vec<_> = rows.iter().filter(|row| !functions.contains(row)).collect();
    assert!(needless.is_empty(), "README's table of promises has rows of {needless:?}, which are no demands");
    assert_eq!(rows.len(), functions.len(), "README's table of promises has two rows of one function");
}

/// A made-up room. Its contract cites `Ran`; that cites `Tree`, by a constructor, `_⟶_`, by its arrow, and `line`, by the
/// module's other name; and `line` cites `digits`. Nothing cites `size`, `Other` or `blank`, though these words are there: as
/// names of fields and of a contract, in a comment, in a text, or in code.
const TREES: &str = r#"
infix 4 _⟶_
-- Other
pub data _⟶_ : ℕ → ℕ → Type 0 where
  by : {n : ℕ} → n ⟶ suc n

pub data Tree : Type 0 where
  leaf bare : Tree
  pair : Tree → Tree → Tree

unfoldable pub size : Tree → ℕ
size leaf = 1
size bare = 0
size (pair t u) = size t + size u

abbrev pub Other : Type 0
Other = Tree
"#;
const TEXTS: &str = r#"
abbrev pub digits : ℕ → List ℕ
digits n = n ∷ []

abbrev pub blank : ℕ
blank = 32

abbrev pub line : ℕ → Numbers
line n =
    record { blank = n; text = "blank"; number = digits n }
"#;
const RUNS: &str = r#"
use Rattle·made·specs.specs.Trees.{bare, _⟶_, size, Other}
use Rattle·made·specs.specs.Texts as texts
use Rattle·made·specs.specs.declared.Report.{Report}

pub record Ran (r : Report) : Type 0 where
  pub size : r .tree ≡ bare
  pub ends : 0 ⟶ r .size
      → r .text ≡ texts.line 0
"#;
const SOURCE: &str = r#"
ghost use Rattle·made.specs.Runs.{Ran};
ghost use Rattle·made.specs.Trees.{Other};

// It ensures { Other }.
pub fn run_once(n: u32) -> Report
    ensures { λ r. ⌜ Ran r ⌝ }
    ensures Other { λ r. ⌜ r .left ≡ n ⌝ }
{
    run(n, Other)
}
"#;
const LIST: &str = "
`made/Examples` stands before the list.
1. Runs: `made/Runs`, by `made/src/lib.rt`, and trees: `made/Trees` (`Tree`).
2. Steps of `made/Trees` (`_⟶_`), and lines (of texts): `made/Texts` (but for `blank`).
";

/// A list with another text in the place of one: what is told of it.
fn told(old: &str, new: &str) -> Vec<String> {
    let mut specs = Specs::default();
    for (module, text) in [("made/Trees", TREES), ("made/Texts", TEXTS), ("made/Runs", RUNS)] {
        specs.add(module, text);
    }
    assert!(LIST.contains(old), "{old}");
    faults(&LIST.replace(old, new), &specs.cited(SOURCE), &specs)
}

#[test]
fn a_list_that_differs_is_told_with_what_to_write() {
    assert!(told("", "").is_empty(), "{:?}", told("", ""));
    let cases = [
        ("(`_⟶_`)", "(`Tree`)", r#"made/Trees: missing {"_⟶_"}, cited by no contract {}; "#),
        ("(`Tree`)", "(`Tree`, `size`)", r#"made/Trees: missing {}, cited by no contract {"size"}; "#),
        (" (`Tree`)", "", r#"made/Trees: missing {}, cited by no contract {"Other", "size"}; "#),
        ("(but for ", "(", r#"made/Texts: missing {"digits", "line"}, cited by no contract {"blank"}; "#),
        ("`blank`", "`blink`", r#"made/Texts: missing {}, cited by no contract {"blank", "blink"}; "#),
        ("`made/Runs`", "`made/specs/Runs.antt`", "made/Runs: missing; write `made/Runs`"),
        ("`made/Texts` (but for `blank`)", "", "made/Texts: missing; write `made/Texts` (but for `blank`)"),
        ("Runs: ", "`made/Lines`, ", "made/Lines: cited by no contract; take it out"),
    ];
    for (old, new, due) in cases {
        let told = told(old, new);
        assert!(told.len() == 1 && told[0].starts_with(due), "{told:?}, and due is {due}");
    }
    assert!(told("`Tree`", "`size`")[0].ends_with("; in all it is `made/Trees` (`Tree`, `_⟶_`)"));
}
