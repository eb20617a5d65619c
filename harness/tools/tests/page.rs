//! Every example of docs/RECIPES.md is run, and prints what the page shows.
//!
//! A block that is marked `console` holds commands, each behind `$ `, and what they print. Of a shell it understands
//! `recipe` with its output put into a file or its input from `echo` or `printf`, `cat` and `echo $?`. With the feature `run` the
//! program is run with the engine in it, else what it is made of with the model in the engine's place.

mod common;
use model::rules::{Rule, RuleCounts};
use model::{on_large_stack, run};
use std::path::{Path, PathBuf};

/// A command of the page, the line where it stands, and what it prints.
struct Example {
    line: usize,
    command: String,
    printed: String,
}

/// The top of the repository.
fn top() -> PathBuf {
    Path::new(env!("CARGO_MANIFEST_DIR")).join("../..")
}

/// The page's text.
fn page() -> String {
    std::fs::read_to_string(top().join("docs/RECIPES.md")).expect("the page")
}

/// The commands of all blocks that are marked.
fn examples(page: &str) -> Vec<Example> {
    let mut found: Vec<Example> = Vec::new();
    let mut inside = false;
    for (index, line) in page.lines().enumerate() {
        match (line, inside) {
            ("```console", false) => inside = true,
            ("```", true) => inside = false,
            (line, true) => match (line.strip_prefix("$ "), found.last_mut()) {
                (Some(command), _) => {
                    found.push(Example { line: index + 1, command: command.to_string(), printed: String::new() })
                }
                (None, Some(example)) => example.printed += &format!("{line}\n"),
                (None, None) => panic!("line {}: a block starts with a command", index + 1),
            },
            _ => {}
        }
    }
    found
}

/// The text between the quotes of `echo 'TEXT' | ...`, as echo writes it, and the command behind it.
fn echoed(command: &str) -> Option<(String, &str)> {
    let (text, command) = command.strip_prefix("echo '")?.split_once("' | ")?;
    Some((format!("{text}\n"), command))
}

/// The bytes that `printf 'TEXT' | ...` writes, a line feed for `\n` and a byte for `\x` and two digits, and the command behind it.
fn printed(command: &str) -> Option<(Vec<u8>, &str)> {
    let (text, command) = command.strip_prefix("printf '")?.split_once("' | ")?;
    let (start, rest) = text.split_once('\\').unwrap_or((text, ""));
    let mut bytes = start.as_bytes().to_vec();
    for piece in rest.split('\\').filter(|piece| !piece.is_empty()) {
        let (byte, behind) = match piece.strip_prefix('x') {
            Some(digits) => (u8::from_str_radix(&digits[..2], 16).expect("two digits"), &digits[2..]),
            None => (b'\n', piece.strip_prefix('n').expect("a line feed")),
        };
        bytes.push(byte);
        bytes.extend(behind.as_bytes());
    }
    Some((bytes, command))
}

/// What a command has for its input, and the command behind it.
fn fed(command: &str) -> (Vec<u8>, &str) {
    let echoed = echoed(command).map(|(text, command)| (text.into_bytes(), command));
    echoed.or_else(|| printed(command)).unwrap_or((Vec::new(), command))
}

/// The program with the engine in it.
#[cfg(feature = "run")]
fn recipe(words: &[&str], input: &[u8]) -> (u8, Vec<u8>, String) {
    use std::io::Write;
    use std::process::{Command, Stdio};
    let mut program = Command::new(env!("CARGO_BIN_EXE_recipe"));
    program.args(words).stdin(Stdio::piped()).stdout(Stdio::piped()).stderr(Stdio::piped());
    let mut child = program.spawn().expect("the program starts");
    let _ = child.stdin.take().expect("its input").write_all(input);
    let output = child.wait_with_output().expect("the program ends");
    let status = output.status.code().and_then(|code| u8::try_from(code).ok()).expect("a status");
    (status, output.stdout, String::from_utf8(output.stderr).expect("text"))
}

/// The program's parts with the model in the engine's place.
#[cfg(not(feature = "run"))]
fn recipe(words: &[&str], input: &[u8]) -> (u8, Vec<u8>, String) {
    common::typed(words, input)
}

/// Does what the command says; the status of the last recipe is kept. Answers with what is printed.
fn typed(example: &Example, status: &mut u8) -> String {
    let (input, command) = fed(&example.command);
    let (command, file) = command.split_once(" > ").unwrap_or((command, ""));
    let words: Vec<&str> = command.split_whitespace().collect();
    match words[..] {
        ["cat", name] => {
            if !Path::new(name).exists() {
                std::fs::write(name, &example.printed).expect("the file is written");
            }
            std::fs::read_to_string(name).expect("the file is read")
        }
        ["echo", "$?"] => format!("{status}\n"),
        ["recipe", ref words @ ..] => {
            let (told, output, errors) = recipe(words, &input);
            *status = told;
            if !file.is_empty() {
                std::fs::write(file, output).expect("the file is written");
                return errors;
            }
            String::from_utf8(output).expect("text") + &errors
        }
        _ => panic!("line {}: `{command}` is not understood", example.line),
    }
}

/// A folder of its own with the recipes and prices of recipes/ in it, where the commands are typed.
fn enter_folder() -> PathBuf {
    let folder = std::env::temp_dir().join(format!("recipes-page-{}", std::process::id()));
    std::fs::create_dir_all(folder.join("recipes")).expect("a folder");
    for entry in std::fs::read_dir(top().join("recipes")).expect("the recipes") {
        let entry = entry.expect("an entry");
        std::fs::copy(entry.path(), folder.join("recipes").join(entry.file_name())).expect("a copy");
    }
    std::env::set_current_dir(&folder).expect("the folder is entered");
    folder
}

#[test]
fn examples_print_what_the_page_shows() {
    let page = page();
    let folder = enter_folder();
    let mut status = 0;
    for example in examples(&page) {
        let printed = typed(&example, &mut status);
        assert_eq!(printed, example.printed, "line {}: $ {}", example.line, example.command);
    }
    std::fs::remove_dir_all(folder).expect("the folder is removed");
}

#[test]
fn every_command_refusal_end_and_class_is_on_the_page() {
    let page = page();
    let examples = examples(&page);
    let shown = |start: &str| examples.iter().any(|example| example.printed.starts_with(start));
    for number in 1..=14 {
        assert!(page.contains(&format!("\n### {number}: ")), "refusal {number}");
        // The program lends a buffer that serves every file.
        assert!(number == 13 || shown(&format!("refused {number}: ")), "refusal {number}");
    }
    for start in ["value after", "spent after", "full after", "error 300 after"] {
        assert!(shown(start), "{start}");
    }
    let lasts = [
        "\ntotal                                      1370\n",
        "\nno charge: the run did not end in a value\n",
        "\nTOTAL                       1370        \n",
        "\nno card: only a can with a charge has one\n",
        "\nsaved in lunch.bin, 60 bytes; to go on: recipe run lunch.bin\n",
        "\nnothing is saved: the run has come to its value\n",
    ];
    for last in lasts {
        assert!(examples.iter().any(|example| example.printed.ends_with(last)), "{last}");
    }
    for class in ["call", "conversion", "other"] {
        assert!(examples.iter().any(|example| example.printed.contains(&format!(" ({class})\n"))), "{class}");
    }
    for command in ["make", "show", "check", "run", "step", "price", "card", "outline", "page"] {
        assert!(examples.iter().any(|example| example.command.contains(&format!("recipe {command}"))), "{command}");
    }
}

#[test]
fn every_rule_that_makes_a_wrong_is_on_the_page() {
    let page = page();
    let mut rules = RuleCounts::default();
    for example in examples(&page) {
        if let Some((text, "recipe run")) = echoed(&example.command) {
            let parsed = model::text::parse_recipe(&text).expect("a recipe");
            let file = model::file::file(&parsed.declared, &parsed.term);
            rules.join(&on_large_stack(|| run(&file, 1_000_000, 4_096, 4_096).rules));
        }
    }
    for rule in Rule::ALL.into_iter().filter(|rule| rule.code().is_some()) {
        assert!(rules.of(rule) > 0, "{} is not on the page", rule.name());
    }
}
