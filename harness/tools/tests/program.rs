//! The program `recipe` from outside: what it prints, where, and its status.

use std::io::Write;
use std::process::{Child, Command, Output, Stdio};

/// The program, started with pipes.
fn start(args: &[&str]) -> Child {
    Command::new(env!("CARGO_BIN_EXE_recipe"))
        .args(args)
        .stdin(Stdio::piped())
        .stdout(Stdio::piped())
        .stderr(Stdio::piped())
        .spawn()
        .expect("the program starts")
}

/// The program's output for an input.
fn recipe(args: &[&str], input: &[u8]) -> Output {
    let mut child = start(args);
    // A program that needs no input may have ended before it is written.
    let _ = child.stdin.take().expect("its input").write_all(input);
    child.wait_with_output().expect("the program ends")
}

/// Its status, what it prints, and what it says on standard error.
fn seen(args: &[&str], input: &[u8]) -> (i32, String, String) {
    let output = recipe(args, input);
    let text = |bytes: &[u8]| String::from_utf8_lossy(bytes).into_owned();
    (output.status.code().unwrap_or(-1), text(&output.stdout), text(&output.stderr))
}

/// The file of words.
fn words(words: &[u32]) -> Vec<u8> {
    model::file::bytes_of(words)
}

#[test]
fn make_and_show() {
    let made = recipe(&["make"], b"N (add 2 3)");
    assert_eq!(made.stdout, words(&[1, 4, 3, 5, 1, 21, 529, 785]));
    assert_eq!(seen(&["show"], &made.stdout), (0, "N\n(add 2 3)\n".into(), "".into()));
    assert_eq!(
        seen(&["make"], b"N (add 2"),
        (2, "".into(), "recipe: line 1, column 9: the text ends, and the ( of line 1, column 3 is not closed\n".into())
    );
}

#[test]
fn show_explains_damage() {
    let (status, printed, said) = seen(&["show"], &words(&[1, 4, 1, 5, 1, 99]));
    assert_eq!((status, printed.as_str()), (1, ""));
    assert!(
        said.contains("refused 3") && said.contains("word    5:         99  no kind has the number 99  <- here"),
        "{said}"
    );
    assert!(seen(&["show"], &words(&[1, 4, 1, 6, 1, 17])).2.contains("refused 2: the header is wrong"));
    assert!(seen(&["show"], b"").2.contains("refused 1"));
}

#[test]
fn help_and_faults() {
    for command in ["make", "show", "check", "run", "step", "price", "card", "outline", "page"] {
        let (status, printed, _) = seen(&[command, "--help"], b"");
        assert!(status == 0 && printed.starts_with(&format!("usage: recipe {command}")), "{printed}");
    }
    assert_eq!(seen(&["--help"], b"").0, 0);
    assert_eq!(seen(&[], b"").0, 2);
    assert_eq!(seen(&["bake"], b"").0, 2);
    assert_eq!(seen(&["show", "--loud"], b"").0, 2);
    assert_eq!(seen(&["show", "no such file"], b"").0, 2);
}

/// The status of the program where nobody reads one of its outputs; its input comes after that is so.
fn unread(args: &[&str], input: &[u8], shut: fn(&mut Child)) -> (Option<i32>, Vec<u8>) {
    let mut child = start(args);
    shut(&mut child);
    let _ = child.stdin.take().expect("its input").write_all(input);
    let output = child.wait_with_output().expect("the program ends");
    (output.status.code(), output.stderr)
}

#[test]
fn a_closed_pipe_is_no_fault() {
    // The text of this file is longer than what a pipe holds.
    let deep = [vec![1, 4, 4_091, 5, 1], vec![20; 4_090], vec![17]].concat();
    assert_eq!(unread(&["show"], &words(&deep), |child| drop(child.stdout.take())), (Some(0), Vec::new()));
    assert_eq!(unread(&["show"], &words(&[1, 4, 1, 5, 1, 99]), |child| drop(child.stderr.take())).0, Some(1));
}

/// Counts up, and comes to no end in a million steps.
#[cfg(feature = "run")]
const COUNTING: &[u8] = b"N (app (fix (fn (N to N) (fn N (app v1 (add v0 1))))) 0)";

#[cfg(feature = "run")]
#[test]
fn a_step_by_step_that_nobody_reads_on_ends() {
    use std::io::{BufRead, BufReader};
    let mut child = start(&["step", "--to", "4294967295"]);
    child.stdin.take().expect("its input").write_all(COUNTING).expect("it reads");
    let mut line = String::new();
    BufReader::new(child.stdout.take().expect("its output")).read_line(&mut line).expect("a line");
    assert_eq!(line, "step 0, 14 words\n");
    let output = child.wait_with_output().expect("the program ends");
    assert_eq!((output.status.code(), output.stderr), (Some(0), Vec::new()));
}

#[cfg(not(feature = "check"))]
#[test]
fn without_the_engine() {
    let commands: [&[&str]; 7] = [
        &["check"],
        &["run"],
        &["step"],
        &["price"],
        &["card"],
        &["outline"],
        &["page", "-o", "no such folder/run.html"],
    ];
    for command in commands {
        let (status, _, said) = seen(command, b"N 1");
        assert!(status == 2 && said.contains("built without the engine"), "{said}");
    }
}

#[cfg(feature = "check")]
#[test]
fn check_points_at_the_place() {
    assert_eq!(seen(&["check"], b"N (add 2 3)"), (0, "accepted\n".into(), "".into()));
    let (status, _, said) = seen(&["check"], b"(N to N)\n(fn N (ms N v0))");
    assert_eq!(status, 1);
    assert!(said.contains("line 2, column 13 of the text, word 11") && said.contains("(fn N (ms N [[v0]]))"), "{said}");
    assert!(seen(&["check"], b"L 3").2.contains("word 4 of the file\n  declared: [[L]]\n  found:    [[N]]\n"));
}

#[cfg(feature = "run")]
#[test]
fn run_and_step() {
    let wrapped = b"N (app (ms (N to N) (fn v0)) 7)";
    assert_eq!(seen(&["run"], wrapped).1, "value after 5 steps, 1 word\n2 calls, 3 conversions, 0 others\n7\n");
    assert_eq!(
        seen(&["run", "--words", "11"], wrapped).1.lines().next(),
        Some("full after 0 steps: the next term has 12 words")
    );
    let spent = "spent after 4 steps, 3 words\n2 calls, 2 conversions, 0 others\n(ms N 7)\n";
    assert_eq!(seen(&["run", "--limit", "4"], wrapped).1, spent);
    let steps = seen(&["step"], wrapped).1;
    assert_eq!(steps.lines().filter(|line| line.starts_with("  -> ")).count(), 5);
    assert!(steps.contains("step 1, 12 words\n  [[(app (fn (x N) (ms N (app (fn (y) y) (sm N x)))) 7)]]\n"), "{steps}");
    assert!(seen(&["step", "--to", "2"], COUNTING).1.ends_with("stopped at step 2; --to goes further\n"));
    let error = "error 4 after 2 steps: an empty list\n0 calls, 0 conversions, 2 others\n\
                 made by a rule at step 0: ML hd of nil: wrong 4\n\
                 from the hd at line 1, column 3 of the text, word 5 of the file: (hd (nil N))\n\
                 the value: (nil N), from line 1, column 7 of the text, word 6 of the file\n";
    assert!(seen(&["step"], b"N (hd (nil N))").1.contains(error));
    assert_eq!(seen(&["run"], b"N (hd (nil N))").1, error);
    assert_eq!(seen(&["run"], b"L 3").0, 1);
}

#[cfg(feature = "run")]
#[test]
fn price() {
    let prices = concat!(env!("CARGO_MANIFEST_DIR"), "/../../recipes/shop.prices");
    // 10,000 pulses of pump 1 at 10 cents for 1,000 are 100 cents; 1 pulse of pump 2 at 30 is 1 cent.
    let lines = [
        "value after 0 steps, 6 words",
        "0 calls, 0 conversions, 0 others",
        "pump      pulses  band    price          charge",
        "   1       10000     1       10             100",
        "   2           1     0       30               1",
        "total                                       101",
    ];
    let can = b"{N} (cons 10000 (cons 1 (nil N)))";
    assert_eq!(seen(&["price", "--prices", prices], can), (0, lines.join("\n") + "\n", "".into()));
    assert_eq!(seen(&["price", "--prices", prices], b"N 5").0, 1);
}

#[cfg(feature = "run")]
#[test]
fn card() {
    let recipes = concat!(env!("CARGO_MANIFEST_DIR"), "/../../recipes");
    let [can, prices, due] = ["can.bin", "shop.prices", "can.card"].map(|name| format!("{recipes}/{name}"));
    let due = std::fs::read_to_string(due).expect("the card written by hand");
    assert_eq!(seen(&["card", &can, "--prices", &prices], b""), (0, due, "".into()));
    let short = "refused 14: the buffer is shorter than the card\n  the card has 205 bytes, the buffer 204 bytes\n";
    assert_eq!(seen(&["card", &can, "--prices", &prices, "--bytes", "204"], b""), (1, "".into(), short.into()));
}

#[cfg(feature = "run")]
#[test]
fn save_and_go_on() {
    let out = std::env::temp_dir().join(format!("saved-by-the-program-{}", std::process::id()));
    let name = out.display().to_string();
    let wrapped = b"N (app (ms (N to N) (fn v0)) 7)";
    let spent = "spent after 4 steps, 3 words\n2 calls, 2 conversions, 0 others\n(ms N 7)\n";
    let said = format!("saved in {name}, 32 bytes; to go on: recipe run {name}\n");
    assert_eq!(seen(&["run", "--limit", "4", "--save", &name], wrapped), (4, spent.to_string() + &said, "".into()));
    assert_eq!(std::fs::read(&out).expect("the file"), words(&[1, 4, 3, 5, 1, 30, 1, 33 + 256 * 7]));
    let rest = "value after 1 step, 1 word\n0 calls, 1 conversion, 0 others\n7\n";
    assert_eq!(seen(&["run", &name], b""), (0, rest.into(), "".into()));
    std::fs::remove_file(&out).expect("the file is removed");
}

#[cfg(feature = "run")]
#[test]
fn outline() {
    let lines = ["    4  N", "    5  ML add", "    6    ML number 2", "    7    ML number 3"];
    assert_eq!(seen(&["outline"], b"N (add 2 3)"), (0, lines.join("\n") + "\n", "".into()));
    assert_eq!(seen(&["outline"], &words(&[1, 4, 3, 5, 1, 21, 529, 785])).1, lines.join("\n") + "\n");
    let (status, drawn, said) = seen(&["outline"], &words(&[1, 4, 2, 5, 1, 21, 17]));
    assert_eq!((status, drawn.as_str()), (1, "    4  N\n    5  no whole node starts here\n    6  ML number 0\n"));
    assert!(said.starts_with("refused 3: "), "{said}");
    // As deep as a file allows.
    let deep = [vec![1, 4, 4_091, 5, 1], vec![20; 4_090], vec![17]].concat();
    let (status, drawn, _) = seen(&["outline"], &words(&deep));
    assert_eq!((status, drawn.lines().count()), (0, 4_092));
    assert_eq!(drawn.lines().last(), Some(format!(" 4095  {}ML number 0", "  ".repeat(4_090)).as_str()));
}
