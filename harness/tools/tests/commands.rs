//! The commands of `recipe`, each with what document 01 says of its input; `recipe price`, `recipe card`,
//! `recipe outline` and `--save` have tests of their own.

use crate::common::{printed, typed, typed_into};
use model::check::read_recipe;
use model::file::bytes_of;
use std::io::{Error, ErrorKind, Write};
use tools::make::{damaged_file, edges, well_typed_file};
use tools::random::Random;

/// Document 01's wrapped function, applied.
pub const WRAPPED: &[u8] = b"N (app (ms (N to N) (fn v0)) 7)";

/// "(ms (N to N) (fn v0)) applied to 7: value 7, 5 steps", and the largest term has 12 words.
pub const FIVE_STEPS: [&str; 7] = [
    "step 0, 8 words\n  (app [[(ms (N to N) (fn (x) x))]] 7)\n  -> ms (t to u) of a lambda (conversion)\n",
    "step 1, 12 words\n  [[(app (fn (x N) (ms N (app (fn (y) y) (sm N x)))) 7)]]\n  -> ML application of a lambda (call)\n",
    "step 2, 8 words\n  (ms N (app (fn (x) x) [[(sm N 7)]]))\n  -> sm N of a number (conversion)\n",
    "step 3, 6 words\n  (ms N [[(app (fn (x) x) 7)]])\n  -> Scheme application of a lambda (call)\n",
    "step 4, 3 words\n  [[(ms N 7)]]\n  -> ms N of a number (conversion)\n",
    "step 5, 1 word\n  7\n",
    "value after 5 steps, 1 word\n2 calls, 3 conversions, 0 others\nrules:\n  1 ML application of a lambda\n  \
     1 ms N of a number\n  1 ms (t to u) of a lambda\n  1 Scheme application of a lambda\n  1 sm N of a number\n",
];

#[test]
fn step_shows_the_five_steps_of_a_wrapped_function() {
    assert_eq!(printed(&["step"], WRAPPED), (0, FIVE_STEPS.concat(), "".into()));
    let full = "full after 0 steps: the next term has 12 words\n0 calls, 0 conversions, 0 others\n";
    assert_eq!(printed(&["step", "--words", "11"], WRAPPED), (0, FIVE_STEPS[0].to_string() + full, "".into()));
}

/// Counts up, and comes to no end in a million steps.
const COUNTING: &[u8] = b"N (app (fix (fn (N to N) (fn N (app v1 (add v0 1))))) 0)";

#[test]
fn step_starts_and_stops_where_asked() {
    let stopped = |to: u32| format!("stopped at step {to}; --to goes further\n");
    assert_eq!(printed(&["step", "--to", "1"], WRAPPED).1, FIVE_STEPS[..2].concat() + &stopped(1));
    assert_eq!(printed(&["step", "--from", "2", "--to", "3"], WRAPPED).1, FIVE_STEPS[2..4].concat() + &stopped(3));
    assert_eq!(printed(&["step", "--from", "4"], WRAPPED).1, FIVE_STEPS[4..].concat());
    // Behind the end there is the end.
    assert_eq!(printed(&["step", "--from", "9"], WRAPPED).1, FIVE_STEPS[5..].concat());
    // Without --to, 1,000 steps are shown from any step on.
    let counting = printed(&["step", "--from", "2000"], COUNTING).1;
    assert!(counting.starts_with("step 2000, ") && counting.ends_with(&stopped(3000)), "{counting}");
    let behind = "recipe: --to 2 comes before --from 3\n".to_string();
    assert_eq!(printed(&["step", "--from", "3", "--to", "2"], WRAPPED), (2, "".into(), behind));
}

#[test]
fn run_tells_where_the_steps_went_at_every_end() {
    let told = |words: &[&str], input: &[u8]| printed(words, input).1;
    assert_eq!(told(&["run"], WRAPPED), "value after 5 steps, 1 word\n2 calls, 3 conversions, 0 others\n7\n");
    let spent = "spent after 3 steps, 6 words\n1 call, 2 conversions, 0 others\n(ms N (app (fn (x) x) 7))\n";
    assert_eq!(told(&["run", "--limit", "3"], WRAPPED), spent);
    let error = "error 1 after 2 steps: no number for add, subtract, if0 or ms N\n0 calls, 1 conversion, 1 other\n\
                 made by a rule at step 0: ms N of another value: wrong 1\n\
                 from the boundary at line 1, column 3 of the text, word 5 of the file: (ms N nil)\n\
                 the value: nil, from line 1, column 9 of the text, word 7 of the file\n";
    assert_eq!(told(&["run"], b"N (ms N nil)"), error);
    // A term of 7 words, then of 9; the next does not fit.
    let full = "full after 1 step: the next term has 11 words\n1 call, 0 conversions, 0 others\n";
    let grows = b"{N} (fix (fn {N} (cons 1 v0)))";
    assert_eq!(told(&["run", "--words", "10"], grows), full.to_string() + "(cons 1 (fix (fn (x {N}) (cons 1 x))))\n");
}

/// The line of counts that the classes shown make; where the end is full, the last was not made.
fn went(shown: &str) -> String {
    let mut steps: Vec<&str> = shown.lines().filter(|line| line.starts_with("  -> ")).collect();
    if shown.contains("\nfull after ") {
        steps.pop();
    }
    let of = |class: &str| {
        let number = steps.iter().filter(|line| line.ends_with(&format!(" ({class})"))).count();
        format!("{number} {class}{}", if number == 1 { "" } else { "s" })
    };
    ["call", "conversion", "other"].map(of).join(", ")
}

#[test]
fn the_classes_that_step_shows_are_those_that_the_engine_counts() {
    let random = (0..400).map(|index| well_typed_file(&mut Random::new(9, index)));
    let mut ended = 0;
    for file in random.chain([bytes_of(&[1, 4, 2, 5, 1, 29 + 256 * 9, 1])]) {
        for words in ["30", "4096"] {
            let (status, shown, _) = printed(&["step", "--to", "40", "--words", words], &file);
            if status == 0 && !shown.ends_with("--to goes further\n") && !shown.ends_with("for ever\n") {
                let end =
                    |line: &&str| ["value after ", "error ", "full after "].iter().any(|end| line.starts_with(end));
                let told = shown.lines().skip_while(|line| !end(line)).nth(1);
                assert_eq!(told, Some(went(&shown).as_str()), "{shown}");
                ended += 1;
            }
        }
    }
    assert!(ended > 500, "{ended}");
}

/// Files that are damaged, and what `recipe show` says of them behind its first line.
const DAMAGED: [(&[u32], &str, &str); 8] = [
    (&[0, 4, 2, 4, 1, 17], "refused 2: ", "word    0:          0  type count; at least 1 is due\n"),
    (&[1, 5, 1, 5, 1, 17], "refused 2: ", "word    1:          5  type offset; 4 is due\n"),
    (&[1, 4, 2, 5, 1, 17], "refused 2: ", "term offset and term count make 7; the file has 6 words\n"),
    (
        &[1, 4, 1, 5, 1, 29],
        "refused 3: ",
        "word    5:         29  ML wrong with operand 0, outside 1 to 65535  <- here\n",
    ),
    // The declared type runs out; a word remains behind it.
    (&[1, 4, 1, 5, 3, 17], "refused 3: ", "a type is still due where the declared type's words end\n"),
    (&[2, 4, 1, 6, 1, 1, 17], "refused 3: ", "the declared type is complete before word 5: nothing more is due\n"),
    // The term runs out; a word is of the other language.
    (
        &[1, 4, 2, 5, 1, 21, 17],
        "refused 3: ",
        "word    7: the file ends here\n  an ML term is still due where the term's",
    ),
    (&[1, 4, 3, 5, 1, 30, 1, 17], "refused 3: ", "ML number 0  <- here\n  a Scheme term is due at word 7\n"),
];

#[test]
fn show_says_what_is_wrong_with_a_damaged_file_and_where() {
    for (words, number, told) in DAMAGED {
        let (status, shown, said) = printed(&["show"], &bytes_of(words));
        assert_eq!((status, shown.as_str()), (1, ""), "{words:?}");
        assert!(said.starts_with(number) && said.contains(told), "{words:?}\n{said}");
    }
    assert!(printed(&["show"], &[0; 23]).2.ends_with("a multiple of 4\n  the file has 23 bytes\n"));
}

/// What `recipe show` is asked for, in turn.
const SHOWN: [&[&str]; 4] =
    [&["show"], &["show", "--numbers"], &["show", "--width", "20"], &["show", "--width", "1_000"]];

/// Whether the file's words are in order; then it comes back, byte by byte, from what `recipe show` prints, and from what it prints
/// of that.
fn comes_back(index: usize, file: &[u8]) -> bool {
    if read_recipe(file, usize::MAX).is_err() {
        return false;
    }
    let words = SHOWN[index % SHOWN.len()];
    let (status, text, said) = typed(words, file);
    assert_eq!((status, said.as_str()), (0, ""));
    let again = typed(words, &text).1;
    for text in [text, again] {
        let (status, made, said) = typed(&["make"], &text);
        let text = String::from_utf8(text).expect("text");
        assert!(status == 0 && made == file, "{text}");
        assert_eq!(said.starts_with("recipe: note: line "), has_number(&text), "{text}");
    }
    true
}

/// Whether a text has a variable by its number.
fn has_number(text: &str) -> bool {
    let digits = |word: &str| !word.is_empty() && word.bytes().all(|letter| letter.is_ascii_digit());
    text.split([' ', '\n', '(', ')', '{', '}']).any(|word| word.strip_prefix('v').is_some_and(digits))
}

#[test]
fn make_notes_the_first_variable_by_its_number() {
    let told =
        "recipe: note: line 2, column 8: a variable by its number means another function as soon as one without a \
                name is put around it; recipe show writes the text with names\n";
    assert_eq!(typed(&["make"], b"(N to N) \n (fn N v0)").2, told);
    // The other commands say nothing of it, and a text of names has none.
    assert_eq!(typed(&["check"], b"(N to N) (fn N v0)").2, "");
    assert_eq!(typed(&["make"], b"(N to N) (fn (x N) x)").2, "");
}

#[test]
fn make_of_what_show_prints_is_the_same_file() {
    model::on_large_stack(|| {
        let makers: [fn(&mut Random) -> Vec<u8>; 2] = [well_typed_file, damaged_file];
        let random = makers.iter().flat_map(|make| (0..400).map(|index| make(&mut Random::new(7, index))));
        let in_order = random.chain(edges()).enumerate().filter(|(index, file)| comes_back(*index, file)).count();
        assert!(in_order > 700, "{in_order}");
        // Nested as deep as a file allows, and as large.
        let deepest = [vec![1, 4, 4_091, 5, 1], vec![20; 4_090], vec![17]].concat();
        assert_eq!(deepest.len(), 4_096);
        assert!((0..4).all(|index| comes_back(index, &bytes_of(&deepest))));
    });
}

#[test]
fn each_command_has_help() {
    for command in ["make", "show", "check", "run", "step", "price", "card", "outline"] {
        let (status, help, said) = printed(&[command, "--help"], b"");
        assert!(status == 0 && said.is_empty() && help.starts_with(&format!("usage: recipe {command} ")), "{help}");
    }
    assert!(printed(&["--help"], b"")
        .1
        .starts_with("usage: recipe make | show | check | run | step | price | card | outline "));
}

#[test]
fn faults_go_to_standard_error_with_status_2() {
    let cases: [(&[&str], &str); 12] = [
        (&[], "make, show, check, run, step, price, card, outline or page is due; see --help"),
        (&["bake"], "no command is called bake; did you mean make?"),
        (&["everything"], "make, show, check, run, step, price, card, outline or page is due; see --help"),
        (&["show", "--loud"], "--loud is not understood"),
        (&["run", "-", "more"], "more is not understood"),
        (&["run", "--limit"], "--limit needs a number"),
        (&["run", "--limit", "-1"], "--limit needs a number, not -1"),
        (&["run", "--limit", "4294967296"], "a run makes at most 4294967295 steps, not 4294967296"),
        (&["run", "--words", "few"], "--words needs a number, not few"),
        (&["step", "--to", "4294967296"], "a run makes at most 4294967295 steps, not 4294967296"),
        (&["check", "no such file"], "cannot read no such file: "),
        (&["make", "-"], "line 1, column 3: M is not bound here; no ML name is"),
    ];
    for (words, message) in cases {
        let (status, shown, said) = printed(words, b"N M");
        assert_eq!((status, shown.as_str()), (2, ""), "{words:?}");
        assert!(said.starts_with(&format!("recipe: {message}")), "{words:?} {said}");
    }
}

/// A writer that takes so many bytes and then fails.
struct Failing {
    takes: usize,
    with: ErrorKind,
}

impl Write for Failing {
    fn write(&mut self, bytes: &[u8]) -> std::io::Result<usize> {
        match bytes.len().min(self.takes) {
            0 => Err(Error::from(self.with)),
            taken => {
                self.takes -= taken;
                Ok(taken)
            }
        }
    }

    fn flush(&mut self) -> std::io::Result<()> {
        Ok(())
    }
}

#[test]
fn that_nobody_reads_on_is_no_fault() {
    for takes in [0, 1, 20, 100] {
        for words in [&["step", "--to", "4294967295"][..], &["run"], &["show"], &["--help"]] {
            let mut errors = Vec::new();
            let mut output = Failing { takes, with: ErrorKind::BrokenPipe };
            // The counting recipe comes to no end: the step has to stop where nobody reads on.
            let input: &[u8] = if words[0] == "step" { COUNTING } else { WRAPPED };
            assert_eq!(typed_into(words, input, &mut output, &mut errors), 0, "{words:?}");
            assert!(errors.is_empty(), "{words:?}");
        }
    }
    // Nor that nobody reads what is said; the status stays.
    let mut unread = Failing { takes: 0, with: ErrorKind::BrokenPipe };
    assert_eq!(typed_into(&["check"], b"L 3", &mut Vec::new(), &mut unread), 1);
}

#[test]
fn that_nothing_can_be_written_is_a_fault() {
    let (mut full, mut errors) = (Failing { takes: 3, with: ErrorKind::StorageFull }, Vec::new());
    assert_eq!(typed_into(&["run"], WRAPPED, &mut full, &mut errors), 2);
    assert!(errors.starts_with(b"recipe: cannot write: "));
}
