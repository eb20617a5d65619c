//! Texts that go into the program `recipe` and come out of it: names, widths, `-o`, and what is read that is no text.

use crate::common::{model_as_engine, printed, typed};
use model::file::bytes_of;
use std::io::{Read, Result as Taken};
use std::path::PathBuf;
use tools::recipe::{program, Desk, WIDTH};

/// The add of document 01, `N (add 2 3)`.
const ADD: [u32; 8] = [1, 4, 3, 5, 1, 21, 529, 785];

/// What is said on standard error with status 2, nothing being printed.
fn faulty(words: &[&str], input: &[u8]) -> String {
    let (status, output, errors) = typed(words, input);
    assert_eq!((status, output.len()), (2, 0), "{words:?} {errors}");
    errors
}

#[test]
fn show_writes_names_lets_and_lists() {
    let file = typed(&["make"], b"{N} (app (fn N (cons v0 (cons 3 (nil N)))) 2)").1;
    assert_eq!(printed(&["show"], &file), (0, "{N}\n(let (x N 2) {x 3})\n".into(), "".into()));
    let numbers = "{N}\n(app (fn N (cons v0 (cons 3 (nil N)))) 2)\n";
    assert_eq!(printed(&["show", "--numbers"], &file), (0, numbers.into(), "".into()));
    // A text keeps its names.
    let text = b"{N} ; two pumps\n(let (lime N 2) {lime 3})";
    assert_eq!(printed(&["show"], text), (0, "{N}\n(let (lime N 2) {lime 3})\n".into(), "".into()));
    assert_eq!(printed(&["show", "--numbers"], text), (0, numbers.into(), "".into()));
}

#[test]
fn lines_are_as_wide_as_asked() {
    let text = b"N (app (fn (pulses N) (add pulses pulses)) (add 1 2))";
    let shown = "N\n(let (pulses N\n    (add 1 2))\n  (add\n    pulses\n    pulses))\n";
    assert_eq!(printed(&["show", "--width", "20"], text).1, shown);
    let spent = "spent after 0 steps, 9 words\n0 calls, 0 conversions, 0 others\n";
    let term = "(app\n  (fn (x N)\n    (add x x))\n  (add 1 2))\n";
    assert_eq!(printed(&["run", "--limit", "0", "--width", "20"], text).1, format!("{spent}{term}"));
    let step = printed(&["step", "--to", "0", "--width", "40", "--whole"], text).1;
    assert!(step.contains("\n  (app\n    (fn (pulses N) (add pulses pulses))\n    [[(add 1 2)]])\n"), "{step}");
    let refused = printed(&["check", "--width", "24"], b"N (add (hd 1111111) (add 2 3))").2;
    assert!(refused.contains("\n  (add\n    [[(hd <<1111111>>)]]\n    (add 2 3))\n"), "{refused}");
    for command in ["show", "run", "step", "check"] {
        let narrow = "recipe: --width 19 is too narrow; a line has at least 20 columns\n";
        assert_eq!(faulty(&[command, "--width", "19"], text), narrow);
        assert_eq!(faulty(&[command, "--width"], text), "recipe: --width needs a number\n");
    }
}

#[test]
fn refusals_use_the_writers_own_names() {
    let (status, _, said) = printed(&["check"], b"N\n(let (lime {N} {1 2})\n  (add 3 (app lime 4)))");
    let lines = [
        "refused 6: the term has no type",
        "  line 3, column 10 of the text, word 11 of the file",
        "  (app (fn (lime {N}) (add 3 [[(app <<lime>> 4)]])) {1 2})",
        "  the first part of app, at line 3, column 15, is no function",
        "  due:   a function, (t to u)",
        "  found: {N}",
        "  parts: {N}, N",
    ];
    assert_eq!((status, said), (1, lines.join("\n") + "\n"));
    // Refusal 5 shows the variable as it was written.
    let (_, _, said) = printed(&["check"], b"N (fn (lime N) (add lime v0))");
    assert!(said.contains("\n  (fn (lime N) (add lime [[v0]]))\n"), "{said}");
}

/// A file in the folder for such, with what is in it; it is gone with this.
struct Scratch(PathBuf);

impl Scratch {
    fn new(name: &str, bytes: &[u8]) -> Scratch {
        let path = std::env::temp_dir().join(format!("recipe-text-{name}-{}", std::process::id()));
        std::fs::write(&path, bytes).expect("it is written");
        Scratch(path)
    }

    fn name(&self) -> &str {
        self.0.to_str().expect("a name that is text")
    }

    fn bytes(&self) -> Vec<u8> {
        std::fs::read(&self.0).expect("it is read")
    }
}

impl Drop for Scratch {
    fn drop(&mut self) {
        let _ = std::fs::remove_file(&self.0);
    }
}

#[test]
fn make_writes_a_file_when_all_is_well() {
    let out = Scratch::new("out", b"before");
    for words in [&["make", "-o", out.name()][..], &["make", "-", "-o", out.name()], &["make", "-o", out.name(), "-"]] {
        std::fs::write(&out.0, b"before").expect("it is written");
        assert_eq!(printed(words, b"N (add 2 3)"), (0, "".into(), "".into()));
        assert_eq!(out.bytes(), bytes_of(&ADD), "{words:?}");
    }
    std::fs::write(&out.0, b"before").expect("it is written");
    let text = Scratch::new("in", b"N (add 2 3)");
    assert_eq!(
        faulty(&["make", "-o", out.name()], b"N (add 2"),
        "recipe: line 1, column 9: the text ends, and the ( of line 1, column 3 is not closed\n"
    );
    assert_eq!(faulty(&["make", "-o"], b"N 1"), "recipe: -o needs the name of a file to write\n");
    assert_eq!(faulty(&["make", "-o", "--width"], b"N 1"), "recipe: -o needs the name of a file to write\n");
    assert_eq!(faulty(&["make", "-o", out.name(), text.name(), "more"], b""), "recipe: more is not understood\n");
    assert_eq!(faulty(&["make", "-o", out.name(), "-x"], b""), "recipe: -x is not understood\n");
    assert_eq!(out.bytes(), b"before");
    let nowhere = format!("{}/no/such/folder", out.name());
    assert!(faulty(&["make", "-o", &nowhere], b"N 1").starts_with(&format!("recipe: cannot write {nowhere}: ")));
    assert_eq!(printed(&["make", text.name(), "-o", out.name()], b"").0, 0);
    assert_eq!(out.bytes(), bytes_of(&ADD));
    assert_eq!(typed(&["make", "-o", "-"], b"N (add 2 3)").1, bytes_of(&ADD));
}

#[test]
fn a_word_that_begins_with_a_dash_and_is_no_option_is_not_understood() {
    for command in ["make", "show", "check", "run", "step", "outline"] {
        assert_eq!(faulty(&[command, "-x"], b"N 1"), "recipe: -x is not understood\n");
    }
    assert_eq!(printed(&["show", "-"], b"N 1"), (0, "N\n1\n".into(), "".into()));
}

#[test]
fn what_is_no_text_in_utf_8() {
    let mark = b"\xef\xbb\xbfN (add 2 3)";
    let utf_16 = [&b"\xff\xfe"[..], b"N\x00 \x001\x00"].concat();
    let other_way = [&b"\xfe\xff"[..], b"\x00N\x00 \x001"].concat();
    for command in ["make", "show", "check", "run", "step", "outline"] {
        let said = "recipe: line 1, column 1: the text starts with a byte order mark; save it as UTF-8 without one\n";
        assert_eq!(faulty(&[command], mark), said);
        for text in [&utf_16, &other_way] {
            assert_eq!(faulty(&[command], text), "recipe: the text is UTF-16; save it as UTF-8\n");
        }
    }
    let latin = b"N ; a comment\n; with \xe9 in it\n(add 2 3)";
    let why = "line 2, column 8: the byte E9 is not UTF-8; save the text as UTF-8\n";
    assert_eq!(faulty(&["make"], latin), format!("recipe: {why}"));
    for command in ["show", "check", "run", "step"] {
        let (status, told, said) = printed(&[command], latin);
        let refused = "refused 1: a recipe file has 24 to 16,384 bytes, a multiple of 4\n  the file has 38 bytes\n";
        assert_eq!((status, told.as_str(), said), (1, "", format!("{refused}  if it is meant as a text: {why}")));
    }
    // Letters beyond ASCII count as one column each.
    let letters = "N ; 22 \u{e9}\u{1f58c} pumps\n@";
    assert_eq!(faulty(&["make"], letters.as_bytes()), "recipe: line 2, column 1: @ is no ML term\n");
    assert_eq!(
        faulty(&["make"], "N \u{e9}\u{e9}(".as_bytes()),
        "recipe: line 1, column 3: \u{e9}\u{e9} is no ML term\n"
    );
}

#[test]
fn a_recipe_file_is_no_text() {
    let said = "recipe: this is a recipe file, not a text; recipe show writes it as text\n";
    assert_eq!(faulty(&["make"], &bytes_of(&ADD)), said);
}

#[test]
fn a_file_that_is_too_long_is_refused() {
    for command in ["show", "check", "run", "step"] {
        for length in [16_385, 16_388, 40_000] {
            let (status, _, said) = printed(&[command], &vec![0; length]);
            let refused = "refused 1: a recipe file has 24 to 16,384 bytes, a multiple of 4\n";
            assert_eq!((status, said), (1, format!("{refused}  the file has more than 16,384 bytes\n")));
        }
    }
}

/// An input that has no end.
struct Endless(&'static [u8], usize);

impl Read for Endless {
    fn read(&mut self, into: &mut [u8]) -> Taken<usize> {
        for byte in into.iter_mut() {
            *byte = self.0[self.1 % self.0.len()];
            self.1 += 1;
        }
        Ok(into.len())
    }
}

/// What is said of an input that has no end, and how many bytes of it were read.
fn endless(words: &[&str], bytes: &'static [u8]) -> (u8, String, usize) {
    let (mut input, mut output, mut errors) = (Endless(bytes, 0), Vec::new(), Vec::new());
    let mut desk =
        Desk { engine: model_as_engine(), width: WIDTH, input: &mut input, output: &mut output, note: String::new() };
    let status = program(words.iter().map(|word| word.to_string()).collect(), &mut desk, &mut errors);
    (status, String::from_utf8(errors).expect("text"), input.1)
}

#[test]
fn an_endless_input_comes_back() {
    const LONG: &str = "recipe: the text has more than 16,777,216 bytes; a recipe file has at most 16,384\n";
    for command in ["make", "check", "run", "show"] {
        let (status, said, read) = endless(&[command], b"; a comment\n");
        assert_eq!((status, said.as_str()), (2, LONG), "{command}");
        assert_eq!(read, 16_777_217, "{command}");
        // An earlier fault is told first.
        let (status, said, _) = endless(&[command], b"y\n");
        assert_eq!(
            (status, said.as_str()),
            (2, "recipe: line 1, column 1: y is no type: N, L, L1 to L255, {t} or (t to u)\n")
        );
    }
    let (status, said, read) = endless(&["check"], &[0]);
    assert!(status == 1 && said.ends_with("  the file has more than 16,384 bytes\n") && read < 70_000, "{said} {read}");
    assert_eq!(endless(&["make"], &[0]).0, 2);
    // Letters of two bytes: the last one of those that are read is cut.
    let (_, said, _) = endless(&["make"], ";\u{e9}".as_bytes());
    assert_eq!(said, LONG);
    let (_, said, _) = endless(&["make"], b"\xff");
    assert_eq!(said, "recipe: line 1, column 1: the byte FF is not UTF-8; save the text as UTF-8\n");
}

#[test]
fn long_texts_come_back_with_a_message() {
    const LARGE: &str = "the recipe has more than 4,092 words; a file has at most 16,384 bytes\n";
    for text in ["(add 1 ".repeat(600_000), "(hd ".repeat(1 << 20), "{".repeat(4 << 20), "(ms N (sm N ".repeat(350_000)]
    {
        let said = faulty(&["check"], format!("N {text}").as_bytes());
        assert!(said.starts_with("recipe: line 1, column ") && said.ends_with(LARGE), "{said}");
    }
    let said = faulty(&["run"], ["N ", &"7".repeat(4 << 20)].concat().as_bytes());
    assert!(said.len() < 120 && said.ends_with(".. is too large; a number is 0 to 16777215\n"), "{said}");
    let said = faulty(&["make"], ";".repeat(4 << 20).as_bytes());
    assert_eq!(said, "recipe: line 1, column 1: the text ends where a type is due\n");
}

#[test]
fn files_that_cannot_be_read_are_named() {
    let folder = std::env::temp_dir();
    let folder = folder.to_str().expect("a name that is text");
    let prices = concat!(env!("CARGO_MANIFEST_DIR"), "/../../recipes/shop.prices");
    for words in [&["make"][..], &["check"], &["show"], &["price", "--prices", prices]] {
        let named = |name: &str| faulty(&[words, &[name]].concat(), b"");
        assert_eq!(named(folder), format!("recipe: cannot read {folder}: it is a directory\n"));
        assert_eq!(named("no such file"), "recipe: cannot read no such file: there is no such file\n");
    }
    let of_prices = |name: &str| faulty(&["price", "--prices", name], b"{N} {1}");
    assert_eq!(of_prices(folder), format!("recipe: cannot read {folder}: it is a directory\n"));
    assert_eq!(of_prices("no such file"), "recipe: cannot read no such file: there is no such file\n");
}

#[cfg(unix)]
#[test]
fn a_file_without_permission_and_an_endless_price_file() {
    use std::os::unix::fs::PermissionsExt;
    let shut = Scratch::new("shut", b"N 1");
    std::fs::set_permissions(&shut.0, std::fs::Permissions::from_mode(0)).expect("it is shut");
    // Who may read everything is not kept out.
    if std::fs::read(&shut.0).is_err() {
        let name = shut.name();
        assert_eq!(
            faulty(&["check", name], b""),
            format!("recipe: cannot read {name}: its permissions do not allow it\n")
        );
    }
    let said = "recipe: /dev/zero has more than 1,048,576 bytes; a price file is nine rows of three numbers\n";
    assert_eq!(faulty(&["price", "--prices", "/dev/zero"], b"{N} {1}"), said);
}
