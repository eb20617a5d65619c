//! The program `recipe` and the owners of lumps: texts and files written by hand from document 02's request U6.

use crate::common::{printed, typed};
use model::file::bytes_of;

/// The word of L with an owner.
const fn lump(owner: u32) -> u32 {
    2 + 256 * owner
}

/// What `recipe check` says of a text, without the first line and the position.
fn said(text: &str, number: u32) -> String {
    let (status, told, errors) = printed(&["check"], text.as_bytes());
    assert_eq!((status, told.as_str()), (1, ""), "{text}");
    let lines = errors.strip_prefix(&format!("refused {number}: ")).unwrap_or_else(|| panic!("{text}: {errors}"));
    lines.lines().skip(1).filter(|line| !line.starts_with("  line ")).map(|line| format!("{}\n", line.trim())).collect()
}

/// The lines that a mismatch of owners gets: the owner found, the one due, and the advice.
fn owners(found: u32, due: u32, types: &str, advice: &str) -> String {
    let first = format!("a lump of owner {found} stands where one of owner {due} is due{types}\n");
    first + &format!("a Scheme script may open it and have it sealed for the other owner{advice}\n")
}

#[test]
fn make_and_show_write_owners_as_the_text_form_does() {
    let file = bytes_of(&[4, 4, 4, 8, 4, lump(0), 3, lump(255), 18, lump(0), 24, lump(255)]);
    assert_eq!(printed(&["show"], &file), (0, "(L to {L255})\n(fn (x L) (nil L255))\n".into(), "".into()));
    for text in ["(L to {L255}) (fn L (nil L255))", "(L0 to {L255}) (fn L00 (nil L0255))"] {
        assert_eq!(typed(&["make"], text.as_bytes()), (0, file.clone(), "".into()));
    }
}

#[test]
fn an_owner_over_255_is_told_by_line_and_column() {
    for command in ["make", "show", "check", "run", "step", "outline"] {
        let (status, told, errors) = printed(&[command], b"N\n(null? (nil (L255 to L256)))");
        let due = "recipe: line 2, column 22: L256 names no owner: an owner is 0 to 255\n";
        // `recipe show` reads a text too.
        assert_eq!((status, told.as_str(), errors.as_str()), (2, "", due), "{command}");
    }
}

#[test]
fn a_file_with_an_owner_over_255_is_explained_at_its_word() {
    let declared = printed(&["check"], &bytes_of(&[2, 4, 1, 6, 3, lump(256), 17])).2;
    let line = "  word    5:      65538  type L with owner 256, outside 0 to 255  <- here\n";
    assert!(declared.starts_with("refused 3: ") && declared.contains(line), "{declared}");
    assert!(declared.ends_with("  a type is due at word 5; the owner of an L is 0 to 255\n"), "{declared}");
    let inside = printed(&["run"], &bytes_of(&[1, 4, 3, 5, 1, 28, 24, lump(16_777_215)])).2;
    assert!(inside.contains("type L with owner 16777215, outside 0 to 255  <- here\n"), "{inside}");
    // Where no type is due, the owner is not at fault; nor is N's operand an owner.
    let term = printed(&["check"], &bytes_of(&[1, 4, 1, 5, 1, lump(256)])).2;
    assert!(term.ends_with("  an ML term is due at word 5\n"), "{term}");
    let number = printed(&["check"], &bytes_of(&[1, 4, 1, 5, 1 + 256, 17])).2;
    assert!(number.contains("type N with operand 1, outside 0 to 0  <- here\n"), "{number}");
    assert!(number.ends_with("  a type is due at word 4\n"), "{number}");
}

#[test]
fn a_mismatch_of_owners_is_explained_at_every_rule() {
    let alone = owners(7, 9, "", ": (ms L9 (sm L7 e))");
    let argument =
        "the second part of app, at line 1, column 18, is not of the type that the function takes\ndue:   L9\nfound: L7\nparts: (L9 to N), L7";
    let branches = "the second and the third part of if0 are of two types\nsecond: L9\nthird:  L7";
    let sides = "the function of fix, at line 1, column 9, takes one type and gives another\ntakes: L9\ngives: L7";
    let [direct, named] = [16, 28].map(|column| {
        format!("the term of sm, at line 1, column {column}, is not of the type that sm names\ndue:   L9\nfound: L7")
    });
    for (text, marked, why) in [
        ("N (app (fn L9 1) (ms L7 2))", "[[(app (fn (x L9) 1) <<(ms L7 2)>>)]]", argument),
        ("L9 (if0 0 (ms L9 1) (ms L7 1))", "[[(if0 0 (ms L9 1) (ms L7 1))]]", branches),
        ("L9 (fix (fn L9 (ms L7 1)))", "[[(fix <<(fn (x L9) (ms L7 1))>>)]]", sides),
        ("N (ms N (sm L9 (ms L7 4)))", "(ms N [[(sm L9 <<(ms L7 4)>>)]])", &direct),
        ("N (app (fn L7 (ms N (sm L9 v0))) (ms L7 4))", "(app (fn (x L7) (ms N [[(sm L9 <<x>>)]])) (ms L7 4))", &named),
    ] {
        assert_eq!(said(text, 6), format!("{marked}\n{why}\n{alone}"), "{text}");
    }
    // The tail of a cons is to be a list of what its head is.
    let list = owners(7, 9, ": {L7} for {L9}", ": (ms {L9} (sm {L7} e))");
    let why = "the second part of cons, at line 1, column 22, is no list of what the first part is";
    let tail = why.to_string() + "\ndue:   {[[L9]]}\nfound: {[[L7]]}\nparts: L9, {L7}";
    assert_eq!(said("{L9} (cons (ms L9 1) (nil L7))", 6), format!("[[(cons (ms L9 1) <<(nil L7)>>)]]\n{tail}\n{list}"));
    assert_eq!(said("L9 (ms L7 3)", 7), format!("declared: [[L9]]\nfound:    [[L7]]\n{alone}"));
    assert_eq!(said("{L9} (nil L7)", 7), format!("declared: {{[[L9]]}}\nfound:    {{[[L7]]}}\n{list}"));
}

#[test]
fn of_several_owners_the_first_that_differs_is_named() {
    let types = ": (L1 to {L}) for (L1 to {L255})";
    let told = owners(0, 255, types, ": (ms (L1 to {L255}) (sm (L1 to {L}) e))");
    assert_eq!(
        said("(L1 to {L255}) (fn L1 (nil L))", 7),
        format!("declared: (L1 to {{[[L255]]}})\nfound:    (L1 to {{[[L]]}})\n{told}")
    );
    let types = ": (L2 to L4) for (L1 to L3)";
    let told = owners(2, 1, types, ": (ms (L1 to L3) (sm (L2 to L4) e))");
    assert!(said("N (app (fn (L1 to L3) 5) (fn L2 (ms L4 6)))", 6).ends_with(&told));
    // A long type is not written into the advice.
    let long = |last: &str| (0..9).fold(last.to_string(), |t, _| format!("(L1 to {t})"));
    let told = said(&format!("{} (wrong 1 {})", long("{L1}"), long("{L2}")), 7);
    assert!(told.ends_with(&owners(2, 1, "", "")), "{told}");
}

#[test]
fn of_other_mismatches_no_owner_is_named() {
    for (text, number) in [
        ("N (app (fn L9 1) 2)", 6),
        ("N (app (fn {L9} 1) (ms L7 2))", 6),
        ("N (app (fn (L9 to N) 1) (fn L7 (ms L9 2)))", 6),
        ("N (app (ms L9 1) 2)", 6),
        ("N (add 1 (ms L7 2))", 6),
        ("L9 3", 7),
        ("{L9} (ms L7 3)", 7),
    ] {
        let told = said(text, number);
        assert!(!told.contains("owner"), "{text}: {told}");
    }
}

#[test]
fn runs_steps_and_outlines_show_owners() {
    let text = b"L9 (ms L9 (sm L7 (ms L7 4)))";
    let run = "value after 1 step, 3 words\n0 calls, 1 conversion, 0 others\n(ms L9 4)\n";
    assert_eq!(printed(&["run"], text), (0, run.into(), "".into()));
    let steps = [
        "step 0, 7 words\n  (ms L9 [[(sm L7 (ms L7 4))]])\n  -> sm L of ms L, of the same owner (conversion)\n",
        "step 1, 3 words\n  (ms L9 4)\n",
        "value after 1 step, 3 words\n0 calls, 1 conversion, 0 others\n",
        "rules:\n  1 sm L of ms L, of the same owner\n",
    ];
    assert_eq!(printed(&["step"], text).1, steps.concat());
    let lines = ["    4  L9", "    5  ML ms", "    6    L9", "    7    Scheme sm", "    8      L7", "    9      ML ms"];
    let rest = ["   10        L7", "   11        Scheme number 4"];
    assert_eq!(printed(&["outline"], text).1, [&lines[..], &rest].concat().join("\n") + "\n");
    let price = concat!(env!("CARGO_MANIFEST_DIR"), "/../../recipes/shop.prices");
    let told = printed(&["price", "--prices", price], b"{L7} (nil L7)").2;
    assert!(told.starts_with("refused 9: ") && told.ends_with("  declared: {L7}\n  due:      {N}\n"), "{told}");
}

#[test]
fn of_an_owner_over_255_no_whole_node_is_drawn() {
    let none = "no whole node starts here";
    let (status, drawn, said) = printed(&["outline"], &bytes_of(&[1, 4, 5, 5, 1, 28, 24, 4, lump(255), lump(256)]));
    let lines = ["    4  N", &format!("    5  {none}"), &format!("    6  {none}"), &format!("    7  {none}")];
    let rest = ["    8  L255", &format!("    9  {none}")];
    assert_eq!((status, drawn), (1, [&lines[..], &rest].concat().join("\n") + "\n"));
    assert!(said.starts_with("refused 3: ") && said.contains("word    9:      65538"), "{said}");
}
