//! `recipe outline`, each outline written by hand from document 01's table of kinds.

use crate::common::{printed, typed_into, Unread};
use model::file::bytes_of;

/// The lines, each ended.
fn lines(lines: &[&str]) -> String {
    lines.iter().map(|line| format!("{line}\n")).collect()
}

/// Document 01's wrapped function, applied.
const WRAPPED: [&str; 9] = [
    "    4  N",
    "    5  ML application",
    "    6    ML ms",
    "    7      function",
    "    8        N",
    "    9        N",
    "   10      Scheme lambda",
    "   11        Scheme variable 0",
    "   12    ML number 7",
];

#[test]
fn a_text_and_its_file_have_the_same_outline() {
    let drawn = (0, lines(&WRAPPED), String::new());
    assert_eq!(printed(&["outline"], b"N (app (ms (N to N) (fn v0)) 7)"), drawn);
    let file = [1, 4, 8, 5, 1, 19, 30, 4, 1, 1, 34, 32, 17 + 256 * 7];
    assert_eq!(printed(&["outline"], &bytes_of(&file)), drawn);
    let named = concat!(env!("CARGO_MANIFEST_DIR"), "/../../recipes/wrapped.bin");
    assert_eq!(printed(&["outline", named], b""), drawn);
}

/// A text with every kind; the term begins at word 8.
const EVERY_KIND: &[u8] = b"({N} to L)
(fn N (if0 (null? (tl (nil L)))
           (hd (cons v0 7))
           (app (fix v3)
                (add (subtract 16777215 (wrong 300 N))
                     (ms {N} (fn (if0 (fun? (list? (null? (num? nil))))
                                      (app (add v16777215 7)
                                           (subtract (cons (hd v0) (tl 0)) (wrong 65535)))
                                      (sm L 0))))))))";

#[test]
fn every_kind_has_its_name() {
    let drawn = lines(&[
        "    4  function",
        "    5    list",
        "    6      N",
        "    7    L",
        "    8  ML lambda",
        "    9    N",
        "   10    ML if0",
        "   11      ML null?",
        "   12        ML tl",
        "   13          ML nil",
        "   14            L",
        "   15      ML hd",
        "   16        ML cons",
        "   17          ML variable 0",
        "   18          ML number 7",
        "   19      ML application",
        "   20        ML fix",
        "   21          ML variable 3",
        "   22        ML add",
        "   23          ML subtract",
        "   24            ML number 16777215",
        "   25            ML wrong 300",
        "   26              N",
        "   27          ML ms",
        "   28            list",
        "   29              N",
        "   30            Scheme lambda",
        "   31              Scheme if0",
        "   32                Scheme fun?",
        "   33                  Scheme list?",
        "   34                    Scheme null?",
        "   35                      Scheme num?",
        "   36                        Scheme nil",
        "   37                Scheme application",
        "   38                  Scheme add",
        "   39                    Scheme variable 16777215",
        "   40                    Scheme number 7",
        "   41                  Scheme subtract",
        "   42                    Scheme cons",
        "   43                      Scheme hd",
        "   44                        Scheme variable 0",
        "   45                      Scheme tl",
        "   46                        Scheme number 0",
        "   47                    Scheme wrong 65535",
        "   48                Scheme sm",
        "   49                  L",
        "   50                  ML number 0",
    ]);
    assert_eq!(printed(&["outline"], EVERY_KIND), (0, drawn, "".into()));
}

#[test]
fn files_refused_by_4_to_7_are_drawn() {
    let scope = ["    4  function", "    5    N", "    6    N", "    7  ML lambda", "    8    N", "    9    ML ms"];
    let rest = ["   10      N", "   11      Scheme variable 0"];
    let drawn = lines(&[&scope[..], &rest].concat());
    assert_eq!(printed(&["outline"], b"(N to N) (fn N (ms N v0))"), (0, drawn, "".into()));
    assert_eq!(printed(&["outline"], b"L 3"), (0, lines(&["    4  L", "    5  ML number 3"]), "".into()));
    let untyped = lines(&["    4  N", "    5  ML application", "    6    ML number 1", "    7    ML number 2"]);
    assert_eq!(printed(&["outline"], b"N (app 1 2)"), (0, untyped, "".into()));
}

#[test]
fn a_level_is_two_blanks_however_deep() {
    let file = [vec![1, 4, 257, 5, 1], vec![20; 256], vec![17]].concat();
    let fixes = (0..256).map(|level| format!("{:>5}  {}ML fix\n", 5 + level, "  ".repeat(level)));
    let due = format!("    4  N\n{}  261  {}ML number 0\n", fixes.collect::<String>(), "  ".repeat(256));
    assert_eq!(printed(&["outline"], &bytes_of(&file)), (0, due, "".into()));
}

/// Files whose type or term is not one whole node: their outlines, and the place that is told behind them.
const DAMAGED: [(&[u32], &[&str], &str); 8] = [
    (&[1, 4, 1, 5, 1, 99], &["    4  N", "    5  no whole node starts here"], "word    5:"),
    // The declared type runs out; one remains behind it.
    (&[1, 4, 1, 5, 3, 17], &["    4  no whole node starts here", "    5  ML number 0"], "word    5:"),
    (&[2, 4, 1, 6, 1, 2, 17], &["    4  N", "    5  L", "    6  ML number 0"], "word    5:"),
    // The term runs out; one remains behind it.
    (&[1, 4, 2, 5, 1, 21, 17], &["    4  N", "    5  no whole node starts here", "    6  ML number 0"], "word    7:"),
    (
        &[1, 4, 4, 5, 1, 20, 17, 20, 273],
        &["    4  N", "    5  ML fix", "    6    ML number 0", "    7  ML fix", "    8    ML number 1"],
        "word    7:",
    ),
    // A part of a part has no kind: neither is whole.
    (
        &[1, 4, 5, 5, 1, 21, 17, 21, 17, 99],
        &[
            "    4  N",
            "    5  no whole node starts here",
            "    6  ML number 0",
            "    7  no whole node starts here",
            "    8  ML number 0",
            "    9  no whole node starts here",
        ],
        "word    9:",
    ),
    // A Scheme term is due where an ML term stands.
    (
        &[1, 4, 3, 5, 1, 30, 1, 17],
        &["    4  N", "    5  no whole node starts here", "    6  N", "    7  ML number 0"],
        "word    7:",
    ),
    // An operand past its range.
    (&[1, 4, 2, 5, 1, 29, 1], &["    4  N", "    5  no whole node starts here", "    6  N"], "word    5:"),
];

#[test]
fn where_no_whole_node_starts_the_line_says_so() {
    for (words, drawn, place) in DAMAGED {
        let (status, told, said) = printed(&["outline"], &bytes_of(words));
        assert_eq!((status, told), (1, lines(drawn)), "{words:?}");
        let here = said.lines().find(|line| line.ends_with("<- here") || line.ends_with("the file ends here"));
        assert!(said.starts_with("refused 3: "), "{words:?} {said}");
        assert!(here.is_some_and(|line| line.trim().starts_with(place)), "{words:?} {said}");
    }
}

#[test]
fn a_type_and_a_term_in_each_others_place_are_whole_nodes() {
    let exchanged = bytes_of(&[1, 4, 1, 5, 17, 1]);
    assert_eq!(printed(&["outline"], &exchanged), (0, lines(&["    4  ML number 0", "    5  N"]), "".into()));
}

#[test]
fn a_file_whose_words_cannot_be_found_has_no_outline() {
    let (status, drawn, said) = printed(&["outline"], &bytes_of(&[1, 4, 1, 6, 1, 17]));
    assert!((status, drawn.as_str()) == (1, "") && said.starts_with("refused 2: the header is wrong"), "{said}");
    for bytes in [&[0; 23][..], &[0; 16_388], &[]] {
        let (status, drawn, said) = printed(&["outline"], bytes);
        assert!((status, drawn.as_str()) == (1, "") && said.starts_with("refused 1: a recipe file has"), "{said}");
    }
    // A text that would make a file too long.
    let long = format!("N {}", tools::make::sum(&vec!["1".to_string(); 2_100]));
    let (status, drawn, said) = printed(&["outline"], long.as_bytes());
    assert!(
        (status, drawn.as_str()) == (2, "")
            && said.ends_with(": the recipe has more than 4,092 words; a file has at most 16,384 bytes\n"),
        "{said}"
    );
}

#[test]
fn faults_have_status_2() {
    let (status, drawn, said) = printed(&["outline", "no such file"], b"");
    assert!((status, drawn.as_str()) == (2, "") && said.starts_with("recipe: cannot read no such file: "), "{said}");
    assert_eq!(printed(&["outline", "-", "more"], b"N 1").2, "recipe: more is not understood\n");
    assert_eq!(printed(&["outline"], b"N (add 1").0, 2);
}

#[test]
fn that_nobody_reads_it_is_no_fault_and_a_refusal_stays_one() {
    let mut errors = Vec::new();
    assert_eq!(typed_into(&["outline"], b"N 1", &mut Unread, &mut errors), 0);
    assert!(errors.is_empty());
    assert_eq!(typed_into(&["outline"], &bytes_of(&[1, 4, 1, 5, 1, 99]), &mut Unread, &mut errors), 1);
    assert!(errors.starts_with(b"refused 3: "));
}
