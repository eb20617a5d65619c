//! `recipe card`: cards written by hand from document 02, every end without one, every refusal, 14 in short buffers; and the
//! card of the can in recipes/.

use crate::common::{printed, typed, typed_into, Unread};
use std::path::{Path, PathBuf};

/// A file of recipes/.
fn recipe(name: &str) -> PathBuf {
    Path::new(env!("CARGO_MANIFEST_DIR")).join("../../recipes").join(name)
}

/// What `recipe card` prints of a recipe by the prices of recipes/: status, output, errors.
fn card(recipe_text: &[u8], options: &[&str]) -> (u8, String, String) {
    let prices = recipe("shop.prices");
    let prices = prices.to_str().expect("a name that is text");
    printed(&[&["card", "--prices", prices], options].concat(), recipe_text)
}

/// The card of the green can: 125,000 pulses at 8, 12,400 at 27, none, 850 at 41.
const GREEN: &str = " 1        125000            1000        \n \
                     2         12400             335        \n \
                     3             0               0        \n \
                     4           850              35        \n\
                     TOTAL                       1370        \n";

#[test]
fn the_card_of_the_can_is_the_one_beside_it() {
    let written = std::fs::read(recipe("can.card")).expect("the card");
    assert_eq!(String::from_utf8_lossy(&written), GREEN);
    for name in ["can.bin", "can.txt"] {
        let can = std::fs::read(recipe(name)).expect("the can");
        let prices = recipe("shop.prices");
        let words = ["card", "--prices", prices.to_str().expect("a name that is text")];
        assert_eq!(typed(&words, &can), (0, written.clone(), "".into()), "{name}");
    }
}

#[test]
fn an_empty_list_and_nine_pumps() {
    assert_eq!(card(b"{N} (nil N)", &[]), (0, "TOTAL                          0        \n".into(), "".into()));
    // 1,000 pulses in band 0 cost the price of that band.
    let nine = format!("{{N}} {}(nil N){}", "(cons 1000 ".repeat(9), ")".repeat(9));
    let lines = [
        " 1          1000              12        ",
        " 2          1000              30        ",
        " 3          1000              35        ",
        " 4          1000              41        ",
        " 5          1000              38        ",
        " 6          1000              52        ",
        " 7          1000              29        ",
        " 8          1000              19        ",
        " 9          1000             640        ",
        "TOTAL                        896        ",
    ];
    let due = lines.map(|line| line.to_string() + "\n").concat();
    assert_eq!(card(nine.as_bytes(), &[]), (0, due.clone(), "".into()));
    // 410 bytes are just enough.
    assert_eq!(card(nine.as_bytes(), &["--bytes", "410"]), (0, due, "".into()));
}

#[test]
fn a_buffer_that_is_too_short_is_refused_with_both_lengths() {
    let refused = |card: &str, buffer: &str| {
        format!("refused 14: the buffer is shorter than the card\n  the card has {card} bytes, the buffer {buffer}\n")
    };
    let can = b"{N} (cons (add 500 500) (nil N))";
    assert_eq!(card(can, &["--bytes", "81"]), (1, "".into(), refused("82", "81 bytes")));
    assert_eq!(card(can, &["--bytes", "1"]), (1, "".into(), refused("82", "1 byte")));
    assert_eq!(card(can, &["--bytes", "82"]).0, 0);
    assert_eq!(card(b"{N} (nil N)", &["--bytes", "0"]), (1, "".into(), refused("41", "0 bytes")));
    let nine = format!("{{N}} {}(nil N){}", "(cons 1 ".repeat(9), ")".repeat(9));
    assert_eq!(card(nine.as_bytes(), &["--bytes", "409"]).2, refused("410", "409 bytes"));
}

#[test]
fn an_end_without_a_charge_has_no_card() {
    let none = "no charge: the run did not end in a value\nno card: only a can with a charge has one\n";
    let cases: [(u8, &[u8], &[&str], &str); 3] = [
        (
            4,
            b"{N} (cons (add 1 2) (nil N))",
            &["--limit", "0"],
            "spent after 0 steps, 6 words\n0 calls, 0 conversions, 0 others\n{(add 1 2)}\n",
        ),
        (
            3,
            b"{N} (cons (wrong 9 N) (nil N))",
            &[],
            "error 9 after 1 step: the recipe's own code\n0 calls, 0 conversions, 1 other\n\
             made by the recipe's own wrong 9 at line 1, column 11 of the text, word 7 of the file\n",
        ),
        (
            5,
            b"{N} (ms {N} (cons 1 nil))",
            &["--words", "6"],
            "full after 0 steps: the next term has 8 words\n0 calls, 0 conversions, 0 others\n(ms {N} {1})\n",
        ),
    ];
    for (status, recipe, options, told) in cases {
        assert_eq!(card(recipe, options), (status, "".into(), told.to_string() + none));
        // No bytes at all are enough for no card.
        assert_eq!(card(recipe, &[options, &["--bytes", "0"]].concat()), (status, "".into(), told.to_string() + none));
    }
}

#[test]
fn other_refusals_are_explained_as_of_a_price_and_go_before_14() {
    let ten = format!("{{N}} {}(nil N){}", "(cons 1 ".repeat(10), ")".repeat(10));
    let cases: [(&[u8], &[&str], &str); 4] = [
        (b"{N} 3", &[], "refused 7: the term's type is not the declared one\n  line 1, column 1 of the text, word 4 of the file\n  \
             declared: [[{N}]]\n  found:    [[N]]\n"),
        (
            b"{L} (nil L)",
            &[],
            "refused 9: the declared type is not {N}; only a list of numbers is priced\n  declared: {L}\n  due:      {N}\n",
        ),
        (
            ten.as_bytes(),
            &[],
            "refused 10: the value has more than nine items\n  pumps 1 to 9 take one item each; recipe run shows the value\n",
        ),
        (
            b"{N} (nil N)",
            &["--words", "1"],
            "refused 8: the term has more words than the buffers hold\n  the term has 2 words, the buffers 1 word\n",
        ),
    ];
    for (recipe, options, said) in cases {
        for bytes in ["0", "410"] {
            assert_eq!(card(recipe, &[options, &["--bytes", bytes]].concat()), (1, "".into(), said.into()));
        }
    }
}

#[test]
fn a_price_that_is_too_large_is_refused_with_its_place() {
    let name = std::env::temp_dir().join(format!("dear-{}", std::process::id()));
    std::fs::write(&name, "1 2 3\n".repeat(8) + "1 2 1000001\n").expect("the file is written");
    let shown = name.to_str().expect("a name that is text");
    let told = printed(&["card", "--prices", shown, "--bytes", "0"], b"N 3");
    std::fs::remove_file(&name).expect("the file is removed");
    let said = format!(
        "refused 11: a price is over 1,000,000 cents for 1,000 pulses\n  {shown}, line 9, column 5: 1000001, of pump 9 in band 2\n"
    );
    assert_eq!(told, (1, "".into(), said));
}

#[test]
fn what_is_not_understood() {
    let missing = "recipe: card needs --prices and the name of a price file; see recipe card --help\n";
    assert_eq!(printed(&["card"], b"{N} (nil N)"), (2, "".into(), missing.into()));
    assert_eq!(card(b"{N} (nil N)", &["--bytes"]), (2, "".into(), "recipe: --bytes needs a number\n".into()));
    let few = "recipe: --bytes needs a number, not few\n".to_string();
    assert_eq!(card(b"{N} (nil N)", &["--bytes", "few"]), (2, "".into(), few));
    let (status, shown, said) = card(b"{N} (fn", &[]);
    assert_eq!((status, shown.as_str()), (2, ""));
    assert_eq!(said, "recipe: line 1, column 8: the text ends, and the ( of line 1, column 5 is not closed\n");
}

#[test]
fn that_nobody_reads_the_card_is_no_fault() {
    let prices = recipe("shop.prices");
    let words = ["card", "--prices", prices.to_str().expect("a name that is text")];
    let mut errors = Vec::new();
    assert_eq!((typed_into(&words, b"{N} (nil N)", &mut Unread, &mut errors), errors.len()), (0, 0));
}
