//! `recipe price`: charges worked out by hand from document 02, every end, every refusal, and every fault of a price file.

use crate::common::printed;
use std::path::PathBuf;
use std::sync::atomic::{AtomicU32, Ordering};

/// A price file of its own, removed when it is done with.
struct PriceFile(PathBuf);

impl PriceFile {
    fn new(text: &[u8]) -> PriceFile {
        static COUNT: AtomicU32 = AtomicU32::new(0);
        let number = COUNT.fetch_add(1, Ordering::Relaxed);
        let path = std::env::temp_dir().join(format!("prices-{}-{number}", std::process::id()));
        std::fs::write(&path, text).expect("the file is written");
        PriceFile(path)
    }

    fn name(&self) -> String {
        self.0.display().to_string()
    }

    /// What `recipe price` prints of a recipe by these prices: status, output, errors.
    fn price(&self, recipe: &[u8], options: &[&str]) -> (u8, String, String) {
        printed(&[&["price", "--prices", &self.name()], options].concat(), recipe)
    }
}

impl Drop for PriceFile {
    fn drop(&mut self) {
        let _ = std::fs::remove_file(&self.0);
    }
}

/// Rows of 1 2 3 with others put in their places, each behind the number of its pump.
fn rows(others: &[(usize, &str)]) -> String {
    let row = |pump: usize| others.iter().find(|other| other.0 == pump).map_or("1 2 3", |other| other.1);
    (1..=9).map(|pump| format!("{}\n", row(pump))).collect()
}

#[test]
fn a_can_of_three_pumps() {
    let prices = PriceFile::new(rows(&[(1, "7 11 13"), (2, "1000000 1 0"), (3, "5 6 1000000")]).as_bytes());
    // 9,999 x 7 = 69,993; 10,000 x 1 = 10,000; 16,777,215 x 1,000,000: thousandths of a cent.
    let lines = [
        "value after 1 step, 8 words",
        "0 calls, 0 conversions, 1 other",
        "pump      pulses  band    price          charge",
        "   1        9999     0        7              70",
        "   2       10000     1        1              10",
        "   3    16777215     2  1000000     16777215000",
        "total                               16777215080",
    ];
    let can = b"{N} (cons 9999 (cons (add 9999 1) (cons 16777215 (nil N))))";
    assert_eq!(prices.price(can, &[]), (0, lines.join("\n") + "\n", "".into()));
}

#[test]
fn all_nine_pumps_and_none() {
    let prices = PriceFile::new(rows(&[(9, "1000 0 0")]).as_bytes());
    let (status, shown, _) = prices
        .price(b"{N} (cons 0 (cons 0 (cons 0 (cons 0 (cons 0 (cons 0 (cons 0 (cons 0 (cons 5 (nil N))))))))))", &[]);
    let last = "   9           5     0     1000               5\ntotal                                         5\n";
    assert!(status == 0 && shown.lines().count() == 3 + 9 + 1 && shown.ends_with(last), "{shown}");
    let none = "pump      pulses  band    price          charge\ntotal                                         0\n";
    assert!(prices.price(b"{N} (nil N)", &[]).1.ends_with(&format!("0 others\n{none}")));
}

#[test]
fn comments_empty_lines_tabs_and_other_line_ends() {
    let text =
        format!("# prices\r\n\r\n \t 12\t\t34   56 # low, middle, high\r\n#\n{}", rows(&[]).replacen("1 2 3\n", "", 1));
    let prices = PriceFile::new(text.as_bytes());
    // 10,000 x 34; the last row without a line end.
    assert!(prices
        .price(b"{N} (cons 10000 (nil N))", &[])
        .1
        .ends_with("1       34             340\ntotal                                       340\n"));
    let cut = PriceFile::new(rows(&[]).trim_end().as_bytes());
    assert_eq!(cut.price(b"{N} (nil N)", &[]).0, 0);
}

#[test]
fn an_end_without_a_value_has_no_charge() {
    let prices = PriceFile::new(rows(&[]).as_bytes());
    let none = "no charge: the run did not end in a value\n";
    let cases: [(u8, &[u8], &[&str], &str); 3] = [
        (
            4,
            b"{N} (cons (add 1 2) (nil N))",
            &["--limit", "0"],
            "spent after 0 steps, 6 words\n0 calls, 0 conversions, 0 others\n{(add 1 2)}\n",
        ),
        (
            3,
            b"{N} (cons (wrong 9 N) (nil N))",
            &[],
            "error 9 after 1 step: the recipe's own code\n0 calls, 0 conversions, 1 other\n\
             made by the recipe's own wrong 9 at line 1, column 11 of the text, word 7 of the file\n",
        ),
        (
            5,
            b"{N} (ms {N} (cons 1 nil))",
            &["--words", "6"],
            "full after 0 steps: the next term has 8 words\n0 calls, 0 conversions, 0 others\n(ms {N} {1})\n",
        ),
    ];
    for (status, recipe, options, told) in cases {
        assert_eq!(prices.price(recipe, options), (status, told.to_string() + none, "".into()));
        // The same as `recipe run` tells it.
        assert_eq!(printed(&[&["run"], options].concat(), recipe).1, told);
    }
}

#[test]
fn refusals_are_explained() {
    let prices = PriceFile::new(rows(&[]).as_bytes());
    let ten = format!("{{N}} {}(nil N){}", "(cons 1 ".repeat(10), ")".repeat(10));
    let cases: [(&[u8], &str); 4] = [
        (b"{N} 3", "refused 7: the term's type is not the declared one\n  line 1, column 1 of the text, word 4 of the file\n  \
             declared: [[{N}]]\n  found:    [[N]]\n"),
        (
            b"{L} (nil L)",
            "refused 9: the declared type is not {N}; only a list of numbers is priced\n  declared: {L}\n  due:      {N}\n",
        ),
        (
            ten.as_bytes(),
            "refused 10: the value has more than nine items\n  pumps 1 to 9 take one item each; recipe run shows the value\n",
        ),
        (b"{N} (fn", "recipe: line 1, column 8: the text ends, and the ( of line 1, column 5 is not closed\n"),
    ];
    for (recipe, said) in cases {
        let status = if said.starts_with("refused") { 1 } else { 2 };
        assert_eq!(prices.price(recipe, &[]), (status, "".into(), said.into()));
    }
    let small =
        "refused 8: the term has more words than the buffers hold\n  the term has 2 words, the buffers 1 word\n";
    assert_eq!(prices.price(b"{N} (nil N)", &["--words", "1"]).2, small);
}

#[test]
fn a_price_that_is_too_large_is_refused_with_its_place() {
    for (row, price, column, band) in
        [("1 2 1000001", 1_000_001, 5, 2), ("1 4294967295 1000001", 4_294_967_295_u32, 3, 1)]
    {
        let prices = PriceFile::new(rows(&[(4, row), (8, "1000001 2 3")]).as_bytes());
        let said = format!(
            "refused 11: a price is over 1,000,000 cents for 1,000 pulses\n  {}, line 4, column {column}: {price}, of pump 4 in band {band}\n",
            prices.name()
        );
        // Before the file is read: whatever the recipe is.
        for recipe in [&b"{N} (nil N)"[..], b"N 3", &[0, 1]] {
            assert_eq!(prices.price(recipe, &[]), (1, "".into(), said.clone()));
        }
    }
    assert_eq!(PriceFile::new(rows(&[(9, "1 2 1000000")]).as_bytes()).price(b"{N} (nil N)", &[]).0, 0);
}

/// Rows that are wrong, all for pump 3, and what is said of them.
const WRONG: [(&str, &str); 13] = [
    ("10 20", "line 3, column 6: pump 3 has no price for band 2; a row has three, for bands 0, 1 and 2"),
    ("  7 # 8 9", "line 3, column 4: pump 3 has no price for band 1; a row has three, for bands 0, 1 and 2"),
    ("1 2 3 4", "line 3, column 7: a fourth price for pump 3; a row has three, for bands 0, 1 and 2"),
    ("1 cheap 3", "line 3, column 3: cheap is no number; a price is digits alone, cents for 1,000 pulses"),
    ("1 1,000 3", "line 3, column 3: 1,000 has a comma; write 1000, and only blanks between prices"),
    ("1, 2, 3", "line 3, column 1: 1, has a comma; write 1, and only blanks between prices"),
    ("1 2 -3", "line 3, column 5: -3 has a sign; a price is 0 to 1000000 cents for 1,000 pulses"),
    ("1 +2 3", "line 3, column 3: +2 has a sign; a price is 0 to 1000000 cents for 1,000 pulses"),
    ("1 2.5 3", "line 3, column 3: 2.5 is no whole number; a price is in whole cents for 1,000 pulses"),
    ("1 2 4294967296", "line 3, column 5: 4294967296 is too large; a price is at most 1000000 cents for 1,000 pulses"),
    ("1 2 0x10", "line 3, column 5: 0x10 is no number; a price is digits alone, cents for 1,000 pulses"),
    (
        "\u{e4}\u{e4} 2 3",
        "line 3, column 1: \u{e4}\u{e4} is no number; a price is digits alone, cents for 1,000 pulses",
    ),
    (
        "1 \u{e4}\u{e4}\u{e4} x",
        "line 3, column 3: \u{e4}\u{e4}\u{e4} is no number; a price is digits alone, cents for 1,000 pulses",
    ),
];

/// A price file is not understood, and this is said of it.
fn said_of(text: &[u8], fault: &str) {
    let prices = PriceFile::new(text);
    let said = format!("recipe: {}, {fault}\n", prices.name());
    assert_eq!(prices.price(b"{N} (nil N)", &[]), (2, "".into(), said));
}

#[test]
fn a_wrong_row_is_told_by_line_and_column() {
    for (row, fault) in WRONG {
        said_of(rows(&[(3, row)]).as_bytes(), fault);
    }
}

#[test]
fn too_few_rows_and_too_many() {
    let eight = rows(&[(9, "")]);
    // The ninth line is empty.
    said_of(eight.as_bytes(), "line 10, column 1: the table ends after 8 of its nine rows; pump 9 has none");
    said_of(b"", "line 1, column 1: the table ends after 0 of its nine rows; pump 1 has none");
    said_of(b"# none\n", "line 2, column 1: the table ends after 0 of its nine rows; pump 1 has none");
    // Of two faults the first is told.
    said_of(b"1 2 3\n1 x\n", "line 2, column 3: x is no number; a price is digits alone, cents for 1,000 pulses");
    let ten = rows(&[]) + "\n  4 5 6\n";
    said_of(ten.as_bytes(), "line 11, column 3: a tenth row; the table has nine, one for each of pumps 1 to 9");
}

#[test]
fn a_price_file_that_is_no_text() {
    said_of(b"1 2 3\n1 2 \xff\n", "line 2, column 5: a byte that is no text; a price file is plain text in UTF-8");
}

#[test]
fn no_price_file() {
    let missing = "recipe: price needs --prices and the name of a price file; see recipe price --help\n";
    assert_eq!(printed(&["price"], b"{N} (nil N)"), (2, "".into(), missing.into()));
    for words in [&["price", "--prices"][..], &["price", "--prices", "--limit", "3"]] {
        let needs = "recipe: --prices needs the name of a price file\n";
        assert_eq!(printed(words, b"{N} (nil N)"), (2, "".into(), needs.into()));
    }
    let (status, _, said) = printed(&["price", "--prices", "no such file"], b"{N} (nil N)");
    assert!(status == 2 && said.starts_with("recipe: cannot read no such file: "), "{said}");
}
