//! Planted errors in the lines of a card, and in the bytes behind it, are found and shrunk to a small can.

use crate::common::carding::*;
use model::on_large_stack;
use std::mem::{offset_of, size_of};
use tools::compare::card::edges;
use tools::compare::{compare_card, missing, CardingEngine};
use tools::engine::{Card, RecipeCard};
use tools::stand_in::{card as right_card, price as right_price};

#[test]
fn no_difference_from_itself_and_all_reached() {
    let counts = on_large_stack(|| compare_card(RIGHT, PLAN)).expect("no difference");
    assert_eq!(missing(&counts.rows()), [""; 0]);
    assert!(counts.cards > 80_000, "{}", counts.cards);
    assert!(!on_large_stack(|| breaks_a_law(RIGHT)));
}

#[test]
fn the_struct_is_laid_out_as_the_header_declares_it() {
    assert_eq!((size_of::<RecipeCard>(), offset_of!(RecipeCard, bytes)), (128, 120));
}

#[test]
fn the_edges_are_recipes_that_are_accepted() {
    on_large_stack(|| assert!(edges::all().iter().all(|case| model::check(&case.priced.lent.file).is_ok())));
}

/// What is due of a can of one pump without a pulse, and of an empty one.
const ONE: &str = " 1             0               0        \\n";
const TOTAL: &str = "TOTAL                          0        \\n";

#[test]
fn a_number_one_column_to_the_left() {
    let pump: Card = |p, f, l, a, b, c| {
        pump_lines((p, f, l, a, b, c), |line| format!("{} {}", columns(line, 2, 2), columns(line, 3, 41)))
    };
    lines(pump, ONE, "1              0               0        \\n");
    let pulses: Card = |p, f, l, a, b, c| {
        pump_lines((p, f, l, a, b, c), |line| {
            format!("{}{} {}", columns(line, 1, 2), columns(line, 4, 16), columns(line, 17, 41))
        })
    };
    lines(pulses, ONE, " 1            0                0        \\n");
    let charge: Card = |p, f, l, a, b, c| {
        pump_lines((p, f, l, a, b, c), |line| {
            format!("{}{} {}", columns(line, 1, 16), columns(line, 18, 32), columns(line, 33, 41))
        })
    };
    lines(charge, ONE, " 1             0              0         \\n");
    let total: Card = |p, f, l, a, b, c| {
        last_line((p, f, l, a, b, c), |line| {
            format!("{}{} {}", columns(line, 1, 5), columns(line, 7, 32), columns(line, 33, 41))
        })
    };
    lines(total, TOTAL, "TOTAL                         0         \\n");
}

#[test]
fn a_number_one_column_to_the_right() {
    let pump: Card = |p, f, l, a, b, c| {
        pump_lines((p, f, l, a, b, c), |line| format!(" {}{}", columns(line, 1, 2), columns(line, 4, 41)))
    };
    lines(pump, ONE, "  1            0               0        \\n");
    let pulses: Card = |p, f, l, a, b, c| {
        pump_lines((p, f, l, a, b, c), |line| {
            format!("{} {}{}", columns(line, 1, 2), columns(line, 3, 16), columns(line, 18, 41))
        })
    };
    lines(pulses, ONE, " 1              0              0        \\n");
    let charge: Card = |p, f, l, a, b, c| {
        pump_lines((p, f, l, a, b, c), |line| {
            format!("{} {}{}", columns(line, 1, 16), columns(line, 17, 32), columns(line, 34, 41))
        })
    };
    lines(charge, ONE, " 1             0                0       \\n");
    let total: Card = |p, f, l, a, b, c| {
        last_line((p, f, l, a, b, c), |line| {
            format!("{} {}{}", columns(line, 1, 5), columns(line, 6, 32), columns(line, 34, 41))
        })
    };
    lines(total, TOTAL, "TOTAL                           0       \\n");
}

#[test]
fn numbers_left_aligned() {
    // Only a number of more than one digit shows it, with its ones in another column.
    let charge: Card = |p, f, l, a, b, c| {
        pump_lines((p, f, l, a, b, c), |line| {
            let charge = columns(line, 17, 32).trim_start();
            format!("{}{:>15}{charge:<9}\n", columns(line, 1, 16), "")
        })
    };
    let text = shown(charge);
    assert!(text.contains("10        \\n\"") && text.contains("  10       \\n\""), "{text}");
}

#[test]
fn a_leading_zero() {
    let pump: Card = |p, f, l, a, b, c| pump_lines((p, f, l, a, b, c), |line| line.replacen(' ', "0", 1));
    lines(pump, ONE, "01             0               0        \\n");
    let pulses: Card = |p, f, l, a, b, c| {
        pump_lines((p, f, l, a, b, c), |line| {
            let pulses: u32 = columns(line, 3, 16).trim().parse().expect("pulses");
            format!("{}{:>14}{}", columns(line, 1, 2), format!("{pulses:02}"), columns(line, 17, 41))
        })
    };
    lines(pulses, ONE, " 1            00               0        \\n");
    let charge: Card = |p, f, l, a, b, c| {
        pump_lines((p, f, l, a, b, c), |line| {
            let charge: u64 = columns(line, 17, 32).trim().parse().expect("a charge");
            format!("{}{:>16}{}", columns(line, 1, 16), format!("{charge:02}"), columns(line, 33, 41))
        })
    };
    lines(charge, ONE, " 1             0              00        \\n");
    let total: Card = |p, f, l, a, b, c| {
        last_line((p, f, l, a, b, c), |line| {
            let total: u64 = columns(line, 6, 32).trim().parse().expect("a total");
            format!("TOTAL{:>27}{}", format!("{total:02}"), columns(line, 33, 41))
        })
    };
    lines(total, TOTAL, "TOTAL                         00        \\n");
}

#[test]
fn no_digit_for_zero() {
    let engine: Card = |p, f, l, a, b, c| {
        pump_lines((p, f, l, a, b, c), |line| match columns(line, 16, 16) {
            "0" if columns(line, 15, 15) == " " => format!("{} {}", columns(line, 1, 15), columns(line, 17, 41)),
            _ => line.to_string(),
        })
    };
    lines(engine, ONE, " 1                             0        \\n");
}

#[test]
fn a_number_cut_to_32_bits() {
    let charge: Card = |p, f, l, a, b, c| {
        pump_lines((p, f, l, a, b, c), |line| {
            let charge: u64 = columns(line, 17, 32).trim().parse().expect("a charge");
            format!("{}{:>16}{}", columns(line, 1, 16), charge as u32, columns(line, 33, 41))
        })
    };
    let total: Card = |p, f, l, a, b, c| {
        last_line((p, f, l, a, b, c), |line| {
            let total: u64 = columns(line, 6, 32).trim().parse().expect("a total");
            format!("TOTAL{:>27}{}", total as u32, columns(line, 33, 41))
        })
    };
    // The widest are part of the comparison.
    for engine in [charge, total].map(|card| CardingEngine { card, ..RIGHT }) {
        on_large_stack(|| {
            assert!(edges::widest().iter().all(|case| case.differs(engine) && case.breaks_a_law(engine)));
        });
    }
}

#[test]
fn pulses_and_charge_in_each_others_place() {
    let engine: Card = |p, f, l, a, b, c| {
        pump_lines((p, f, l, a, b, c), |line| {
            let (pulses, charge) = (columns(line, 3, 16).trim(), columns(line, 17, 32).trim());
            format!("{}{charge:>14}{pulses:>16}{}", columns(line, 1, 2), columns(line, 33, 41))
        })
    };
    lines(engine, " 1             1               0        \\n", " 1             0               1        \\n");
}

#[test]
fn pumps_counted_from_0() {
    let engine: Card = |p, f, l, a, b, c| {
        pump_lines((p, f, l, a, b, c), |line| {
            let pump: u32 = columns(line, 1, 2).trim().parse().expect("a pump");
            format!("{:>2}{}", pump - 1, columns(line, 3, 41))
        })
    };
    lines(engine, ONE, " 0             0               0        \\n");
}

#[test]
fn pumps_from_last_to_first() {
    let engine: Card = |p, f, l, a, b, c| {
        changed((p, f, l, a, b, c), |lines| {
            let last = lines.len() - 1;
            lines[..last].reverse();
        })
    };
    lines(engine, ONE, " 2             0               0        \\n");
}

#[test]
fn no_last_line_for_an_empty_list() {
    let engine: Card = |p, f, l, a, b, c| {
        let told = changed((p, f, l, a, b, c), |lines| lines.retain(|_| false));
        match told.bytes {
            41 => RecipeCard { bytes: 0, ..told },
            _ => right_card(p, f, l, a, b, c),
        }
    };
    let text = answers(engine, "value (end 0)", "value (end 0)");
    assert!(text.contains("term:     (nil N)\n") && text.contains("  card of 41 bytes\n"), "{text}");
}

#[test]
fn the_last_line_first() {
    let engine: Card = |p, f, l, a, b, c| changed((p, f, l, a, b, c), |lines| lines.rotate_right(1));
    let text = shown(engine);
    assert!(text.contains("term:     {0}\n"), "{text}");
}

#[test]
fn a_line_for_each_of_nine_pumps() {
    let engine: Card = |p, f, l, a, b, c| {
        let mut told = changed((p, f, l, a, b, c), |lines| {
            let last = lines.pop().expect("a last line");
            let none = |pump| format!("{:>2}{:>14}{:>16}{:>8}\n", pump, 0, 0, "");
            lines.extend((lines.len() + 1..=9).map(none).chain([last]));
        });
        told.bytes = if told.bytes > 0 { 410 } else { 0 };
        told
    };
    lines(engine, TOTAL, ONE);
}

#[test]
fn no_line_for_a_pump_without_pulses() {
    let engine: Card = |p, f, l, a, b, c| {
        let mut told = changed((p, f, l, a, b, c), |lines| lines.retain(|line| columns(line, 15, 16) != " 0"));
        let kept = c.iter().filter(|&&byte| byte == b'\n').count();
        told.bytes = told.bytes.min(41 * kept as u32);
        told
    };
    lines(engine, ONE, TOTAL);
}

#[test]
fn a_total_line_that_is_misspelt_or_shifted() {
    let spelt: Card = |p, f, l, a, b, c| last_line((p, f, l, a, b, c), |line| line.replace("TOTAL", "Total"));
    lines(spelt, TOTAL, "Total                          0        \\n");
    let shifted: Card = |p, f, l, a, b, c| last_line((p, f, l, a, b, c), |line| line.replace("TOTAL ", " TOTAL"));
    lines(shifted, TOTAL, " TOTAL                         0        \\n");
}

#[test]
fn line_feeds_that_are_missing_or_others() {
    let missing: Card = |p, f, l, a, b, c| last_line((p, f, l, a, b, c), |line| columns(line, 1, 40).to_string());
    lines(missing, TOTAL, "TOTAL                          0        ");
    let blank: Card = |p, f, l, a, b, c| last_line((p, f, l, a, b, c), |line| line.replace('\n', " "));
    lines(blank, TOTAL, "TOTAL                          0         ");
    let returns: Card = |p, f, l, a, b, c| pump_lines((p, f, l, a, b, c), |line| line.replace('\n', "\r"));
    let text = shown(returns);
    assert!(text.contains("  0        \\rTOTAL"), "{text}");
}

#[test]
fn blanks_that_are_missing_or_others() {
    let trimmed: Card = |p, f, l, a, b, c| {
        let told = changed((p, f, l, a, b, c), |lines| {
            lines.iter_mut().for_each(|line| *line = line.trim_end().to_string() + "\n");
        });
        let bytes = c.iter().take_while(|&&byte| byte != 0).count() as u32;
        RecipeCard { bytes: told.bytes.min(bytes), ..told }
    };
    lines(trimmed, TOTAL, "TOTAL                          0\\n");
    let tabs: Card = |p, f, l, a, b, c| pump_lines((p, f, l, a, b, c), |line| line.replacen("  ", " \t", 1));
    shown(tabs);
    let zeros: Card = |p, f, l, a, b, c| {
        let told = right_card(p, f, l, a, b, c);
        c.iter_mut().filter(|byte| **byte == b' ').for_each(|byte| *byte = 0);
        told
    };
    shown(zeros);
}

#[test]
fn a_charge_with_a_point() {
    let engine: Card = |p, f, l, a, b, c| {
        last_line((p, f, l, a, b, c), |line| {
            let total: u64 = columns(line, 6, 32).trim().parse().expect("a total");
            format!("TOTAL{:>27}{}", format!("{}.{:02}", total / 100, total % 100), columns(line, 33, 41))
        })
    };
    lines(engine, TOTAL, "TOTAL                       0.00        \\n");
}

#[test]
fn the_words_of_a_can_not_priced_as_recipe_price_does() {
    let engine: Card = |p, f, l, a, b, c| {
        let mut told = right_card(p, f, l, a, b, c);
        told.priced.total = 0;
        told
    };
    let text = answers(engine, "value (end 0)", "value (end 0)");
    assert!(text.contains("  total 1, charges 1 ") && text.contains("  total 0, charges 1 "), "{text}");
    // The pricing itself may be at fault, and the card right: the law that the two agree finds it.
    let price = |p: &_, f: &[u8], l, a: &mut [u32], b: &mut [u32]| {
        let mut told = right_price(p, f, l, a, b);
        told.charge[0] = 0;
        told
    };
    let text = on_large_stack(|| compare_card(CardingEngine { price, ..RIGHT }, PLAN)).err();
    let text = text.expect("a law that is broken");
    assert!(text.ends_with("\na law: but for 14 a card's pricing is that of recipe_price\n"), "{text}");
}

#[test]
fn a_length_that_is_not_told_or_another() {
    let none: Card = |p, f, l, a, b, c| RecipeCard { bytes: 0, ..right_card(p, f, l, a, b, c) };
    let text = shown(none);
    assert!(text.contains("  card of 41 bytes\n") && text.contains("  card of 0 bytes\n"), "{text}");
    let lent: Card = |p, f, l, a, b, c| {
        let told = right_card(p, f, l, a, b, c);
        RecipeCard { bytes: if told.bytes > 0 { c.len() as u32 } else { 0 }, ..told }
    };
    let text = shown(lent);
    assert!(text.contains("  card of 41 bytes\n") && text.contains("  card of 42 bytes\n"), "{text}");
    let columns: Card = |p, f, l, a, b, c| {
        let told = right_card(p, f, l, a, b, c);
        RecipeCard { bytes: told.bytes / 41 * 40, ..told }
    };
    assert!(shown(columns).contains("  card of 40 bytes\n"));
}

#[test]
fn bytes_past_the_card_kept() {
    let engine: Card = |p, f, l, a, b, c| {
        let before = c.to_vec();
        let told = right_card(p, f, l, a, b, c);
        if told.bytes > 0 {
            c[told.bytes as usize..].copy_from_slice(&before[told.bytes as usize..]);
        }
        told
    };
    let text = shown(engine);
    assert!(text.contains("card buffer of 42 bytes\n") && text.contains("  card:   0\n"), "{text}");
}
