//! The batch card: lines, columns, ends and refusals, each card written by hand from document 02's request U7.

use crate::common::*;
use model::card::laid_out;
use model::file::{bytes_of, file};
use model::price::PUMPS;
use model::{card, on_large_stack, price, Carded, Charges, End, Prices, Refusal};

/// Prices of the shop in recipes/shop.prices, of its first four pumps; the others cost nothing.
const SHOP: Prices = [[12, 10, 8], [30, 27, 24], [35, 31, 28], [41, 37, 33], [0; 3], [0; 3], [0; 3], [0; 3], [0; 3]];

/// One price in every place.
const fn all(price: u32) -> Prices {
    [[price; 3]; 9]
}

/// A recipe of type {N} that is the list of these pulses.
fn can(items: &[u32]) -> Vec<u8> {
    let cells = items.iter().flat_map(|&pulses| [25, w(17, pulses)]);
    file(&[3, 1], &cells.chain([24, 1]).collect::<Vec<_>>())
}

const PLENTY: (usize, usize) = (4_096, 4_096);

/// What a card answers. But for 14 it is the pricing of the same, words and charges; after 14 both buffers are all zero and
/// there is no charge.
fn carded(prices: &Prices, bytes: &[u8], limit: u32, lengths: (usize, usize), room: usize) -> Carded {
    on_large_stack(|| {
        let told = card(prices, bytes, limit, lengths, room);
        let plain = price(prices, bytes, limit, lengths.0, lengths.1);
        let run = &told.priced.run;
        match run.result {
            Err(Refusal { number: 14, place }) => {
                assert_eq!((place, told.priced.charges.is_none()), (0, true));
                assert_eq!(plain.run.result.map(|ended| ended.end), Ok(End::Value));
                assert!(run.first == vec![0; lengths.0] && run.second == vec![0; lengths.1]);
            }
            _ => {
                assert_eq!((run.result, &told.priced.charges), (plain.run.result, &plain.charges));
                assert!((&run.first, &run.second) == (&plain.run.first, &plain.run.second));
            }
        }
        assert_eq!(told.card.len(), room);
        told
    })
}

/// The card of a list has just these lines, in a buffer of just its length and in a longer one.
fn reads(prices: &Prices, items: &[u32], lines: &[&str]) {
    assert!(lines.iter().all(|line| line.len() == 40), "{lines:?}");
    let due: String = lines.iter().map(|line| line.to_string() + "\n").collect();
    for more in [0, 1, 40, 41, 1_000] {
        let told = carded(prices, &can(items), 0, PLENTY, due.len() + more);
        assert_eq!(String::from_utf8_lossy(&told.card[..due.len()]), due);
        assert_eq!(told.bytes, due.len());
        assert!(told.card[due.len()..].iter().all(|&byte| byte == 0));
    }
}

#[test]
fn a_can_of_four_pumps() {
    // 125,000 x 8; 12,400 x 27; none; 850 x 41: in thousandths of a cent.
    reads(
        &SHOP,
        &[125_000, 12_400, 0, 850],
        &[
            " 1        125000            1000        ",
            " 2         12400             335        ",
            " 3             0               0        ",
            " 4           850              35        ",
            "TOTAL                       1370        ",
        ],
    );
}

#[test]
fn an_empty_list_has_the_last_line_alone() {
    reads(&SHOP, &[], &["TOTAL                          0        "]);
    reads(&all(1_000_000), &[], &["TOTAL                          0        "]);
}

#[test]
fn nothing_but_zeros() {
    let lines = [" 1             0               0        ", "TOTAL                          0        "];
    reads(&all(1_000_000), &[0], &lines);
    // Pulses that cost nothing.
    let lines = [" 1      16777215               0        ", "TOTAL                          0        "];
    reads(&all(0), &[16_777_215], &lines);
}

#[test]
fn the_widest_numbers_of_nine_pumps() {
    // 16,777,215 x 1,000,000 thousandths of a cent, nine times.
    reads(
        &all(1_000_000),
        &[16_777_215; 9],
        &[
            " 1      16777215     16777215000        ",
            " 2      16777215     16777215000        ",
            " 3      16777215     16777215000        ",
            " 4      16777215     16777215000        ",
            " 5      16777215     16777215000        ",
            " 6      16777215     16777215000        ",
            " 7      16777215     16777215000        ",
            " 8      16777215     16777215000        ",
            " 9      16777215     16777215000        ",
            "TOTAL               150994935000        ",
        ],
    );
}

#[test]
fn every_number_of_digits() {
    // At 1,000 cents for 1,000 pulses a pulse costs a cent.
    reads(
        &all(1_000),
        &[1, 10, 100, 1_000, 10_000, 100_000, 1_000_000, 10_000_000, 9],
        &[
            " 1             1               1        ",
            " 2            10              10        ",
            " 3           100             100        ",
            " 4          1000            1000        ",
            " 5         10000           10000        ",
            " 6        100000          100000        ",
            " 7       1000000         1000000        ",
            " 8      10000000        10000000        ",
            " 9             9               9        ",
            "TOTAL                   11111120        ",
        ],
    );
    reads(
        &all(1_000),
        &[9, 99, 999, 9_999, 99_999, 999_999, 9_999_999],
        &[
            " 1             9               9        ",
            " 2            99              99        ",
            " 3           999             999        ",
            " 4          9999            9999        ",
            " 5         99999           99999        ",
            " 6        999999          999999        ",
            " 7       9999999         9999999        ",
            "TOTAL                   11111103        ",
        ],
    );
}

/// Numbers as wide as a later request makes them: ten digits of pulses, 13 of a charge, 14 of the total.
#[test]
fn the_columns_hold_numbers_of_32_bits_and_their_charges() {
    let each = [4_294_967_295_000; PUMPS];
    let charges = Charges { items: vec![4_294_967_295; PUMPS], each, total: 38_654_705_655_000 };
    let text = String::from_utf8(laid_out(&charges)).expect("text");
    let lines: Vec<&str> = text.lines().collect();
    assert_eq!(lines.len(), 10);
    assert_eq!(lines[8], " 9    4294967295   4294967295000        ");
    assert_eq!(lines[9], "TOTAL             38654705655000        ");
}

#[test]
fn refusal_14_a_buffer_shorter_than_the_card() {
    for items in 0..=9 {
        let (recipe, due) = (can(&vec![7; items]), 41 * (items + 1));
        for room in [0, 1, 40, due - 41, due - 2, due - 1].into_iter().filter(|&room| room < due) {
            let told = carded(&all(7), &recipe, 0, PLENTY, room);
            assert_eq!(told.priced.run.result, Err(Refusal::new(14, 0)), "{items} items, {room} bytes");
            assert!(told.bytes == 0 && told.card.iter().all(|&byte| byte == 0));
        }
        assert_eq!(carded(&all(7), &recipe, 0, PLENTY, due).bytes, due);
    }
    // Nine items have the longest card.
    assert_eq!(carded(&all(7), &can(&[7; 9]), 0, PLENTY, 410).bytes, 410);
}

/// Terms of type {N} that end a run otherwise than in a value: cons (add 0 0) nil under limit 0, a wrong, and a list in
/// Scheme whose first step has more words.
const SPENT: [u32; 6] = [25, 21, 17, 17, 24, 1];
const ERROR: [u32; 3] = [w(29, 9), 3, 1];
const FULL: [u32; 6] = [30, 3, 1, 40, 33, 39];

#[test]
fn an_end_without_a_charge_writes_no_card_and_is_no_14() {
    for (term, limit, end) in [(&SPENT[..], 0, End::Spent), (&ERROR, 5, End::Error), (&FULL, 5, End::Full)] {
        for room in [0, 1, 41, 410, 500] {
            let told = carded(&all(7), &file(&[3, 1], term), limit, (term.len(), term.len()), room);
            assert_eq!(told.priced.run.result.map(|ended| ended.end), Ok(end));
            assert!(told.bytes == 0 && told.card.iter().all(|&byte| byte == 0), "{end:?}, {room} bytes");
        }
    }
}

/// The number of the refusal: no card is written, and its buffer is all zero.
fn refused_with(prices: &Prices, bytes: &[u8], lengths: (usize, usize), room: usize) -> u32 {
    let told = carded(prices, bytes, 1_000, lengths, room);
    assert!(told.bytes == 0 && told.card.iter().all(|&byte| byte == 0));
    told.priced.run.result.expect_err("a refusal").number
}

#[test]
fn every_other_refusal_goes_before_14() {
    let refused = [
        [can(&[]), vec![0]].concat(),
        bytes_of(&[2, 4, 2, 7, 3, 1, 24, 1]),
        file(&[3, 1], &[99]),
        file(&[3, 1], &chain(&[25, 17], 256, &[24, 1])),
        file(&[3, 1], &[25, 16, 24, 1]),
        file(&[3, 1], &[25, 19, 17, 17, 24, 1]),
        file(&[3, 1], &[17]),
    ];
    for room in [0, 40, 410] {
        for (number, bytes) in (1..).zip(&refused) {
            assert_eq!(refused_with(&all(7), bytes, PLENTY, room), number);
        }
        assert_eq!(refused_with(&all(7), &can(&[5]), (3, 4), room), 8);
        assert_eq!(refused_with(&all(7), &file(&[1], &[17]), PLENTY, room), 9);
        assert_eq!(refused_with(&all(7), &can(&[1; 10]), PLENTY, room), 10);
        assert_eq!(refused_with(&all(1_000_001), &can(&[5]), PLENTY, room), 11);
    }
    // 81 bytes are one too few for one item.
    assert_eq!(refused_with(&all(7), &can(&[5]), PLENTY, 81), 14);
}
