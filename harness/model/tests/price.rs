//! The price of a can: bands, charges, ends and refusals worked out by hand from document 02's request U2.

use crate::common::*;
use model::file::{bytes_of, file};
use model::price::{band, charge};
use model::{on_large_stack, price, run, Charges, End, Ended, Priced, Prices, Refusal};

/// Prices that all differ: pump 1 has 100, 101 and 102, pump 9 has 900, 901 and 902.
const DIFFERING: Prices = [
    [100, 101, 102],
    [200, 201, 202],
    [300, 301, 302],
    [400, 401, 402],
    [500, 501, 502],
    [600, 601, 602],
    [700, 701, 702],
    [800, 801, 802],
    [900, 901, 902],
];

/// One price in every place.
const fn all(price: u32) -> Prices {
    [[price; 3]; 9]
}

/// The words of an ML list of numbers.
fn list(items: &[u32]) -> Vec<u32> {
    let cells = items.iter().flat_map(|&pulses| [25, w(17, pulses)]);
    cells.chain([24, 1]).collect()
}

/// A recipe of type {N}.
fn can(term: &[u32]) -> Vec<u8> {
    file(&[3, 1], term)
}

/// What a pricing answers. Without a refusal it is the run of the same; after one both buffers are all zero and there is
/// no charge.
fn priced(prices: &Prices, bytes: &[u8], limit: u32, lengths: (usize, usize)) -> Answer {
    on_large_stack(|| {
        let Priced { run: told, charges } = price(prices, bytes, limit, lengths.0, lengths.1);
        let plain = run(bytes, limit, lengths.0, lengths.1);
        match told.result {
            Ok(_) => assert!((told.result, &told.first) == (plain.result, &plain.first)),
            Err(_) => assert!(told.first == vec![0; lengths.0] && charges.is_none()),
        }
        assert!(told.second == vec![0; lengths.1]);
        told.result.map(|ended| (ended, charges))
    })
}

type Answer = Result<(Ended, Option<Charges>), Refusal>;

/// The charges of a recipe that ends as a value.
fn charges(prices: &Prices, bytes: &[u8]) -> Charges {
    let (ended, charges) = priced(prices, bytes, 1_000, (4_096, 4_096)).expect("no refusal");
    assert_eq!(ended.end, End::Value);
    charges.expect("a value has charges")
}

/// A list is charged so; pumps without an item are charged nothing.
fn costs(prices: &Prices, items: &[u32], due: &[u64], total: u64) {
    let Charges { items: found, each, total: sum } = charges(prices, &can(&list(items)));
    assert_eq!((&found[..], &each[..due.len()], sum), (items, due, total));
    assert!(each[due.len()..].iter().all(|&charge| charge == 0));
}

/// The number of the refusal, which has place 0.
fn refused_with(prices: &Prices, bytes: &[u8], lengths: (usize, usize)) -> u32 {
    let refusal = priced(prices, bytes, 1_000, lengths).expect_err("a refusal");
    let has_place = matches!(refusal.number, 3..=7);
    assert!(has_place || refusal.place == 0, "{refusal:?}");
    refusal.number
}

const PLENTY: (usize, usize) = (4_096, 4_096);

#[test]
fn bands_by_their_edges() {
    assert_eq!([0, 1, 9_999].map(band), [0; 3]);
    assert_eq!([10_000, 99_999].map(band), [1; 2]);
    assert_eq!([100_000, 16_777_215, 4_294_967_295].map(band), [2; 3]);
}

#[test]
fn charges_are_rounded_up_to_a_cent() {
    assert_eq!([0, 1, 999, 1_000, 1_001, 2_000, 2_001].map(|pulses| charge(pulses, 1)), [0, 1, 1, 1, 2, 2, 3]);
    assert_eq!([0, 1, 999, 1_000, 1_001].map(|price| charge(1, price)), [0, 1, 1, 1, 2]);
    assert_eq!([0, 1, 16_777_215].map(|pulses| charge(pulses, 0)), [0; 3]);
    assert_eq!(charge(9_999, 1_000_000), 9_999_000);
}

#[test]
fn the_largest_charges() {
    assert_eq!(charge(16_777_215, 1_000_000), 16_777_215_000);
    assert_eq!(charge(16_777_215, 1), 16_778);
    // 16,777,215 x 999,999 = 16,777,198,222,785.
    assert_eq!(charge(16_777_215, 999_999), 16_777_198_223);
    // Pulses of 32 bits, as a later request has them: 4,294,967,295 x 999,999 = 4,294,963,000,032,705.
    assert_eq!(charge(4_294_967_295, 1_000_000), 4_294_967_295_000);
    assert_eq!(charge(4_294_967_295, 999_999), 4_294_963_000_033);
    costs(&all(1_000_000), &[16_777_215; 9], &[16_777_215_000; 9], 150_994_935_000);
    costs(&all(0), &[16_777_215; 9], &[0; 9], 0);
}

#[test]
fn each_pump_by_its_own_row_and_band() {
    let items = [9_999, 10_000, 99_999, 100_000, 0, 1, 999, 1_000, 16_777_215];
    // 999.9; 2,010; 30,099.699; 40,200; 0; 0.6; 699.3; 800; 15,133,047.93.
    let due = [1_000, 2_010, 30_100, 40_200, 0, 1, 700, 800, 15_133_048];
    costs(&DIFFERING, &items, &due, 15_207_859);
    // One band for the whole count of a pump: 10,001 pulses at 101, and not 10,000 of them at 100.
    costs(&DIFFERING, &[10_001], &[1_011], 1_011);
}

#[test]
fn pumps_without_an_item_are_charged_nothing() {
    costs(&DIFFERING, &[], &[], 0);
    costs(&DIFFERING, &[1_000, 1_000, 1_000], &[100, 200, 300], 600);
    costs(&DIFFERING, &[1_000; 9], &[100, 200, 300, 400, 500, 600, 700, 800, 900], 4_500);
}

#[test]
fn a_value_that_a_run_comes_to() {
    // ms {N} (cons 1000 (cons (add 9999 1) nil)): the sum, and five conversions.
    let scheme = [30, 3, 1, 40, w(33, 1_000), 40, 36, w(33, 9_999), w(33, 1), 39];
    let (ended, charges) = priced(&DIFFERING, &can(&scheme), 6, PLENTY).expect("no refusal");
    assert_eq!((ended.end, ended.steps, ended.left, ended.classes), (End::Value, 6, 6, counts([0, 5, 1])));
    let due = Charges { items: vec![1_000, 10_000], each: [100, 2_010, 0, 0, 0, 0, 0, 0, 0], total: 2_110 };
    assert_eq!(charges, Some(due));
}

/// A list of ones of which the last, or the only, item is the given term.
fn ending_in(ones: usize, last: &[u32]) -> Vec<u32> {
    [chain(&[25, w(17, 1)], ones, &[25]), last.to_vec(), vec![24, 1]].concat()
}

/// Terms of type N that end a run otherwise than in a value: a sum under limit 0, a wrong, and a step to more words.
const SPENT: [u32; 3] = [21, 17, 17];
const ERROR: [u32; 2] = [w(29, 9), 1];
const FULL: [u32; 8] = [19, 30, 4, 1, 1, 34, 32, w(17, 7)];

#[test]
fn an_end_without_a_value_has_no_charge_and_no_refusal_for_its_items() {
    for ones in [0, 8, 9, 11] {
        for (last, limit, end) in [(&SPENT[..], 0, End::Spent), (&ERROR, 5, End::Error), (&FULL, 5, End::Full)] {
            let term = ending_in(ones, last);
            let answer = priced(&all(7), &can(&term), limit, (term.len(), term.len()));
            let (ended, charges) = answer.expect("no refusal");
            assert_eq!((ended.end, charges), (end, None), "{ones} {end:?}");
        }
    }
}

#[test]
fn refusal_10_more_than_nine_items() {
    for items in [10, 11, 12, 200] {
        assert_eq!(refused_with(&all(7), &can(&list(&vec![1; items])), PLENTY), 10, "{items}");
    }
    // At the value, after steps: the ninth item is the last that is charged.
    assert_eq!(refused_with(&all(7), &can(&ending_in(9, &SPENT)), PLENTY), 10);
    assert_eq!(charges(&all(7), &can(&ending_in(8, &SPENT))).items.len(), 9);
}

#[test]
fn refusal_11_any_price_over_1_000_000() {
    let empty = can(&list(&[]));
    assert_eq!(charges(&all(1_000_000), &empty).total, 0);
    for over in [1_000_001, 4_294_967_295] {
        for place in 0..27 {
            let mut prices = all(1_000_000);
            prices[place / 3][place % 3] = over;
            assert_eq!(refused_with(&prices, &empty, PLENTY), 11, "{over} at {place}");
        }
    }
}

#[test]
fn refusal_9_a_declared_type_that_is_not_a_list_of_numbers() {
    let others: [(&[u32], &[u32]); 6] = [
        (&[1], &[17]),
        (&[2], &[30, 2, 33]),
        (&[3, 2], &[24, 2]),
        (&[3, 3, 1], &[24, 3, 1]),
        (&[4, 1, 1], &[18, 1, 16]),
        (&[4, 3, 1, 1], &[18, 3, 1, 17]),
    ];
    for (declared, term) in others {
        assert_eq!(refused_with(&all(7), &file(declared, term), PLENTY), 9, "{declared:?}");
    }
}

/// Files declared N that are refused by 1 to 7, in this order.
fn refused_before_9() -> [Vec<u8>; 7] {
    [
        [file(&[1], &[17]), vec![0]].concat(),
        bytes_of(&[1, 4, 1, 6, 1, 17]),
        file(&[1], &[99]),
        file(&[1], &chain(&[21, 17], 256, &[17])),
        file(&[1], &[16]),
        file(&[1], &[19, 17, 17]),
        file(&[1], &[24, 1]),
    ]
}

#[test]
fn refusals_1_to_7_go_before_9_and_8() {
    for (number, bytes) in (1..).zip(refused_before_9()) {
        assert_eq!(refused_with(&all(7), &bytes, PLENTY), number);
        assert_eq!(refused_with(&all(7), &bytes, (0, 0)), number);
    }
}

#[test]
fn refusal_9_goes_before_8_and_10() {
    let lumps = file(&[3, 2], &chain(&[25, 30, 2, 33], 10, &[24, 2]));
    for lengths in [PLENTY, (0, 0), (41, 42), (42, 41)] {
        assert_eq!(refused_with(&all(7), &lumps, lengths), 9);
    }
}

#[test]
fn refusal_8_goes_before_10() {
    let ten = can(&list(&[1; 10]));
    assert_eq!(
        [(21, 22), (22, 21), (0, 0), (22, 22)].map(|lengths| refused_with(&all(7), &ten, lengths)),
        [8, 8, 8, 10]
    );
}

#[test]
fn refusal_11_goes_before_all_others() {
    let ten = can(&list(&[1; 10]));
    let mut prices = all(7);
    prices[8][2] = 1_000_001;
    for bytes in refused_before_9().into_iter().chain([file(&[1], &[17]), ten]) {
        for lengths in [PLENTY, (0, 0)] {
            assert_eq!(refused_with(&prices, &bytes, lengths), 11);
        }
    }
}
