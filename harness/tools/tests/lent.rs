//! The runs at the edges of what may be lent really are at these edges, by the model.

use model::run::MOST_WORDS;
use model::{on_large_stack, run, End, Ended, Refusal};
use tools::compare::lent::{largest_capacity, millions_wanted, small_buffers};
use tools::compare::{compare_stack, Case, Room};
use tools::stand_in;

/// A case, and what the model answers.
struct Answered {
    case: Case,
    result: Result<Ended, Refusal>,
}

impl Answered {
    /// The shorter length, at most 16,384.
    fn capacity(&self) -> usize {
        self.case.first.min(self.case.second).min(MOST_WORDS)
    }

    /// The answer, if it is this end.
    fn ended(&self, end: End) -> Option<Ended> {
        self.result.ok().filter(|ended| ended.end == end)
    }
}

/// The model's answers to the cases.
fn answered(cases: Vec<Case>) -> Vec<Answered> {
    let answer = |case: Case| Answered { result: run(&case.file, case.limit, case.first, case.second).result, case };
    on_large_stack(|| cases.into_iter().map(answer).collect())
}

/// How many end in each of the ways: value, spent, error, full.
fn ends(answers: &[&Answered]) -> [usize; 4] {
    End::ALL.map(|end| answers.iter().filter(|answer| answer.ended(end).is_some()).count())
}

#[test]
fn buffers_of_0_and_1_words_and_of_different_lengths() {
    let answers = answered(small_buffers());
    for lengths in [(0, 0), (0, 1), (1, 0), (1, 1), (0, 16), (16, 0), (1, 16), (16, 1), (12, 11), (11, 12)] {
        assert!(answers.iter().any(|answer| (answer.case.first, answer.case.second) == lengths), "{lengths:?}");
    }
    // No word serves no recipe; one word serves a number.
    let of = |capacity: usize| answers.iter().filter(move |answer| answer.capacity() == capacity);
    assert!(of(0).all(|answer| answer.result == Err(Refusal::new(8, 0))));
    assert!(of(1).any(|answer| answer.ended(End::Value).is_some_and(|ended| ended.left == 1)));
}

#[test]
fn the_first_limit_and_the_last() {
    let answers = answered(small_buffers());
    let under = |limit: u32| answers.iter().filter(|answer| answer.case.limit == limit).collect::<Vec<_>>();
    let [value, spent, error, full] = ends(&under(0));
    assert!(value > 0 && spent > 0 && error == 0 && full == 0);
    assert!(under(0).iter().all(|answer| answer.result.is_ok_and(|ended| ended.steps == 0) || answer.result.is_err()));
    let [value, spent, error, full] = ends(&under(4_294_967_295));
    assert!(value > 0 && spent == 0 && error > 0 && full > 0);
}

#[test]
fn capacities_of_the_next_term_and_of_one_word_less() {
    let answers = answered(small_buffers());
    let missed = |answer: &&Answered| {
        answer.ended(End::Full).is_some_and(|ended| ended.wanted as usize == answer.capacity() + 1)
    };
    // Each such run is also made with one word more, and then makes the step.
    let served = |missed: &Answered| {
        answers.iter().any(|more| {
            (&more.case.file, more.case.limit) == (&missed.case.file, missed.case.limit)
                && more.capacity() == missed.capacity() + 1
                && more.result.is_ok_and(|ended| missed.result.is_ok_and(|full| ended.steps > full.steps))
        })
    };
    let found: Vec<&Answered> = answers.iter().filter(missed).collect();
    assert!(found.len() > 20, "{}", found.len());
    assert!(found.into_iter().all(served));
}

#[test]
fn the_largest_capacity() {
    let answers = answered(largest_capacity());
    let full = |wanted: usize| {
        let wants = move |ended: Ended| ended.wanted as usize == wanted;
        answers.iter().filter(move |answer| answer.ended(End::Full).is_some_and(wants)).collect::<Vec<_>>()
    };
    let (just, over) = (full(MOST_WORDS), full(MOST_WORDS + 1));
    // 16,384 words are too many where a buffer has one less; 16,385 in any buffers.
    assert!(!just.is_empty() && just.iter().all(|answer| answer.capacity() == MOST_WORDS - 1));
    assert!(over.iter().any(|answer| answer.case.first > MOST_WORDS && answer.case.second > MOST_WORDS));
    // Where the capacity is 16,384, a term of that many words is reached, and left where the limit is 1.
    let reached: Vec<&Answered> = answers.iter().filter(|answer| answer.ended(End::Spent).is_some()).collect();
    assert_eq!(just.len() + over.len() + reached.len(), answers.len());
    let once = reached.iter().map(|answer| Case { limit: 1, ..answer.case.clone() }).collect();
    let left: Vec<u32> = answered(once).iter().filter_map(|answer| answer.ended(End::Spent)).map(|e| e.left).collect();
    assert!(!left.is_empty() && left.iter().all(|&left| left as usize == MOST_WORDS), "{left:?}");
}

#[test]
fn more_than_8_000_000_words_wanted() {
    let answers = answered(millions_wanted());
    let full: Vec<Ended> = answers.iter().filter_map(|answer| answer.ended(End::Full)).collect();
    assert!(full.len() == 2 && full.iter().all(|ended| ended.wanted > 8_000_000), "{full:?}");
    // 2,044 variables, 2,043 sums, and a fix term of 4,090 words for each variable.
    assert_eq!((full[0].steps, full[0].left, full[0].wanted), (0, 4_090, 2_043 + 2_044 * 4_090));
    // Ten steps double a list of 6 words to 12,272; it is wanted 1,200 times, each under a null?, with 1,199 sums.
    assert_eq!((full[1].steps, full[1].wanted), (10, 1_199 + 1_200 * 12_273));
}

/// How deep words nest that are in order, a root being at 1.
fn depth(words: &[u32]) -> usize {
    let (mut dues, mut deepest) = (vec![1], 0);
    for word in words {
        let here = dues.pop().expect("a whole node");
        deepest = deepest.max(here);
        let parts = model::kinds::row_of(*word).expect("words in order").parts.len();
        dues.extend(vec![here + 1; parts]);
    }
    deepest
}

#[test]
fn a_term_of_16_384_words_nested_16_382_deep() {
    let shown = compare_stack(stand_in::run, Room { words: MOST_WORDS, bytes: 512 << 20 })
        .unwrap_or_else(|shown| panic!("{shown}"));
    assert_eq!(shown[0], "tl nested: 16384 words after 16378 steps");
    // The last substitution went through 16,347 lambdas.
    assert_eq!(shown[8], "lambdas nested, and substituted into: 16378 words after 49043 steps");
    // The term that is left: tl again and again around the fix, as the model's own tests have it.
    let term = [vec![27; 16_378], vec![20, 18, 3, 1, 27, 16]].concat();
    assert_eq!((term.len(), depth(&term)), (16_384, 16_382));
}
