//! Recovery in turns, a job that is carried on with the same budget again and
//! again, beside recovery in one go.

use std::hint::black_box;

use crate::{broken_words, damaged, messages, packed, timing, word_of, Word};
use crate::{K, M, MISSING, Q, SERIES};

const MISSING_COUNTS: [usize; 7] = [0, 1, 4, 10, 20, 26, 32];
const BUDGETS: [u8; 3] = [255, 8, 1];

extern "C" {
    /// Opens a job, carries it on with each budget in turn and then with 255.
    fn bench_recover_in_turns(
        q: u8,
        series: u8,
        m: u16,
        word: *const u8,
        word_length: usize,
        budgets: *const u8,
        budget_count: usize,
        message: *mut u8,
        message_length: usize,
    ) -> u32;
}

/// The answer, packed as from C.
pub fn recover_in_turns(
    q: u8,
    series: u8,
    m: u16,
    word: &[u8],
    budgets: &[u8],
    message: &mut [u8],
) -> u32 {
    // Each pointer comes with the length of its slice, none of which overlap.
    unsafe {
        bench_recover_in_turns(
            q,
            series,
            m,
            word.as_ptr(),
            word.len(),
            budgets.as_ptr(),
            budgets.len(),
            message.as_mut_ptr(),
            message.len(),
        )
    }
}

/// All but the last of the calls with this budget that a word takes; the last
/// one brings in what remains.
pub fn all_but_last(word: &[u8], budget: u8) -> Vec<u8> {
    let arrived = word.iter().filter(|&&symbol| symbol != MISSING).count();
    let calls = arrived.div_ceil(usize::from(budget));
    vec![budget; calls.saturating_sub(1)]
}

pub fn print_table() {
    let words: Vec<Word> = messages().iter().map(word_of).collect();
    println!("| missing | budget | in turns, ns | in one go, ns | in turns / in one go |");
    println!("|---|---|---|---|---|");
    for missing in MISSING_COUNTS {
        let broken = broken_words(&words, missing);
        for budget in BUDGETS {
            print_row(missing, budget, &broken);
        }
    }
}

fn print_row(missing: usize, budget: u8, words: &[Word]) {
    assert_same_answers(budget, words);
    assert_same_answers(budget, &damaged(words));
    let budgets = all_but_last(&words[0], budget);
    let (mut message, mut other) = ([0; K], [0; K]);
    let times = timing::compare(
        words.len(),
        || {
            for word in words {
                black_box(recover_in_turns(
                    Q,
                    SERIES,
                    M,
                    black_box(word),
                    &budgets,
                    &mut message,
                ));
                black_box(&message);
            }
        },
        || {
            for word in words {
                let _ = black_box(hermitian::recover(
                    Q,
                    SERIES,
                    M,
                    black_box(word),
                    &mut other,
                ));
                black_box(&other);
            }
        },
    );
    let (turns, go) = (times.library, times.baseline);
    let ratio = turns / go;
    println!("| {missing} | {budget} | {turns:.0} | {go:.0} | {ratio:.2} |");
}

/// The words have the same number of arrived symbols, and so the same budgets.
fn assert_same_answers(budget: u8, words: &[Word]) {
    for word in words {
        let (mut ours, mut theirs) = ([99; K], [99; K]);
        let answer = recover_in_turns(Q, SERIES, M, word, &all_but_last(word, budget), &mut ours);
        assert_eq!(
            answer,
            packed(hermitian::recover(Q, SERIES, M, word, &mut theirs))
        );
        assert_eq!(ours, theirs);
    }
}

#[cfg(test)]
mod tests {
    use super::*;
    use reference::code;
    use reference::generator::Generator;
    use reference::outcome::Outcome;
    use reference::sample::{self, Shape};

    /// At every order of both curves in both series: words that are whole, broken or damaged,
    /// with budgets of every kind, slices of any content and sometimes of another
    /// length, answer what the second implementation's recovery does.
    #[test]
    fn turns_answer_what_recovery_does() {
        let mut generator = Generator::with_seed(5);
        for shape in Shape::every_short_in_both_series() {
            let (q, series, m) = (shape.q(), shape.series(), shape.m);
            for _ in 0..40 {
                let word = any_word(&mut generator, shape);
                let length = any_length(&mut generator, shape.k);
                let before = generator.bytes(length);
                let budgets = any_budgets(&mut generator);
                let (mut ours, mut theirs) = (before.clone(), before);
                let answer = recover_in_turns(q, series, m, &word, &budgets, &mut ours);
                let outcome = code::recover(q, series, m, &word, &mut theirs);
                assert_eq!(
                    answer,
                    outcome.packed(),
                    "q {q} series {series} m {m} {word:?} {budgets:?}"
                );
                assert_eq!(ours, theirs);
            }
        }
    }

    /// Also those that end in the eight bits of a good order.
    #[test]
    fn orders_from_n_on_are_refused() {
        for shape in Shape::every_short_in_both_series() {
            for m in sample::numbers_too_high(shape.curve) {
                assert_refused(shape, shape.series(), m, Outcome::ORDER_TOO_HIGH);
            }
        }
    }

    /// With good orders and with bad ones.
    #[test]
    fn series_other_than_1_and_2_are_refused() {
        for shape in Shape::every_short() {
            for series in (0..=255).filter(|series| ![1, 2].contains(series)) {
                for m in [shape.m, u16::MAX] {
                    assert_refused(shape, series, m, Outcome::BAD_SERIES);
                }
            }
        }
    }

    /// A whole word of zeros, with this series and order.
    fn assert_refused(shape: Shape, series: u8, m: u16, refusal: Outcome) {
        let word = vec![0; shape.n];
        let mut message = vec![99; shape.k];
        let answer = recover_in_turns(shape.q(), series, m, &word, &[1], &mut message);
        assert_eq!(answer, refusal.packed());
        assert_eq!(message, vec![99; shape.k]);
    }

    fn any_word(generator: &mut Generator, shape: Shape) -> Vec<u8> {
        let message = sample::message(generator, shape);
        let word = shape.word_of(&message);
        let known = generator.below(word.len() + 1);
        let broken = sample::with_known(generator, &word, known);
        if generator.below(3) == 0 {
            sample::damaged(generator, shape, &broken)
        } else {
            broken
        }
    }

    fn any_length(generator: &mut Generator, k: usize) -> usize {
        if generator.below(8) == 0 {
            generator.below(72)
        } else {
            k
        }
    }

    fn any_budgets(generator: &mut Generator) -> Vec<u8> {
        let kinds: [u8; 6] = [0, 1, 2, 7, 64, 255];
        let count = generator.below(20);
        (0..count)
            .map(|_| kinds[generator.below(kinds.len())])
            .collect()
    }
}
