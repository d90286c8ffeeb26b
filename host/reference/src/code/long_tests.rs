//! Tests of long blocks, q = 8 (request T-09).

use super::*;
use crate::curve::Series;
use crate::generator::Generator;
use crate::sample::{self, Shape};

const ORDERS: [u16; 14] = [0, 1, 7, 8, 9, 53, 54, 55, 56, 120, 300, 463, 510, 511];

const BYTE_BEFORE: u8 = 99;

type Call = fn(u8, u8, u16, &[u8], &mut [u8]) -> Outcome;

/// These orders, in series 1 and 2 in turn.
fn shapes() -> impl Iterator<Item = Shape> {
    let series = Series::BOTH.into_iter().cycle();
    let in_series = |(m, series)| Shape::of(Curve::Q_IS_8.in_series(series), m);
    ORDERS.into_iter().zip(series).map(in_series)
}

/// The answer with a slice of length k, which only a message is written to. The
/// reference leaves the work slice alone.
fn recovered(shape: Shape, word: &[u8]) -> Result<Vec<u8>, Outcome> {
    let mut work = vec![5; WORK_LENGTH];
    let answer = answered(shape.k, |message| {
        recover_long(shape.series(), shape.m, word, message, &mut work)
    });
    assert!(work == [5; WORK_LENGTH]);
    answer
}

fn unencoded(shape: Shape, word: &[u8]) -> Result<Vec<u8>, Outcome> {
    answered(shape.k, |message| {
        unencode(8, shape.series(), shape.m, word, message)
    })
}

fn answered(length: usize, call: impl FnOnce(&mut [u8]) -> Outcome) -> Result<Vec<u8>, Outcome> {
    let mut slice = vec![BYTE_BEFORE; length];
    match call(&mut slice) {
        Outcome::ACCEPTED => Ok(slice),
        refusal => {
            assert_eq!(slice, vec![BYTE_BEFORE; length]);
            Err(refusal)
        }
    }
}

/// Words of order 0 hold one symbol everywhere, and the message 0 1 of order 8 is
/// x: each column holds its own x.
#[test]
fn words_that_are_known_without_the_curve() {
    for curve in Curve::Q_IS_8.in_both_series() {
        let encoded = |m, message: &[u8]| Shape::of(curve, m).word_of(message);
        assert_eq!(encoded(0, &[63]), [63; 512]);
        let x = encoded(8, &[0, 1]);
        assert!((0..512).all(|place| x[place] == curve.columns()[place / 8]));
        let y: Vec<u8> = curve.points().iter().map(|point| point.y).collect();
        assert_eq!(encoded(9, &[0, 0, 1]), y);
    }
}

#[test]
fn words_give_their_message_back() {
    let mut generator = Generator::with_seed(91);
    for shape in shapes() {
        let message = sample::message(&mut generator, shape);
        let word = shape.word_of(&message);
        assert_eq!(unencoded(shape, &word), Ok(message.clone()));
        assert_eq!(recovered(shape, &word), Ok(message));
    }
}

#[test]
fn a_wrong_symbol_is_noticed_in_whole_words() {
    let mut generator = Generator::with_seed(92);
    for shape in shapes().filter(|shape| shape.m < 511) {
        let word = sample::codeword(&mut generator, shape);
        let damaged = sample::damaged(&mut generator, shape, &word);
        let refused = Err(Outcome::NO_MESSAGE_FITS);
        assert_eq!(unencoded(shape, &damaged), refused);
        assert_eq!(recovered(shape, &damaged), refused);
    }
}

#[test]
fn m_plus_1_symbols_are_enough_and_nothing_leaves_k_open() {
    let mut generator = Generator::with_seed(93);
    for shape in shapes() {
        let message = sample::message(&mut generator, shape);
        let word = shape.word_of(&message);
        let known = usize::from(shape.m) + 1;
        let broken = sample::with_known(&mut generator, &word, known);
        assert_eq!(recovered(shape, &broken), Ok(message));
        let nothing = [MISSING; 512];
        let several = Outcome::several_messages_fit(shape.k as u16);
        assert_eq!(recovered(shape, &nothing), Err(several));
    }
}

/// The product of x - a over m / 8 columns a vanishes on them and is of order m,
/// so they leave several messages; one column more leaves one.
#[test]
fn whole_columns_leave_several_messages_or_one() {
    let mut generator = Generator::with_seed(94);
    for shape in shapes().filter(|shape| shape.columns_of_order() > 0) {
        let message = sample::message(&mut generator, shape);
        let word = shape.word_of(&message);
        let columns = shape.columns_of_order();
        let few = sample::with_known_columns(&mut generator, shape, &word, columns);
        let refusal = recovered(shape, &few).expect_err("several fit");
        assert_eq!(refusal.number, 10);
        assert!(refusal.second >= 1);
        let enough = sample::with_known_columns(&mut generator, shape, &word, columns + 1);
        assert_eq!(recovered(shape, &enough), Ok(message));
    }
}

/// Order 8 has the two terms 1 and x, so that all messages can be tried.
#[test]
fn recovery_agrees_with_trying_every_message() {
    let mut generator = Generator::with_seed(95);
    let shape = Shape::of(Curve::Q_IS_8, 8);
    let words = sample::all_messages_with_words(shape);
    assert_eq!(words.len(), 4096);
    for known in [0, 1, 2, 3, 4, 7, 8, 9, 10, 20, 511] {
        let word = sample::codeword(&mut generator, shape);
        let broken = sample::with_known(&mut generator, &word, known);
        let damaged = sample::damaged(&mut generator, shape, &broken);
        for broken in [broken, damaged] {
            let agrees = |word: &Vec<u8>| {
                let mut pairs = broken.iter().zip(word);
                pairs.all(|(&known, &symbol)| known == MISSING || known == symbol)
            };
            let fitting: Vec<_> = words.iter().filter(|(_, word)| agrees(word)).collect();
            let expected = match fitting.as_slice() {
                [] => Err(Outcome::NO_MESSAGE_FITS),
                [(message, _)] => Ok(message.clone()),
                several => Err(Outcome::several_messages_fit(several.len().ilog(64) as u16)),
            };
            assert_eq!(recovered(shape, &broken), expected);
        }
    }
}

/// The call starts with every fault and loses them one by one.
#[test]
fn refusals_of_recovery_come_in_the_order_of_the_checks() {
    let mut generator = Generator::with_seed(96);
    for shape in shapes() {
        let (m, n, k) = (shape.m, shape.n, shape.k);
        let refusal_in = |series, m, word: &[u8], length, work_length| {
            let mut work = vec![7; work_length];
            let answer = answered(length, |message| {
                recover_long(series, m, word, message, &mut work)
            });
            assert!(work == vec![7; work_length]);
            answer.expect_err("refused")
        };
        for series in (0..=255).filter(|series| ![1, 2].contains(series)) {
            let refused = refusal_in(series, 512, &vec![64; n + 1], k + 1, 0);
            assert_eq!(refused, Outcome::BAD_SERIES);
        }
        let refusal = |m, word: &[u8], length, work_length| {
            refusal_in(shape.series(), m, word, length, work_length)
        };
        for order in [512, 513, 767, 768, u16::MAX] {
            let refused = refusal(order, &vec![64; n + 1], k + 1, 0);
            assert_eq!(refused, Outcome::ORDER_TOO_HIGH);
        }
        for length in [0, 8, 64, n - 1, n + 1] {
            let refused = refusal(m, &vec![64; length], k + 1, 0);
            assert_eq!(refused, Outcome::WRONG_INPUT_LENGTH);
        }
        for index in [0, 1, generator.below(n), 255, 256, n - 1] {
            let mut word = vec![MISSING; n];
            word[index..].fill(64);
            word[n - 1] = 254;
            let refused = refusal(m, &word, k + 1, 0);
            assert_eq!(refused, Outcome::value_too_high(index as u16));
        }
        let mut damaged = vec![0; n];
        damaged[n - 1] = 1;
        for length in [0, k - 1, k + 1, n] {
            let refused = refusal(m, &damaged, length, 0);
            assert_eq!(refused, Outcome::WRONG_OUTPUT_LENGTH);
        }
        for work_length in [0, 1, n, WORK_LENGTH - 1, WORK_LENGTH + 1] {
            for word in [&damaged, &vec![MISSING; n], &vec![0; n]] {
                let refused = refusal(m, word, k, work_length);
                assert_eq!(refused, Outcome::WRONG_WORK_LENGTH);
            }
        }
    }
}

#[test]
fn refusals_of_encoding_and_unencoding_come_in_the_order_of_the_checks() {
    for shape in shapes() {
        let (m, n, k) = (shape.m, shape.n, shape.k);
        let calls = [(encode as Call, k, n), (unencode, n, k)];
        for (call, input, output) in calls {
            let refusal_in = |series, m, values: &[u8], length| {
                answered(length, |slice| call(8, series, m, values, slice)).expect_err("refused")
            };
            for series in sample::BAD_SERIES {
                let refused = refusal_in(series, 512, &vec![64; input + 1], output + 1);
                assert_eq!(refused, Outcome::BAD_SERIES);
            }
            let refusal = |m, values: &[u8], length| refusal_in(shape.series(), m, values, length);
            for order in [512, 513, u16::MAX] {
                let refused = refusal(order, &vec![64; input + 1], output + 1);
                assert_eq!(refused, Outcome::ORDER_TOO_HIGH);
            }
            for length in [0, input - 1, input + 1] {
                if length != input {
                    let refused = refusal(m, &vec![64; length], output + 1);
                    assert_eq!(refused, Outcome::WRONG_INPUT_LENGTH);
                }
            }
            for value in [64, 128, 254, MISSING] {
                let mut values = vec![0; input];
                values[input - 1] = value;
                let refused = refusal(m, &values, output + 1);
                assert_eq!(refused, Outcome::value_too_high(input as u16 - 1));
            }
            for length in [0, output - 1, output + 1] {
                let refused = refusal(m, &vec![0; input], length);
                assert_eq!(refused, Outcome::WRONG_OUTPUT_LENGTH);
            }
        }
    }
}

#[test]
fn plain_recovery_takes_no_long_block() {
    let mut generator = Generator::with_seed(97);
    for shape in shapes() {
        let word = sample::codeword(&mut generator, shape);
        for (series, m) in [(1, shape.m), (2, shape.m), (0, 512), (1, u16::MAX)] {
            for word in [&word[..], &[MISSING; 512], &[64; 64], &[]] {
                for length in [0, shape.k] {
                    let refused = answered(length, |message| recover(8, series, m, word, message));
                    assert_eq!(refused, Err(Outcome::UNKNOWN_CURVE));
                }
            }
        }
    }
}
