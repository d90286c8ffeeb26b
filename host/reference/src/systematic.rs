//! The encoder of request T-10, which puts given symbols at chosen places.
//!
//! The values of all terms at the chosen points are a matrix, a row for each place,
//! with as many columns as rows. Times a message it gives the symbols there. If it
//! has an inverse, the inverse times the symbols is the only message. If it has
//! none, some message other than 0 gives 0 at all these places; so its word and the
//! word of zeros agree on them, whichever symbols come along.

use crate::checks;
use crate::code::Code;
use crate::linear;
use crate::outcome::Outcome;

/// Writes the only codeword that has the symbols at the places, both in turn.
pub fn encode_at(
    q: u8,
    series: u8,
    m: u16,
    places: &[u16],
    symbols: &[u8],
    word: &mut [u8],
) -> Outcome {
    Outcome::from(try_encode_at(q, series, m, places, symbols, word))
}

fn try_encode_at(
    q: u8,
    series: u8,
    m: u16,
    places: &[u16],
    symbols: &[u8],
    word: &mut [u8],
) -> Result<(), Outcome> {
    let curve = checks::short_curve_and_order(q, series, m)?;
    let code = Code::of_order(curve, m);
    let (n, k) = (code.points.len(), code.terms.len());
    checks::places(places, k, n)?;
    checks::input_length(symbols, k)?;
    checks::symbols(curve.field(), symbols)?;
    checks::output_length(word, n)?;
    let inverse = linear::inverse(curve.field(), matrix_at(&code, places));
    let inverse = inverse.ok_or(Outcome::PLACES_LEAVE_SEVERAL)?;
    let message = linear::product(curve.field(), &inverse, symbols);
    word.copy_from_slice(&code.word_of(&message));
    Ok(())
}

/// One row for each place: every term at its point.
fn matrix_at(code: &Code, places: &[u16]) -> Vec<Vec<u8>> {
    let points = places.iter().map(|&place| code.points[usize::from(place)]);
    points.map(|point| code.term_values(point)).collect()
}

#[cfg(test)]
mod tests {
    use super::*;
    use crate::code;
    use crate::curve::Curve;
    use crate::generator::Generator;
    use crate::sample::places::{self, symbols_at};
    use crate::sample::{self, Shape};
    use std::collections::HashMap;

    const LEAVE_SEVERAL: Result<Vec<u8>, Outcome> = Err(Outcome::PLACES_LEAVE_SEVERAL);

    /// The word of a call, or its refusal after a look that nothing was written.
    fn run(
        q: u8,
        series: u8,
        m: u16,
        places: &[u16],
        symbols: &[u8],
        length: usize,
    ) -> Result<Vec<u8>, Outcome> {
        let before: Vec<u8> = (100..).take(length).collect();
        let mut word = before.clone();
        match encode_at(q, series, m, places, symbols, &mut word) {
            Outcome::ACCEPTED => Ok(word),
            refusal => {
                assert_eq!(word, before, "a refusal leaves lent memory unchanged");
                Err(refusal)
            }
        }
    }

    fn run_shaped(shape: Shape, places: &[u16], symbols: &[u8]) -> Result<Vec<u8>, Outcome> {
        let (q, series) = (shape.q(), shape.series());
        run(q, series, shape.m, places, symbols, shape.n)
    }

    /// Places of the small curve, by the bits of a number.
    fn places_of_bits(bits: u8) -> Vec<u16> {
        (0..8).filter(|place| bits >> place & 1 == 1).collect()
    }

    /// Value E of the paper: message 1 2 3 has the word 1 2 2 1 3 0 1 2.
    #[test]
    fn value_e_from_three_of_its_symbols() {
        let word = vec![1, 2, 2, 1, 3, 0, 1, 2];
        for series in [1, 2] {
            let first = run(2, series, 3, &[0, 1, 2], &[1, 2, 2], 8);
            assert_eq!(first, Ok(word.clone()));
            let last = run(2, series, 3, &[5, 6, 7], &[0, 1, 2], 8);
            assert_eq!(last, Ok(word.clone()));
        }
    }

    /// Values G and H of the paper: zeros there leave two or more messages.
    #[test]
    fn the_places_of_values_g_and_h_leave_several() {
        for symbols in [[0, 0], [0, 1], [3, 2]] {
            assert_eq!(run(2, 1, 2, &[0, 1], &symbols, 8), LEAVE_SEVERAL);
        }
        for symbols in [[0, 0, 0], [1, 2, 3]] {
            assert_eq!(run(2, 1, 3, &[0, 4, 7], &symbols, 8), LEAVE_SEVERAL);
        }
    }

    /// x, the word of the message 0 1 of order 4, from its symbols in the columns 3
    /// and 15.
    #[test]
    fn each_series_has_its_own_places() {
        for (curve, symbols) in Curve::Q_IS_4
            .in_both_series()
            .into_iter()
            .zip([[3, 15], [4, 9]])
        {
            let shape = Shape::of(curve, 4);
            let word = run_shaped(shape, &[12, 60], &symbols);
            assert_eq!(word, Ok(shape.word_of(&[0, 1])));
        }
    }

    /// All sets of k places of the small curve at all orders, each with all symbols,
    /// held against the list of all codewords.
    #[test]
    fn small_blocks_by_the_definition() {
        for shape in Shape::every_order(Curve::Q_IS_2) {
            let codewords = sample::all_messages_with_words(shape);
            let words: Vec<Vec<u8>> = codewords.into_iter().map(|(_, word)| word).collect();
            for bits in (0..=255u8).filter(|bits| bits.count_ones() as usize == shape.k) {
                agrees_with_the_list(shape, &words, &places_of_bits(bits));
            }
        }
    }

    fn agrees_with_the_list(shape: Shape, words: &[Vec<u8>], places: &[u16]) {
        let with_symbols = words.iter().map(|word| (symbols_at(places, word), word));
        let by_symbols: HashMap<Vec<u8>, &Vec<u8>> = with_symbols.collect();
        let two_agree = by_symbols.len() < words.len();
        for number in 0..4u32.pow(shape.k as u32) {
            let symbols = &sample::numbered_word(number, 4)[..shape.k];
            let expected = if two_agree {
                LEAVE_SEVERAL
            } else {
                Ok(by_symbols[symbols].clone())
            };
            assert_eq!(run_shaped(shape, places, symbols), expected, "{places:?}");
        }
    }

    /// The symbols of a codeword give it back. If they are refused, recovery from
    /// the same places finds several messages.
    #[test]
    fn arbitrary_places_agree_with_recovery_at_every_order() {
        let mut generator = Generator::with_seed(61);
        let mut refused = 0;
        for shape in Shape::every_short_in_both_series() {
            for _ in 0..16 {
                let word = sample::codeword(&mut generator, shape);
                let places = places::arbitrary(&mut generator, shape);
                let broken = places::known_at(&places, &word);
                let mut message = vec![0; shape.k];
                let (q, series) = (shape.q(), shape.series());
                let recovery = code::recover(q, series, shape.m, &broken, &mut message);
                let expected = match recovery.number {
                    0 => Ok(word.clone()),
                    number => {
                        assert_eq!(number, 10);
                        refused += 1;
                        LEAVE_SEVERAL
                    }
                };
                let symbols = symbols_at(&places, &word);
                assert_eq!(run_shaped(shape, &places, &symbols), expected);
            }
        }
        assert!(refused > 0);
    }

    #[test]
    fn the_symbols_stand_at_the_places_and_unencoding_works() {
        let mut generator = Generator::with_seed(62);
        for shape in Shape::every_short_in_both_series() {
            let places = places::staircase(&mut generator, shape);
            let symbols = sample::message(&mut generator, shape);
            let word = run_shaped(shape, &places, &symbols).expect("a set that fixes the word");
            assert_eq!(symbols_at(&places, &word), symbols);
            let mut message = vec![0; shape.k];
            let (q, series) = (shape.q(), shape.series());
            let outcome = code::unencode(q, series, shape.m, &word, &mut message);
            assert_eq!(outcome, Outcome::ACCEPTED);
            assert_eq!(shape.word_of(&message), word);
        }
    }

    /// The product of x - a over m / q columns a is 0 on all of them.
    #[test]
    fn places_in_few_columns_leave_several() {
        for shape in Shape::every_short_in_both_series() {
            if shape.k <= shape.columns_of_order() * usize::from(shape.q()) {
                let first: Vec<u16> = (0..shape.k as u16).collect();
                let zeros = vec![0; shape.k];
                assert_eq!(run_shaped(shape, &first, &zeros), LEAVE_SEVERAL);
            }
        }
    }

    /// Each call starts with every fault and loses them one by one.
    #[test]
    fn refusals_come_in_the_order_of_the_checks() {
        for shape in Shape::every_short_in_both_series() {
            refusals_up_to_the_places(shape);
            refusals_after_the_places(shape);
        }
    }

    fn refusals_up_to_the_places(shape: Shape) {
        let (q, series, m) = (shape.q(), shape.series(), shape.m);
        let bad_symbols = vec![shape.field_size; shape.k + 1];
        let bad_places = vec![u16::MAX; shape.k + 1];
        let refusal =
            |q, series, m, places: &[u16]| run(q, series, m, places, &bad_symbols, shape.n + 1);
        for curve_number in sample::BAD_CURVES {
            for (series, order) in [(series, m), (0, 64), (3, 255), (1, 256 + m), (2, u16::MAX)] {
                let outcome = refusal(curve_number, series, order, &bad_places);
                assert_eq!(outcome, Err(Outcome::UNKNOWN_CURVE));
            }
        }
        for bad_series in sample::BAD_SERIES {
            for order in [m, 64, u16::MAX] {
                let outcome = refusal(q, bad_series, order, &bad_places);
                assert_eq!(outcome, Err(Outcome::BAD_SERIES));
            }
        }
        for order in sample::numbers_too_high(shape.curve) {
            let outcome = refusal(q, series, order, &bad_places);
            assert_eq!(outcome, Err(Outcome::ORDER_TOO_HIGH));
        }
        for places in lists_that_are_no_places(shape) {
            let outcome = refusal(q, series, m, &places);
            assert_eq!(outcome, Err(Outcome::BAD_PLACES), "{places:?}");
        }
    }

    /// Too few, too many, repeated, descending, n or more.
    fn lists_that_are_no_places(shape: Shape) -> Vec<Vec<u16>> {
        let (n, k) = (shape.n as u16, shape.k as u16);
        let first = || 0..k;
        let mut lists = vec![vec![], first().skip(1).collect(), (0..=k).collect()];
        for index in 1..shape.k {
            let mut repeated: Vec<u16> = first().collect();
            repeated[index] -= 1;
            lists.push(repeated);
            let mut swapped: Vec<u16> = first().collect();
            swapped.swap(index - 1, index);
            lists.push(swapped);
        }
        for too_high in [n, 255, 256, 256 + k - 1, u16::MAX] {
            lists.push(first().take(shape.k - 1).chain([too_high]).collect());
        }
        lists
    }

    /// The first k places, which leave several at some orders; 16 comes last.
    fn refusals_after_the_places(shape: Shape) {
        let Shape { m, n, k, .. } = shape;
        let (q, series) = (shape.q(), shape.series());
        let places: Vec<u16> = (0..k as u16).collect();
        for length in [0, k - 1, k + 1, n + 1, 300] {
            let outcome = run(q, series, m, &places, &vec![255; length], n + 1);
            assert_eq!(outcome, Err(Outcome::WRONG_INPUT_LENGTH));
        }
        for index in 0..k {
            for value in [shape.field_size, 254, 255] {
                let mut symbols = vec![0; k];
                symbols[index..].fill(value);
                let outcome = run(q, series, m, &places, &symbols, n + 1);
                assert_eq!(outcome, Err(Outcome::value_too_high(index as u16)));
            }
        }
        for length in [0, k, n - 1, n + 1, 155] {
            if length != n {
                let outcome = run(q, series, m, &places, &vec![0; k], length);
                assert_eq!(outcome, Err(Outcome::WRONG_OUTPUT_LENGTH));
            }
        }
        let outcome = run(q, series, m, &places, &vec![0; k], n);
        assert!(outcome == Ok(vec![0; n]) || outcome == LEAVE_SEVERAL);
    }
}
