//! The converter of request T-11: a word of one series as the word of the other,
//! which has the same symbol or missing mark at each point.

use crate::checks;
use crate::outcome::Outcome;

/// Writes the word, whole or broken, of the named series as the word of the other.
pub fn convert(q: u8, series: u8, word: &[u8], out: &mut [u8]) -> Outcome {
    Outcome::from(try_convert(q, series, word, out))
}

fn try_convert(q: u8, series: u8, word: &[u8], out: &mut [u8]) -> Result<(), Outcome> {
    let from = checks::curve(q, series)?;
    checks::input_length(word, from.point_count())?;
    checks::symbols_or_missing(from.field(), word)?;
    checks::output_length(out, from.point_count())?;
    let other = from.in_series(from.series().other());
    let points = from.points();
    for (written, point) in out.iter_mut().zip(other.points()) {
        let place = points.iter().position(|&listed| listed == point);
        *written = word[place.expect("both series list every point")];
    }
    Ok(())
}

#[cfg(test)]
mod tests {
    use super::*;
    use crate::code::{self, MISSING};
    use crate::curve::{Curve, Series};
    use crate::generator::Generator;
    use crate::sample::{self, Shape};

    /// The word of a call, or its refusal after a look that nothing was written.
    fn run(q: u8, series: u8, word: &[u8], length: usize) -> Result<Vec<u8>, Outcome> {
        let before: Vec<u8> = (0..length).map(|index| 100 + (index % 99) as u8).collect();
        let mut out = before.clone();
        match convert(q, series, word, &mut out) {
            Outcome::ACCEPTED => Ok(out),
            refusal => {
                assert_eq!(out, before, "a refusal leaves lent memory unchanged");
                Err(refusal)
            }
        }
    }

    fn converted(curve: Curve, word: &[u8]) -> Vec<u8> {
        let series = curve.series().number();
        run(curve.q(), series, word, word.len()).expect("a word")
    }

    /// Some orders of each curve, in the series.
    fn some_shapes(series: Series) -> impl Iterator<Item = Shape> {
        let orders = [(2, 0), (2, 3), (2, 7), (4, 0), (4, 4), (4, 37), (4, 63)];
        let long_orders = [(8, 0), (8, 8), (8, 55), (8, 300), (8, 511)];
        orders.into_iter().chain(long_orders).map(move |(q, m)| {
            let curve = Curve::named(q).expect("one of the three curves");
            Shape::of(curve.in_series(series), m)
        })
    }

    /// Any symbols, with any number of them missing.
    fn arbitrary_word(generator: &mut Generator, shape: Shape) -> Vec<u8> {
        let whole = sample::symbols(generator, shape, shape.n);
        let known = generator.below(shape.n + 1);
        sample::with_known(generator, &whole, known)
    }

    /// Columns 0 to 2 are the same in both series, 3 of series 2 is x = 4, and the last
    /// one is x = 9.
    #[test]
    fn places_of_q_4() {
        let symbols: Vec<u8> = (0..64).map(|place| place % 13).collect();
        let to_1 = run(4, 2, &symbols, 64).expect("a word");
        assert_eq!(to_1[..12], symbols[..12]);
        assert_eq!(to_1[16..20], symbols[12..16]);
        assert_eq!(to_1[36..40], symbols[60..]);
        let to_2 = run(4, 1, &symbols, 64).expect("a word");
        assert_eq!(to_2[..12], symbols[..12]);
        assert_eq!(to_2[12..16], symbols[16..20]);
        assert_eq!(to_2[60..], symbols[36..40]);
    }

    #[test]
    fn words_of_q_2_stay_as_they_are() {
        for number in 0..5u32.pow(8) {
            let word = sample::numbered_word(number, 5);
            for series in [1, 2] {
                assert_eq!(run(2, series, &word, 8).as_ref(), Ok(&word));
            }
        }
    }

    /// A word with one known symbol for each place in turn.
    #[test]
    fn each_place_goes_to_the_place_of_its_point() {
        for curve in Curve::ALL.into_iter().flat_map(Curve::in_both_series) {
            let (from, n) = (curve.points(), curve.point_count());
            let to = curve.in_series(curve.series().other()).points();
            for place in 0..n {
                let mut word = vec![MISSING; n];
                word[place] = 3;
                let out = converted(curve, &word);
                assert_eq!(sample::known_count(&out), 1);
                let target = out.iter().position(|&symbol| symbol == 3).expect("known");
                assert_eq!(to[target], from[place]);
            }
        }
    }

    #[test]
    fn there_and_back_gives_the_word_with_its_missing_marks() {
        let mut generator = Generator::with_seed(101);
        for shape in Series::BOTH.into_iter().flat_map(some_shapes) {
            let other = shape.curve.in_series(shape.curve.series().other());
            for _ in 0..20 {
                let word = arbitrary_word(&mut generator, shape);
                let there = converted(shape.curve, &word);
                assert_eq!(sample::known_count(&there), sample::known_count(&word));
                assert_eq!(converted(other, &there), word);
            }
            let nothing = vec![MISSING; shape.n];
            assert_eq!(converted(shape.curve, &nothing), nothing);
        }
    }

    #[test]
    fn the_word_of_a_message_becomes_its_word_in_the_other_series() {
        let mut generator = Generator::with_seed(102);
        let pairs = some_shapes(Series::One).zip(some_shapes(Series::Two));
        for (one, two) in pairs.chain(some_shapes(Series::Two).zip(some_shapes(Series::One))) {
            let message = sample::message(&mut generator, one);
            assert_eq!(
                converted(one.curve, &one.word_of(&message)),
                two.word_of(&message)
            );
        }
    }

    /// What recovery says, too, where no message fits or several do.
    #[test]
    fn recovery_says_the_same_of_a_converted_word_at_every_order() {
        let mut generator = Generator::with_seed(103);
        for shape in Shape::every_short_in_both_series() {
            let codeword = sample::codeword(&mut generator, shape);
            let known = generator.below(shape.n + 1);
            let broken = sample::with_known(&mut generator, &codeword, known);
            let damaged = sample::damaged(&mut generator, shape, &broken);
            let other = shape.curve.series().other().number();
            for word in [codeword, broken, damaged] {
                let [mut message, mut of_other] = [(); 2].map(|()| vec![99; shape.k]);
                let there = converted(shape.curve, &word);
                let outcome =
                    code::recover(shape.q(), shape.series(), shape.m, &word, &mut message);
                let same = code::recover(shape.q(), other, shape.m, &there, &mut of_other);
                assert_eq!((outcome, message), (same, of_other));
            }
        }
    }

    /// Each call starts with every fault and loses them one by one.
    #[test]
    fn refusals_come_in_the_order_of_the_checks() {
        for curve in Curve::ALL.into_iter().flat_map(Curve::in_both_series) {
            let (q, series) = (curve.q(), curve.series().number());
            let (n, bad) = (curve.point_count(), curve.field().size());
            let too_long = vec![bad; n + 1];
            for curve_number in (0..=255).filter(|number| ![2, 4, 8].contains(number)) {
                for named in [0, series, 3, 255] {
                    let refused = run(curve_number, named, &too_long, n + 1);
                    assert_eq!(refused, Err(Outcome::UNKNOWN_CURVE));
                }
            }
            for number in (0..=255).filter(|number| ![1, 2].contains(number)) {
                let refused = run(q, number, &too_long, n + 1);
                assert_eq!(refused, Err(Outcome::BAD_SERIES));
            }
            for length in [0, 1, n - 1, n + 1, 63, 65, 256 + n] {
                let refused = run(q, series, &vec![bad; length], n + 1);
                assert_eq!(refused, Err(Outcome::WRONG_INPUT_LENGTH));
            }
            for (index, value) in (0..n).flat_map(|index| [bad, 128, 254].map(|v| (index, v))) {
                let mut word = vec![MISSING; n];
                word[index..].fill(value);
                let refused = run(q, series, &word, n + 1);
                assert_eq!(refused, Err(Outcome::value_too_high(index as u16)));
            }
            for length in [0, 1, n - 1, n + 1, 63, 65, 256 + n] {
                let refused = run(q, series, &vec![MISSING; n], length);
                assert_eq!(refused, Err(Outcome::WRONG_OUTPUT_LENGTH));
            }
        }
    }
}
