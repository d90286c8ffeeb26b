//! The mender of request T-03, for words with wrong symbols.
//!
//! The smaller curve has so few messages that each is tried. On the larger one
//! two polynomials are found together, f of order s = t + g and h of order
//! m + s, with f(P) * r(P) = h(P) at every place P of the word r.
//!
//! A codeword c within t of r gives such a pair: f has more than t coefficients,
//! so one that isn't 0 vanishes wherever c and r differ, and h is f * c. And for
//! every pair f * c - h vanishes wherever c and r agree. These are at least n - t
//! places, more than its order m + s, so h is f * c. Hence c and r agree wherever
//! f doesn't vanish, at n - s places or more, and m + 1 of them give c. Of a pair
//! that isn't 0, f isn't 0, since h would vanish at all n places with it.

use crate::checks::{self, MISSING};
use crate::code::Code;
use crate::curve::Curve;
use crate::linear;
use crate::outcome::Outcome;
use crate::sample::{self, Shape};

/// A message and its word.
type Codeword = (Vec<u8>, Vec<u8>);

/// Writes the only codeword that differs from the word in at most t places: its
/// message, itself, and 1 for each symbol that was changed, 0 for the others.
/// Beside the outcome stands the count of changes, 0 if the call is refused.
pub fn mend(
    q: u8,
    series: u8,
    m: u16,
    word: &[u8],
    message: &mut [u8],
    mended: &mut [u8],
    marks: &mut [u8],
) -> (Outcome, u8) {
    match try_mend(q, series, m, word, message, mended, marks) {
        Ok(count) => (Outcome::ACCEPTED, count),
        Err(refusal) => (refusal, 0),
    }
}

fn try_mend(
    q: u8,
    series: u8,
    m: u16,
    word: &[u8],
    message: &mut [u8],
    mended: &mut [u8],
    marks: &mut [u8],
) -> Result<u8, Outcome> {
    let mender = Mender::of_order(checks::short_curve_and_order(q, series, m)?, m)?;
    let Shape { n, k, curve, .. } = mender.shape;
    checks::input_length(word, n)?;
    checks::symbols(curve.field(), word)?;
    checks::output_length(message, k)?;
    checks::output_length(mended, n)?;
    checks::output_length(marks, n)?;
    let near = mender.codeword_near(word);
    let (near_message, near_word) = near.ok_or(Outcome::NO_CODEWORD_NEAR)?;
    message.copy_from_slice(&near_message);
    mended.copy_from_slice(&near_word);
    marks.copy_from_slice(&marks_of_changes(word, &near_word));
    // At most t, which is 28 or less.
    Ok(count_of_changes(word, &near_word) as u8)
}

fn marks_of_changes(word: &[u8], mended: &[u8]) -> Vec<u8> {
    let pairs = word.iter().zip(mended);
    pairs
        .map(|(before, after)| u8::from(before != after))
        .collect()
}

fn count_of_changes(word: &[u8], mended: &[u8]) -> usize {
    let pairs = word.iter().zip(mended);
    pairs.filter(|(before, after)| before != after).count()
}

/// Mending at one order, where t is `radius`.
struct Mender {
    shape: Shape,
    radius: usize,
}

impl Mender {
    /// Refusal 12 if the order is too high for it.
    fn of_order(curve: Curve, m: u16) -> Result<Mender, Outcome> {
        Ok(Mender {
            shape: Shape::of(curve, m),
            radius: checks::radius(curve, m)?,
        })
    }

    /// The only codeword within t of the word, if there is one.
    fn codeword_near(&self, word: &[u8]) -> Option<Codeword> {
        if self.shape.q() == 2 {
            self.by_trial(word, sample::all_messages_with_words(self.shape))
        } else {
            self.by_recovery(word)
        }
    }

    fn is_near(&self, word: &[u8], codeword: &[u8]) -> bool {
        count_of_changes(word, codeword) <= self.radius
    }

    fn by_trial(
        &self,
        word: &[u8],
        codewords: impl IntoIterator<Item = Codeword>,
    ) -> Option<Codeword> {
        codewords
            .into_iter()
            .find(|(_, codeword)| self.is_near(word, codeword))
    }

    /// Recovery from the places where f isn't 0, on either curve.
    fn by_recovery(&self, word: &[u8]) -> Option<Codeword> {
        let mut broken = word.to_vec();
        for (symbol, value) in broken.iter_mut().zip(self.values_of_f(word)?) {
            if value == 0 {
                *symbol = MISSING;
            }
        }
        let code = Code::of_order(self.shape.curve, self.shape.m);
        let message = code.only_fitting_message(&broken).ok()?;
        let codeword = code.word_of(&message);
        self.is_near(word, &codeword).then_some((message, codeword))
    }

    /// The values at all places of the f of a pair that isn't 0, if there is one.
    fn values_of_f(&self, word: &[u8]) -> Option<Vec<u8>> {
        let Shape { curve, m, .. } = self.shape;
        // The order of h stays below n.
        let s = (self.radius + curve.genus()) as u16;
        let of_f = Code::of_order(curve, s);
        let of_h = Code::of_order(curve, m + s);
        let field = curve.field();
        let equation = |(&point, &symbol)| {
            let terms_of_f = of_f.term_values(point).into_iter();
            let left = terms_of_f.map(|value| field.product(value, symbol));
            // Minus is plus in characteristic 2.
            left.chain(of_h.term_values(point)).collect()
        };
        let equations = of_f.points.iter().zip(word).map(equation).collect();
        let unknowns = of_f.terms.len() + of_h.terms.len();
        let pair = linear::nonzero_solution(field, equations, unknowns)?;
        Some(of_f.word_of(&pair[..of_f.terms.len()]))
    }
}

#[cfg(test)]
mod tests {
    use super::*;
    use crate::code;
    use crate::curve::Series;
    use crate::generator::Generator;

    /// What an accepted call gives.
    #[derive(Debug, PartialEq, Eq)]
    struct Mended {
        message: Vec<u8>,
        word: Vec<u8>,
        marks: Vec<u8>,
        count: u8,
    }

    /// The result of a call with slices of the lengths for message, word and
    /// marks, or its refusal after a look that nothing was written.
    fn run(
        q: u8,
        series: u8,
        m: u16,
        input: &[u8],
        lengths: [usize; 3],
    ) -> Result<Mended, Outcome> {
        let before = lengths.map(|length| (100..).take(length).collect::<Vec<u8>>());
        let [mut message, mut word, mut marks] = before.clone();
        let (outcome, count) = mend(q, series, m, input, &mut message, &mut word, &mut marks);
        if outcome != Outcome::ACCEPTED {
            assert_eq!([message, word, marks], before);
            assert_eq!(count, 0);
            return Err(outcome);
        }
        Ok(Mended {
            message,
            word,
            marks,
            count,
        })
    }

    fn run_shaped(shape: Shape, input: &[u8]) -> Result<Mended, Outcome> {
        let lengths = [shape.k, shape.n, shape.n];
        run(shape.q(), shape.series(), shape.m, input, lengths)
    }

    /// In both series.
    fn every_mended() -> impl Iterator<Item = (Shape, usize)> {
        Series::BOTH.into_iter().flat_map(Shape::every_mended_in)
    }

    const NOTHING_NEAR: Result<Mended, Outcome> = Err(Outcome::NO_CODEWORD_NEAR);

    #[test]
    fn value_e_with_wrong_symbols() {
        let mended = |marks, count| Mended {
            message: vec![1, 2, 3],
            word: vec![1, 2, 2, 1, 3, 0, 1, 2],
            marks,
            count,
        };
        let run = |word: [u8; 8]| {
            let [one, two] = [1, 2].map(|series| run(2, series, 3, &word, [3, 8, 8]));
            assert_eq!(one, two);
            one
        };
        assert_eq!(run([1, 2, 2, 1, 3, 0, 1, 2]), Ok(mended(vec![0; 8], 0)));
        let third = vec![0, 0, 1, 0, 0, 0, 0, 0];
        assert_eq!(run([1, 2, 0, 1, 3, 0, 1, 2]), Ok(mended(third, 1)));
        let last = vec![0, 0, 0, 0, 0, 0, 0, 1];
        assert_eq!(run([1, 2, 2, 1, 3, 0, 1, 3]), Ok(mended(last, 1)));
        // t is 1 and codewords differ in 5 places or more, so E is the nearest.
        assert_eq!(run([1, 2, 0, 0, 3, 0, 1, 2]), NOTHING_NEAR);
    }

    /// At order 0 every word holds one symbol, and t is 3.
    #[test]
    fn the_symbol_of_five_places_wins_at_order_0() {
        let five = run(2, 1, 0, &[3, 1, 1, 2, 1, 0, 1, 1], [1, 8, 8]);
        let expected = Mended {
            message: vec![1],
            word: vec![1; 8],
            marks: vec![1, 0, 0, 1, 0, 1, 0, 0],
            count: 3,
        };
        assert_eq!(five, Ok(expected));
        let four = run(2, 1, 0, &[3, 1, 1, 2, 1, 0, 1, 2], [1, 8, 8]);
        assert_eq!(four, NOTHING_NEAR);
    }

    #[test]
    fn at_t_0_only_codewords_pass() {
        for (shape, _) in every_mended().filter(|&(_, radius)| radius == 0) {
            let zeros = run_shaped(shape, &vec![0; shape.n]).expect("a codeword");
            assert_eq!(zeros.count, 0);
            for place in 0..shape.n {
                let mut word = vec![0; shape.n];
                word[place] = 1;
                assert_eq!(run_shaped(shape, &word), NOTHING_NEAR);
            }
        }
    }

    #[test]
    fn up_to_t_wrong_symbols_are_mended_at_every_order() {
        let mut generator = Generator::with_seed(51);
        for (shape, radius) in every_mended() {
            for count in 0..=radius {
                let message = sample::message(&mut generator, shape);
                let codeword = shape.word_of(&message);
                let word = sample::with_wrong(&mut generator, shape, &codeword, count);
                let expected = Mended {
                    marks: marks_of_changes(&codeword, &word),
                    message,
                    word: codeword,
                    count: count as u8,
                };
                assert_eq!(run_shaped(shape, &word), Ok(expected));
            }
        }
    }

    /// Codewords differ in n - m places or more, so another one within t needs
    /// n - m - t wrong symbols.
    #[test]
    fn more_than_t_wrong_symbols_are_refused_while_no_other_codeword_is_near() {
        let mut generator = Generator::with_seed(52);
        for (shape, radius) in every_mended() {
            let enough = shape.n - usize::from(shape.m) - radius;
            for count in [radius + 1, radius + 2, enough - 1] {
                if radius < count && count < enough {
                    let codeword = sample::codeword(&mut generator, shape);
                    let word = sample::with_wrong(&mut generator, shape, &codeword, count);
                    assert_eq!(run_shaped(shape, &word), NOTHING_NEAR);
                }
            }
        }
    }

    #[test]
    fn the_strap_mends_ten_wrong_symbols_wherever_they_are() {
        let mut generator = Generator::with_seed(53);
        let in_both_series = Curve::Q_IS_4.in_both_series();
        for (first, curve) in (0..=64 - 11).zip(in_both_series.into_iter().cycle()) {
            let shape = Shape::of(curve, 37);
            let codeword = sample::codeword(&mut generator, shape);
            let mut word = codeword.clone();
            for symbol in &mut word[first..first + 10] {
                *symbol = sample::another_symbol(&mut generator, shape, *symbol);
            }
            let mended = run_shaped(shape, &word).expect("ten wrong symbols");
            assert_eq!((mended.word, mended.count), (codeword, 10));
            let place = first + 10;
            word[place] = sample::another_symbol(&mut generator, shape, word[place]);
            assert_eq!(run_shaped(shape, &word), NOTHING_NEAR);
        }
    }

    /// Both agree on many columns, and t of the word's symbols are the other's.
    #[test]
    fn the_nearer_of_two_codewords_is_given() {
        let mut generator = Generator::with_seed(54);
        for (shape, radius) in every_mended() {
            let codeword = sample::codeword(&mut generator, shape);
            let neighbour = sample::neighbour(&mut generator, shape, &codeword);
            let word = sample::on_the_way(&codeword, &neighbour, radius);
            let mended = run_shaped(shape, &word).expect("a codeword is near");
            assert_eq!((mended.word, mended.count), (codeword, radius as u8));
        }
    }

    /// Both methods on all words of 8 symbols at all orders, and no word has two
    /// codewords near.
    #[test]
    fn both_methods_agree_on_the_smaller_curve() {
        for (shape, radius) in Shape::every_mended().filter(|(shape, _)| shape.q() == 2) {
            let mender = Mender { shape, radius };
            let codewords = sample::all_messages_with_words(shape);
            let mut near_count = 0;
            for number in 0..4u32.pow(8) {
                let word = sample::numbered_word(number, 4);
                let by_recovery = mender.by_recovery(&word);
                near_count += usize::from(by_recovery.is_some());
                let near = codewords.iter().filter(|(_, c)| mender.is_near(&word, c));
                assert!(near.eq(&by_recovery), "{word:?}");
            }
            assert_eq!(near_count, codewords.len() * words_within(radius));
        }
    }

    /// How many words of 8 symbols out of 4 differ from one in at most `radius`
    /// places.
    fn words_within(radius: usize) -> usize {
        [
            1,
            1 + 8 * 3,
            1 + 8 * 3 + 28 * 9,
            1 + 8 * 3 + 28 * 9 + 56 * 27,
        ][radius]
    }

    /// The orders of the larger curve that have few messages.
    #[test]
    fn both_methods_agree_on_the_larger_curve() {
        let mut generator = Generator::with_seed(55);
        for m in [0, 3, 4, 5] {
            let mender = Mender::of_order(Curve::Q_IS_4, m).expect("a low order");
            let Mender { shape, radius } = mender;
            let codewords = sample::all_messages_with_words(shape);
            for count in (0..=shape.n).chain(radius - 1..radius + 4) {
                let codeword = sample::codeword(&mut generator, shape);
                let word = sample::with_wrong(&mut generator, shape, &codeword, count);
                let by_trial = mender.by_trial(&word, codewords.clone());
                assert_eq!(mender.by_recovery(&word), by_trial);
            }
        }
    }

    /// The f that is found always leaves m + 1 symbols for recovery.
    #[test]
    fn f_is_never_0_and_vanishes_at_s_places_at_most() {
        let mut generator = Generator::with_seed(56);
        for (shape, radius) in every_mended() {
            let mender = Mender { shape, radius };
            let codeword = sample::codeword(&mut generator, shape);
            for count in [0, radius, radius + 1, shape.n / 2] {
                let word = sample::with_wrong(&mut generator, shape, &codeword, count);
                if let Some(values) = mender.values_of_f(&word) {
                    let zeros = values.iter().filter(|&&value| value == 0).count();
                    assert!(zeros <= radius + shape.curve.genus());
                } else {
                    assert!(count > radius);
                }
            }
        }
    }

    #[test]
    fn unencoding_accepts_the_mended_word_and_not_the_wrong_one() {
        let shape = Shape::of(Curve::Q_IS_4, 37);
        let mut generator = Generator::with_seed(57);
        let codeword = sample::codeword(&mut generator, shape);
        let word = sample::damaged(&mut generator, shape, &codeword);
        let mut message = vec![0; shape.k];
        let outcome = code::unencode(4, 1, 37, &word, &mut message);
        assert_eq!(outcome, Outcome::NO_MESSAGE_FITS);
        let mended = run_shaped(shape, &word).expect("one wrong symbol");
        let outcome = code::unencode(4, 1, 37, &mended.word, &mut message);
        assert_eq!(outcome, Outcome::ACCEPTED);
        assert_eq!(message, mended.message);
    }

    /// Each call starts with every fault and loses them one by one.
    #[test]
    fn refusals_come_in_the_order_of_the_checks() {
        for shape in Shape::every_short_in_both_series() {
            let (q, m, n, bad) = (shape.q(), shape.m, shape.n, shape.field_size);
            let (series, bad_word) = (shape.series(), vec![bad; n + 1]);
            let too_long = [shape.k + 1, n + 1, n + 1];
            for curve_number in (0..=255).filter(|number| ![2, 4].contains(number)) {
                for (series, order) in [(0, 255), (series, 256 + m), (3, u16::MAX)] {
                    let outcome = run(curve_number, series, order, &bad_word, too_long);
                    assert_eq!(outcome, Err(Outcome::UNKNOWN_CURVE));
                }
            }
            for (bad_series, order) in sample::BAD_SERIES
                .map(|bad| [(bad, m), (bad, 255)])
                .concat()
            {
                let outcome = run(q, bad_series, order, &bad_word, too_long);
                assert_eq!(outcome, Err(Outcome::BAD_SERIES));
            }
            for order in (n as u16..=255).chain(sample::numbers_too_high(shape.curve)) {
                let outcome = run(q, series, order, &bad_word, too_long);
                assert_eq!(outcome, Err(Outcome::ORDER_TOO_HIGH));
            }
            if shape.curve.radius(m).is_none() {
                let outcome = run(q, series, m, &bad_word, too_long);
                assert_eq!(outcome, Err(Outcome::ORDER_TOO_HIGH_TO_MEND));
                let outcome = run_shaped(shape, &vec![0; n]);
                assert_eq!(outcome, Err(Outcome::ORDER_TOO_HIGH_TO_MEND));
            } else {
                refusals_from_3_on(shape, too_long);
            }
        }
    }

    fn refusals_from_3_on(shape: Shape, too_long: [usize; 3]) {
        let (q, series, m) = (shape.q(), shape.series(), shape.m);
        let (n, bad) = (shape.n, shape.field_size);
        for length in [0, n - 1, n + 1, 72, 255, 256, 300] {
            let outcome = run(q, series, m, &vec![bad; length], too_long);
            assert_eq!(outcome, Err(Outcome::WRONG_INPUT_LENGTH));
        }
        for index in 0..n {
            for value in [bad, 254, MISSING] {
                let mut word = vec![0; n];
                word[index..].fill(value);
                let outcome = run(q, series, m, &word, too_long);
                assert_eq!(outcome, Err(Outcome::value_too_high(index as u16)));
            }
        }
        // t + 1 wrong symbols, which 5 is refused before.
        let mut far = vec![0; n];
        let radius = shape.curve.radius(m).expect("an order of the mender");
        far[..=radius].fill(1);
        assert_eq!(run_shaped(shape, &far), NOTHING_NEAR);
        for slice in 0..3 {
            let right = [shape.k, n, n];
            for length in [0, right[slice] - 1, right[slice] + 1, 72, 155] {
                let mut lengths = right;
                lengths[slice] = length;
                let outcome = run(q, series, m, &far, lengths);
                assert_eq!(outcome, Err(Outcome::WRONG_OUTPUT_LENGTH));
            }
        }
        assert!(run_shaped(shape, &vec![0; n]).is_ok());
    }
}
