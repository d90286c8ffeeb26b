//! Encoding, unencoding of whole words and recovery from broken words.

use crate::checks;
use crate::curve::{Curve, Point, Term};
use crate::field::Field;
use crate::linear::{self, Equation, Solutions};
use crate::outcome::Outcome;

pub use crate::checks::{MISSING, WORK_LENGTH};

/// Writes the word of a message.
pub fn encode(q: u8, series: u8, m: u16, message: &[u8], word: &mut [u8]) -> Outcome {
    let curve = checks::curve(q, series);
    Outcome::from(curve.and_then(|curve| try_encode(curve, m, message, word)))
}

/// Writes the message of a whole word.
pub fn unencode(q: u8, series: u8, m: u16, word: &[u8], message: &mut [u8]) -> Outcome {
    let curve = checks::curve(q, series);
    Outcome::from(curve.and_then(|curve| try_unencode(curve, m, word, message)))
}

/// Writes the only message that fits a broken word of a short block.
pub fn recover(q: u8, series: u8, m: u16, word: &[u8], message: &mut [u8]) -> Outcome {
    let curve = checks::short_curve(q, series);
    Outcome::from(curve.and_then(|curve| try_recover(curve, m, word, message)))
}

/// Writes the only message that fits a broken word of a long block (request T-09,
/// q = 8). What the work slice holds afterwards is left open on success and with
/// the refusals 9 and 10; here it is only looked at for its length.
pub fn recover_long(
    series: u8,
    m: u16,
    word: &[u8],
    message: &mut [u8],
    work: &mut [u8],
) -> Outcome {
    let curve = checks::in_series(Curve::Q_IS_8, series);
    Outcome::from(curve.and_then(|curve| try_recover_long(curve, m, word, message, work)))
}

fn try_encode(curve: Curve, m: u16, message: &[u8], word: &mut [u8]) -> Result<(), Outcome> {
    checks::order(curve, m)?;
    Code::of_order(curve, m).encode(message, word)
}

fn try_unencode(curve: Curve, m: u16, word: &[u8], message: &mut [u8]) -> Result<(), Outcome> {
    checks::order(curve, m)?;
    Code::of_order(curve, m).unencode(word, message)
}

fn try_recover(curve: Curve, m: u16, word: &[u8], message: &mut [u8]) -> Result<(), Outcome> {
    checks::order(curve, m)?;
    Code::of_order(curve, m).recover(word, message)
}

fn try_recover_long(
    curve: Curve,
    m: u16,
    word: &[u8],
    message: &mut [u8],
    work: &mut [u8],
) -> Result<(), Outcome> {
    checks::order(curve, m)?;
    let code = Code::of_order(curve, m);
    code.check_slices(word, message, checks::symbols_or_missing)?;
    checks::work_length(work)?;
    code.write_only_fitting_message(word, message)
}

/// The code of one order on a list of points: its terms are what messages have
/// coefficients for.
pub(crate) struct Code {
    field: Field,
    pub(crate) points: Vec<Point>,
    pub(crate) terms: Vec<Term>,
}

impl Code {
    /// On all points of the curve, in its series.
    pub(crate) fn of_order(curve: Curve, m: u16) -> Code {
        Code::on_columns(curve, &curve.columns(), m)
    }

    /// On the points of these columns only, in the order of the list.
    pub(crate) fn on_columns(curve: Curve, columns: &[u8], m: u16) -> Code {
        Code {
            field: curve.field(),
            points: curve.points_of(columns),
            terms: curve.terms(m),
        }
    }

    /// The checks 3 to 5 and encoding.
    pub(crate) fn encode(&self, message: &[u8], word: &mut [u8]) -> Result<(), Outcome> {
        checks::input_length(message, self.terms.len())?;
        checks::symbols(self.field, message)?;
        checks::output_length(word, self.points.len())?;
        word.copy_from_slice(&self.word_of(message));
        Ok(())
    }

    /// The checks 3 to 5 and unencoding.
    pub(crate) fn unencode(&self, word: &[u8], message: &mut [u8]) -> Result<(), Outcome> {
        self.check_slices(word, message, checks::symbols)?;
        self.write_only_fitting_message(word, message)
    }

    /// The checks 3 to 5 and recovery.
    pub(crate) fn recover(&self, word: &[u8], message: &mut [u8]) -> Result<(), Outcome> {
        self.check_slices(word, message, checks::symbols_or_missing)?;
        self.write_only_fitting_message(word, message)
    }

    /// The checks 3 to 5 of a word to be read. Unencoding and recovery differ in the
    /// values that they allow and in nothing else: a whole word is a broken word with
    /// nothing missing.
    fn check_slices(
        &self,
        word: &[u8],
        message: &[u8],
        check_values: fn(Field, &[u8]) -> Result<(), Outcome>,
    ) -> Result<(), Outcome> {
        checks::input_length(word, self.points.len())?;
        check_values(self.field, word)?;
        checks::output_length(message, self.terms.len())
    }

    pub(crate) fn word_of(&self, message: &[u8]) -> Vec<u8> {
        let points = self.points.iter();
        points.map(|&point| self.value(message, point)).collect()
    }

    /// The message's polynomial at one point.
    fn value(&self, message: &[u8], point: Point) -> u8 {
        let coefficients = message.iter().zip(self.term_values(point));
        coefficients.fold(0, |sum, (&coefficient, value)| {
            let part = self.field.product(coefficient, value);
            self.field.sum(sum, part)
        })
    }

    /// The message only if exactly one fits.
    fn write_only_fitting_message(&self, word: &[u8], message: &mut [u8]) -> Result<(), Outcome> {
        message.copy_from_slice(&self.only_fitting_message(word)?);
        Ok(())
    }

    pub(crate) fn only_fitting_message(&self, word: &[u8]) -> Result<Vec<u8>, Outcome> {
        match linear::solve(self.field, self.equations(word), self.terms.len()) {
            Solutions::None => Err(Outcome::NO_MESSAGE_FITS),
            Solutions::One(message) => Ok(message),
            // There are at most 484 terms.
            Solutions::Several { free_unknowns } => {
                Err(Outcome::several_messages_fit(free_unknowns as u16))
            }
        }
    }

    /// One equation for each known symbol: the terms' values at its point,
    /// times the message's coefficients, give the symbol.
    fn equations(&self, word: &[u8]) -> Vec<Equation> {
        let places = self.points.iter().zip(word);
        let known = places.filter(|(_, &symbol)| symbol != MISSING);
        known
            .map(|(&point, &symbol)| Equation {
                coefficients: self.term_values(point),
                value: symbol,
            })
            .collect()
    }

    /// Every term at one point.
    pub(crate) fn term_values(&self, point: Point) -> Vec<u8> {
        let highest = |power: fn(&Term) -> usize| self.terms.iter().map(power).max().unwrap_or(0);
        let x_powers = self.field.powers(point.x, highest(|term| term.x_power));
        let y_powers = self.field.powers(point.y, highest(|term| term.y_power));
        let terms = self.terms.iter();
        terms
            .map(|term| {
                let (x_part, y_part) = (x_powers[term.x_power], y_powers[term.y_power]);
                self.field.product(x_part, y_part)
            })
            .collect()
    }
}

#[cfg(test)]
mod long_tests;

#[cfg(test)]
mod tests {
    use super::*;
    use crate::generator::Generator;
    use crate::sample::{self, Shape};

    type Call = fn(u8, u8, u16, &[u8], &mut [u8]) -> Outcome;

    const BAD_CURVES: [u8; 8] = [0, 1, 3, 5, 6, 7, 16, 255];

    /// The result of a call, or its refusal after a look that nothing was
    /// written.
    fn run(
        call: Call,
        q: u8,
        series: u8,
        m: u16,
        input: &[u8],
        length: usize,
    ) -> Result<Vec<u8>, Outcome> {
        let before: Vec<u8> = (0..length).map(|index| 100 + index as u8).collect();
        let mut output = before.clone();
        match call(q, series, m, input, &mut output) {
            Outcome::ACCEPTED => Ok(output),
            refusal => {
                assert_eq!(output, before, "a refusal leaves lent memory unchanged");
                Err(refusal)
            }
        }
    }

    fn decode(call: Call, shape: Shape, word: &[u8]) -> Result<Vec<u8>, Outcome> {
        run(call, shape.q(), shape.series(), shape.m, word, shape.k)
    }

    /// A call at q = 2, where both series are the same list.
    fn run_small(call: Call, m: u16, input: &[u8], length: usize) -> Result<Vec<u8>, Outcome> {
        let [one, two] = [1, 2].map(|series| run(call, 2, series, m, input, length));
        assert_eq!(one, two);
        one
    }

    #[test]
    fn value_e() {
        let word = vec![1, 2, 2, 1, 3, 0, 1, 2];
        assert_eq!(run_small(encode, 3, &[1, 2, 3], 8), Ok(word.clone()));
        assert_eq!(run_small(unencode, 3, &word, 3), Ok(vec![1, 2, 3]));
        assert_eq!(run_small(recover, 3, &word, 3), Ok(vec![1, 2, 3]));
    }

    #[test]
    fn value_f() {
        let word = vec![0, 1, 3, 2, 0, 1, 1, 0];
        assert_eq!(run_small(encode, 3, &[0, 1, 1], 8), Ok(word.clone()));
        assert_eq!(run_small(unencode, 3, &word, 3), Ok(vec![0, 1, 1]));
    }

    #[test]
    fn value_g() {
        let word = [0, 0, 255, 255, 255, 255, 255, 255];
        let expected = Err(Outcome::several_messages_fit(1));
        assert_eq!(run_small(recover, 2, &word, 2), expected);
    }

    #[test]
    fn value_h() {
        let mut word = [0, 255, 255, 255, 0, 255, 255, 0];
        let expected = Err(Outcome::several_messages_fit(1));
        assert_eq!(run_small(recover, 3, &word, 3), expected);
        word[1] = 1;
        assert_eq!(run_small(recover, 3, &word, 3), Ok(vec![0, 1, 1]));
    }

    #[test]
    fn value_i() {
        let word = [0, 0, 0, 0, 0, 0, 0, 1];
        let expected = Err(Outcome::NO_MESSAGE_FITS);
        assert_eq!(run_small(unencode, 7, &word, 7), expected);
        assert_eq!(run_small(recover, 7, &word, 7), expected);
    }

    /// x, the message 0 1 of order 4: each column holds its own x.
    #[test]
    fn each_series_lists_the_columns_in_its_order() {
        let columns = [
            (1, [0, 1, 2, 3, 4, 5, 6, 7, 8, 9, 10, 11, 12, 13, 14, 15]),
            (2, [0, 1, 2, 4, 8, 3, 6, 12, 11, 5, 10, 7, 14, 15, 13, 9]),
        ];
        for (series, columns) in columns {
            let word: Vec<u8> = columns.into_iter().flat_map(|x| [x; 4]).collect();
            assert_eq!(run(encode, 4, series, 4, &[0, 1], 64), Ok(word.clone()));
            for call in [unencode, recover] {
                assert_eq!(run(call, 4, series, 4, &word, 2), Ok(vec![0, 1]));
                let none = Err(Outcome::NO_MESSAGE_FITS);
                assert_eq!(run(call, 4, 3 - series, 4, &word, 2), none);
            }
        }
    }

    #[test]
    fn the_highest_orders() {
        let rows = [(2, 7, 8, 7), (4, 63, 64, 58)];
        for ((q, m, n, k), series) in rows.into_iter().flat_map(|row| [(row, 1), (row, 2)]) {
            assert_eq!(run(encode, q, series, m, &vec![0; k], n), Ok(vec![0; n]));
            assert_eq!(run(unencode, q, series, m, &vec![0; n], k), Ok(vec![0; k]));
            assert_eq!(run(recover, q, series, m, &vec![0; n], k), Ok(vec![0; k]));
            let refused = Err(Outcome::ORDER_TOO_HIGH);
            assert_eq!(run(encode, q, series, m + 1, &vec![0; k], n), refused);
            assert_eq!(run(unencode, q, series, m + 1, &vec![0; n], k), refused);
            assert_eq!(run(recover, q, series, m + 1, &vec![0; n], k), refused);
        }
    }

    #[test]
    fn nothing_arrived_at_every_order() {
        for shape in Shape::every_short_in_both_series() {
            let expected = Outcome::several_messages_fit(shape.k as u16);
            let nothing = vec![MISSING; shape.n];
            assert_eq!(decode(recover, shape, &nothing), Err(expected));
        }
    }

    /// Each call starts with every fault and loses them one by one.
    #[test]
    fn refusals_come_in_the_order_of_the_checks() {
        for shape in Shape::every_short_in_both_series() {
            let Shape { n, k, .. } = shape;
            for (call, input, output) in [(encode as Call, k, n), (unencode, n, k), (recover, n, k)]
            {
                refusals_in_order(call, shape, input, output);
            }
        }
    }

    fn refusals_in_order(call: Call, shape: Shape, input: usize, output: usize) {
        let (q, series, m, bad) = (shape.q(), shape.series(), shape.m, shape.field_size);
        for (curve_number, series) in BAD_CURVES
            .map(|number| [(number, 0), (number, series)])
            .concat()
        {
            for order in [255, 256, 256 + m, u16::MAX] {
                let input = vec![bad; input + 1];
                let outcome = run(call, curve_number, series, order, &input, output + 1);
                assert_eq!(outcome, Err(Outcome::UNKNOWN_CURVE));
            }
        }
        for bad_series in sample::BAD_SERIES {
            for order in [m, 255, u16::MAX] {
                let input = vec![bad; input + 1];
                let outcome = run(call, q, bad_series, order, &input, output + 1);
                assert_eq!(outcome, Err(Outcome::BAD_SERIES));
            }
        }
        for order in (shape.n as u16..=255).chain(sample::numbers_too_high(shape.curve)) {
            let outcome = run(call, q, series, order, &vec![bad; input + 1], output + 1);
            assert_eq!(outcome, Err(Outcome::ORDER_TOO_HIGH));
        }
        for length in [0, input - 1, input + 1, 72, 255, 256, 300] {
            let outcome = run(call, q, series, m, &vec![bad; length], output + 1);
            assert_eq!(outcome, Err(Outcome::WRONG_INPUT_LENGTH));
        }
        for index in 0..input {
            let mut values = vec![0; input];
            values[index..].fill(bad);
            let outcome = run(call, q, series, m, &values, output + 1);
            assert_eq!(outcome, Err(Outcome::value_too_high(index as u16)));
        }
        for length in [0, output - 1, output + 1, 72, 155] {
            let outcome = run(call, q, series, m, &vec![0; input], length);
            assert_eq!(outcome, Err(Outcome::WRONG_OUTPUT_LENGTH));
        }
        assert_eq!(
            run(call, q, series, m, &vec![0; input], output),
            Ok(vec![0; output])
        );
    }

    #[test]
    fn a_wrong_output_length_is_refused_before_the_fit_is_looked_at() {
        let mut last_is_1 = vec![0; 8];
        last_is_1[7] = 1;
        let refused = Err(Outcome::WRONG_OUTPUT_LENGTH);
        for length in [0, 6, 8] {
            assert_eq!(run_small(unencode, 7, &last_is_1, length), refused);
            assert_eq!(run_small(recover, 7, &last_is_1, length), refused);
            assert_eq!(run_small(recover, 7, &[255; 8], length), refused);
        }
    }

    #[test]
    fn every_value_of_q_or_more_is_bad_and_255_only_outside_broken_words() {
        for shape in Shape::every_short_in_both_series().filter(|shape| shape.m % 9 == 1) {
            for value in shape.field_size..=255 {
                let mut word = vec![0; shape.n];
                word[shape.n - 1] = value;
                let refused = Err(Outcome::value_too_high(shape.n as u16 - 1));
                assert_eq!(decode(unencode, shape, &word), refused);
                if value == MISSING {
                    assert_ne!(decode(recover, shape, &word), refused);
                } else {
                    assert_eq!(decode(recover, shape, &word), refused);
                }
                let mut message = vec![0; shape.k];
                message[shape.k - 1] = value;
                let refused = Err(Outcome::value_too_high(shape.k as u16 - 1));
                let (q, series) = (shape.q(), shape.series());
                let outcome = run(encode, q, series, shape.m, &message, shape.n);
                assert_eq!(outcome, refused);
            }
        }
    }

    #[test]
    fn a_bad_value_is_found_behind_missing_symbols() {
        let mut word = [255; 64];
        word[40] = 16;
        word[50] = 254;
        let refused = Err(Outcome::value_too_high(40));
        assert_eq!(run(recover, 4, 1, 37, &word, 32), refused);
        let refused = Err(Outcome::value_too_high(0));
        assert_eq!(run(unencode, 4, 1, 37, &word, 32), refused);
    }

    #[test]
    fn words_give_their_message_back_at_every_order() {
        let mut generator = Generator::with_seed(21);
        for shape in Shape::every_short_in_both_series() {
            let message = sample::message(&mut generator, shape);
            let word = shape.word_of(&message);
            assert_eq!(decode(unencode, shape, &word), Ok(message.clone()));
            assert_eq!(decode(recover, shape, &word), Ok(message));
        }
    }

    #[test]
    fn unencoding_is_recovery_of_a_whole_word_and_never_answers_10() {
        let mut generator = Generator::with_seed(22);
        for shape in Shape::every_short_in_both_series() {
            let word = sample::codeword(&mut generator, shape);
            let damaged = sample::damaged(&mut generator, shape, &word);
            let arbitrary = sample::symbols(&mut generator, shape, shape.n);
            for word in [word, damaged, arbitrary] {
                let answer = decode(unencode, shape, &word);
                assert_eq!(answer, decode(recover, shape, &word));
                match answer {
                    Ok(message) => assert_eq!(shape.word_of(&message), word),
                    Err(refusal) => assert_eq!(refusal, Outcome::NO_MESSAGE_FITS),
                }
            }
        }
    }

    /// Every broken word of 8 places, each a symbol or missing.
    #[test]
    fn recovery_agrees_with_trying_every_message() {
        for shape in Shape::every_order(Curve::Q_IS_2).take(3) {
            let words = sample::all_messages_with_words(shape);
            for number in 0..5u32.pow(8) {
                let broken = sample::numbered_word(number, 5);
                agrees_with_trial(shape, &words, &broken);
            }
        }
    }

    /// Higher orders by sample, near to words so that all answers come up.
    #[test]
    fn recovery_agrees_with_trying_every_message_at_higher_orders() {
        let mut generator = Generator::with_seed(23);
        for shape in Shape::every_order(Curve::Q_IS_2).skip(3).take(3) {
            let words = sample::all_messages_with_words(shape);
            for round in 0..20_000 {
                let (_, word) = &words[generator.below(words.len())];
                let known = generator.below(shape.n + 1);
                let mut broken = sample::with_known(&mut generator, word, known);
                if round % 3 == 0 {
                    broken = sample::damaged(&mut generator, shape, &broken);
                }
                agrees_with_trial(shape, &words, &broken);
            }
        }
    }

    fn agrees_with_trial(shape: Shape, words: &[(Vec<u8>, Vec<u8>)], broken: &[u8]) {
        let agrees = |(&known, &symbol): (&u8, &u8)| known == MISSING || known == symbol;
        let fitting: Vec<&Vec<u8>> = words
            .iter()
            .filter(|(_, word)| broken.iter().zip(word).all(agrees))
            .map(|(message, _)| message)
            .collect();
        match (decode(recover, shape, broken), fitting.as_slice()) {
            (Ok(message), [only]) => assert_eq!(&message, *only),
            (Err(refusal), []) => assert_eq!(refusal, Outcome::NO_MESSAGE_FITS),
            (Err(refusal), several) => {
                assert!(several.len() > 1, "refused although one message fits");
                assert_eq!(refusal.number, 10);
                assert_eq!(4usize.pow(u32::from(refusal.second)), several.len());
            }
            (Ok(_), several) => panic!("{} messages fit", several.len()),
        }
    }

    // From here on: the faults of document 01's "Traps for the coder".

    #[test]
    fn the_constant_coefficient_counts() {
        for shape in Shape::every_short_in_both_series() {
            let mut message = vec![0; shape.k];
            message[0] = shape.field_size - 1;
            let constant_word = vec![shape.field_size - 1; shape.n];
            assert_eq!(shape.word_of(&message), constant_word);
        }
    }

    /// At q = 2 every word of 8 symbols is tried: just Q to the power k of
    /// them have a message.
    #[test]
    fn not_every_word_has_a_message() {
        let shape = Shape::of(Curve::Q_IS_2, 7);
        let mut accepted = 0;
        for number in 0..4u32.pow(8) {
            let word = sample::numbered_word(number, 4);
            match decode(unencode, shape, &word) {
                Ok(message) => {
                    assert_eq!(shape.word_of(&message), word);
                    accepted += 1;
                }
                Err(refusal) => assert_eq!(refusal, Outcome::NO_MESSAGE_FITS),
            }
        }
        assert_eq!(accepted, 4usize.pow(7));
    }

    #[test]
    fn m_plus_1_symbols_are_always_enough() {
        let mut generator = Generator::with_seed(24);
        for shape in Shape::every_short_in_both_series() {
            for _ in 0..4 {
                let message = sample::message(&mut generator, shape);
                let word = shape.word_of(&message);
                let known = usize::from(shape.m) + 1;
                let broken = sample::with_known(&mut generator, &word, known);
                assert_eq!(decode(recover, shape, &broken), Ok(message));
            }
        }
    }

    /// At q = 2 every choice of known places is tried.
    #[test]
    fn m_plus_1_symbols_are_enough_wherever_they_are() {
        let mut generator = Generator::with_seed(25);
        for shape in Shape::every_order(Curve::Q_IS_2) {
            for known in 0..=255u8 {
                let message = sample::message(&mut generator, shape);
                let mut broken = shape.word_of(&message);
                for place in (0..8).filter(|place| known >> place & 1 == 0) {
                    broken[place] = MISSING;
                }
                let answer = decode(recover, shape, &broken);
                if known.count_ones() > u32::from(shape.m) {
                    assert_eq!(answer, Ok(message));
                } else if known.count_ones() < shape.k as u32 {
                    assert!(answer.is_err());
                }
            }
        }
    }

    #[test]
    fn k_symbols_need_not_be_enough() {
        let mut generator = Generator::with_seed(26);
        for shape in
            Shape::every_short_in_both_series().filter(|shape| shape.columns_of_order() > 0)
        {
            let word = sample::codeword(&mut generator, shape);
            let columns = shape.columns_of_order();
            let broken = sample::with_known_columns(&mut generator, shape, &word, columns);
            let refusal = decode(recover, shape, &broken).expect_err("several fit");
            assert_eq!(refusal.number, 10);
            assert!(refusal.second >= 1);
        }
    }

    /// A divisor that goes wrong over some columns in use would show here.
    #[test]
    fn any_set_of_whole_columns_gives_the_message() {
        let mut generator = Generator::with_seed(27);
        for shape in Shape::every_short_in_both_series() {
            let enough = shape.columns_of_order() + 1;
            for columns in enough..=usize::from(shape.field_size) {
                let message = sample::message(&mut generator, shape);
                let word = shape.word_of(&message);
                let broken = sample::with_known_columns(&mut generator, shape, &word, columns);
                assert_eq!(decode(recover, shape, &broken), Ok(message));
            }
        }
    }
}
