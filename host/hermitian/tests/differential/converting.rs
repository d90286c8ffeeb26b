//! The groups of calls that turn words of one series into words of the other. Each
//! gives what its calls answered.

use hermitian::Refusal;
use reference::code::{MISSING, WORK_LENGTH};
use reference::curve::Curve;
use reference::generator::Generator;
use reference::outcome::Outcome;
use reference::sample::{self, Shape};

use crate::comparison::{compare, compare_with, Call, Entry};
use crate::inputs::{arbitrary_series, with_bad_value, write_arbitrary_value, wrong_length};
use crate::tally::Tally;

pub fn every_curve_in_both_series() -> impl Iterator<Item = Curve> {
    Curve::ALL.into_iter().flat_map(Curve::in_both_series)
}

/// The converter takes no order.
fn conversion(curve: Curve, word: Vec<u8>) -> Call {
    Call::fitting(Entry::Convert, Shape::of(curve, 0), word)
}

fn in_other_series(curve: Curve) -> Curve {
    curve.in_series(curve.series().other())
}

struct Comparison<'a> {
    generator: &'a mut Generator,
    work: Vec<u8>,
    tally: Tally,
}

impl Comparison<'_> {
    fn new(generator: &mut Generator) -> Comparison<'_> {
        Comparison {
            generator,
            work: vec![0; WORK_LENGTH],
            tally: Tally::new(),
        }
    }

    /// Converts a good word both ways and gives what both wrote.
    fn convert(&mut self, curve: Curve, word: &[u8]) -> Vec<u8> {
        let call = conversion(curve, word.to_vec());
        compare(&call, self.generator, &mut self.tally).concat()
    }

    fn there_and_back(&mut self, curve: Curve, word: &[u8]) -> Vec<u8> {
        let there = self.convert(curve, word);
        let back = self.convert(in_other_series(curve), &there);
        assert_eq!(back, word);
        there
    }

    fn refused(&mut self, call: &Call, refusal: Outcome) {
        let expect = |_: &mut [Vec<u8>]| refusal.packed();
        compare_with(expect, call, self.generator, &mut self.tally);
    }
}

/// At every order of short blocks and some of long ones, from either series: whole,
/// broken and damaged words of a message and words of any symbols; and a word with one
/// known symbol at each place.
pub fn words(generator: &mut Generator, rounds: usize) -> Tally {
    let mut comparison = Comparison::new(generator);
    let long_orders = || [0, 8, 54, 55, 56, 300, 511].into_iter();
    let in_series = |curve| long_orders().map(move |m| Shape::of(curve, m));
    let long = Curve::Q_IS_8.in_both_series().into_iter();
    for shape in Shape::every_short_in_both_series().chain(long.flat_map(in_series)) {
        for _ in 0..rounds {
            comparison.words_of_a_message(shape);
            comparison.words_of_any_symbols(shape);
        }
    }
    for curve in every_curve_in_both_series() {
        let n = curve.point_count();
        for place in 0..n {
            let mut word = vec![MISSING; n];
            word[place] = 1;
            comparison.there_and_back(curve, &word);
        }
    }
    comparison.tally
}

impl Comparison<'_> {
    fn words_of_any_symbols(&mut self, shape: Shape) {
        let whole = sample::symbols(self.generator, shape, shape.n);
        let known = self.generator.below(shape.n + 1);
        let broken = sample::with_known(self.generator, &whole, known);
        self.there_and_back(shape.curve, &whole);
        self.there_and_back(shape.curve, &broken);
    }

    /// The whole word becomes that of the same message, and recovery says the same of
    /// the others before and after.
    fn words_of_a_message(&mut self, shape: Shape) {
        let message = sample::message(self.generator, shape);
        let word = shape.word_of(&message);
        let other = Shape::of(in_other_series(shape.curve), shape.m);
        let there = self.there_and_back(shape.curve, &word);
        let mut encoded = vec![99; shape.n];
        let answer = hermitian::encode(other.q(), other.series(), other.m, &message, &mut encoded);
        assert_eq!((answer, encoded), (Ok(()), there), "{shape:?}, {message:?}");

        let sure = usize::from(shape.m) + 1;
        let broken = sample::with_known(self.generator, &word, sure);
        let there = self.there_and_back(shape.curve, &broken);
        assert_eq!(self.recovered(other, &there), Ok(message));
        let any = self.generator.below(shape.n + 1);
        let broken = sample::with_known(self.generator, &word, any);
        let damaged = sample::damaged(self.generator, shape, &broken);
        for word in [broken, damaged] {
            let there = self.there_and_back(shape.curve, &word);
            let expected = self.recovered(shape, &word);
            assert_eq!(
                self.recovered(other, &there),
                expected,
                "{shape:?}, {word:?}"
            );
        }
    }

    /// By the library.
    fn recovered(&mut self, shape: Shape, word: &[u8]) -> Result<Vec<u8>, Refusal> {
        let (q, series, m) = (shape.q(), shape.series(), shape.m);
        let mut message = vec![99; shape.k];
        if q == 8 {
            hermitian::recover_long(series, m, word, &mut message, &mut self.work)?;
        } else {
            hermitian::recover(q, series, m, word, &mut message)?;
        }
        Ok(message)
    }
}

/// Every word of the small curve, each place a symbol or missing, from either series:
/// it stays as it is.
pub fn every_small_word(generator: &mut Generator) -> Tally {
    let mut tally = Tally::new();
    for curve in Curve::Q_IS_2.in_both_series() {
        for number in 0..5u32.pow(8) {
            let word = sample::numbered_word(number, 5);
            let call = conversion(curve, word.clone());
            let expect = |outputs: &mut [Vec<u8>]| {
                outputs[0].copy_from_slice(&word);
                Outcome::ACCEPTED.packed()
            };
            compare_with(expect, &call, generator, &mut tally);
        }
    }
    tally
}

/// One fault or several at once: the first check that applies must decide.
pub fn faulty(generator: &mut Generator, rounds: usize) -> Tally {
    let mut tally = Tally::new();
    let curves: Vec<Curve> = every_curve_in_both_series().collect();
    for _ in 0..rounds {
        let curve = curves[generator.below(curves.len())];
        let call = faulty_call(curve, generator);
        compare(&call, generator, &mut tally);
    }
    tally
}

fn faulty_call(curve: Curve, generator: &mut Generator) -> Call {
    let shape = Shape::of(curve, 0);
    let mut call = conversion(curve, sample::symbols(generator, shape, shape.n));
    if generator.below(10) == 0 {
        call.q = generator.byte();
    }
    if generator.below(8) == 0 {
        call.series = arbitrary_series(generator);
    }
    if generator.below(5) == 0 {
        let length = wrong_length(shape.n, generator);
        call.input.resize(length, 0);
    }
    for _ in 0..generator.below(4) {
        write_arbitrary_value(&mut call.input, shape, generator);
    }
    if generator.below(2) == 0 {
        call.output_lengths = vec![wrong_length(shape.n, generator)];
    }
    call
}

/// One fault alone, of every kind, from either series: every series number, every curve
/// number, each place with a bad value, every byte that is one, and each length up to
/// n + 2 and beyond.
pub fn every_fault(generator: &mut Generator) -> Tally {
    let mut comparison = Comparison::new(generator);
    for curve in every_curve_in_both_series() {
        comparison.bad_names(curve);
        comparison.bad_values(curve);
        comparison.bad_lengths(curve);
    }
    comparison.tally
}

impl Comparison<'_> {
    fn word(&mut self, curve: Curve) -> Vec<u8> {
        let shape = Shape::of(curve, 0);
        sample::symbols(self.generator, shape, shape.n)
    }

    fn bad_names(&mut self, curve: Curve) {
        for number in 0..=255 {
            let mut call = conversion(curve, self.word(curve));
            if ![1, 2].contains(&number) {
                call.series = number;
                self.refused(&call, Outcome::BAD_SERIES);
            }
            if ![2, 4, 8].contains(&number) {
                call.q = number;
                self.refused(&call, Outcome::UNKNOWN_CURVE);
            }
        }
    }

    fn bad_values(&mut self, curve: Curve) {
        let (n, size) = (curve.point_count(), curve.field().size());
        for index in 0..n {
            for value in [size, 254, self.generator.byte_from(size, 254)] {
                self.bad_value(curve, index, value);
            }
        }
        for value in size..255 {
            let index = self.generator.below(n);
            self.bad_value(curve, index, value);
        }
    }

    /// Some symbols before it are missing, and the values behind it are arbitrary.
    fn bad_value(&mut self, curve: Curve, index: usize, value: u8) {
        let n = curve.point_count();
        let mut good = self.word(curve);
        good.truncate(index);
        let missing = self.generator.below(n);
        good[..index.min(missing)].fill(MISSING);
        let word = with_bad_value(good, value, n, self.generator);
        let refusal = Outcome::value_too_high(index as u16);
        self.refused(&conversion(curve, word), refusal);
    }

    fn bad_lengths(&mut self, curve: Curve) {
        let n = curve.point_count();
        let far = [255, 256, 257, 256 + n, 65_536 + n];
        for length in (0..=n + 2).chain(far).filter(|&length| length != n) {
            let mut call = conversion(curve, vec![0; length]);
            self.refused(&call, Outcome::WRONG_INPUT_LENGTH);
            call.input = self.word(curve);
            call.output_lengths = vec![length];
            self.refused(&call, Outcome::WRONG_OUTPUT_LENGTH);
        }
    }
}

/// Every curve number with every series number, with lengths that fit some curve.
pub fn every_curve_number_and_series(generator: &mut Generator) -> Tally {
    let mut tally = Tally::new();
    for q in 0..=255 {
        for series in 0..=255 {
            let mut length = || [8, 64, 512][generator.below(3)];
            let call = Call {
                entry: Entry::Convert,
                q,
                series,
                columns: None,
                m: 0,
                input: vec![1; length()],
                output_lengths: vec![length()],
            };
            compare(&call, generator, &mut tally);
        }
    }
    tally
}
