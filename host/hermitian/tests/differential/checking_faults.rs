//! The groups of checks with bad arguments. Each gives what its calls answered.

use reference::code::MISSING;
use reference::curve::Curve;
use reference::dual_sample::Check;
use reference::generator::Generator;
use reference::outcome::Outcome;
use reference::sample::{self, Shape};

use crate::checking::{check_of, is_checked, Comparison};
use crate::converting::every_curve_in_both_series;
use crate::inputs::{
    arbitrary_order, arbitrary_series, curve_numbers_with_orders, either_series, with_bad_value,
    write_arbitrary_value, wrong_length,
};
use crate::tally::Tally;

/// Orders of a curve in its series: for short blocks all, for long ones those about
/// 2g - 1 = 55 and the limits of 8 and of 9 bits, and the strap's.
fn shapes(curve: Curve) -> Vec<Shape> {
    match curve.q() {
        8 => [0, 37, 54, 55, 56, 255, 256, 300, 511]
            .map(|m| Shape::of(curve, m))
            .to_vec(),
        _ => Shape::every_order(curve).collect(),
    }
}

fn every_shape() -> Vec<Shape> {
    every_curve_in_both_series().flat_map(shapes).collect()
}

/// One fault or several at once: the first check that applies must decide.
pub fn faulty(generator: &mut Generator, rounds: usize) -> Tally {
    let mut comparison = Comparison::new(generator);
    let shapes = every_shape();
    for _ in 0..rounds {
        let shape = shapes[comparison.generator.below(shapes.len())];
        let call = faulty_call(shape, comparison.generator);
        comparison.check(&call);
    }
    comparison.tally
}

/// Most often with a bad value, so that few long words are checked to the end.
fn faulty_call(shape: Shape, generator: &mut Generator) -> Check {
    let mut call = check_of(shape, sample::symbols(generator, shape, shape.n));
    if generator.below(12) == 0 {
        call.q = generator.byte();
    }
    if generator.below(10) == 0 {
        call.series = arbitrary_series(generator);
    }
    if generator.below(8) == 0 {
        call.m = arbitrary_order(shape, generator);
    }
    if generator.below(5) == 0 {
        call.word.resize(wrong_length(shape.n, generator), 0);
    }
    for _ in 0..generator.below(4) {
        write_arbitrary_value(&mut call.word, shape, generator);
    }
    call
}

/// The ways in which a call can be bad, in the order of the checks.
#[derive(Clone, Copy, Debug, PartialEq, Eq)]
enum Fault {
    Curve,
    Series,
    OrderTooHigh,
    OrderTooLow,
    Length,
    Value,
}

impl Fault {
    const ALL: [Fault; 6] = [
        Fault::Curve,
        Fault::Series,
        Fault::OrderTooHigh,
        Fault::OrderTooLow,
        Fault::Length,
        Fault::Value,
    ];

    fn number(self) -> u8 {
        match self {
            Fault::Curve => 1,
            Fault::Series => 17,
            Fault::OrderTooHigh => 2,
            Fault::OrderTooLow => 19,
            Fault::Length => 3,
            Fault::Value => 4,
        }
    }

    fn write(self, shape: Shape, call: &mut Check, generator: &mut Generator) {
        let n = shape.n;
        match self {
            Fault::Curve => call.q = [0, 1, 3, 6, 16, 255][generator.below(6)],
            Fault::Series => call.series = [0, 3, 129, 255][generator.below(4)],
            Fault::OrderTooHigh => call.m = order_too_high(shape, generator),
            Fault::OrderTooLow => {
                call.m = generator.below(2 * shape.curve.genus() - 1) as u16;
            }
            Fault::Length => {
                let length = [0, 1, n - 1, n + 1, 256 + n][generator.below(5)];
                let last = call.word[n - 1];
                call.word.resize(length, last);
            }
            Fault::Value => {
                let index = generator.below(n);
                call.word[index..].fill(generator.byte_from(shape.field_size, MISSING));
            }
        }
    }
}

/// An order can't be too high and too low.
const APART: [Fault; 2] = [Fault::OrderTooHigh, Fault::OrderTooLow];

/// n, the sum of an order and its partner and the next, an order whose low nine bits are
/// the shape's own, and any.
fn order_too_high(shape: Shape, generator: &mut Generator) -> u16 {
    let n = shape.n as u16;
    let sum = n + 2 * shape.curve.genus() as u16 - 2;
    let any = n.max(generator.sixteen_bits());
    let choices = [n, sum, sum + 1, 512 + shape.m, u16::MAX, any];
    choices[generator.below(choices.len())]
}

/// Each two faults that can come together, and each one with all later ones, beside a
/// codeword at every order of short blocks and some of long ones: the first decides.
pub fn every_two_faults(generator: &mut Generator, rounds: usize) -> Tally {
    let mut comparison = Comparison::new(generator);
    for shape in every_shape() {
        let word = sample::codeword(comparison.generator, shape);
        let good = check_of(shape, word);
        for _ in 0..rounds {
            comparison.two_faults(shape, &good);
        }
    }
    comparison.tally
}

impl Comparison<'_> {
    fn two_faults(&mut self, shape: Shape, good: &Check) {
        // An order that is too low is a fault that the good call has too.
        let faults = Fault::ALL.into_iter();
        let faults: Vec<Fault> = match is_checked(shape) {
            true => faults.collect(),
            false => faults.take(4).collect(),
        };
        for (index, &first) in faults.iter().enumerate() {
            let later = &Fault::ALL[index + 1..];
            for &second in later {
                if [first, second] != APART {
                    self.first_decides(shape, good, &[second, first]);
                }
            }
            let and_all_later: Vec<Fault> = Fault::ALL[index..].iter().rev().copied().collect();
            self.first_decides(shape, good, &and_all_later);
        }
    }

    /// The faults are written in turn, the first in the order of the checks last: an
    /// order that is too high in place of one that is too low.
    fn first_decides(&mut self, shape: Shape, good: &Check, faults: &[Fault]) {
        let mut call = good.clone();
        for fault in faults {
            fault.write(shape, &mut call, self.generator);
        }
        let number = self.check(&call);
        let first = faults.last().map(|fault| fault.number());
        assert_eq!(Some(number), first, "{call:?}, {faults:?}");
    }
}

/// One fault alone, of every kind: every curve number and series number; each order that
/// is too low and orders from n on; each place with a bad value and every byte that is
/// one; each length up to n + 2 and beyond.
pub fn every_fault(generator: &mut Generator) -> Tally {
    let mut comparison = Comparison::new(generator);
    for curve in every_curve_in_both_series() {
        comparison.bad_orders(curve);
        for shape in shapes(curve).into_iter().filter(|&shape| is_checked(shape)) {
            comparison.bad_names(shape);
            comparison.bad_values(shape);
            comparison.bad_lengths(shape);
        }
    }
    comparison.tally
}

impl Comparison<'_> {
    /// A call that says yes.
    fn good_call(&mut self, shape: Shape) -> Check {
        let word = vec![self.generator.byte_from(0, shape.field_size - 1); shape.n];
        check_of(shape, word)
    }

    fn bad_orders(&mut self, curve: Curve) {
        let (n, lowest) = (curve.point_count() as u16, 2 * curve.genus() as u16 - 1);
        let good = self.good_call(Shape::of(curve, lowest));
        for m in 0..lowest {
            let call = good.clone();
            self.refused(&Check { m, ..call }, Outcome::ORDER_TOO_LOW_TO_CHECK);
        }
        for m in (n..4 * n)
            .chain((n..=u16::MAX).step_by(61))
            .chain([u16::MAX])
        {
            let call = good.clone();
            self.refused(&Check { m, ..call }, Outcome::ORDER_TOO_HIGH);
        }
    }

    fn bad_names(&mut self, shape: Shape) {
        for number in 0..=255 {
            let good = self.good_call(shape);
            if ![2, 4, 8].contains(&number) {
                let call = good.clone();
                self.refused(&Check { q: number, ..call }, Outcome::UNKNOWN_CURVE);
            }
            if ![1, 2].contains(&number) {
                let series = number;
                self.refused(&Check { series, ..good }, Outcome::BAD_SERIES);
            }
        }
    }

    fn bad_values(&mut self, shape: Shape) {
        let size = shape.field_size;
        for index in 0..shape.n {
            for value in [size, MISSING, self.generator.byte_from(size, MISSING)] {
                self.bad_value(shape, index, value);
            }
        }
        for value in size..=MISSING {
            let index = self.generator.below(shape.n);
            self.bad_value(shape, index, value);
        }
    }

    /// The values behind it are arbitrary.
    fn bad_value(&mut self, shape: Shape, index: usize, value: u8) {
        let good = sample::symbols(self.generator, shape, index);
        let word = with_bad_value(good, value, shape.n, self.generator);
        let refusal = Outcome::value_too_high(index as u16);
        self.refused(&check_of(shape, word), refusal);
    }

    fn bad_lengths(&mut self, shape: Shape) {
        let n = shape.n;
        let far = [255, 256, 257, 256 + n, 65_536 + n];
        for length in (0..=n + 2).chain(far).filter(|&length| length != n) {
            let call = check_of(shape, vec![0; length]);
            self.refused(&call, Outcome::WRONG_INPUT_LENGTH);
        }
    }
}

/// Every curve number with every order of 8 bits, and every order of 16 bits with each
/// curve and with a number that names none; the series by chance, and words of zeros that
/// fit some curve.
pub fn every_curve_number_and_order(generator: &mut Generator) -> Tally {
    let mut comparison = Comparison::new(generator);
    for (q, m) in curve_numbers_with_orders() {
        let length = [8, 64, 512][comparison.generator.below(3)];
        let series = either_series(comparison.generator);
        let word = vec![0; length];
        comparison.check(&Check { q, series, m, word });
    }
    comparison.tally
}

/// Every series number, with good and bad curve numbers and orders.
pub fn every_series(generator: &mut Generator) -> Tally {
    let mut comparison = Comparison::new(generator);
    let orders = |q| match q {
        2 => [0, 1, 7, 8],
        4 => [10, 37, 63, 64],
        _ => [54, 300, 511, 512],
    };
    for series in 0..=255 {
        for q in [2, 3, 4, 8] {
            for m in orders(q) {
                for length in [8, 64, 512] {
                    let word = vec![0; length];
                    comparison.check(&Check { q, series, m, word });
                }
            }
        }
    }
    comparison.tally
}
