//! Calls of the check of request T-13, with words of every kind and with one fault or
//! several, for the cases of short and of long blocks.

mod refused;

use crate::case_record::{Case, SLICE_ROOM};
use crate::curve::{Curve, Series};
use crate::generator::Generator;
use crate::sample::{self, Shape};

const SEED: u64 = 14;

/// Orders at q = 8 that are too low to check, good and too high, for words that are too
/// short for a long block.
const LONG_ORDERS: [u16; 12] = [0, 37, 54, 55, 56, 255, 256, 300, 511, 512, 767, 65_535];

/// The arguments of a call.
#[derive(Clone, Debug, PartialEq, Eq)]
pub struct Check {
    pub q: u8,
    pub series: u8,
    pub m: u16,
    pub word: Vec<u8>,
}

/// At every order of short blocks in both series, and at q = 8 with words that are too
/// short.
pub fn dual_cases() -> Vec<Case> {
    let curves = Series::BOTH.into_iter().flat_map(sample::short_curves);
    let calls = curves.flat_map(|curve| {
        let orders: Vec<u16> = curve.orders().collect();
        checks(curve, &orders, SLICE_ROOM)
    });
    calls
        .chain(words_too_short_for_a_long_block())
        .map(case)
        .collect()
}

fn case(call: Check) -> Case {
    Case {
        op: b'v',
        q: call.q,
        series: call.series,
        m: call.m,
        input: call.word,
        ..Case::default()
    }
}

/// Calls for words of a curve in its series at these orders, and refused calls. No word
/// is longer than `room`.
pub fn checks(curve: Curve, orders: &[u16], room: usize) -> Vec<Check> {
    let mut builder = Builder {
        curve,
        room,
        generator: Generator::with_seed(SEED),
        calls: Vec::new(),
    };
    for &m in orders {
        builder.words(Shape::of(curve, m));
    }
    builder.refused_calls();
    builder.calls
}

struct Builder {
    curve: Curve,
    room: usize,
    generator: Generator,
    calls: Vec<Check>,
}

impl Builder {
    fn n(&self) -> usize {
        self.curve.point_count()
    }

    /// A call at an order of the curve, in its series.
    fn call(&self, m: u16, word: Vec<u8>) -> Check {
        Check {
            q: self.curve.q(),
            series: self.curve.series().number(),
            m,
            word,
        }
    }

    /// A codeword, the same with one symbol off, any word, and where there is an order
    /// above, a codeword of that order alone.
    fn words(&mut self, shape: Shape) {
        let codeword = sample::codeword(&mut self.generator, shape);
        let damaged = sample::damaged(&mut self.generator, shape, &codeword);
        let arbitrary = sample::symbols(&mut self.generator, shape, shape.n);
        let mut words = vec![codeword, damaged, arbitrary];
        let above = shape.m + 1;
        if usize::from(above) < shape.n {
            let above = Shape::of(self.curve, above);
            words.push(sample::codeword_of_highest_weight(
                &mut self.generator,
                above,
            ));
        }
        let calls: Vec<Check> = words
            .into_iter()
            .map(|word| self.call(shape.m, word))
            .collect();
        self.calls.extend(calls);
    }
}

/// 3 at the orders that are checked, whatever the word holds.
fn words_too_short_for_a_long_block() -> Vec<Check> {
    let mut calls = Vec::new();
    for (series, m) in [1, 2]
        .map(|series| LONG_ORDERS.map(|m| (series, m)))
        .concat()
    {
        for length in [0, 8, 64, SLICE_ROOM] {
            for symbol in [63, 64] {
                let word = vec![symbol; length];
                let q = 8;
                calls.push(Check { q, series, m, word });
            }
        }
    }
    calls
}

#[cfg(test)]
mod tests;
