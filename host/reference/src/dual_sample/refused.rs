//! Checks that are refused: one fault each, each two of them that can come together, and
//! each with all later ones.

use super::{Builder, Check};
use crate::code::MISSING;
use crate::curve::Curve;
use crate::sample::{self, Shape, BAD_SERIES};

/// Numbers that name none of the three curves.
const BAD_CURVES: [u8; 6] = [0, 1, 3, 5, 16, 255];

/// Makes a call bad in one way.
type Fault = fn(Curve, &mut Check);

/// One for each of the checks 1, 17, 2, 19, 3 and 4, in this order.
const FAULTS: [Fault; 6] = [
    |_, call| call.q = 3,
    |_, call| call.series = 3,
    |curve, call| call.m = curve.point_count() as u16,
    |curve, call| call.m = lowest_order(curve) - 1,
    |_, call| call.word.push(0),
    |curve, call| call.word[2] = curve.field().size(),
];

/// An order can't be too high and too low, so that the faults with these indexes don't
/// come together.
const APART: (usize, usize) = (2, 3);

/// 2g - 1, the lowest order that is checked.
pub(super) fn lowest_order(curve: Curve) -> u16 {
    2 * curve.genus() as u16 - 1
}

/// The lowest order that is checked, the one that is its own partner, and the highest.
fn three_orders(curve: Curve) -> [u16; 3] {
    let (lowest, highest) = (lowest_order(curve), curve.point_count() as u16 - 1);
    [lowest, (lowest + highest) / 2, highest]
}

/// n and one more, the sum of an order and its partner and one more, 2n, those about the
/// limits of 15 and of 16 bits, and some whose low bits are an order that is checked.
fn orders_too_high(curve: Curve) -> Vec<u16> {
    let n = curve.point_count() as u16;
    let sum = lowest_order(curve) + n - 1;
    let limits = [n, n + 1, sum, sum + 1, 2 * n, 0x7FFF, 0x8000, u16::MAX];
    let high_parts = [0x0100, 0x0200, 0x8000, 0xFE00];
    let with_low_bits = three_orders(curve).map(|m| high_parts.map(|high| high + m));
    let numbers = [limits.as_slice(), with_low_bits.as_flattened()].concat();
    let mut too_high: Vec<u16> = numbers.into_iter().filter(|&m| m >= n).collect();
    too_high.sort_unstable();
    too_high.dedup();
    too_high
}

impl Builder {
    pub(super) fn refused_calls(&mut self) {
        for m in three_orders(self.curve) {
            let good = self.good_call(m);
            self.bad_names(&good);
            self.bad_lengths(&good);
            self.bad_values(&good);
        }
        for m in orders_too_high(self.curve) {
            let good = self.good_call(self.n() as u16 - 1);
            self.calls.push(Check { m, ..good });
        }
        self.several_faults();
    }

    /// One that says yes.
    fn good_call(&mut self, m: u16) -> Check {
        let shape = Shape::of(self.curve, m);
        let word = sample::codeword(&mut self.generator, shape);
        self.call(m, word)
    }

    fn bad_names(&mut self, good: &Check) {
        for q in BAD_CURVES {
            let call = good.clone();
            self.calls.push(Check { q, ..call });
        }
        for series in BAD_SERIES {
            let call = good.clone();
            self.calls.push(Check { series, ..call });
        }
    }

    /// With those of the other curves, as far as there is room.
    fn bad_lengths(&mut self, good: &Check) {
        let (n, room) = (self.n(), self.room);
        let mut lengths = vec![0, 1, n - 1, n + 1, 8, 64, 512, room];
        lengths.sort_unstable();
        lengths.dedup();
        lengths.retain(|&length| length != n && length <= room);
        for length in lengths {
            let mut call = good.clone();
            call.word.resize(length, 0);
            self.calls.push(call);
        }
    }

    /// At the first, an inner and the last place, and two of them at once.
    fn bad_values(&mut self, good: &Check) {
        let (n, size) = (self.n(), self.curve.field().size());
        let inner = 1 + self.generator.below(n - 2);
        for value in [size, MISSING - 1, MISSING] {
            for index in [0, inner, n - 1] {
                let mut call = good.clone();
                call.word[index] = value;
                self.calls.push(call);
            }
            let mut call = good.clone();
            call.word[inner] = value;
            call.word[n - 1] = self.generator.byte_from(size, MISSING);
            self.calls.push(call);
        }
    }

    fn several_faults(&mut self) {
        let [_, m, _] = three_orders(self.curve);
        let good = self.good_call(m);
        for first in 0..FAULTS.len() {
            let later = first + 1..FAULTS.len();
            for second in later.filter(|&second| (first, second) != APART) {
                self.with_faults(&good, &[second, first]);
            }
            let and_all_later: Vec<usize> = (first..FAULTS.len()).rev().collect();
            self.with_faults(&good, &and_all_later);
        }
    }

    /// The faults with these indexes, in turn: an order that is too high comes after one
    /// that is too low, in place of it.
    fn with_faults(&mut self, good: &Check, indexes: &[usize]) {
        let mut call = good.clone();
        for &index in indexes {
            FAULTS[index](self.curve, &mut call);
        }
        self.calls.push(call);
    }
}
