//! Refused openings of jobs, each with calls of the job that it hands back.

use super::Builder;
use crate::case_record::SLICE_ROOM;
use crate::code::MISSING;
use crate::sample::{self, Shape, BAD_CURVES, BAD_ORDERS};

impl Builder {
    /// A wrong length, a bad value, and both.
    pub(super) fn refused_words(&mut self, shape: Shape) {
        let n = shape.n;
        let other_n = if shape.q() == 2 { 64 } else { 8 };
        let lengths = [0, n - 1, n + 1, SLICE_ROOM, other_n];
        let length = lengths[usize::from(shape.m) % lengths.len()];
        let word = sample::symbols(&mut self.generator, shape, length);
        self.refused_opening(shape.q(), shape.m, &word, shape.k);
        let word = self.with_bad_value(shape);
        self.refused_opening(shape.q(), shape.m, &word, shape.k);
        self.refused_opening(shape.q(), shape.m, &word[1..], shape.k);
    }

    /// A broken word with a bad value first, in the middle or last, and another
    /// one anywhere.
    fn with_bad_value(&mut self, shape: Shape) -> Vec<u8> {
        let known = self.generator.below(shape.n);
        let mut word = self.broken_word(shape, known);
        let anywhere = self.generator.below(shape.n);
        word[anywhere] = self.generator.byte_from(shape.field_size, MISSING - 1);
        let values = [shape.field_size, MISSING - 1];
        let places = [0, shape.n / 2, shape.n - 1];
        let m = usize::from(shape.m);
        word[places[m % places.len()]] = values[m % values.len()];
        word
    }

    /// The job handed back has k = 1; `length` is the k of another.
    fn refused_opening(&mut self, q: u8, m: u16, word: &[u8], length: usize) {
        self.open(q, m, word);
        let budget = self.generator.byte();
        self.call(budget, 1);
        self.call(budget, length);
    }

    pub(super) fn bad_curves_and_orders(&mut self) {
        let bad_curves = BAD_CURVES.into_iter();
        let bad_curves = bad_curves.flat_map(|q| [(q, 3), (q, 37), (q, 255)]);
        for (q, m) in bad_curves.chain(BAD_ORDERS) {
            let n = if q == 2 { 8 } else { 64 };
            self.refused_opening(q, m, &vec![1; n], 32);
            let arbitrary = self.generator.bytes(n - 1);
            self.refused_opening(q, m, &arbitrary, 0);
        }
    }
}
