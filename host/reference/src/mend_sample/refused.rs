//! Calls of the mender with one fault or several.

use super::{right_lengths, Builder};
use crate::case_record::SLICE_ROOM;
use crate::checks::MISSING;
use crate::curve::Curve;
use crate::sample::{self, Shape, BAD_CURVES};

fn all_too_long(shape: Shape) -> [usize; 3] {
    right_lengths(shape).map(|length| length + 1)
}

/// The values that no word may hold and that are near an edge.
fn bad_values(shape: Shape) -> [u8; 3] {
    [shape.field_size, MISSING - 1, MISSING]
}

/// The first place, one in the middle and the last.
fn three_places(shape: Shape) -> [usize; 3] {
    [0, shape.n / 2, shape.n - 1]
}

impl Builder {
    /// Each fault of the word and of the slices, and all of those that come
    /// after one in the order of the checks beside it.
    pub(super) fn refused_calls(&mut self, shape: Shape, radius: usize) {
        let n = shape.n;
        for length in [0, n - 1, n + 1] {
            let word = self.arbitrary_word(shape, length);
            self.shaped_call(shape, &word);
        }
        let too_long = vec![MISSING; n + 1];
        self.call_at(shape, &too_long, all_too_long(shape));
        for word in self.with_bad_values(shape, radius) {
            self.shaped_call(shape, &word);
        }
        let word = self.with_two_bad_values(shape, radius);
        self.shaped_call(shape, &word);
        self.call_at(shape, &word, all_too_long(shape));
        for slice in 0..3 {
            let word = self.with_wrong(shape, radius);
            let mut lengths = right_lengths(shape);
            lengths[slice] = self.wrong_length(lengths[slice]);
            self.call_at(shape, &word, lengths);
        }
        let word = self.with_wrong(shape, radius + 1);
        self.call_at(shape, &word, all_too_long(shape));
    }

    /// A bad value first, in the middle and last, another one at each.
    fn with_bad_values(&mut self, shape: Shape, radius: usize) -> Vec<Vec<u8>> {
        let mut values = bad_values(shape);
        values.rotate_left(usize::from(shape.m) % 3);
        let faults = three_places(shape).into_iter().zip(values);
        faults
            .map(|(place, value)| {
                let mut word = self.with_wrong(shape, radius);
                word[place] = value;
                word
            })
            .collect()
    }

    fn with_two_bad_values(&mut self, shape: Shape, radius: usize) -> Vec<u8> {
        let mut word = self.with_wrong(shape, radius);
        let places = self.generator.permutation(shape.n);
        for &place in &places[..2] {
            word[place] = self.generator.byte_from(shape.field_size, MISSING);
        }
        word
    }

    fn wrong_length(&mut self, right: usize) -> usize {
        let wrong = [right - 1, right + 1, 0, SLICE_ROOM];
        wrong[self.generator.below(wrong.len())]
    }

    pub(super) fn every_single_fault(&mut self, shape: Shape) {
        for value in bad_values(shape) {
            for place in three_places(shape) {
                let mut word = self.codeword(shape);
                word[place] = value;
                self.shaped_call(shape, &word);
            }
        }
        let right = right_lengths(shape);
        for slice in 0..3 {
            for length in [0, 1, right[slice] - 1, right[slice] + 1, SLICE_ROOM] {
                let word = self.codeword(shape);
                let mut lengths = right;
                lengths[slice] = length;
                self.call_at(shape, &word, lengths);
            }
        }
        // Slices taken for each other.
        let codeword = self.codeword(shape);
        let [message, word, marks] = right;
        self.call_at(shape, &codeword, [word, message, marks]);
        self.call_at(shape, &codeword, [marks, word, message]);
    }

    pub(super) fn order_too_high_to_mend(&mut self, shape: Shape) {
        let codeword = self.codeword(shape);
        self.shaped_call(shape, &codeword);
        let arbitrary = self.arbitrary_word(shape, shape.n);
        self.shaped_call(shape, &arbitrary);
        self.later_faults(shape.q(), shape.m, shape);
    }

    pub(super) fn bad_orders(&mut self) {
        for curve in sample::short_curves(self.series) {
            let shape = Shape::of(curve, 3);
            let n = shape.n as u16;
            for order in [n, n + 1, 255] {
                let codeword = self.codeword(shape);
                self.call(curve.q(), order, &codeword, right_lengths(shape));
                self.later_faults(curve.q(), order, shape);
            }
        }
    }

    pub(super) fn bad_curves(&mut self) {
        for q in BAD_CURVES {
            for m in [37, 58, 255] {
                let shape = Shape::of(Curve::Q_IS_4.in_series(self.series), 37);
                let codeword = self.codeword(shape);
                self.call(q, m, &codeword, right_lengths(shape));
                self.later_faults(q, m, shape);
            }
        }
    }

    /// Calls with a fault of word or slices beside that of q or m: the word's
    /// length, its values, the slices, and all of them.
    fn later_faults(&mut self, q: u8, m: u16, shape: Shape) {
        let right = right_lengths(shape);
        let codeword = self.codeword(shape);
        self.call(q, m, &codeword[1..], right);
        let mut bad_value = codeword.clone();
        bad_value[shape.n / 2] = shape.field_size;
        self.call(q, m, &bad_value, right);
        self.call(q, m, &codeword, [0, 1, 2]);
        let too_long = vec![MISSING; shape.n + 1];
        self.call(q, m, &too_long, all_too_long(shape));
    }
}
