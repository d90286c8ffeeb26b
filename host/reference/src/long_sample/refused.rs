//! Calls that are refused before a message is looked for: one fault each, and several
//! at once, so that the order of the checks shows.

use super::Builder;
use crate::code::MISSING;
use crate::long_case_record::{WorkLength, SLICE_ROOM};
use crate::sample::{self, Shape};

/// Orders that no long block has; the low bytes of most are good orders.
const ORDERS_TOO_HIGH: [u16; 6] = [512, 513, 767, 812, 33_068, 65_535];

const OTHER_WORK_LENGTHS: [WorkLength; 3] =
    [WorkLength::OneLess, WorkLength::OneMore, WorkLength::None];

/// The right lengths of the input and of the slice to be written.
fn slice_lengths(op: u8, shape: Shape) -> (usize, usize) {
    if op == b'e' {
        (shape.k, shape.n)
    } else {
        (shape.n, shape.k)
    }
}

impl Builder {
    pub(super) fn refused_calls(&mut self, shape: Shape) {
        let message = sample::message(&mut self.generator, shape);
        let word = shape.word_of(&message);
        let broken = sample::with_known(&mut self.generator, &word, 500);
        for (op, good) in [(b'e', &message), (b'u', &word), (b'l', &broken)] {
            self.bad_values(op, shape, good);
            self.wrong_lengths(op, shape, good);
        }
        self.orders_too_high(shape, &message, &word);
        self.other_work_lengths(shape, &word);
        self.several_faults(shape, &broken);
        self.calls_that_take_no_long_block(shape, &word);
    }

    /// First, last and in between, and each time the highest bad value last too.
    fn bad_values(&mut self, op: u8, shape: Shape, good: &[u8]) {
        let highest = if op == b'l' { 254 } else { MISSING };
        let middle = self.generator.below(good.len());
        let any = self.generator.byte_from(64, highest);
        for (index, value) in [(0, 64), (middle, any), (good.len() - 1, 64)] {
            let mut input = good.to_vec();
            input[good.len() - 1] = highest;
            input[index] = value;
            self.fitting(op, shape, &input);
        }
    }

    /// One too few, one too many, none, and those of a short block.
    fn wrong_lengths(&mut self, op: u8, shape: Shape, good: &[u8]) {
        let (input_length, output_length) = slice_lengths(op, shape);
        let (q, m) = (shape.q(), shape.m);
        let longer = [good, &[0]].concat();
        self.call(op, q, m, &good[1..], output_length);
        self.call(op, q, m, &longer, output_length);
        if input_length > 64 {
            self.call(op, q, m, &good[..64], output_length);
        }
        for length in [0, output_length - 1, output_length + 1] {
            self.call(op, q, m, good, length);
        }
    }

    /// With everything else right for some order, or wrong too.
    fn orders_too_high(&mut self, shape: Shape, message: &[u8], word: &[u8]) {
        let number = self.generator.below(ORDERS_TOO_HIGH.len());
        let orders = [ORDERS_TOO_HIGH[number], 512];
        for m in orders {
            self.call(b'e', 8, m, message, shape.n);
            self.call(b'u', 8, m, word, shape.k);
            self.call(b'l', 8, m, word, shape.k);
            self.recover_with_work(m, &[64; 511], SLICE_ROOM, WorkLength::None);
        }
    }

    /// Beside a word that has a message, one that none fits, and one that leaves
    /// several.
    fn other_work_lengths(&mut self, shape: Shape, word: &[u8]) {
        let damaged = sample::damaged(&mut self.generator, shape, word);
        for work_length in OTHER_WORK_LENGTHS {
            for word in [word, &damaged, &[MISSING; 512]] {
                self.recover_with_work(shape.m, word, shape.k, work_length);
            }
        }
    }

    /// The call starts with all faults but the order's and loses them one by one.
    fn several_faults(&mut self, shape: Shape, broken: &[u8]) {
        let mut bad = broken.to_vec();
        bad[300] = 200;
        bad[301] = 64;
        let longer = [bad.as_slice(), &[64]].concat();
        for work_length in OTHER_WORK_LENGTHS {
            self.recover_with_work(shape.m, &longer, shape.k + 1, work_length);
            self.recover_with_work(shape.m, &bad[1..], shape.k - 1, work_length);
            self.recover_with_work(shape.m, &bad, shape.k + 1, work_length);
            self.recover_with_work(shape.m, &bad, shape.k, work_length);
            self.recover_with_work(shape.m, broken, shape.k - 1, work_length);
        }
    }

    /// Plain recovery refuses 8 with 1, and its own curves take no word of 512; other
    /// numbers name no curve.
    fn calls_that_take_no_long_block(&mut self, shape: Shape, word: &[u8]) {
        let mut bad = word.to_vec();
        bad[5] = 64;
        self.fitting(b'r', shape, word);
        self.call(b'r', 8, 512, &bad, 0);
        for q in [2, 4, 16] {
            self.call(b'r', q, shape.m, word, shape.k);
            self.call(b'u', q, shape.m, word, shape.k);
        }
        self.call(b'e', 16, shape.m, &word[..shape.k], shape.n);
        self.call(b'r', 4, 37, &[16; 64], 32);
        self.call(b'r', 4, 37, &[15; 64], 33);
    }
}
