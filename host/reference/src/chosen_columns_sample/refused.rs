//! Calls on chosen columns with one fault or several.

use super::{Builder, Call, MISSING, STRAP_ORDER};
use crate::curve::Curve;
use crate::sample;
use crate::sample::columns::Block;

/// Numbers that name no curve of short blocks.
const BAD_CURVES: [u8; 4] = [0, 3, 8, 255];

/// The first index, one in the middle and the last of a list.
fn three_indexes(length: usize) -> [usize; 3] {
    [0, length / 2, length - 1]
}

/// Blocks of one column, of some and of all.
fn blocks() -> Vec<Block> {
    let all: Vec<u8> = (0..16).collect();
    vec![
        Block::of(Curve::Q_IS_2, &[2], 1),
        Block::of(Curve::Q_IS_2, &[1, 3], 3),
        Block::of(Curve::Q_IS_2, &[0, 1, 2, 3], 3),
        Block::of(Curve::Q_IS_4, &[15], 2),
        Block::of(Curve::Q_IS_4, &[0, 7, 9], 6),
        Block::of(
            Curve::Q_IS_4,
            &[1, 2, 3, 5, 6, 8, 10, 11, 12, 14],
            STRAP_ORDER,
        ),
        Block::of(Curve::Q_IS_4, &all, STRAP_ORDER),
    ]
}

impl Call {
    fn with_columns(&self, columns: Vec<u8>) -> Call {
        let call = self.clone();
        Call { columns, ..call }
    }

    fn with_column(&self, index: usize, x: u8) -> Call {
        let mut columns = self.columns.clone();
        columns[index] = x;
        self.with_columns(columns)
    }

    fn with_order(&self, m: u16) -> Call {
        let call = self.clone();
        Call { m, ..call }
    }

    fn with_input(&self, input: Vec<u8>) -> Call {
        let call = self.clone();
        Call { input, ..call }
    }

    fn with_value(&self, index: usize, value: u8) -> Call {
        let mut input = self.input.clone();
        input[index] = value;
        self.with_input(input)
    }

    fn with_length(&self, length: usize) -> Call {
        let call = self.clone();
        Call { length, ..call }
    }
}

impl Builder {
    pub(super) fn refused_calls(&mut self) {
        for block in blocks() {
            for good in self.good_calls(&block) {
                self.bad_curves(&good);
                self.bad_columns(&block, &good);
                self.bad_orders(&block, &good);
                self.bad_lengths(&block, &good);
                self.bad_values(&block, &good);
                self.several_faults(&block, &good);
            }
            self.bad_slices_for_other_words(&block);
        }
    }

    fn bad_curves(&mut self, good: &Call) {
        for q in BAD_CURVES {
            let call = good.clone();
            self.add(&Call { q, ..call });
        }
    }

    /// None, equal neighbours with one column more or as many, two swapped, all in
    /// descending order, one that isn't in the field behind the others or in place of
    /// one, and a list longer than all columns.
    fn bad_columns(&mut self, block: &Block, good: &Call) {
        let size = block.shape.field_size;
        let (count, last) = (good.columns.len(), good.columns.len() - 1);
        self.add(&good.with_columns(vec![]));
        for index in [0, last] {
            let mut repeated = good.columns.clone();
            repeated.insert(index, good.columns[index]);
            self.add(&good.with_columns(repeated));
        }
        if count > 1 {
            for index in [0, last - 1] {
                self.add(&good.with_column(index, good.columns[index + 1]));
                let mut swapped = good.columns.clone();
                swapped.swap(index, index + 1);
                self.add(&good.with_columns(swapped));
            }
            let descending = good.columns.iter().rev().copied();
            self.add(&good.with_columns(descending.collect()));
        }
        for x in [size, size + 1, 128 + good.columns[last], 255] {
            self.add(&good.with_columns([good.columns.as_slice(), &[x]].concat()));
            self.add(&good.with_column(last, x));
        }
        self.add(&good.with_column(0, 255));
        self.add(&good.with_columns((0..=size).collect()));
    }

    /// The low byte of the last is that of the good one.
    fn bad_orders(&mut self, block: &Block, good: &Call) {
        let n = block.shape.n as u16;
        for m in [n, n + 1, 64, 255, u16::MAX, 256 + good.m] {
            self.add(&good.with_order(m));
        }
    }

    /// Those of the input and of the slice, with the n of all columns among them.
    fn bad_lengths(&mut self, block: &Block, good: &Call) {
        let all = block.shape.curve.point_count();
        let wrong_lengths = |right: usize| {
            let lengths = [0, right - 1, right + 1, all, 65];
            lengths.into_iter().filter(move |&length| length != right)
        };
        for length in wrong_lengths(good.input.len()) {
            self.add(&good.with_input(vec![1; length]));
        }
        for length in wrong_lengths(good.length) {
            self.add(&good.with_length(length));
        }
    }

    /// 255 is a missing symbol in broken words.
    fn bad_values(&mut self, block: &Block, good: &Call) {
        let size = block.shape.field_size;
        for value in [size, MISSING - 1, MISSING] {
            for index in three_indexes(good.input.len()) {
                self.add(&good.with_value(index, value));
            }
        }
        for value in [size + 1, 31, 64, 128, 240] {
            let index = self.generator.below(good.input.len());
            let another = self.generator.below(good.input.len());
            let call = good.with_value(index, value);
            self.add(&call.with_value(another, MISSING - 1));
        }
    }

    /// All faults that come after one in the order of the checks, beside it: 5, 4, 3, 2,
    /// 18 and 1. Each number that names no curve comes with a list that is empty,
    /// descending or not in the field.
    fn several_faults(&mut self, block: &Block, good: &Call) {
        let size = block.shape.field_size;
        let bad_slice = good.with_length(good.length + 1);
        let index = self.generator.below(good.input.len());
        let bad_value = bad_slice.with_value(index, size);
        let longer = [bad_value.input.as_slice(), &[MISSING - 1]].concat();
        let bad_input = bad_value.with_input(longer);
        let bad_order = bad_input.with_order(block.shape.n as u16);
        let bad_lists = [vec![], vec![1, 0], vec![size]];
        let bad_columns = bad_lists.map(|list| bad_order.with_columns(list));
        for call in [bad_slice, bad_value, bad_input, bad_order] {
            self.add(&call);
        }
        for (call, q) in bad_columns.iter().zip([0, 3, 8]) {
            self.add(call);
            self.add(&Call { q, ..call.clone() });
        }
        // One fault or two: of the list and the order, and empty slices beside these.
        self.add(&good.with_columns(vec![]).with_order(0));
        self.add(&good.with_columns(vec![1, 0]).with_order(u16::MAX));
        let no_slices = good.with_input(vec![]).with_length(0);
        self.add(&no_slices);
        self.add(&no_slices.with_order(u16::MAX));
        self.add(&no_slices.with_columns(vec![]));
    }

    /// 5, though most of these words fit no message or, with all missing, several.
    fn bad_slices_for_other_words(&mut self, block: &Block) {
        let codeword = block.codeword(&mut self.generator);
        let damaged = sample::damaged(&mut self.generator, block.shape, &codeword);
        let nothing = vec![MISSING; block.shape.n];
        for (op, word) in [(b'U', damaged.clone()), (b'R', damaged), (b'R', nothing)] {
            let call = Call::of(op, block, word);
            self.add(&call.with_length(block.shape.k + 1));
        }
    }
}
