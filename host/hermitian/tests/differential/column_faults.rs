//! The groups of calls on chosen columns with bad arguments. Each gives what its calls
//! answered.

use reference::code::MISSING;
use reference::generator::Generator;
use reference::outcome::Outcome;
use reference::sample;
use reference::sample::columns::Block;

use crate::columns::{blocks, call_on, Comparison};
use crate::comparison::{Call, Entry};
use crate::inputs::{curve_numbers_with_orders, faulty_call, spoil, with_bad_value};
use crate::tally::Tally;

/// Every curve number with every order of 8 bits, and every order of 16 bits with
/// each curve and with a number that names none; the columns by chance, good and bad,
/// the lengths fit some of them.
pub fn every_curve_number_and_order(generator: &mut Generator) -> Tally {
    let mut comparison = Comparison::new(generator);
    let bad_lists = [vec![], vec![2, 1]];
    let good_lists = [vec![1], vec![0, 2, 3], (0..4).collect(), (0..16).collect()];
    let lists = [bad_lists.as_slice(), &good_lists].concat();
    for (q, m) in curve_numbers_with_orders() {
        for entry in Entry::ON_COLUMNS {
            let mut any = |limit| comparison.generator.below(limit);
            let call = Call {
                entry,
                q,
                series: 1,
                columns: Some(lists[any(lists.len())].clone()),
                m,
                input: vec![0; [1, 4, 6, 64][any(4)]],
                output_lengths: vec![[1, 4, 6, 64][any(4)]],
            };
            comparison.compare(&call);
        }
    }
    comparison.tally
}

/// One fault or several at once: the first check that applies must decide.
pub fn faulty(generator: &mut Generator, rounds: usize) -> Tally {
    let mut comparison = Comparison::new(generator);
    for _ in 0..rounds {
        for block in blocks(comparison.generator) {
            for entry in Entry::ON_COLUMNS {
                let call = faulty_call_on(&block, entry, comparison.generator);
                comparison.compare(&call);
            }
        }
    }
    comparison.tally
}

/// The order is now and then one of the whole block only.
fn faulty_call_on(block: &Block, entry: Entry, generator: &mut Generator) -> Call {
    let shape = block.shape;
    let mut columns = block.columns.clone();
    if generator.below(4) == 0 {
        let one_more = (0..=shape.field_size).collect();
        let too_high = generator.byte_from(shape.field_size, 255);
        spoil(&mut columns, one_more, too_high, generator);
    }
    let mut call = faulty_call(entry, shape, generator);
    if generator.below(12) == 0 {
        let all = shape.curve.point_count();
        call.m = (shape.n + generator.below(all - shape.n)) as u16;
    }
    Call {
        series: 1,
        columns: Some(columns),
        ..call
    }
}

/// One fault alone, of every kind, with all lists of the small curve and one of every
/// length of the larger one at all their orders.
pub fn every_fault(generator: &mut Generator) -> Tally {
    let mut comparison = Comparison::new(generator);
    for block in blocks(comparison.generator) {
        comparison.bad_lists(&block);
        // Which order it is makes no difference to bytes, of which there are many.
        if block.shape.m == 0 || usize::from(block.shape.m) + 1 == block.shape.n {
            comparison.every_byte_as_column(&block);
        }
        comparison.bad_orders(&block);
        for entry in Entry::ON_COLUMNS {
            comparison.bad_values(&block, entry);
            comparison.bad_lengths(&block, entry);
        }
    }
    comparison.tally
}

impl Comparison<'_> {
    /// A call with arbitrary symbols.
    fn good_call(&mut self, block: &Block, entry: Entry) -> Call {
        let length = entry.input_length(block.shape);
        let input = sample::symbols(self.generator, block.shape, length);
        call_on(block, entry, input)
    }

    fn refused(&mut self, call: &Call, refusal: Outcome) {
        self.compare_to(call, Err(refusal));
    }

    /// All else is right for the block's own columns.
    fn bad_list(&mut self, block: &Block, columns: &[u8]) {
        for entry in Entry::ON_COLUMNS {
            let call = Call {
                columns: Some(columns.to_vec()),
                ..self.good_call(block, entry)
            };
            self.refused(&call, Outcome::BAD_COLUMNS);
        }
    }

    /// None, each pair of neighbours exchanged or the same, all the other way round,
    /// the last one followed by itself, by 0 or by too many, and each of the lists that
    /// are longer than any good one.
    fn bad_lists(&mut self, block: &Block) {
        let good = block.columns.as_slice();
        let size = block.shape.field_size;
        self.bad_list(block, &[]);
        for index in 1..good.len() {
            let mut list = good.to_vec();
            list.swap(index - 1, index);
            self.bad_list(block, &list);
            list[index] = list[index - 1];
            self.bad_list(block, &list);
        }
        if good.len() > 1 {
            let reversed: Vec<u8> = good.iter().rev().copied().collect();
            self.bad_list(block, &reversed);
        }
        for more in [good[good.len() - 1], 0, size, 255] {
            self.bad_list(block, &[good, &[more]].concat());
        }
        for length in [usize::from(size) + 1, 255, 256, 256 + good.len()] {
            let ascending = (0..length).map(|x| x as u8);
            self.bad_list(block, &ascending.collect::<Vec<u8>>());
            let padded = good.iter().copied().chain([15; 512]).take(length);
            self.bad_list(block, &padded.collect::<Vec<u8>>());
        }
    }

    /// In turn at each index; some lists stay good.
    fn every_byte_as_column(&mut self, block: &Block) {
        for index in 0..block.columns.len() {
            for value in 0..=255 {
                let mut list = block.columns.clone();
                list[index] = value;
                for entry in Entry::ON_COLUMNS {
                    let call = Call {
                        columns: Some(list.clone()),
                        ..self.good_call(block, entry)
                    };
                    self.compare(&call);
                }
            }
        }
    }

    /// From the columns' own n on, those of the whole block too.
    fn bad_orders(&mut self, block: &Block) {
        let n = block.shape.n as u16;
        let all = block.shape.curve.point_count() as u16;
        let high = [255, 256, 256 + block.shape.m, u16::MAX];
        for m in (n..=all).chain(high) {
            for entry in Entry::ON_COLUMNS {
                let call = Call {
                    m,
                    ..self.good_call(block, entry)
                };
                self.refused(&call, Outcome::ORDER_TOO_HIGH);
            }
        }
    }

    /// At each index, and every byte that is one.
    fn bad_values(&mut self, block: &Block, entry: Entry) {
        let size = block.shape.field_size;
        let highest = if entry == Entry::RecoverOn { 254 } else { 255 };
        let length = entry.input_length(block.shape);
        for index in 0..length {
            for value in [size, highest, self.generator.byte_from(size, highest)] {
                self.bad_value(block, entry, index, value);
            }
        }
        for value in size..=highest {
            let index = self.generator.below(length);
            self.bad_value(block, entry, index, value);
        }
    }

    /// Some symbols before it are missing where that is allowed.
    fn bad_value(&mut self, block: &Block, entry: Entry, index: usize, value: u8) {
        let mut good = sample::symbols(self.generator, block.shape, index);
        if entry == Entry::RecoverOn {
            let missing = self.generator.below(index + 1);
            good[..missing].fill(MISSING);
        }
        let length = entry.input_length(block.shape);
        let input = with_bad_value(good, value, length, self.generator);
        let refusal = Outcome::value_too_high(index as u16);
        self.refused(&call_on(block, entry, input), refusal);
    }

    /// Of the input and of the output, up to n + 2 and beyond, that of the whole block
    /// too.
    fn bad_lengths(&mut self, block: &Block, entry: Entry) {
        let n = block.shape.n;
        let right = entry.input_length(block.shape);
        let far = [
            block.shape.curve.point_count() + 3,
            255,
            256,
            256 + right,
            65_536 + right,
        ];
        for length in (0..=n + 2).chain(far) {
            let mut call = self.good_call(block, entry);
            if call.output_lengths != [length] {
                call.output_lengths = vec![length];
                self.refused(&call, Outcome::WRONG_OUTPUT_LENGTH);
            }
            if length != right {
                let call = call_on(block, entry, vec![0; length]);
                self.refused(&call, Outcome::WRONG_INPUT_LENGTH);
            }
        }
    }
}
