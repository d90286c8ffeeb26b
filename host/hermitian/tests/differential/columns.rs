//! The groups of calls on chosen columns with good arguments. Each gives what its calls
//! answered.

use hermitian::Refusal;
use reference::code::MISSING;
use reference::curve::Curve;
use reference::generator::Generator;
use reference::outcome::Outcome;
use reference::sample;
use reference::sample::columns::{self, Block};

use crate::comparison::{compare, compare_with, written, Call, Entry};
use crate::inputs::good_inputs;
use crate::tally::Tally;

/// All lists of the small curve and an arbitrary one of every length of the larger
/// one, each at all its orders.
pub fn blocks(generator: &mut Generator) -> Vec<Block> {
    let small = columns::every_list(Curve::Q_IS_2);
    let small = small.flat_map(|list| Block::every_order(Curve::Q_IS_2, &list));
    let larger = (1..=16).map(|count| columns::arbitrary(generator, Curve::Q_IS_4, count));
    let larger = larger.flat_map(|list| Block::every_order(Curve::Q_IS_4, &list));
    small.chain(larger).collect()
}

/// A call that isn't refused by its lengths.
pub fn call_on(block: &Block, entry: Entry, input: Vec<u8>) -> Call {
    Call {
        columns: Some(block.columns.clone()),
        ..Call::fitting(entry, block.shape, input)
    }
}

fn has_every_column(block: &Block) -> bool {
    block.columns.len() == usize::from(block.shape.field_size)
}

/// In words of all columns, the places of the chosen ones in turn.
fn places(block: &Block) -> impl Iterator<Item = usize> + '_ {
    let q = usize::from(block.q());
    let column = move |&x: &u8| (0..q).map(move |i| q * usize::from(x) + i);
    block.columns.iter().flat_map(column)
}

pub struct Comparison<'a> {
    pub generator: &'a mut Generator,
    pub tally: Tally,
}

impl Comparison<'_> {
    pub fn new(generator: &mut Generator) -> Comparison<'_> {
        Comparison {
            generator,
            tally: Tally::new(),
        }
    }

    pub fn compare(&mut self, call: &Call) {
        compare(call, self.generator, &mut self.tally);
    }

    /// A call with a known result.
    pub fn compare_to(&mut self, call: &Call, expected: Result<&[u8], Outcome>) {
        let expect = |outputs: &mut [Vec<u8>]| written(&mut outputs[0], expected);
        compare_with(expect, call, self.generator, &mut self.tally);
    }

    /// Held against the plain call with series 1.
    fn compare_with_plain(&mut self, block: &Block, entry: Entry, input: Vec<u8>) {
        let call = call_on(block, entry, input);
        let expect = |outputs: &mut [Vec<u8>]| call_plain(block, &call, &mut outputs[0]);
        compare_with(expect, &call, self.generator, &mut self.tally);
    }
}

/// What the plain calls of the library give: the word of the message in the chosen
/// columns, or the message from a word whose other columns are missing.
fn call_plain(block: &Block, call: &Call, output: &mut [u8]) -> u32 {
    let mut whole = vec![MISSING; block.shape.curve.point_count()];
    let (q, m) = (call.q, call.m);
    if call.entry == Entry::EncodeOn {
        let answer = hermitian::encode(q, 1, m, &call.input, &mut whole);
        for (symbol, place) in output.iter_mut().zip(places(block)) {
            *symbol = whole[place];
        }
        return packed(answer);
    }
    for (&symbol, place) in call.input.iter().zip(places(block)) {
        whole[place] = symbol;
    }
    let read = if call.entry == Entry::UnencodeOn && has_every_column(block) {
        hermitian::unencode
    } else {
        hermitian::recover
    };
    packed(read(q, 1, m, &whole, output))
}

fn packed(answer: Result<(), Refusal>) -> u32 {
    answer.map_or_else(Refusal::answer, |()| 0)
}

/// Lists of every length at all their orders: whole, damaged, arbitrary and broken
/// words, held against the reference; and words with exactly m + 1 symbols.
pub fn at_every_order(generator: &mut Generator, rounds: usize) -> Tally {
    let mut comparison = Comparison::new(generator);
    for _ in 0..rounds {
        for block in blocks(comparison.generator) {
            comparison.enough_symbols(&block);
            for (entry, input) in comparison.good_calls(&block) {
                comparison.compare(&call_on(&block, entry, input));
            }
        }
    }
    comparison.tally
}

/// The same, with more lists, held against the plain calls.
pub fn beside_plain_calls(generator: &mut Generator, rounds: usize) -> Tally {
    let mut comparison = Comparison::new(generator);
    for _ in 0..rounds {
        for block in blocks(comparison.generator) {
            for (entry, input) in comparison.good_calls(&block) {
                comparison.compare_with_plain(&block, entry, input);
            }
        }
    }
    comparison.tally
}

impl Comparison<'_> {
    fn good_calls(&mut self, block: &Block) -> Vec<(Entry, Vec<u8>)> {
        let word_of = |message: &[u8]| block.word_of(message);
        let inputs = good_inputs(block.shape, word_of, self.generator);
        let of_entries = Entry::ON_COLUMNS.into_iter().zip(inputs);
        of_entries
            .flat_map(|(entry, inputs)| inputs.into_iter().map(move |input| (entry, input)))
            .collect()
    }

    /// m + 1 symbols settle the message, and one more that is wrong fits none.
    fn enough_symbols(&mut self, block: &Block) {
        let shape = block.shape;
        let message = sample::message(self.generator, shape);
        let word = block.word_of(&message);
        self.compare_to(&call_on(block, Entry::EncodeOn, message.clone()), Ok(&word));
        self.compare_to(
            &call_on(block, Entry::UnencodeOn, word.clone()),
            Ok(&message),
        );
        let sure = usize::from(shape.m) + 1;
        let broken = sample::with_known(self.generator, &word, sure);
        self.compare_to(&call_on(block, Entry::RecoverOn, broken), Ok(&message));
        if sure < shape.n {
            let broken = sample::with_known(self.generator, &word, sure + 1);
            let damaged = sample::damaged(self.generator, shape, &broken);
            let none = Err(Outcome::NO_MESSAGE_FITS);
            self.compare_to(&call_on(block, Entry::RecoverOn, damaged), none);
        }
    }
}

/// The small curve at all orders: all messages, all whole words and all broken words on
/// every list of columns. The full list is held against the plain calls, the others
/// against the reference.
pub fn every_small_word(generator: &mut Generator) -> Tally {
    let mut comparison = Comparison::new(generator);
    for list in columns::every_list(Curve::Q_IS_2) {
        for block in Block::every_order(Curve::Q_IS_2, &list) {
            comparison.all_inputs(&block, Entry::EncodeOn, 4);
            comparison.all_inputs(&block, Entry::UnencodeOn, 4);
            comparison.all_inputs(&block, Entry::RecoverOn, 5);
        }
    }
    comparison.tally
}

impl Comparison<'_> {
    fn all_inputs(&mut self, block: &Block, entry: Entry, base: u32) {
        let length = entry.input_length(block.shape);
        for number in 0..base.pow(length as u32) {
            let mut input = sample::numbered_word(number, base);
            input.truncate(length);
            if has_every_column(block) {
                self.compare_with_plain(block, entry, input);
            } else {
                self.compare(&call_on(block, entry, input));
            }
        }
    }
}
