//! The groups of calls that put symbols at chosen places. Each gives what its calls
//! answered.

use std::collections::HashMap;

use reference::curve::Curve;
use reference::generator::Generator;
use reference::outcome::Outcome;
use reference::sample::places::{self, symbols_at};
use reference::sample::{self, Shape};

use crate::encoding_at::{Comparison, Encoding};
use crate::inputs::{
    arbitrary_order, arbitrary_series, curve_numbers_with_orders, either_series, spoil,
    strap_in_both_series, with_bad_value, write_arbitrary_value, wrong_length,
};
use crate::tally::Tally;

/// Sets of k places of every kind at every order of both curves of short blocks in
/// both series.
pub fn at_every_order(generator: &mut Generator, rounds: usize) -> Tally {
    let mut comparison = Comparison::new(generator);
    for shape in Shape::every_short_in_both_series() {
        for _ in 0..rounds {
            comparison.sets_of_every_kind(shape);
        }
    }
    comparison.tally
}

/// The strap's own order in both series.
pub fn strap_blocks(generator: &mut Generator, rounds: usize) -> Tally {
    let mut comparison = Comparison::new(generator);
    for _ in 0..rounds {
        for shape in strap_in_both_series() {
            comparison.sets_of_every_kind(shape);
        }
    }
    comparison.tally
}

impl Comparison<'_> {
    fn sets_of_every_kind(&mut self, shape: Shape) {
        let (n, k) = (shape.n as u16, shape.k as u16);
        let fixing = places::arbitrary_fixing(self.generator, shape);
        let sets = [
            places::with_one_exchanged(self.generator, shape, &fixing),
            fixing,
            places::arbitrary(self.generator, shape),
            places::column_by_column(self.generator, shape),
            (0..k).collect(),
            (n - k..n).collect(),
        ];
        for set in sets {
            self.encode_with_symbols(shape, set);
        }
        let staircase = places::staircase(self.generator, shape);
        assert_eq!(self.encode_with_symbols(shape, staircase), 0);
        if let Some(few) = places::in_few_columns(self.generator, shape) {
            assert_eq!(self.encode_with_symbols(shape, few), 16);
        }
    }

    /// Gives the refusal number.
    fn encode_with_symbols(&mut self, shape: Shape, places: Vec<u16>) -> u8 {
        let symbols = self.symbols_for(shape, &places);
        self.encode(&Encoding::fitting(shape, places, symbols))
    }

    /// Zeros, those of a codeword, or arbitrary ones. Where the places don't fix the
    /// codeword, several codewords have the first two, and mostly none has the last.
    fn symbols_for(&mut self, shape: Shape, places: &[u16]) -> Vec<u8> {
        match self.generator.below(5) {
            0 => vec![0; shape.k],
            1 | 2 => symbols_at(places, &sample::codeword(self.generator, shape)),
            _ => sample::message(self.generator, shape),
        }
    }
}

/// The small curve at all orders: every set of k places with all symbols, held against
/// the list of all codewords, and every list of up to 4 numbers from 0 to 8. The series
/// is one of the two by chance, which list the small curve's points alike.
pub fn every_small_set(generator: &mut Generator) -> Tally {
    let mut comparison = Comparison::new(generator);
    for shape in Shape::every_order(Curve::Q_IS_2) {
        let codewords = sample::all_messages_with_words(shape);
        let words: Vec<Vec<u8>> = codewords.into_iter().map(|(_, word)| word).collect();
        for bits in (0..=255u8).filter(|bits| bits.count_ones() as usize == shape.k) {
            let places = (0..8).filter(|place| bits >> place & 1 == 1).collect();
            comparison.with_all_symbols(shape, &words, places);
        }
        if shape.k <= 4 {
            comparison.every_list_up_to_8(shape);
        }
    }
    comparison.tally
}

impl Comparison<'_> {
    fn with_all_symbols(&mut self, shape: Shape, words: &[Vec<u8>], places: Vec<u16>) {
        let with_symbols = words.iter().map(|word| (symbols_at(&places, word), word));
        let by_symbols: HashMap<Vec<u8>, &Vec<u8>> = with_symbols.collect();
        let two_agree = by_symbols.len() < words.len();
        let mut encoding = Encoding::fitting(shape, places, vec![]);
        for number in 0..4u32.pow(shape.k as u32) {
            encoding.symbols = sample::numbered_word(number, 4);
            encoding.symbols.truncate(shape.k);
            encoding.series = either_series(self.generator);
            let expected = if two_agree {
                Err(Outcome::PLACES_LEAVE_SEVERAL)
            } else {
                Ok(by_symbols[&encoding.symbols].as_slice())
            };
            self.encode_to(&encoding, expected);
        }
    }

    fn every_list_up_to_8(&mut self, shape: Shape) {
        for number in 0..9u32.pow(shape.k as u32) {
            let digit = |index| (number / 9u32.pow(index) % 9) as u16;
            let list = (0..shape.k as u32).map(digit).collect();
            let symbols = sample::message(self.generator, shape);
            let mut encoding = Encoding::fitting(shape, list, symbols);
            encoding.series = either_series(self.generator);
            self.encode(&encoding);
        }
    }
}

/// Every curve number with every order of 8 bits, and every order of 16 bits with
/// each curve and with a number that names none; the series by chance. The lengths fit
/// some orders.
pub fn every_curve_number_and_order(generator: &mut Generator) -> Tally {
    let mut comparison = Comparison::new(generator);
    for (q, m) in curve_numbers_with_orders() {
        let series = either_series(comparison.generator);
        comparison.encode_zeros(q, series, m);
    }
    comparison.tally
}

/// Every series number, with good and bad curve numbers and orders, and with the
/// lengths right and arbitrary.
pub fn every_series(generator: &mut Generator) -> Tally {
    let mut comparison = Comparison::new(generator);
    for series in 0..=255 {
        for (q, m) in [(2, 3), (2, 8), (4, 37), (4, 64), (8, 37), (3, 64)] {
            comparison.encode_zeros(q, series, m);
        }
        for shape in [Shape::of(Curve::Q_IS_2, 3), Shape::of(Curve::Q_IS_4, 37)] {
            let places = places::arbitrary(comparison.generator, shape);
            let mut encoding = Encoding::fitting(shape, places, vec![0; shape.k]);
            encoding.series = series;
            comparison.encode(&encoding);
        }
    }
    comparison.tally
}

impl Comparison<'_> {
    /// At the first places, with lengths that fit some orders.
    fn encode_zeros(&mut self, q: u8, series: u8, m: u16) {
        let mut k = || [1, 7, 32][self.generator.below(3)];
        let encoding = Encoding {
            q,
            series,
            m,
            places: (0..k()).collect(),
            symbols: vec![0; usize::from(k())],
            word_length: [8, 64][self.generator.below(2)],
        };
        self.encode(&encoding);
    }
}

/// One fault or several at once: the first check that applies must decide.
pub fn faulty(generator: &mut Generator, rounds: usize) -> Tally {
    let mut comparison = Comparison::new(generator);
    let shapes: Vec<Shape> = Shape::every_short_in_both_series().collect();
    for _ in 0..rounds {
        let shape = shapes[comparison.generator.below(shapes.len())];
        let encoding = faulty_encoding(shape, comparison.generator);
        comparison.encode(&encoding);
    }
    comparison.tally
}

fn faulty_encoding(shape: Shape, generator: &mut Generator) -> Encoding {
    let places = places::column_by_column(generator, shape);
    let symbols = sample::message(generator, shape);
    let mut encoding = Encoding::fitting(shape, places, symbols);
    if generator.below(12) == 0 {
        encoding.q = generator.byte();
    }
    if generator.below(10) == 0 {
        encoding.series = arbitrary_series(generator);
    }
    if generator.below(8) == 0 {
        encoding.m = arbitrary_order(shape, generator);
    }
    if generator.below(4) == 0 {
        let one_more = (0..shape.k as u16 + 1).collect();
        let too_high = sample::numbers_too_high(shape.curve);
        let too_high = too_high[generator.below(too_high.len())];
        spoil(&mut encoding.places, one_more, too_high, generator);
    }
    if generator.below(4) == 0 {
        let length = wrong_length(shape.k, generator);
        encoding.symbols.resize(length, 0);
    }
    for _ in 0..generator.below(3) {
        write_arbitrary_value(&mut encoding.symbols, shape, generator);
    }
    if generator.below(2) == 0 {
        encoding.word_length = wrong_length(shape.n, generator);
    }
    encoding
}

/// One fault alone, of every kind, at every order in both series: in each item of the places and of
/// the symbols, and in each length up to n + 2 and beyond. The last check finds the
/// places bad at most orders.
pub fn every_fault(generator: &mut Generator) -> Tally {
    let mut comparison = Comparison::new(generator);
    for shape in Shape::every_short_in_both_series() {
        let places = places::column_by_column(comparison.generator, shape);
        for index in 0..shape.k {
            comparison.bad_place(shape, &places, index);
            let any = comparison.generator.byte_from(shape.field_size, 255);
            for value in [shape.field_size, 254, 255, any] {
                comparison.bad_symbol(shape, &places, index, value);
            }
        }
        for value in shape.field_size..=255 {
            let index = comparison.generator.below(shape.k);
            comparison.bad_symbol(shape, &places, index, value);
        }
        let far = [
            255,
            256,
            257,
            256 + shape.k,
            256 + shape.n,
            65_536 + shape.k,
        ];
        for length in (0..=shape.n + 2).chain(far) {
            comparison.bad_lengths(shape, &places, length);
        }
    }
    comparison.tally
}

impl Comparison<'_> {
    fn bad_place(&mut self, shape: Shape, places: &[u16], index: usize) {
        let too_high = sample::numbers_too_high(shape.curve);
        let any = too_high[self.generator.below(too_high.len())];
        let same_low_byte = 256 + places[index];
        let mut numbers = vec![shape.n as u16, 255, 256, u16::MAX, same_low_byte, any];
        // Repeated, or no longer ascending.
        numbers.extend(&places[..index]);
        for number in numbers {
            let mut list = places.to_vec();
            list[index] = number;
            self.refused(shape, list, vec![0; shape.k], Outcome::BAD_PLACES);
        }
    }

    /// The values behind it are arbitrary.
    fn bad_symbol(&mut self, shape: Shape, places: &[u16], index: usize, value: u8) {
        let good = sample::symbols(self.generator, shape, index);
        let symbols = with_bad_value(good, value, shape.k, self.generator);
        let refusal = Outcome::value_too_high(index as u16);
        self.refused(shape, places.to_vec(), symbols, refusal);
    }

    /// Of the places, which ascend as far as there are any, of the symbols, and of
    /// the word.
    fn bad_lengths(&mut self, shape: Shape, places: &[u16], length: usize) {
        let zeros = vec![0; shape.k];
        if length != shape.k {
            let list = (0..length).map(|place| place as u16).collect();
            self.refused(shape, list, zeros.clone(), Outcome::BAD_PLACES);
            let symbols = vec![0; length];
            self.refused(shape, places.to_vec(), symbols, Outcome::WRONG_INPUT_LENGTH);
        }
        if length != shape.n {
            let mut encoding = Encoding::fitting(shape, places.to_vec(), zeros);
            encoding.word_length = length;
            self.encode_to(&encoding, Err(Outcome::WRONG_OUTPUT_LENGTH));
        }
    }

    fn refused(&mut self, shape: Shape, places: Vec<u16>, symbols: Vec<u8>, refusal: Outcome) {
        let encoding = Encoding::fitting(shape, places, symbols);
        self.encode_to(&encoding, Err(refusal));
    }
}
