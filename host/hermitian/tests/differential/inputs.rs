//! The groups of calls. Each gives what its calls answered.

use reference::code::MISSING;
use reference::curve::Curve;
use reference::generator::Generator;
use reference::sample::{self, Shape};

use crate::comparison::{compare, Call, Entry};
use crate::tally::Tally;

/// Whole, damaged and arbitrary words, and words with any number missing, at
/// every order of both curves of short blocks in both series.
pub fn at_every_order(generator: &mut Generator, rounds: usize) -> Tally {
    let mut tally = Tally::new();
    for shape in Shape::every_short_in_both_series() {
        for _ in 0..rounds {
            well_formed_calls(shape, generator, &mut tally);
        }
    }
    tally
}

fn well_formed_calls(shape: Shape, generator: &mut Generator, tally: &mut Tally) {
    let entries = [Entry::Encode, Entry::Unencode, Entry::Recover];
    let inputs = good_inputs(shape, |message| shape.word_of(message), generator);
    for (entry, inputs) in entries.into_iter().zip(inputs) {
        for input in inputs {
            compare(&Call::fitting(entry, shape, input), generator, tally);
        }
    }
}

/// A message to encode; whole words, its own, damaged and arbitrary, to unencode; and
/// broken words to recover from.
pub fn good_inputs(
    shape: Shape,
    word_of: impl Fn(&[u8]) -> Vec<u8>,
    generator: &mut Generator,
) -> [Vec<Vec<u8>>; 3] {
    let message = sample::message(generator, shape);
    let word = word_of(&message);
    let damaged = sample::damaged(generator, shape, &word);
    let arbitrary = sample::symbols(generator, shape, shape.n);
    let broken = broken_words(shape, generator, &word);
    [vec![message], vec![word, damaged, arbitrary], broken]
}

/// A whole word, one with any number of symbols, two near the number where
/// the answer turns, a damaged one, and one of whole columns.
fn broken_words(shape: Shape, generator: &mut Generator, word: &[u8]) -> Vec<Vec<u8>> {
    let any = generator.below(shape.n + 1);
    let sure = usize::from(shape.m) + 1;
    let near = shape.k + generator.below(sure + 1 - shape.k.min(sure));
    let columns = generator.below(usize::from(shape.field_size) + 1);
    let sparse = sample::with_known(generator, word, any);
    vec![
        word.to_vec(),
        sample::with_known(generator, word, sure),
        sample::with_known(generator, word, near),
        sample::damaged(generator, shape, &sparse),
        sparse,
        sample::with_known_columns(generator, shape, word, columns),
    ]
}

/// Every word of the small curve, each place a symbol or missing, at every
/// order. Both series list the small curve's points alike, and each call names one of
/// them by chance.
pub fn every_small_broken_word(generator: &mut Generator) -> Tally {
    every_small(generator, Entry::Recover, 5)
}

/// Every whole word of the small curve at every order, the series by chance.
pub fn every_small_word(generator: &mut Generator) -> Tally {
    every_small(generator, Entry::Unencode, 4)
}

fn every_small(generator: &mut Generator, entry: Entry, base: u32) -> Tally {
    let mut tally = Tally::new();
    for shape in Shape::every_order(Curve::Q_IS_2) {
        for number in 0..base.pow(8) {
            let mut call = Call::fitting(entry, shape, sample::numbered_word(number, base));
            call.series = either_series(generator);
            compare(&call, generator, &mut tally);
        }
    }
    tally
}

/// 1 or 2.
pub fn either_series(generator: &mut Generator) -> u8 {
    generator.byte_from(1, 2)
}

/// Mostly one that is refused.
pub fn arbitrary_series(generator: &mut Generator) -> u8 {
    let choices = [0, 3, 129, 255, generator.byte()];
    choices[generator.below(choices.len())]
}

/// Every curve number with every order of 8 bits, and every order of 16 bits with
/// each curve and with a number that names none; the series by chance.
pub fn every_curve_number_and_order(generator: &mut Generator) -> Tally {
    let mut tally = Tally::new();
    for (q, m) in curve_numbers_with_orders() {
        every_entry(q, either_series(generator), m, generator, &mut tally);
    }
    tally
}

/// The pairs of [`every_curve_number_and_order`].
pub fn curve_numbers_with_orders() -> impl Iterator<Item = (u8, u16)> {
    let low_orders = (0..=255).flat_map(|q| (0..=255).map(move |m| (q, m)));
    let curves = [2, 3, 4, 8].into_iter();
    let high_orders = curves.flat_map(|q| (256..=u16::MAX).map(move |m| (q, m)));
    low_orders.chain(high_orders)
}

/// Every series number, with good and bad curve numbers and orders, and with the
/// lengths right and arbitrary.
pub fn every_series(generator: &mut Generator) -> Tally {
    let mut tally = Tally::new();
    let pairs = [
        (2, 3),
        (4, 37),
        (8, 300),
        (2, 8),
        (4, 64),
        (8, 512),
        (3, 0),
        (0, 64),
    ];
    for series in 0..=255 {
        for (q, m) in pairs {
            every_entry(q, series, m, generator, &mut tally);
        }
        for (q, m) in pairs.into_iter().take(3) {
            let curve = Curve::named(q).expect("one of the three curves");
            let shape = Shape::of(curve, m);
            for entry in Entry::OF_ORDERS {
                let mut call = Call::fitting(entry, shape, vec![0; entry.input_length(shape)]);
                call.series = series;
                compare(&call, generator, &mut tally);
            }
        }
    }
    tally
}

/// With lengths that fit some curve. Those of the strap are right if the order's
/// low byte is 37.
fn every_entry(q: u8, series: u8, m: u16, generator: &mut Generator, tally: &mut Tally) {
    for entry in Entry::OF_ORDERS {
        let mut length = |_| [8, 32, 64][generator.below(3)];
        let call = Call {
            entry,
            q,
            series,
            columns: None,
            m,
            input: vec![0; length(0)],
            output_lengths: (0..entry.output_count()).map(length).collect(),
        };
        compare(&call, generator, tally);
    }
}

/// Every byte at an arbitrary index, at every order in both series, by every entry.
pub fn every_byte(generator: &mut Generator) -> Tally {
    let mut tally = Tally::new();
    for shape in Shape::every_short_in_both_series() {
        for entry in Entry::OF_ORDERS {
            for value in shape.field_size..=255 {
                let length = entry.input_length(shape);
                let mut input = sample::symbols(generator, shape, length);
                input[generator.below(length)] = value;
                compare(&Call::fitting(entry, shape, input), generator, &mut tally);
            }
        }
    }
    tally
}

/// One fault or several at once: the first check that applies must decide.
pub fn faulty(generator: &mut Generator, rounds: usize) -> Tally {
    let mut tally = Tally::new();
    let shapes: Vec<Shape> = Shape::every_short_in_both_series().collect();
    for round in 0..rounds {
        let shape = shapes[generator.below(shapes.len())];
        let call = faulty_call(
            Entry::OF_ORDERS[round % Entry::OF_ORDERS.len()],
            shape,
            generator,
        );
        compare(&call, generator, &mut tally);
    }
    tally
}

/// With one fault or several, or none.
pub fn faulty_call(entry: Entry, shape: Shape, generator: &mut Generator) -> Call {
    let input_length = entry.input_length(shape);
    let input = sample::symbols(generator, shape, input_length);
    let mut call = Call::fitting(entry, shape, input);
    // The rarest fault first in the order of the checks, so that each number
    // occurs often.
    if generator.below(12) == 0 {
        call.q = generator.byte();
    }
    if generator.below(10) == 0 {
        call.series = arbitrary_series(generator);
    }
    if generator.below(8) == 0 {
        call.m = arbitrary_order(shape, generator);
    }
    if generator.below(5) == 0 {
        let length = wrong_length(input_length, generator);
        call.input.resize(length, 0);
    }
    for _ in 0..generator.below(4) {
        write_arbitrary_value(&mut call.input, shape, generator);
    }
    for length in &mut call.output_lengths {
        if generator.below(entry.output_count() + 1) == 0 {
            *length = wrong_length(*length, generator);
        }
    }
    call
}

/// Mostly one of n or more, near the limits of 8 and of 16 bits, or with the low byte
/// of a good one: of the shape's own, for which the rest of the call is made, or of
/// any other.
pub fn arbitrary_order(shape: Shape, generator: &mut Generator) -> u16 {
    let too_high = sample::numbers_too_high(shape.curve);
    let any = generator.sixteen_bits();
    let choices = [
        64,
        255,
        256,
        256 + shape.m,
        u16::MAX,
        any - any % 256 + shape.m,
        too_high[generator.below(too_high.len())],
        any % 256,
        any,
    ];
    choices[generator.below(choices.len())]
}

/// Mostly near the right length or near a limit of a byte.
pub fn wrong_length(right: usize, generator: &mut Generator) -> usize {
    let choices = [
        0,
        1,
        right - 1,
        right + 1,
        right + 256,
        63,
        64,
        65,
        255,
        256,
        257,
        generator.below(1024),
        65536 + right,
    ];
    // The largest is rare: it is slow to make and no more telling.
    let count = if generator.below(50) == 0 { 13 } else { 12 };
    choices[generator.below(count)]
}

pub fn write_arbitrary_value(input: &mut [u8], shape: Shape, generator: &mut Generator) {
    let size = shape.field_size;
    let value = [size, size + 1, 127, 128, 254, MISSING, generator.byte()][generator.below(7)];
    let index = generator.below(input.len());
    if let Some(symbol) = input.get_mut(index) {
        *symbol = value;
    }
}

/// Makes a list of numbers that must ascend and be low bad: too many, too few, in
/// another order, repeated or too high. Now and then it is still a good one.
pub fn spoil<Number: Copy>(
    list: &mut Vec<Number>,
    one_more: Vec<Number>,
    too_high: Number,
    generator: &mut Generator,
) {
    let (one, other) = (generator.below(list.len()), generator.below(list.len()));
    match generator.below(6) {
        0 => list.resize(wrong_length(list.len(), generator), list[list.len() - 1]),
        1 => *list = one_more,
        2 => list.truncate(one),
        3 => list.swap(one, other),
        4 => list[one] = list[other],
        _ => list[one] = too_high,
    }
}

/// Good values, then a bad one, then arbitrary ones, `length` in all.
pub fn with_bad_value(
    mut values: Vec<u8>,
    bad: u8,
    length: usize,
    generator: &mut Generator,
) -> Vec<u8> {
    values.push(bad);
    values.extend(generator.bytes(length - values.len()));
    values
}

/// The strap's own order in both series in turn, words with 0 to 64 missing, sometimes
/// damaged.
pub fn strap_blocks(generator: &mut Generator, rounds: usize) -> Tally {
    let mut tally = Tally::new();
    for (round, shape) in (0..rounds).zip(strap_in_both_series().into_iter().cycle()) {
        let word = sample::codeword(generator, shape);
        let mut broken = sample::with_known(generator, &word, round % 65);
        if generator.below(4) == 0 {
            broken = sample::damaged(generator, shape, &broken);
        }
        compare(
            &Call::fitting(Entry::Recover, shape, broken),
            generator,
            &mut tally,
        );
    }
    tally
}

pub fn strap_in_both_series() -> [Shape; 2] {
    Curve::Q_IS_4
        .in_both_series()
        .map(|curve| Shape::of(curve, 37))
}
