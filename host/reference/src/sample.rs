//! Arbitrary messages and words to try the code on.

pub mod columns;
pub mod misleading;
pub mod places;

use crate::code::{self, MISSING};
use crate::curve::{Curve, Series};
use crate::generator::Generator;

/// Numbers that name no curve of short blocks. Field operations, encode and
/// unencode take 8 since request T-09.
pub const BAD_CURVES: [u8; 6] = [0, 1, 3, 5, 8, 255];

/// Numbers that name no series. The low bits of 130 are those of 2.
pub const BAD_SERIES: [u8; 4] = [0, 3, 130, 255];

/// Curve numbers, each with an order of n or more.
pub const BAD_ORDERS: [(u8, u16); 9] = [
    (2, 8),
    (2, 9),
    (2, 63),
    (2, 64),
    (2, 255),
    (4, 64),
    (4, 65),
    (4, 128),
    (4, 255),
];

/// The curves of short blocks in a series.
pub fn short_curves(series: Series) -> [Curve; 2] {
    Curve::SHORT.map(|curve| curve.in_series(series))
}

/// Orders or places of n or more: n itself, some about the limits of 8 and of 16
/// bits, and some whose low byte is below n, among them all with the high byte 1.
pub fn numbers_too_high(curve: Curve) -> Vec<u16> {
    let n = curve.point_count() as u16;
    let limits = [n, n + 1, 64, 255, 0x7FFF, 0x8000, u16::MAX];
    let next = (0..n).map(|low| 0x0100 + low);
    let farther = [0x0207, 0x0803, 0x1025, 0x1234].into_iter();
    let last = (0..n).step_by(7).map(|low| 0xFF00 + low);
    let mut numbers: Vec<u16> = next.chain(farther).chain(last).chain(limits).collect();
    numbers.sort_unstable();
    numbers.dedup();
    numbers
}

/// Few, so that the same round comes up again at a place.
pub const ROUNDS: [u8; 4] = [0, 1, 2, 255];

/// A curve in a series and an order below its n, with the numbers that follow from
/// them.
#[derive(Clone, Copy, Debug)]
pub struct Shape {
    pub curve: Curve,
    pub m: u16,
    pub n: usize,
    pub k: usize,
    pub field_size: u8,
}

impl Shape {
    pub fn of(curve: Curve, m: u16) -> Shape {
        Shape {
            curve,
            m,
            n: curve.point_count(),
            k: curve.terms(m).len(),
            field_size: curve.field().size(),
        }
    }

    /// The shape of every accepted order of a curve.
    pub fn every_order(curve: Curve) -> impl Iterator<Item = Shape> {
        curve.orders().map(move |m| Shape::of(curve, m))
    }

    /// The shape of every accepted order of both curves of short blocks, in series 1.
    pub fn every_short() -> impl Iterator<Item = Shape> {
        Shape::every_short_in(Series::One)
    }

    pub fn every_short_in(series: Series) -> impl Iterator<Item = Shape> {
        let curves = short_curves(series).into_iter();
        curves.flat_map(Shape::every_order)
    }

    pub fn every_short_in_both_series() -> impl Iterator<Item = Shape> {
        Series::BOTH.into_iter().flat_map(Shape::every_short_in)
    }

    /// The shape of every order at which words are mended, with its t, in series 1.
    pub fn every_mended() -> impl Iterator<Item = (Shape, usize)> {
        Shape::every_mended_in(Series::One)
    }

    pub fn every_mended_in(series: Series) -> impl Iterator<Item = (Shape, usize)> {
        Shape::every_short_in(series)
            .filter_map(|shape| Some((shape, shape.curve.radius(shape.m)?)))
    }

    pub fn q(self) -> u8 {
        self.curve.q()
    }

    pub fn series(self) -> u8 {
        self.curve.series().number()
    }

    /// q, the series and m, as calls take them.
    pub fn numbers(self) -> (u8, u8, u16) {
        (self.q(), self.series(), self.m)
    }

    /// m / q: the product of x - a over so many columns a has order m or less, and
    /// over one column more it hasn't.
    pub fn columns_of_order(self) -> usize {
        usize::from(self.m) / usize::from(self.q())
    }

    /// Any order below n gets its word, so the outcome needs no look.
    pub fn word_of(self, message: &[u8]) -> Vec<u8> {
        let (q, series, m) = self.numbers();
        let mut word = vec![0; self.n];
        code::encode(q, series, m, message, &mut word);
        word
    }
}

pub fn symbols(generator: &mut Generator, shape: Shape, length: usize) -> Vec<u8> {
    let highest = shape.field_size - 1;
    (0..length)
        .map(|_| generator.byte_from(0, highest))
        .collect()
}

pub fn message(generator: &mut Generator, shape: Shape) -> Vec<u8> {
    symbols(generator, shape, shape.k)
}

pub fn codeword(generator: &mut Generator, shape: Shape) -> Vec<u8> {
    let message = message(generator, shape);
    shape.word_of(&message)
}

/// One whose last coefficient isn't 0: from the order 2g on, where each order is the
/// weight of a term, it is no codeword of the order below.
pub fn codeword_of_highest_weight(generator: &mut Generator, shape: Shape) -> Vec<u8> {
    let mut message = message(generator, shape);
    message[shape.k - 1] = generator.byte_from(1, shape.field_size - 1);
    shape.word_of(&message)
}

/// The word with `known` symbols at arbitrary places and the others missing.
pub fn with_known(generator: &mut Generator, word: &[u8], known: usize) -> Vec<u8> {
    let mut broken = word.to_vec();
    for place in generator.permutation(word.len()).into_iter().skip(known) {
        broken[place] = MISSING;
    }
    broken
}

/// The word with `known` whole columns and the others missing. A product of
/// x - a over m / q columns or fewer is 0 on all that is known, so that many
/// columns leave several messages.
pub fn with_known_columns(
    generator: &mut Generator,
    shape: Shape,
    word: &[u8],
    known: usize,
) -> Vec<u8> {
    let mut broken = word.to_vec();
    let q = usize::from(shape.q());
    let columns = generator.permutation(word.len() / q);
    for column in columns.into_iter().skip(known) {
        let places = broken.iter_mut().skip(q * column).take(q);
        places.for_each(|symbol| *symbol = MISSING);
    }
    broken
}

/// How many symbols aren't missing.
pub fn known_count(word: &[u8]) -> usize {
    word.iter().filter(|&&symbol| symbol != MISSING).count()
}

/// The word with another symbol at one place that holds a symbol, if any does.
pub fn damaged(generator: &mut Generator, shape: Shape, word: &[u8]) -> Vec<u8> {
    let choice = generator.below(known_count(word));
    damaged_at(generator, shape, word, choice)
}

/// The word with another symbol in place of the known symbol with number
/// `choice`, counted from 0 by ascending place, if there is one.
pub fn damaged_at(generator: &mut Generator, shape: Shape, word: &[u8], choice: usize) -> Vec<u8> {
    let mut damaged = word.to_vec();
    let mut known = damaged.iter_mut().filter(|symbol| **symbol != MISSING);
    if let Some(symbol) = known.nth(choice) {
        *symbol = another_symbol(generator, shape, *symbol);
    }
    damaged
}

/// The word with other symbols at `count` arbitrary places.
pub fn with_wrong(generator: &mut Generator, shape: Shape, word: &[u8], count: usize) -> Vec<u8> {
    let mut wrong = word.to_vec();
    for place in generator.permutation(word.len()).into_iter().take(count) {
        wrong[place] = another_symbol(generator, shape, word[place]);
    }
    wrong
}

/// Another codeword, which agrees with the given one on m / q whole columns and
/// nowhere else. The product of x - a over these columns a is added.
pub fn neighbour(generator: &mut Generator, shape: Shape, codeword: &[u8]) -> Vec<u8> {
    let field = shape.curve.field();
    let columns = generator.permutation(usize::from(shape.field_size));
    let columns = columns.into_iter().take(shape.columns_of_order());
    let columns: Vec<u8> = columns.map(|x| x as u8).collect();
    let points = shape.curve.points();
    let places = points.iter().zip(codeword);
    places
        .map(|(point, &symbol)| field.sum(symbol, column_product(shape, &columns, point.x)))
        .collect()
}

/// The product of x - a over the columns a.
fn column_product(shape: Shape, columns: &[u8], x: u8) -> u8 {
    let field = shape.curve.field();
    let columns = columns.iter();
    columns.fold(1, |product, &a| field.product(product, field.sum(x, a)))
}

/// The word with the other's symbols at the first `count` places where they
/// differ.
pub fn on_the_way(word: &[u8], other: &[u8], count: usize) -> Vec<u8> {
    let mut between = word.to_vec();
    let places = between.iter_mut().zip(other);
    let differing = places.filter(|(symbol, other)| symbol != other);
    for (symbol, &other) in differing.take(count) {
        *symbol = other;
    }
    between
}

/// A symbol of the field other than the given one.
pub fn another_symbol(generator: &mut Generator, shape: Shape, symbol: u8) -> u8 {
    // Adding a nonzero symbol always gives another one.
    shape
        .curve
        .field()
        .sum(symbol, generator.byte_from(1, shape.field_size - 1))
}

/// Eight digits of the number, lowest first; 4 stands for a missing symbol. In
/// base 4 these are the words of the small curve, in base 5 its broken words.
pub fn numbered_word(number: u32, base: u32) -> Vec<u8> {
    let digit = |place: u32| match number / base.pow(place) % base {
        4 => MISSING,
        symbol => symbol as u8,
    };
    (0..8).map(digit).collect()
}

/// Every message of a small shape, each with its word.
pub fn all_messages_with_words(shape: Shape) -> Vec<(Vec<u8>, Vec<u8>)> {
    let mut messages = vec![vec![]];
    for _ in 0..shape.k {
        messages = messages
            .iter()
            .flat_map(|start: &Vec<u8>| {
                (0..shape.field_size).map(move |symbol| [start.as_slice(), &[symbol]].concat())
            })
            .collect();
    }
    let with_word = |message: Vec<u8>| {
        let word = shape.word_of(&message);
        (message, word)
    };
    messages.into_iter().map(with_word).collect()
}

#[cfg(test)]
mod tests {
    use super::*;
    use crate::outcome::Outcome;

    #[test]
    fn broken_words_keep_the_known_symbols() {
        let mut generator = Generator::with_seed(41);
        for shape in Shape::every_short_in_both_series() {
            let word = codeword(&mut generator, shape);
            let known = generator.below(shape.n + 1);
            let broken = with_known(&mut generator, &word, known);
            assert_eq!(known_count(&broken), known);
            let agrees = |(b, w): (&u8, &u8)| b == w || *b == MISSING;
            assert!(broken.iter().zip(&word).all(agrees));
            let columns = with_known_columns(&mut generator, shape, &word, 2);
            assert_eq!(known_count(&columns), 2 * usize::from(shape.q()));
            assert!(columns.iter().zip(&word).all(agrees));
        }
    }

    #[test]
    fn damage_changes_exactly_one_known_symbol() {
        let mut generator = Generator::with_seed(42);
        let shape = Shape::of(Curve::Q_IS_4, 37);
        for known in 0..=64 {
            let word = codeword(&mut generator, shape);
            let broken = with_known(&mut generator, &word, known);
            let other = damaged(&mut generator, shape, &broken);
            let changed = broken.iter().zip(&other).filter(|(b, o)| b != o).count();
            assert_eq!(changed, known.min(1));
            assert_eq!(known_count(&other), known);
            assert!(other.iter().all(|&s| s < 16 || s == MISSING));
        }
    }

    #[test]
    fn damage_at_the_first_known_symbol_and_at_the_last() {
        let mut generator = Generator::with_seed(45);
        let shape = Shape::of(Curve::Q_IS_2, 3);
        let broken = [255, 0, 255, 1, 2, 255, 3, 255];
        let changed = |damaged: &[u8]| -> Vec<usize> {
            (0..8).filter(|&p| damaged[p] != broken[p]).collect()
        };
        for (choice, places) in [(0, vec![1]), (2, vec![4]), (3, vec![6]), (4, vec![])] {
            let damaged = damaged_at(&mut generator, shape, &broken, choice);
            assert_eq!(changed(&damaged), places);
            assert!(damaged.iter().all(|&s| s < 4 || s == MISSING));
        }
    }

    #[test]
    fn as_many_symbols_are_wrong_as_asked_for() {
        let mut generator = Generator::with_seed(43);
        for shape in Shape::every_short_in_both_series() {
            for count in 0..=shape.n {
                let word = symbols(&mut generator, shape, shape.n);
                let wrong = with_wrong(&mut generator, shape, &word, count);
                let changed = word.iter().zip(&wrong).filter(|(a, b)| a != b).count();
                assert_eq!(changed, count);
                assert!(wrong.iter().all(|&symbol| symbol < shape.field_size));
            }
        }
    }

    #[test]
    fn a_neighbour_agrees_on_m_by_q_columns() {
        let mut generator = Generator::with_seed(44);
        for shape in Shape::every_short_in_both_series() {
            let word = codeword(&mut generator, shape);
            let other = neighbour(&mut generator, shape, &word);
            let agreeing = word.iter().zip(&other).filter(|(a, b)| a == b).count();
            assert_eq!(agreeing, shape.columns_of_order() * usize::from(shape.q()));
            let (q, series, m) = shape.numbers();
            let outcome = code::unencode(q, series, m, &other, &mut vec![0; shape.k]);
            assert_eq!(outcome, Outcome::ACCEPTED);
            let differing = shape.n - agreeing;
            let between = on_the_way(&word, &other, differing - 1);
            let left = between.iter().zip(&other).filter(|(a, b)| a != b).count();
            assert_eq!(left, 1);
            assert_eq!(on_the_way(&word, &other, 0), word);
        }
    }

    #[test]
    fn the_numbers_that_are_too_high_for_the_small_curve() {
        let small = numbers_too_high(Curve::Q_IS_2);
        let limits = [8, 9, 64, 255];
        let next = [256, 257, 258, 259, 260, 261, 262, 263];
        let farther = [519, 2051, 4133, 4660, 32_767, 32_768];
        let last = [65_280, 65_287, 65_535];
        let expected = [limits.as_slice(), &next, &farther, &last].concat();
        assert_eq!(small, expected);
        let large = numbers_too_high(Curve::Q_IS_4);
        assert_eq!(large.len(), 3 + 64 + 6 + 11);
        assert!(large.iter().all(|&number| number >= 64));
    }

    #[test]
    fn all_messages_are_there_once() {
        for shape in Shape::every_order(Curve::Q_IS_2).take(5) {
            let mut all = all_messages_with_words(shape);
            assert_eq!(all.len(), 4usize.pow(shape.k as u32));
            all.dedup_by(|a, b| a.0 == b.0);
            assert_eq!(all.len(), 4usize.pow(shape.k as u32));
        }
    }
}
