use super::*;
use crate::code;
use crate::generator::Generator;
use crate::sample::{self, Shape};
use std::collections::BTreeSet;

const YES: (Outcome, bool) = (Outcome::ACCEPTED, true);
const NO: (Outcome, bool) = (Outcome::ACCEPTED, false);

/// Orders of long blocks: the lowest that is checked, some in between, its own partner
/// 283, and the highest.
const LONG_ORDERS: [u16; 12] = [55, 56, 63, 100, 255, 256, 266, 283, 300, 400, 510, 511];

fn run(shape: Shape, word: &[u8]) -> (Outcome, bool) {
    let (q, series, m) = shape.numbers();
    check(q, series, m, word)
}

fn refused(refusal: Outcome) -> (Outcome, bool) {
    (refusal, false)
}

/// Whether unencoding, lent a slice of length k, succeeds. It meets nothing but 9.
fn is_unencoded(shape: Shape, word: &[u8]) -> bool {
    let (q, series, m) = shape.numbers();
    match code::unencode(q, series, m, word, &mut vec![0; shape.k]) {
        Outcome::ACCEPTED => true,
        refusal => {
            assert_eq!(refusal, Outcome::NO_MESSAGE_FITS);
            false
        }
    }
}

fn is_checked(shape: &Shape) -> bool {
    shape.curve.partner_order(shape.m).is_some()
}

/// Every order of short blocks that is checked, in both series.
fn short_shapes() -> impl Iterator<Item = Shape> {
    Shape::every_short_in_both_series().filter(is_checked)
}

/// Some orders of long blocks in both series.
fn long_shapes() -> impl Iterator<Item = Shape> {
    let in_series = |curve| LONG_ORDERS.map(|m| Shape::of(curve, m));
    Curve::Q_IS_8
        .in_both_series()
        .into_iter()
        .flat_map(in_series)
}

fn shapes() -> impl Iterator<Item = Shape> {
    short_shapes().chain(long_shapes())
}

fn partner(shape: Shape) -> Shape {
    let partner = shape.curve.partner_order(shape.m);
    Shape::of(shape.curve, partner.expect("a checked order"))
}

fn shape_above(shape: Shape) -> Option<Shape> {
    let m = shape.m + 1;
    (usize::from(m) < shape.n).then(|| Shape::of(shape.curve, m))
}

/// The message 1 2 3 of value E of the paper and its word 1 2 2 1 3 0 1 2, whose order 3
/// has the partner 5.
#[test]
fn value_e() {
    for series in [1, 2] {
        let mut word = [1, 2, 2, 1, 3, 0, 1, 2];
        assert_eq!(check(2, series, 3, &word), YES);
        assert_eq!(check(2, series, 4, &word), YES);
        assert_eq!(check(2, series, 2, &word), NO);
        word[7] = 3;
        assert_eq!(check(2, series, 3, &word), NO);
    }
}

/// Value I: seven zeros and a 1 have an interpolating polynomial, but no message.
#[test]
fn value_i() {
    assert_eq!(check(2, 1, 7, &[0, 0, 0, 0, 0, 0, 0, 1]), NO);
    assert_eq!(check(2, 1, 7, &[0, 0, 0, 0, 0, 0, 1, 1]), YES);
}

/// x: each column holds its own x, in the order of the series.
#[test]
fn the_series_counts() {
    let columns = [
        (1, [0, 1, 2, 3, 4, 5, 6, 7, 8, 9, 10, 11, 12, 13, 14, 15]),
        (2, [0, 1, 2, 4, 8, 3, 6, 12, 11, 5, 10, 7, 14, 15, 13, 9]),
    ];
    for (series, columns) in columns {
        let word: Vec<u8> = columns.into_iter().flat_map(|x| [x; 4]).collect();
        assert_eq!(check(4, series, 37, &word), YES);
        assert_eq!(check(4, 3 - series, 37, &word), NO);
    }
}

#[test]
fn the_partner_of_the_strap_is_its_own_order() {
    for curve in Curve::Q_IS_4.in_both_series() {
        assert_eq!(partner(Shape::of(curve, 37)).m, 37);
        let words = basis_words(curve, 37);
        assert_eq!(words.len(), 32);
        for (one, other) in words
            .iter()
            .flat_map(|one| words.iter().map(move |o| (one, o)))
        {
            assert_eq!(sum_of_products(curve.field(), one, other), 0);
        }
    }
}

/// By encoding the message with 1 for its term and 0 for the others.
#[test]
fn basis_words_are_those_of_unit_messages() {
    let some_terms = |shape: &Shape| if shape.q() == 8 { 60 } else { 1 };
    for shape in shapes() {
        let words = basis_words(shape.curve, shape.m);
        assert_eq!(words.len(), shape.k);
        for term in (0..shape.k).step_by(some_terms(&shape)) {
            let mut message = vec![0; shape.k];
            message[term] = 1;
            assert_eq!(words[term], shape.word_of(&message));
        }
    }
}

/// 3·1 + 2·2 + 1·3 + 3·3 over the field of 4: 3 + 3 + 3 + 2.
#[test]
fn products_are_added_up() {
    let sum = |word: &[u8], other: &[u8]| sum_of_products(Field::OF_4, word, other);
    assert_eq!(sum(&[3, 2, 1, 3], &[1, 2, 3, 3]), 3 ^ 2);
    assert_eq!(sum(&[3, 2, 1, 0], &[0, 0, 0, 3]), 0);
    assert_eq!(sum(&[], &[]), 0);
}

#[test]
fn codewords_are_orthogonal_to_those_of_the_partner_order() {
    let mut generator = Generator::with_seed(141);
    for shape in shapes() {
        for _ in 0..4 {
            let word = sample::codeword(&mut generator, shape);
            let other = sample::codeword(&mut generator, partner(shape));
            assert_eq!(sum_of_products(shape.curve.field(), &word, &other), 0);
        }
    }
}

#[test]
fn codewords_pass() {
    let mut generator = Generator::with_seed(142);
    for shape in shapes() {
        let word = sample::codeword(&mut generator, shape);
        let highest = sample::codeword_of_highest_weight(&mut generator, shape);
        for word in [word, highest, vec![0; shape.n], vec![1; shape.n]] {
            assert_eq!(run(shape, &word), YES, "{shape:?}");
        }
    }
}

/// At each place of a short block.
#[test]
fn one_symbol_off_fails() {
    let mut generator = Generator::with_seed(143);
    for shape in short_shapes() {
        let word = sample::codeword(&mut generator, shape);
        for place in 0..shape.n {
            let damaged = sample::damaged_at(&mut generator, shape, &word, place);
            assert_eq!(run(shape, &damaged), NO, "{shape:?} {place}");
        }
    }
    for shape in long_shapes() {
        let word = sample::codeword(&mut generator, shape);
        let damaged = sample::damaged(&mut generator, shape, &word);
        assert_eq!(run(shape, &damaged), NO, "{shape:?}");
    }
}

/// The words that a partner order which is too low would let pass.
#[test]
fn codewords_of_the_order_above_fail() {
    let mut generator = Generator::with_seed(144);
    for shape in shapes() {
        if let Some(above) = shape_above(shape) {
            let word = sample::codeword_of_highest_weight(&mut generator, above);
            assert_eq!(run(shape, &word), NO, "{shape:?}");
            assert_eq!(run(above, &word), YES, "{shape:?}");
        }
    }
}

/// The last order has codewords with two symbols only.
#[test]
fn the_check_agrees_with_unencoding() {
    let mut generator = Generator::with_seed(145);
    let mut verdicts = BTreeSet::new();
    for shape in shapes() {
        let rounds = if shape.q() == 8 { 1 } else { 8 };
        for _ in 0..rounds {
            let word = sample::codeword(&mut generator, shape);
            let words = [
                sample::with_wrong(&mut generator, shape, &word, 2),
                sample::neighbour(&mut generator, shape, &word),
                sample::symbols(&mut generator, shape, shape.n),
            ];
            for word in words {
                let is_codeword = is_unencoded(shape, &word);
                assert_eq!(run(shape, &word), (Outcome::ACCEPTED, is_codeword));
                verdicts.insert((shape.q(), shape.series(), shape.m, is_codeword));
            }
        }
    }
    assert_eq!(verdicts.len(), 2 * (2 * (7 + 53) + 2 * LONG_ORDERS.len()));
}

/// All 4^8 words at every order, against the lists of all codewords: those of the order,
/// and, for the sums of products, those of the partner order.
#[test]
fn a_small_word_is_a_codeword_exactly_when_orthogonal_to_every_one_of_the_partner_order() {
    let field = Field::OF_4;
    let shapes = Shape::every_order(Curve::Q_IS_2).filter(is_checked);
    for (shape, series) in shapes.zip([1, 2].into_iter().cycle()) {
        let words_of = |shape| sample::all_messages_with_words(shape).into_iter();
        let codewords: BTreeSet<Vec<u8>> = words_of(shape).map(|(_, word)| word).collect();
        let partners: Vec<Vec<u8>> = words_of(partner(shape)).map(|(_, word)| word).collect();
        for number in 0..4u32.pow(8) {
            let word = sample::numbered_word(number, 4);
            let mut partners = partners.iter();
            let is_orthogonal = partners.all(|other| sum_of_products(field, &word, other) == 0);
            let is_codeword = codewords.contains(&word);
            assert_eq!(is_orthogonal, is_codeword, "{} {word:?}", shape.m);
            let expected = (Outcome::ACCEPTED, is_codeword);
            assert_eq!(check(2, series, shape.m, &word), expected);
        }
    }
}

/// Each call starts with every fault and loses them one by one.
#[test]
fn refusals_come_in_the_order_of_the_checks() {
    for curve in Curve::ALL.into_iter().flat_map(Curve::in_both_series) {
        let (q, series) = (curve.q(), curve.series().number());
        let (n, g, bad) = (curve.point_count(), curve.genus(), curve.field().size());
        let lowest = 2 * g as u16 - 1;
        let too_long = vec![bad; n + 1];
        let orders = [0, lowest - 1, lowest, n as u16 - 1, n as u16, u16::MAX];
        for number in (0..=255).filter(|number| ![2, 4, 8].contains(number)) {
            for (named, m) in orders.map(|m| [(0, m), (series, m), (255, m)]).concat() {
                let answer = check(number, named, m, &too_long);
                assert_eq!(answer, refused(Outcome::UNKNOWN_CURVE));
            }
        }
        for number in (0..=255).filter(|number| ![1, 2].contains(number)) {
            for m in orders {
                let answer = check(q, number, m, &too_long);
                assert_eq!(answer, refused(Outcome::BAD_SERIES));
            }
        }
        for m in n as u16..=u16::MAX {
            let answer = check(q, series, m, &too_long);
            assert_eq!(answer, refused(Outcome::ORDER_TOO_HIGH));
        }
        for m in 0..lowest {
            for word in [&too_long, &vec![bad; n], &vec![0; n], &vec![]] {
                let answer = check(q, series, m, word);
                assert_eq!(answer, refused(Outcome::ORDER_TOO_LOW_TO_CHECK));
            }
        }
        for m in [lowest, lowest + 1, n as u16 - 1] {
            refusals_after_the_order(Shape::of(curve, m));
        }
    }
}

fn refusals_after_the_order(shape: Shape) {
    let (n, bad) = (shape.n, shape.field_size);
    for length in [0, 1, n - 1, n + 1, 63, 65, 256 + n] {
        let answer = run(shape, &vec![bad; length]);
        assert_eq!(answer, refused(Outcome::WRONG_INPUT_LENGTH));
    }
    for (index, value) in (0..n).flat_map(|index| [bad, 128, 254, 255].map(|v| (index, v))) {
        let mut word = vec![0; n];
        word[index..].fill(value);
        let answer = run(shape, &word);
        assert_eq!(answer, refused(Outcome::value_too_high(index as u16)));
    }
    assert_eq!(run(shape, &vec![0; n]), YES);
}
