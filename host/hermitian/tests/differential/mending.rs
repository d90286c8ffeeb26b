//! The groups of calls that mend words. Each gives what its calls answered.

use reference::curve::Curve;
use reference::generator::Generator;
use reference::outcome::Outcome;
use reference::sample::misleading::{self, with_wrong_columns};
use reference::sample::{self, Shape};

use crate::comparison::{compare, compare_with, Call, Entry};
use crate::inputs::{either_series, strap_in_both_series};
use crate::tally::Tally;

/// Words with every number of wrong symbols up to t + 1 and with more, and
/// words that are no codeword with wrong symbols, at every order of both curves in
/// both series.
pub fn at_every_order(generator: &mut Generator, rounds: usize) -> Tally {
    let mut tally = Tally::new();
    for shape in Shape::every_short_in_both_series() {
        for _ in 0..rounds {
            for word in wrong_words(shape, generator) {
                compare_mend(shape, word, generator, &mut tally);
            }
        }
    }
    tally
}

fn wrong_words(shape: Shape, generator: &mut Generator) -> Vec<Vec<u8>> {
    let codeword = sample::codeword(generator, shape);
    // Where nothing is mended, even a codeword is refused.
    let Some(radius) = shape.curve.radius(shape.m) else {
        return vec![codeword];
    };
    let many = generator.below(shape.n + 1);
    let mut words = vec![sample::symbols(generator, shape, shape.n)];
    for count in (0..=radius + 1).chain([many]) {
        words.push(sample::with_wrong(generator, shape, &codeword, count));
    }
    let too_many = radius + 1 + generator.below(shape.curve.genus());
    for count in [radius, too_many, many] {
        words.push(with_wrong_columns(generator, shape, &codeword, count));
    }
    for count in [radius, radius + 1, many] {
        words.push(between_codewords(generator, shape, &codeword, count));
    }
    words.push(misleading::with_wrong_zeros(
        generator, shape, &codeword, radius,
    ));
    words.push(misleading::quotient(generator, shape, radius));
    words.push(misleading::quotient_without_zeros(generator, shape, radius));
    words
}

/// The strap's own order in both series in turn, with 0 to 14 wrong symbols where up
/// to 10 are mended.
pub fn strap_blocks(generator: &mut Generator, rounds: usize) -> Tally {
    let mut tally = Tally::new();
    for (round, shape) in (0..rounds).zip(strap_in_both_series().into_iter().cycle()) {
        let codeword = sample::codeword(generator, shape);
        let kinds = [sample::with_wrong, with_wrong_columns, between_codewords];
        let kind = kinds[generator.below(kinds.len())];
        let word = kind(generator, shape, &codeword, round % 15);
        compare_mend(shape, word, generator, &mut tally);
    }
    tally
}

/// Every word of the small curve at every order, the series by chance. What the
/// library must give is looked up in the list of all codewords, which is made once.
pub fn every_small_word(generator: &mut Generator) -> Tally {
    let mut tally = Tally::new();
    for shape in Shape::every_order(Curve::Q_IS_2) {
        let codewords = sample::all_messages_with_words(shape);
        for number in 0..4u32.pow(8) {
            let word = sample::numbered_word(number, 4);
            let mut call = Call::fitting(Entry::Mend, shape, word.clone());
            call.series = either_series(generator);
            let expect = |outputs: &mut [Vec<u8>]| mend_by_trial(shape, &codewords, &word, outputs);
            compare_with(expect, &call, generator, &mut tally);
        }
    }
    tally
}

fn mend_by_trial(
    shape: Shape,
    codewords: &[(Vec<u8>, Vec<u8>)],
    word: &[u8],
    outputs: &mut [Vec<u8>],
) -> u32 {
    let Some(radius) = shape.curve.radius(shape.m) else {
        return Outcome::ORDER_TOO_HIGH_TO_MEND.packed();
    };
    let mut near = codewords
        .iter()
        .filter(|(_, codeword)| differing(word, codeword) <= radius);
    let Some((message, codeword)) = near.next() else {
        return Outcome::NO_CODEWORD_NEAR.packed();
    };
    assert!(near.next().is_none(), "two codewords near {word:?}");
    let places = word.iter().zip(codeword);
    let marks = places.map(|(a, b)| u8::from(a != b)).collect();
    outputs.clone_from_slice(&[message.clone(), codeword.clone(), marks]);
    Outcome::ACCEPTED.packed()
}

fn differing(word: &[u8], codeword: &[u8]) -> usize {
    let places = word.iter().zip(codeword);
    places.filter(|(a, b)| a != b).count()
}

fn compare_mend(shape: Shape, word: Vec<u8>, generator: &mut Generator, tally: &mut Tally) {
    compare(&Call::fitting(Entry::Mend, shape, word), generator, tally);
}

/// A word that differs from a neighbour of the codeword in `count` places, or
/// fewer if there are no more, and has the codeword's symbols there.
fn between_codewords(
    generator: &mut Generator,
    shape: Shape,
    codeword: &[u8],
    count: usize,
) -> Vec<u8> {
    let mut word = sample::neighbour(generator, shape, codeword);
    let mut places = generator.permutation(shape.n);
    places.retain(|&place| word[place] != codeword[place]);
    for &place in places.iter().take(count) {
        word[place] = codeword[place];
    }
    word
}
