//! The groups of checks with good arguments, and one check held against what it must
//! give. Each group gives what its calls answered.

use std::collections::BTreeSet;

use hermitian::{entries, Refusal};
use reference::curve::Curve;
use reference::dual;
use reference::dual_sample::Check;
use reference::generator::Generator;
use reference::outcome::Outcome;
use reference::sample::{self, Shape};

use crate::comparison::Entry;
use crate::guarded::Guarded;
use crate::inputs::either_series;
use crate::tally::Tally;

/// What the verdict's byte holds before the call, so that a call that doesn't write it
/// is seen: yes, no and neither.
const OLD_VERDICTS: [u8; 3] = [1, 0, 255];

/// A check by the order and the series of the shape.
pub fn check_of(shape: Shape, word: Vec<u8>) -> Check {
    let (q, series, m) = shape.numbers();
    Check { q, series, m, word }
}

pub fn is_checked(shape: Shape) -> bool {
    shape.curve.partner_order(shape.m).is_some()
}

pub struct Comparison<'a> {
    pub generator: &'a mut Generator,
    pub tally: Tally,
    /// q, the series and the order of each check that wasn't refused, with what it said.
    verdicts: BTreeSet<(u8, u8, u16, bool)>,
}

impl Comparison<'_> {
    pub fn new(generator: &mut Generator) -> Comparison<'_> {
        Comparison {
            generator,
            tally: Tally::new(),
            verdicts: BTreeSet::new(),
        }
    }

    /// Makes the call both ways and gives the refusal number of both.
    pub fn check(&mut self, call: &Check) -> u8 {
        let (outcome, is_codeword) = dual::check(call.q, call.series, call.m, &call.word);
        self.expect(call, outcome, is_codeword);
        outcome.number
    }

    /// A check with a known refusal, which says no.
    pub fn refused(&mut self, call: &Check, refusal: Outcome) {
        self.expect(call, refusal, false);
    }

    /// A check with a known verdict.
    fn accepted(&mut self, call: &Check, is_codeword: bool) {
        self.expect(call, Outcome::ACCEPTED, is_codeword);
    }

    /// Makes the call with each old verdict and demands this answer and this verdict, that
    /// nothing else was written, and that unencoding says the same of the word.
    fn expect(&mut self, call: &Check, outcome: Outcome, is_codeword: bool) {
        let word = Guarded::around(self.generator, &call.word);
        for old in OLD_VERDICTS {
            let mut verdict = Guarded::around(self.generator, &[old]);
            let answer = call_library(call, &word, &mut verdict);
            let expected = (outcome.packed(), u8::from(is_codeword));
            let given = (answer, verdict.lent()[0]);
            assert_eq!(given, expected, "{call:?}, the verdict was {old}");
            assert!(word.is_unchanged(), "{call:?}: word written");
            assert!(verdict.guards_are_unchanged(), "{call:?}: beside");
        }
        let Check { q, series, m, .. } = *call;
        if outcome == Outcome::ACCEPTED {
            assert_eq!(is_unencoded(call), is_codeword, "{call:?}");
            self.verdicts.insert((q, series, m, is_codeword));
        }
        self.tally.count(Entry::Check, q, series, m, outcome.number);
    }

    /// Whether there were a yes and a no at each of these orders that is checked, and
    /// neither at the others.
    fn said_yes_and_no(&self, mut shapes: impl Iterator<Item = Shape>) -> bool {
        shapes.all(|shape| {
            let (q, series, m) = shape.numbers();
            [true, false].map(|verdict| self.verdicts.contains(&(q, series, m, verdict)))
                == [is_checked(shape); 2]
        })
    }
}

fn call_library(call: &Check, word: &Guarded, verdict: &mut Guarded) -> u32 {
    let (word, verdict) = (word.lent(), verdict.lent_mut());
    // Safety: slices are never null and are good for their length, which is one byte for
    // the verdict, and the two come from different vectors.
    unsafe {
        entries::hermitian_check(
            call.q,
            call.series,
            call.m,
            word.as_ptr(),
            word.len(),
            verdict.as_mut_ptr(),
        )
    }
}

/// By the library, which is lent a slice of length k.
fn is_unencoded(call: &Check) -> bool {
    let k = hermitian::message_length(call.q, call.m).expect("a good order");
    let mut message = vec![0; k];
    match hermitian::unencode(call.q, call.series, call.m, &call.word, &mut message) {
        Ok(()) => true,
        Err(Refusal::NoMessageFits) => false,
        Err(refusal) => panic!("{call:?}: unencoding is refused: {refusal}"),
    }
}

/// At every order of short blocks in both series, also at those that are too low:
/// codewords, with one symbol off and with two, codewords of the order above, and
/// arbitrary words, held against the reference.
pub fn at_every_order(generator: &mut Generator, rounds: usize) -> Tally {
    let mut comparison = Comparison::new(generator);
    for shape in Shape::every_short_in_both_series() {
        for _ in 0..rounds {
            comparison.words(shape);
        }
    }
    assert!(comparison.said_yes_and_no(Shape::every_short_in_both_series()));
    comparison.tally
}

/// The same at about every sixteenth order of long blocks.
pub fn long_words(generator: &mut Generator) -> Tally {
    let mut comparison = Comparison::new(generator);
    let first = comparison.generator.below(16) as u16;
    let orders = || {
        let ends = [0, 54, 55, 56, 255, 256, 266, 283, 300, 510, 511];
        (first..512).step_by(16).chain(ends)
    };
    let shapes = || {
        let in_series = |curve| orders().map(move |m| Shape::of(curve, m));
        let curves = Curve::Q_IS_8.in_both_series().into_iter();
        curves.flat_map(in_series)
    };
    for shape in shapes() {
        comparison.words(shape);
    }
    assert!(comparison.said_yes_and_no(shapes()));
    comparison.tally
}

/// At every order of long blocks in both series, with verdicts that are known from how
/// the words are made, which is quicker than asking the reference.
pub fn at_every_long_order(generator: &mut Generator) -> Tally {
    let mut comparison = Comparison::new(generator);
    let shapes = || {
        let curves = Curve::Q_IS_8.in_both_series().into_iter();
        curves.flat_map(Shape::every_order)
    };
    for shape in shapes() {
        comparison.known_verdicts(shape);
    }
    assert!(comparison.said_yes_and_no(shapes()));
    comparison.tally
}

impl Comparison<'_> {
    fn words(&mut self, shape: Shape) {
        let codeword = sample::codeword(self.generator, shape);
        let one_off = sample::with_wrong(self.generator, shape, &codeword, 1);
        let two_off = sample::with_wrong(self.generator, shape, &codeword, 2);
        let arbitrary = sample::symbols(self.generator, shape, shape.n);
        let mut words = vec![codeword, one_off, two_off, arbitrary];
        let above = shape.m + 1;
        if usize::from(above) < shape.n {
            let above = Shape::of(shape.curve, above);
            words.push(sample::codeword_of_highest_weight(self.generator, above));
        }
        for word in words {
            self.check(&check_of(shape, word));
        }
    }

    /// Two codewords differ in n - m places or more. At the highest order they don't differ
    /// in one place alone either, since the symbols of a codeword add up to 0.
    fn known_verdicts(&mut self, shape: Shape) {
        let codeword = sample::codeword_of_highest_weight(self.generator, shape);
        if !is_checked(shape) {
            let too_low = Outcome::ORDER_TOO_LOW_TO_CHECK;
            self.refused(&check_of(shape, codeword), too_low);
            return;
        }
        let one_off = sample::with_wrong(self.generator, shape, &codeword, 1);
        self.accepted(&check_of(shape, one_off), false);
        self.accepted(&check_of(shape, codeword.clone()), true);
        let below = Shape::of(shape.curve, shape.m - 1);
        if is_checked(below) {
            self.accepted(&check_of(below, codeword), false);
        }
    }
}

/// Every word of the small curve at every order. Both series list the small curve's
/// points alike, and each call names one of them by chance.
pub fn every_small_word(generator: &mut Generator) -> Tally {
    let mut comparison = Comparison::new(generator);
    for shape in Shape::every_order(Curve::Q_IS_2) {
        for number in 0..4u32.pow(8) {
            let series = either_series(comparison.generator);
            let call = check_of(shape, sample::numbered_word(number, 4));
            comparison.check(&Check { series, ..call });
        }
    }
    comparison.tally
}
