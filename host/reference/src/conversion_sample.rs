//! Calls of the converter of request T-11, with words of every kind and with one
//! fault or several, for the cases of short and of long blocks.

use crate::code::MISSING;
use crate::conversion;
use crate::curve::Curve;
use crate::generator::Generator;
use crate::sample::{self, Shape, BAD_SERIES};

const SEED: u64 = 11;

/// Numbers that name none of the three curves.
const BAD_CURVES: [u8; 6] = [0, 1, 3, 5, 16, 255];

/// Up to so many places each has a word of its own.
const FEW_PLACES: usize = 64;

/// The arguments of a call.
#[derive(Clone, Debug, PartialEq, Eq)]
pub struct Conversion {
    pub q: u8,
    pub series: u8,
    pub word: Vec<u8>,
    /// That of the slice to be written.
    pub length: usize,
}

/// Calls for words of a curve in its series. No slice is longer than `room`.
pub fn conversions(curve: Curve, room: usize) -> Vec<Conversion> {
    let mut builder = Builder {
        curve,
        room,
        generator: Generator::with_seed(SEED),
        calls: Vec::new(),
    };
    builder.whole_words();
    builder.broken_words();
    builder.there_and_back();
    builder.refused_words();
    builder.wrong_lengths_of_the_slice();
    builder.several_faults();
    builder.calls
}

struct Builder {
    curve: Curve,
    room: usize,
    generator: Generator,
    calls: Vec<Conversion>,
}

impl Builder {
    fn n(&self) -> usize {
        self.curve.point_count()
    }

    /// A call that is good but perhaps for the word.
    fn call(&self, word: Vec<u8>) -> Conversion {
        Conversion {
            q: self.curve.q(),
            series: self.curve.series().number(),
            word,
            length: self.n(),
        }
    }

    fn add(&mut self, word: Vec<u8>) {
        let call = self.call(word);
        self.calls.push(call);
    }

    fn codeword(&mut self, m: usize) -> Vec<u8> {
        sample::codeword(&mut self.generator, Shape::of(self.curve, m as u16))
    }

    fn broken_word(&mut self, known: usize) -> Vec<u8> {
        let any_order = self.generator.below(self.n());
        let word = self.codeword(any_order);
        sample::with_known(&mut self.generator, &word, known)
    }
}

/// Calls that are accepted.
impl Builder {
    /// The number of each column and that of each place in its column together tell
    /// all places apart.
    fn whole_words(&mut self) {
        let (n, q, size) = (self.n(), self.curve.q(), self.curve.field().size());
        let numbers: [fn(usize, usize) -> usize; 2] = [|place, q| place / q, |place, q| place % q];
        for number in numbers {
            let symbol = |place| number(place, usize::from(q)) as u8;
            self.add((0..n).map(symbol).collect());
        }
        self.add(vec![size - 1; n]);
        for m in [0, 1, n / 2, n - 1] {
            let word = self.codeword(m);
            self.add(word);
        }
        let any_order = Shape::of(self.curve, 0);
        let arbitrary = sample::symbols(&mut self.generator, any_order, n);
        self.add(arbitrary);
    }

    fn broken_words(&mut self) {
        let n = self.n();
        for known in [0, 1, n / 4, n / 2, n - 1] {
            let word = self.broken_word(known);
            self.add(word);
        }
        if n <= FEW_PLACES {
            for place in 0..n {
                let mut word = vec![0; n];
                word[place] = MISSING;
                self.add(word);
            }
        }
    }

    fn there_and_back(&mut self) {
        let there = self.broken_word(self.n() - 3);
        let there = self.call(there);
        let mut word = vec![0; self.n()];
        conversion::convert(there.q, there.series, &there.word, &mut word);
        let series = self.curve.series().other().number();
        let back = Conversion {
            series,
            ..self.call(word)
        };
        self.calls.extend([there, back]);
    }
}

/// Calls that are refused.
impl Builder {
    fn refused_words(&mut self) {
        let (n, size) = (self.n(), self.curve.field().size());
        let lengths = [0, 1, 8, 64, 512, n - 1, n + 1, self.room].into_iter();
        let room = self.room;
        for length in lengths.filter(|&length| length != n && length <= room) {
            self.add(vec![0; length]);
        }
        for (index, value) in [(0, size), (n / 2, MISSING - 1), (n - 1, size)] {
            let mut word = self.broken_word(n / 2);
            word[index] = value;
            self.add(word.clone());
            word[n - 1] = MISSING - 1;
            self.add(word);
        }
    }

    fn wrong_lengths_of_the_slice(&mut self) {
        let n = self.n();
        for length in [0, n - 1, n + 1, self.room] {
            let word = self.broken_word(n - 1);
            let call = self.call(word);
            self.calls.push(Conversion { length, ..call });
        }
    }

    /// Each number that names no curve or no series with all faults that are looked
    /// for after it and with none; then all later faults one by one.
    fn several_faults(&mut self) {
        let (n, size) = (self.n(), self.curve.field().size());
        let good = self.broken_word(n - 1);
        let good = self.call(good);
        let mut bad_value = good.clone();
        bad_value.word[n / 2] = size;
        bad_value.length = n + 1;
        let mut longer = bad_value.clone();
        longer.word.push(size);
        for call in [&good, &longer] {
            for q in BAD_CURVES {
                let call = call.clone();
                self.calls.push(Conversion { q, ..call });
            }
            for series in BAD_SERIES {
                let call = call.clone();
                self.calls.push(Conversion { series, ..call });
            }
        }
        let both = longer.clone();
        self.calls.push(Conversion {
            q: BAD_CURVES[0],
            series: BAD_SERIES[0],
            ..both
        });
        self.calls.extend([longer, bad_value]);
    }
}

#[cfg(test)]
mod tests {
    use super::*;
    use crate::outcome::Outcome;
    use std::collections::BTreeSet;

    const ROOM: usize = 560;

    fn every_curve_in_both_series() -> impl Iterator<Item = Curve> {
        Curve::ALL.into_iter().flat_map(Curve::in_both_series)
    }

    /// The outcome, and the slice where it was written.
    fn run(call: &Conversion) -> (Outcome, Vec<u8>) {
        let mut out = vec![99; call.length];
        let outcome = conversion::convert(call.q, call.series, &call.word, &mut out);
        assert!(outcome == Outcome::ACCEPTED || out == vec![99; call.length]);
        (outcome, out)
    }

    #[test]
    fn the_calls_are_reproducible_and_have_room() {
        for curve in every_curve_in_both_series() {
            let calls = conversions(curve, ROOM);
            assert_eq!(calls, conversions(curve, ROOM));
            assert!(calls.len() >= 50, "{}", calls.len());
            let has_room = |call: &Conversion| call.word.len() <= ROOM && call.length <= ROOM;
            assert!(calls.iter().all(has_room));
        }
    }

    /// With 4 the first index, one in the middle and the last.
    #[test]
    fn every_answer_occurs() {
        for curve in every_curve_in_both_series() {
            let calls = conversions(curve, ROOM);
            let found: BTreeSet<(u8, u16)> = calls
                .iter()
                .map(|call| run(call).0)
                .map(|outcome| (outcome.number, outcome.second))
                .collect();
            let n = curve.point_count() as u16;
            let expected = [
                (0, 0),
                (1, 0),
                (3, 0),
                (4, 0),
                (4, n / 2),
                (4, n - 1),
                (5, 0),
                (17, 0),
            ];
            assert_eq!(found, BTreeSet::from(expected));
        }
    }

    /// By what the two first words become: each place goes somewhere else.
    #[test]
    fn the_words_tell_all_places_apart() {
        for curve in every_curve_in_both_series() {
            let calls = conversions(curve, ROOM);
            let [columns, within] = [0, 1].map(|number: usize| run(&calls[number]).1);
            let pairs: BTreeSet<(u8, u8)> = columns.into_iter().zip(within).collect();
            assert_eq!(pairs.len(), curve.point_count());
        }
    }

    #[test]
    fn a_word_is_converted_there_and_back() {
        for curve in every_curve_in_both_series() {
            let calls = conversions(curve, ROOM);
            let is_back = |pair: &&[Conversion]| pair[0].series != pair[1].series;
            let pair = calls
                .windows(2)
                .find(is_back)
                .expect("a call of the other series");
            assert_eq!(run(&pair[0]).1, pair[1].word);
            assert_eq!(run(&pair[1]).1, pair[0].word);
            assert_eq!(sample::known_count(&pair[0].word), curve.point_count() - 3);
        }
    }
}
