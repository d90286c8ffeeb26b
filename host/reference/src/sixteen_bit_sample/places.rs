//! Arrivals at places of n or more, and unopened jobs with such a next place.

use super::{Builder, BUDGETS};
use crate::case_record::{Case, SLICE_ROOM};
use crate::code::MISSING;
use crate::replay::arrival_bytes;
use crate::sample::{self, Shape};
use crate::session::PLACE_COUNT;

/// Work bytes of an unopened job: all zero, only the diagonal set, all set.
const WORK_KINDS: [u8; 3] = [0, 1, 2];

/// The index that a look at the low byte alone would give, or else the first.
fn index_of_low_byte(shape: Shape, place: u16) -> usize {
    let index = usize::from(place % 256);
    if index < shape.n {
        index
    } else {
        0
    }
}

impl Builder {
    pub(super) fn places_too_high(&mut self) {
        let [small, large] = sample::short_curves(self.series);
        for shape in [Shape::of(small, 3), Shape::of(large, 37)] {
            self.at_an_opened_session(shape);
            self.at_a_session_with_symbols(shape);
            self.at_a_session_with_a_bad_value(shape);
        }
        // As many arrivals as are sure to be enough and one more fill the input.
        for shape in [Shape::of(small, 3), Shape::of(large, 16)] {
            for place in sample::numbers_too_high(shape.curve) {
                self.in_a_whole_session(shape, place);
            }
        }
    }

    /// 6 comes before 7.
    fn at_an_opened_session(&mut self, shape: Shape) {
        self.open(shape.q(), shape.m);
        for place in sample::numbers_too_high(shape.curve) {
            let round = self.round();
            let bad_symbol = self.generator.byte_from(shape.field_size, 255);
            self.arrive(place, 1, round);
            self.arrive(place, bad_symbol, round);
            self.ask(shape.k);
        }
    }

    /// The whole word is stored, and another symbol arrives in the highest round.
    fn at_a_session_with_symbols(&mut self, shape: Shape) {
        let word = self.codeword(shape);
        self.store(shape.q(), shape.m, &word);
        for place in sample::numbers_too_high(shape.curve) {
            let right = word[index_of_low_byte(shape, place)];
            let another = sample::another_symbol(&mut self.generator, shape, right);
            self.arrive(place, another, 255);
            self.ask(shape.k);
        }
    }

    /// 4 comes before 6.
    fn at_a_session_with_a_bad_value(&mut self, shape: Shape) {
        let mut word = self.codeword(shape);
        word[shape.n / 2] = shape.field_size;
        self.store(shape.q(), shape.m, &word);
        for (number, place) in (0..).zip(sample::numbers_too_high(shape.curve)) {
            let symbols = [0, shape.field_size, 255];
            self.arrive(place, symbols[number % symbols.len()], 1);
        }
        self.ask(shape.k);
    }

    /// m + 1 symbols with another one at the place, and m of them with the last one
    /// at the place: the place counts in neither list.
    fn in_a_whole_session(&mut self, shape: Shape, place: u16) {
        let word = self.codeword(shape);
        let right = word[index_of_low_byte(shape, place)];
        let another = sample::another_symbol(&mut self.generator, shape, right);
        let enough = usize::from(shape.m) + 1;
        for (count, symbol) in [(enough, another), (enough - 1, right)] {
            let mut arrivals = self.arrivals(&word, count, 0);
            arrivals.extend(arrival_bytes(place, symbol, 255));
            self.call(b'p', shape.q(), shape.m, &arrivals, shape.k);
        }
    }

    pub(super) fn next_places_too_high(&mut self) {
        for curve in sample::short_curves(self.series) {
            let n = curve.point_count() as u16;
            let next_places = [256, 256 + n - 1, 256 + n, 0xFF00, 0xFF00 + n, u16::MAX];
            for m in [3, n / 2, n - 1] {
                for next_place in next_places {
                    self.unopened_jobs_at(Shape::of(curve, m), next_place);
                }
            }
        }
    }

    fn unopened_jobs_at(&mut self, shape: Shape, next_place: u16) {
        for work_kind in WORK_KINDS {
            let mut places = self.broken_word(shape, shape.n - 1);
            places.resize(PLACE_COUNT, MISSING);
            let case = Case {
                op: b'y',
                q: shape.q(),
                series: shape.series(),
                m: shape.m,
                place: next_place,
                a: BUDGETS[self.generator.below(BUDGETS.len())],
                b: self.generator.byte_from(0, 3),
                round: work_kind,
                input: places,
                ..Case::default()
            };
            let area = sample::symbols(&mut self.generator, shape, SLICE_ROOM);
            self.cases.push(case.with_area(&area, shape.k));
        }
    }
}

#[cfg(test)]
mod tests {
    use super::*;
    use crate::case_record::Runner;
    use crate::curve::Series;
    use crate::generator::Generator;

    fn line(case: &Case) -> String {
        Runner::default().run(case)
    }

    /// Of the list with another symbol; its last arrival is the one at the place.
    #[test]
    fn a_look_at_the_low_byte_would_change_the_answer() {
        let mut builder = Builder {
            series: Series::Two,
            generator: Generator::with_seed(82),
            cases: Vec::new(),
        };
        let [small, large] = sample::short_curves(builder.series);
        for shape in [Shape::of(small, 3), Shape::of(large, 16)] {
            for low_byte in 0..shape.n as u16 {
                builder.in_a_whole_session(shape, 256 + low_byte);
                let case = builder.cases.swap_remove(0);
                builder.cases.clear();
                assert!(line(&case).starts_with("p 0 0 "));
                let mut cut = case.clone();
                let high_byte = case.input.len() - 3;
                assert_eq!(cut.input[high_byte], 1);
                cut.input[high_byte] = 0;
                assert_ne!(line(&cut), line(&case));
            }
        }
    }
}
