//! What request T-10 brought, as cases: calls of the encoder that puts symbols at
//! chosen places, with sets of places of every kind and with one fault or several.

mod refused;

use crate::case_record::Case;
use crate::code::{self, MISSING};
use crate::curve::Series;
use crate::generator::Generator;
use crate::outcome::Outcome;
use crate::sample::places::{self, symbols_at};
use crate::sample::{self, Shape};
use crate::systematic;

const SEED: u64 = 10;

/// The cases of all orders, then every single fault at some, and at last orders of n
/// or more and numbers that name no curve.
pub fn systematic_cases(series: Series) -> Vec<Case> {
    let mut builder = Builder {
        generator: Generator::with_seed(SEED),
        cases: Vec::new(),
    };
    for shape in Shape::every_short_in(series) {
        builder.sets_of_places(shape);
        builder.refused_calls(shape);
    }
    let [small, large] = sample::short_curves(series);
    for m in [3, 6] {
        builder.every_single_fault(Shape::of(small, m));
    }
    for m in [4, 37] {
        builder.every_single_fault(Shape::of(large, m));
    }
    builder.bad_orders(series);
    builder.bad_curves(series);
    builder.cases
}

/// The arguments of a call.
#[derive(Clone)]
struct Call {
    q: u8,
    series: u8,
    m: u16,
    places: Vec<u16>,
    symbols: Vec<u8>,
    /// That of the word's slice.
    length: usize,
}

impl Call {
    /// With a slice of the right length.
    fn of(shape: Shape, places: &[u16], symbols: Vec<u8>) -> Call {
        Call {
            q: shape.q(),
            series: shape.series(),
            m: shape.m,
            places: places.to_vec(),
            symbols,
            length: shape.n,
        }
    }
}

struct Builder {
    generator: Generator,
    cases: Vec<Case>,
}

impl Builder {
    /// The slice is filled with an arbitrary byte that is no symbol.
    fn add(&mut self, call: &Call) {
        let fill = self.generator.byte_from(16, 255);
        self.cases.push(Case::of_encoding_at(
            call.q,
            call.series,
            call.m,
            &call.places,
            &call.symbols,
            call.length,
            fill,
        ));
    }
}

/// Calls that meet no refusal but 16.
impl Builder {
    fn sets_of_places(&mut self, shape: Shape) {
        let first: Vec<u16> = (0..shape.k as u16).collect();
        let sets = [
            Some(first),
            Some(places::column_by_column(&mut self.generator, shape)),
            places::in_few_columns(&mut self.generator, shape),
            Some(places::staircase(&mut self.generator, shape)),
            Some(places::arbitrary(&mut self.generator, shape)),
            Some(places::arbitrary(&mut self.generator, shape)),
            self.places_short_of_one(shape),
        ];
        for places in sets.into_iter().flatten() {
            self.with_two_lists_of_symbols(shape, &places);
        }
    }

    /// The symbols of a codeword, and others, which no codeword has there if several
    /// have the first.
    fn with_two_lists_of_symbols(&mut self, shape: Shape, places: &[u16]) {
        let codeword = sample::codeword(&mut self.generator, shape);
        let symbols = symbols_at(places, &codeword);
        let others = self.other_symbols(shape, places, &symbols);
        for symbols in [symbols, others] {
            self.add(&Call::of(shape, places, symbols));
        }
    }

    /// Most lists are taken at once: at places that leave several codewords at most
    /// one of Q lists is that of a codeword.
    fn other_symbols(&mut self, shape: Shape, places: &[u16], symbols: &[u8]) -> Vec<u8> {
        loop {
            let others = sample::message(&mut self.generator, shape);
            let several_fit = recovery_from(shape, places, &others).number == 10;
            if others != symbols && !several_fit {
                return others;
            }
        }
    }

    /// Places that don't fix the codeword, though all but one of them belong to a set
    /// that does, if there are any: one place of a staircase, where a codeword that is
    /// 0 at the others isn't 0, is left for a place where it is.
    fn places_short_of_one(&mut self, shape: Shape) -> Option<Vec<u16>> {
        let staircase = places::staircase(&mut self.generator, shape);
        let left = self.generator.permutation(shape.k);
        left.into_iter().find_map(|index| {
            let zeros = other_zeros(shape, &staircase, index);
            let &place = zeros.get(self.generator.below(zeros.len()))?;
            let mut places = staircase.clone();
            places[index] = place;
            places.sort_unstable();
            Some(places)
        })
    }
}

/// The places outside of these where the codeword is 0 that is 1 at the one with this
/// index and 0 at all others of them. They fix the codeword, so there is one.
fn other_zeros(shape: Shape, places: &[u16], index: usize) -> Vec<u16> {
    let mut symbols = vec![0; shape.k];
    symbols[index] = 1;
    let mut word = vec![0; shape.n];
    let (q, series, m) = shape.numbers();
    systematic::encode_at(q, series, m, places, &symbols, &mut word);
    let zeros = (0..).zip(&word).filter(|(_, &symbol)| symbol == 0);
    let zeros = zeros.map(|(place, _)| place);
    zeros.filter(|place| !places.contains(place)).collect()
}

/// What recovery says of the word that has these symbols at the places and no others.
fn recovery_from(shape: Shape, places: &[u16], symbols: &[u8]) -> Outcome {
    let mut word = vec![MISSING; shape.n];
    for (&place, &symbol) in places.iter().zip(symbols) {
        word[usize::from(place)] = symbol;
    }
    let (q, series, m) = shape.numbers();
    code::recover(q, series, m, &word, &mut vec![0; shape.k])
}

#[cfg(test)]
mod tests {
    use super::*;
    use crate::case_record::{Runner, RECORD_LENGTH};
    use crate::curve::Curve;
    use std::collections::{BTreeMap, BTreeSet};

    /// Each case with the number of its answer.
    fn cases_and_numbers() -> Vec<(Case, u8)> {
        let mut runner = Runner::default();
        let with_number = |case: Case| {
            let line = runner.run(&case);
            let number = line.split(' ').nth(1).expect("a number");
            let number = number.parse().expect("a number of 8 bits");
            (case, number)
        };
        let cases = Series::BOTH.into_iter().flat_map(systematic_cases);
        cases.map(with_number).collect()
    }

    /// At k = 1 every place fixes the codeword, and so does every set of 7 places of
    /// the small curve at its highest order.
    fn has_places_that_leave_several(shape: Shape) -> bool {
        shape.k > 1 && (shape.q(), shape.m) != (2, 7)
    }

    #[test]
    fn the_cases_are_reproducible_and_fit_their_records() {
        for series in Series::BOTH {
            let cases = systematic_cases(series);
            assert_eq!(cases, systematic_cases(series));
            assert!((1500..=2500).contains(&cases.len()), "{}", cases.len());
            for case in &cases {
                let record: [u8; RECORD_LENGTH] = case.to_record();
                assert_eq!(&Case::from_record(&record), case);
                assert_eq!(case.op, b'E');
            }
        }
    }

    #[test]
    fn every_answer_of_every_order_occurs() {
        let found = cases_and_numbers();
        for shape in Shape::every_short_in_both_series() {
            let order = shape.numbers();
            let of_order = found
                .iter()
                .filter(|(case, _)| (case.q, case.series, case.m) == order);
            let numbers: BTreeSet<u8> = of_order.map(|&(_, number)| number).collect();
            let mut expected = BTreeSet::from([0, 3, 4, 5, 15]);
            if has_places_that_leave_several(shape) {
                expected.insert(16);
            }
            assert_eq!(numbers, expected, "{shape:?}");
        }
        let numbers: BTreeSet<u8> = found.iter().map(|&(_, number)| number).collect();
        assert_eq!(numbers, BTreeSet::from([0, 1, 2, 3, 4, 5, 15, 16]));
    }

    fn shape_of(case: &Case) -> Shape {
        let curve = Curve::short_named(case.q).expect("a curve of short blocks");
        let series = Series::named(case.series).expect("one of the two series");
        Shape::of(curve.in_series(series), case.m)
    }

    /// Zeros at the places are always those of a codeword. That there are others with
    /// them is what recovery says.
    #[test]
    fn the_places_alone_decide_whether_a_call_past_the_checks_is_refused() {
        let mut lists = BTreeMap::new();
        let mut answers = BTreeSet::new();
        for (case, number) in cases_and_numbers() {
            if [0, 16].contains(&number) {
                let (shape, places) = (shape_of(&case), case.places());
                let recovery = recovery_from(shape, &places, &vec![0; shape.k]);
                assert_eq!(number, if recovery.number == 0 { 0 } else { 16 });
                let set_of_places = (shape.numbers(), places);
                let symbols: &mut BTreeSet<Vec<u8>> = lists.entry(set_of_places).or_default();
                symbols.insert(case.output);
                if symbols.len() == 2 {
                    answers.insert((shape.numbers(), number));
                }
            }
        }
        for shape in Shape::every_short_in_both_series() {
            assert!(answers.contains(&(shape.numbers(), 0)), "{shape:?}");
            let is_refused = answers.contains(&(shape.numbers(), 16));
            assert_eq!(
                is_refused,
                has_places_that_leave_several(shape),
                "{shape:?}"
            );
        }
    }

    /// Recovery meets 10 with the first, 9 with the others.
    #[test]
    fn refused_places_hold_symbols_that_codewords_have_and_symbols_that_none_has() {
        let mut found = BTreeSet::new();
        for (case, number) in cases_and_numbers() {
            if number == 16 {
                let shape = shape_of(&case);
                let recovery = recovery_from(shape, &case.places(), &case.output);
                found.insert((shape.numbers(), recovery.number));
            }
        }
        let with_refusal = |&shape: &Shape| has_places_that_leave_several(shape);
        let expected: BTreeSet<((u8, u8, u16), u8)> = Shape::every_short_in_both_series()
            .filter(with_refusal)
            .flat_map(|shape| [9, 10].map(|number| (shape.numbers(), number)))
            .collect();
        assert_eq!(found, expected);
    }

    #[test]
    fn written_words_are_codewords_with_the_symbols_at_the_places() {
        for (case, number) in cases_and_numbers() {
            if number == 0 {
                let (shape, places) = (shape_of(&case), case.places());
                let (q, series, m) = shape.numbers();
                let mut word = vec![0; shape.n];
                systematic::encode_at(q, series, m, &places, &case.output, &mut word);
                assert_eq!(symbols_at(&places, &word), case.output);
                let mut message = vec![0; shape.k];
                let outcome = code::unencode(q, series, m, &word, &mut message);
                assert_eq!(outcome, Outcome::ACCEPTED);
            }
        }
    }

    /// Q codewords are left, the fewest that can be.
    #[test]
    fn a_set_short_of_one_is_found_wherever_places_can_leave_several() {
        let mut builder = Builder {
            generator: Generator::with_seed(101),
            cases: Vec::new(),
        };
        for shape in Shape::every_short_in_both_series() {
            let places = builder.places_short_of_one(shape);
            assert_eq!(places.is_some(), has_places_that_leave_several(shape));
            if let Some(places) = places {
                let recovery = recovery_from(shape, &places, &vec![0; shape.k]);
                assert_eq!(recovery, Outcome::several_messages_fit(1));
            }
        }
    }

    /// So the high byte alone decides.
    #[test]
    fn a_look_at_the_low_bytes_of_the_places_would_find_no_fault() {
        let mut found = BTreeSet::new();
        for case in Series::BOTH.into_iter().flat_map(systematic_cases) {
            let cut = Case {
                high_byte: 0,
                ..case.clone()
            };
            let mut runner = Runner::default();
            if runner.run(&case).starts_with("E 15 ") && runner.run(&cut).starts_with("E 0 ") {
                found.insert((case.q, case.series, case.m));
            }
        }
        for shape in Shape::every_short_in_both_series() {
            assert!(found.contains(&shape.numbers()), "{shape:?}");
        }
    }
}
