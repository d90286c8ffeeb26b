//! What request T-08 brought, as cases: orders and places of 16 bits in every call
//! that takes them. Beside them whole sessions in one call and recovery in turns at
//! every order, and the highest second numbers.

mod highest;
mod orders;
mod ordinary;
mod places;

use crate::case_record::Case;
use crate::curve::Series;
use crate::generator::Generator;
use crate::replay::arrival_bytes;
use crate::sample::{self, Shape, ROUNDS};
use crate::session::{Session, PLACE_COUNT};

const SEED: u64 = 6;

/// The most arrivals that the input of a case has room for.
const MOST_ARRIVALS: usize = 18;

const BUDGETS: [u8; 7] = [0, 1, 2, 7, 20, 64, 255];

pub fn sixteen_bit_cases(series: Series) -> Vec<Case> {
    let mut builder = Builder {
        series,
        generator: Generator::with_seed(SEED),
        cases: Vec::new(),
    };
    builder.ordinary_calls();
    builder.orders_too_high();
    builder.orders_of_unknown_curves();
    builder.places_too_high();
    builder.next_places_too_high();
    builder.highest_second_numbers();
    builder.cases
}

struct Builder {
    series: Series,
    generator: Generator,
    cases: Vec<Case>,
}

/// Cases of one call each. Slices hold arbitrary bytes before it, so that a refusal
/// that writes is seen.
impl Builder {
    /// `op` is `e`, `u`, `r`, `p` or `j`.
    fn call(&mut self, op: u8, q: u8, m: u16, input: &[u8], length: usize) {
        let output = self.generator.bytes(length);
        self.cases.push(Case {
            op,
            q,
            series: self.series.number(),
            m,
            input: input.to_vec(),
            output,
            ..Case::default()
        });
    }

    /// Recovery in turns with arbitrary budgets.
    fn recover_in_turns(&mut self, q: u8, m: u16, word: &[u8], length: usize) {
        let [a, b, round] = [(); 3].map(|()| BUDGETS[self.generator.below(BUDGETS.len())]);
        let output = self.generator.bytes(length);
        self.cases.push(Case {
            op: b't',
            q,
            series: self.series.number(),
            m,
            a,
            b,
            round,
            input: word.to_vec(),
            output,
            ..Case::default()
        });
    }

    fn open(&mut self, q: u8, m: u16) {
        let series = self.series.number();
        self.cases.push(Case::of_opening(q, series, m));
    }

    /// A session with these places, those from n on missing, and arbitrary rounds.
    fn store(&mut self, q: u8, m: u16, word: &[u8]) {
        let mut places = [255; PLACE_COUNT];
        places[..word.len()].copy_from_slice(word);
        let rounds = [(); PLACE_COUNT].map(|()| self.round());
        let session = Session {
            q,
            series: self.series.number(),
            m,
            places,
            rounds,
        };
        self.cases.push(Case::of_raw_session(&session));
    }

    fn arrive(&mut self, place: u16, symbol: u8, round: u8) {
        self.cases.push(Case::of_arrival(place, symbol, round));
    }

    fn ask(&mut self, length: usize) {
        let output = self.generator.bytes(length);
        self.cases.push(Case {
            op: b'k',
            output,
            ..Case::default()
        });
    }

    fn open_job(&mut self, q: u8, m: u16, word: &[u8]) {
        self.call(b'j', q, m, word, 0);
    }

    fn open_job_from_session(&mut self) {
        self.cases.push(Case {
            op: b'J',
            ..Case::default()
        });
    }

    fn carry_on(&mut self, budget: u8, length: usize) {
        let output = self.generator.bytes(length);
        self.cases.push(Case {
            op: b'c',
            a: budget,
            output,
            ..Case::default()
        });
    }
}

/// What the calls are made with.
impl Builder {
    fn round(&mut self) -> u8 {
        ROUNDS[self.generator.below(ROUNDS.len())]
    }

    fn codeword(&mut self, shape: Shape) -> Vec<u8> {
        sample::codeword(&mut self.generator, shape)
    }

    fn broken_word(&mut self, shape: Shape, known: usize) -> Vec<u8> {
        let word = self.codeword(shape);
        sample::with_known(&mut self.generator, &word, known)
    }

    /// The list of the word's symbols at arbitrary places, as many as asked for or
    /// as there is room for, all of one round.
    fn arrivals(&mut self, word: &[u8], count: usize, round: u8) -> Vec<u8> {
        let places = self.generator.permutation(word.len());
        places
            .into_iter()
            .take(count.min(MOST_ARRIVALS))
            .flat_map(|place| arrival_bytes(place as u16, word[place], round))
            .collect()
    }
}

#[cfg(test)]
mod tests {
    use super::*;
    use crate::case_record::{Runner, RECORD_LENGTH};
    use crate::curve::Curve;
    use std::collections::BTreeSet;

    /// Each case with its line.
    fn cases_and_lines() -> Vec<(Case, String)> {
        let mut runner = Runner::default();
        let with_line = |case: Case| {
            let line = runner.run(&case);
            (case, line)
        };
        let cases = Series::BOTH.into_iter().flat_map(sixteen_bit_cases);
        cases.map(with_line).collect()
    }

    fn number(line: &str) -> u8 {
        let number = line.split(' ').nth(1).expect("a number");
        number.parse().expect("a number of 8 bits")
    }

    #[test]
    fn the_cases_are_reproducible_and_fit_their_records() {
        for series in Series::BOTH {
            let cases = sixteen_bit_cases(series);
            assert_eq!(cases, sixteen_bit_cases(series));
            assert!((3000..=4500).contains(&cases.len()), "{}", cases.len());
            for case in &cases {
                let record: [u8; RECORD_LENGTH] = case.to_record();
                assert_eq!(&Case::from_record(&record), case);
            }
        }
    }

    /// A look at the low byte alone would let some of them pass.
    #[test]
    fn every_call_refuses_every_order_that_is_too_high() {
        let found = cases_and_lines();
        for curve in Curve::SHORT.into_iter().flat_map(Curve::in_both_series) {
            for m in sample::numbers_too_high(curve) {
                let numbers = (curve.q(), curve.series().number(), m);
                let of_order = found
                    .iter()
                    .filter(|(case, _)| (case.q, case.series, case.m) == numbers);
                let refused = of_order.filter(|(_, line)| number(line) == 2);
                let ops: BTreeSet<u8> = refused.map(|(case, _)| case.op).collect();
                assert_eq!(ops, BTreeSet::from(*b"eurmojpt"), "{} {m}", curve.q());
            }
        }
    }

    /// So the order alone decides.
    #[test]
    fn a_look_at_the_low_byte_of_an_order_would_find_no_fault() {
        let cases = Series::BOTH.map(sixteen_bit_cases).concat();
        for shape in Shape::every_short_in_both_series() {
            let numbers = (shape.q(), shape.series(), shape.m + 256);
            let of_order = cases
                .iter()
                .filter(|case| (case.q, case.series, case.m) == numbers);
            let cut = of_order.map(|case| Case {
                m: shape.m,
                ..case.clone()
            });
            let line = |case: Case| (case.op, number(&Runner::default().run(&case)));
            // Too few arrivals have room, and from n - g on nothing is mended.
            let without_fault = cut
                .map(line)
                .filter(|(_, number)| [0, 10, 12].contains(number));
            let ops: BTreeSet<u8> = without_fault.map(|(op, _)| op).collect();
            assert_eq!(ops, BTreeSet::from(*b"eurmojptsy"), "{shape:?}");
        }
    }

    /// Also in sessions that no opening gave; only `s` and `y` are never refused.
    /// Encode and unencode take q = 8 since request T-09, where the messages and
    /// words of these cases are too short for an order up to 511.
    #[test]
    fn an_order_above_255_meets_2_or_before_it_1() {
        let mut runner = Runner::default();
        for case in Series::BOTH.into_iter().flat_map(sixteen_bit_cases) {
            let Session { q, m, .. } = *runner.session();
            let line = runner.run(&case);
            let (q, m) = match case.op {
                b'a' | b'k' | b'J' => (q, m),
                _ => (case.q, case.m),
            };
            if m > 255 && !b"sy".contains(&case.op) {
                let expected = match q {
                    2 | 4 => 2,
                    8 if b"eu".contains(&case.op) && m < 512 => 3,
                    8 if b"eu".contains(&case.op) => 2,
                    _ => 1,
                };
                assert_eq!(number(&line), expected, "{line}");
            }
        }
    }

    #[test]
    fn arrivals_at_places_that_are_too_high_meet_every_earlier_refusal_and_6() {
        let mut runner = Runner::default();
        let mut found = BTreeSet::new();
        for case in Series::BOTH.into_iter().flat_map(sixteen_bit_cases) {
            let Session { q, series, .. } = *runner.session();
            let line = runner.run(&case);
            if case.op == b'a' && case.place > 255 {
                found.insert((q, series, case.place, number(&line)));
            }
        }
        for curve in Curve::SHORT.into_iter().flat_map(Curve::in_both_series) {
            let (q, series) = (curve.q(), curve.series().number());
            for place in sample::numbers_too_high(curve) {
                if place > 255 {
                    for refusal in [4, 6] {
                        assert!(found.contains(&(q, series, place, refusal)), "{place}");
                    }
                }
            }
        }
        let refusals: BTreeSet<u8> = found.iter().map(|&(_, _, _, number)| number).collect();
        assert_eq!(refusals, BTreeSet::from([1, 2, 4, 6]));
    }

    /// Those of `p` where there is room for m + 1 arrivals, which are enough.
    #[test]
    fn whole_sessions_and_turns_give_messages_at_every_order() {
        let found = cases_and_lines();
        let accepted = found.iter().filter(|(_, line)| number(line) == 0);
        let accepted: BTreeSet<(u8, u8, u8, u16)> = accepted
            .map(|(case, _)| (case.op, case.q, case.series, case.m))
            .collect();
        for shape in Shape::every_short_in_both_series() {
            let is_accepted = |op| accepted.contains(&(op, shape.q(), shape.series(), shape.m));
            assert!(is_accepted(b't'), "{shape:?}");
            let has_room = usize::from(shape.m) < MOST_ARRIVALS;
            assert!(!has_room || is_accepted(b'p'), "{shape:?}");
        }
    }

    #[test]
    fn the_highest_second_numbers_occur_in_every_call_that_has_them() {
        let found = cases_and_lines();
        let ops = |start: &str| {
            let numbers = |line: &str| line.get(2..).is_some_and(|rest| rest.starts_with(start));
            let lines = found
                .iter()
                .map(|(_, line)| line)
                .filter(|line| numbers(line));
            lines
                .map(|line| line.as_bytes()[0])
                .collect::<BTreeSet<_>>()
        };
        assert_eq!(ops("4 63 "), BTreeSet::from(*b"urmjtakJ"));
        // A message of 58 symbols.
        assert!(ops("4 57 ").contains(&b'e'));
        assert_eq!(ops("10 58 "), BTreeSet::from(*b"rkcpt"));
    }
}
