//! Jobs of every kind, as cases.

mod of_session;
mod refused;
mod unopened;

use crate::case_record::{Case, SLICE_ROOM};
use crate::code::MISSING;
use crate::curve::{Curve, Series};
use crate::generator::Generator;
use crate::job::Job;
use crate::sample::{self, Shape};
use crate::session::Session;

const SEED: u64 = 4;

/// Budgets for the calls of a job, one after another and over again until it is
/// finished.
const PATTERNS: [&[u8]; 7] = [
    &[7],
    &[64],
    &[255],
    &[0, 7, 20],
    &[20, 0, 0, 1, 30],
    &[1, 2, 4, 8, 16, 32],
    &[9, 255],
];
const ONE_BY_ONE: &[u8] = &[1];

/// The orders of the larger curve at which whole words are brought in by one
/// symbol a call.
const ORDERS_ONE_BY_ONE: [u16; 3] = [11, 37, 63];

/// The cases of all orders, then refused openings that no order below n has,
/// sessions whose symbols arrive one by one, and at last jobs that no opening gave.
pub fn job_cases(series: Series) -> Vec<Case> {
    let mut builder = Builder {
        series,
        generator: Generator::with_seed(SEED),
        session: Session::OF_REFUSED_OPENING,
        cases: Vec::new(),
    };
    builder.before_any_opening();
    for shape in Shape::every_short_in(series) {
        builder.jobs_of_words(shape);
        builder.refused_words(shape);
        builder.jobs_of_stored_sessions(shape);
    }
    for m in ORDERS_ONE_BY_ONE {
        builder.one_by_one(Shape::of(Curve::Q_IS_4.in_series(series), m));
    }
    builder.bad_curves_and_orders();
    builder.bad_stored_numbers();
    builder.session_runs();
    builder.unopened_jobs();
    builder.cases
}

/// Lengths that no slice for k symbols may have. If k is 1, two of them are 0.
fn wrong_lengths(k: usize) -> [usize; 4] {
    [0, k - 1, k + 1, SLICE_ROOM]
}

fn pattern(number: usize) -> &'static [u8] {
    PATTERNS[number % PATTERNS.len()]
}

struct Builder {
    series: Series,
    generator: Generator,
    /// The session that the cases so far make the current one.
    session: Session,
    cases: Vec<Case>,
}

/// Openings and calls.
impl Builder {
    /// Gives the job that the opening hands back.
    fn open(&mut self, q: u8, m: u16, word: &[u8]) -> Job {
        let series = self.series.number();
        self.cases.push(Case {
            op: b'j',
            q,
            series,
            m,
            input: word.to_vec(),
            ..Case::default()
        });
        Job::open(q, series, m, word).0
    }

    /// The slice holds arbitrary bytes before the call, so that it is seen if
    /// one without a message writes.
    fn call(&mut self, budget: u8, length: usize) {
        let output = self.generator.bytes(length);
        self.cases.push(Case {
            op: b'c',
            a: budget,
            output,
            ..Case::default()
        });
    }

    /// Of any budget, at a job whose messages have k symbols.
    fn call_of_wrong_length(&mut self, k: usize) {
        let budget = self.generator.byte();
        let lengths = wrong_lengths(k);
        let length = lengths[self.generator.below(lengths.len())];
        self.call(budget, length);
    }

    /// Carries a job on that nothing was brought in of, and past its end. The
    /// budgets must not all be 0.
    fn carry_to_the_end(&mut self, job: Job, budgets: &[u8]) {
        let k = job.message_length();
        let mut remaining = job.arrived_count();
        for &budget in budgets.iter().cycle() {
            self.call_of_wrong_length_at_times(k);
            self.call(budget, k);
            remaining = remaining.saturating_sub(budget);
            if remaining == 0 {
                break;
            }
        }
        self.call(0, k);
        self.call_of_wrong_length_at_times(k);
        self.call(255, k);
    }

    /// One time in eight.
    fn call_of_wrong_length_at_times(&mut self, k: usize) {
        if self.generator.below(8) == 0 {
            self.call_of_wrong_length(k);
        }
    }

    fn whole_run(&mut self, shape: Shape, word: &[u8], budgets: &[u8]) {
        let job = self.open(shape.q(), shape.m, word);
        self.carry_to_the_end(job, budgets);
    }
}

/// Jobs of good words.
impl Builder {
    /// The job of a refused opening, of which k is 1.
    fn before_any_opening(&mut self) {
        for (budget, length) in [(0, 1), (255, 1), (7, 0), (0, 2), (1, SLICE_ROOM), (64, 1)] {
            self.call(budget, length);
        }
    }

    /// All words at the orders of the small curve, and at those of the larger one
    /// every other word, by turns.
    fn jobs_of_words(&mut self, shape: Shape) {
        self.all_but_one(shape);
        for (number, word) in self.words(shape).into_iter().enumerate() {
            let number = number + usize::from(shape.m);
            if shape.q() == 2 {
                self.whole_run(shape, &word, ONE_BY_ONE);
                self.whole_run(shape, &word, pattern(number));
            } else if number % 2 == 0 {
                self.whole_run(shape, &word, pattern(number));
            }
        }
        let nothing = vec![MISSING; shape.n];
        self.whole_run(shape, &nothing, pattern(usize::from(shape.m)));
        self.between_wrong_lengths(shape);
    }

    /// All symbols but the last in one call and none in the next: by then the
    /// message is settled, or it is settled that none fits.
    fn all_but_one(&mut self, shape: Shape) {
        let budgets = [0, shape.n as u8 - 1];
        let word = self.codeword(shape);
        self.whole_run(shape, &word, &budgets);
        let damaged = sample::damaged_at(&mut self.generator, shape, &word, 0);
        self.whole_run(shape, &damaged, &budgets);
    }

    /// Whole, broken and damaged words.
    fn words(&mut self, shape: Shape) -> Vec<Vec<u8>> {
        let (n, k, m) = (shape.n, shape.k, usize::from(shape.m));
        let any_enough = k + self.generator.below(n - k + 1);
        let more_than_sure = (m + 3).min(n);
        vec![
            self.codeword(shape),
            self.broken_word(shape, any_enough),
            self.broken_word(shape, m + 1),
            self.broken_word(shape, k - 1),
            self.whole_columns(shape, shape.columns_of_order()),
            self.damaged_at(shape, n, n - 1),
            self.damaged_at(shape, more_than_sure, 0),
            self.damaged_anywhere(shape, any_enough),
        ]
    }

    fn codeword(&mut self, shape: Shape) -> Vec<u8> {
        sample::codeword(&mut self.generator, shape)
    }

    fn broken_word(&mut self, shape: Shape, known: usize) -> Vec<u8> {
        let word = self.codeword(shape);
        sample::with_known(&mut self.generator, &word, known)
    }

    fn whole_columns(&mut self, shape: Shape, known: usize) -> Vec<u8> {
        let word = self.codeword(shape);
        sample::with_known_columns(&mut self.generator, shape, &word, known)
    }

    /// A broken word whose known symbol with this number, by place, is wrong.
    fn damaged_at(&mut self, shape: Shape, known: usize, number: usize) -> Vec<u8> {
        let broken = self.broken_word(shape, known);
        sample::damaged_at(&mut self.generator, shape, &broken, number)
    }

    fn damaged_anywhere(&mut self, shape: Shape, known: usize) -> Vec<u8> {
        let broken = self.broken_word(shape, known);
        sample::damaged(&mut self.generator, shape, &broken)
    }

    /// Refused calls before the first symbol and after some. The job is left
    /// unfinished.
    fn between_wrong_lengths(&mut self, shape: Shape) {
        let word = self.broken_word(shape, shape.n / 2);
        self.open(shape.q(), shape.m, &word);
        let budgets = [0, 1, 0, 2].into_iter();
        for (budget, length) in budgets.zip(wrong_lengths(shape.k)) {
            self.call(255, length);
            self.call(budget, shape.k);
        }
    }

    /// A whole word, and one with its first symbol wrong.
    fn one_by_one(&mut self, shape: Shape) {
        let word = self.codeword(shape);
        let damaged = sample::damaged_at(&mut self.generator, shape, &word, 0);
        for word in [word, damaged] {
            self.whole_run(shape, &word, ONE_BY_ONE);
        }
    }
}

#[cfg(test)]
mod tests {
    use super::*;
    use crate::case_record::{Runner, RECORD_LENGTH};
    use std::collections::BTreeSet;

    /// What a call says: the word for its kind, its number, and whether the
    /// second number is 0.
    type Answer = (String, u8, bool);

    #[test]
    fn the_cases_are_reproducible_and_fit_their_records() {
        for series in Series::BOTH {
            let cases = job_cases(series);
            assert_eq!(cases, job_cases(series));
            assert!((6000..=9000).contains(&cases.len()), "{}", cases.len());
            for case in &cases {
                let record: [u8; RECORD_LENGTH] = case.to_record();
                assert_eq!(&Case::from_record(&record), case);
                assert!(b"jJcyosa".contains(&case.op));
            }
        }
    }

    /// Each call's q, series and m, its budget and what it says.
    fn calls() -> Vec<((u8, u8, u16), u8, Answer)> {
        let mut runner = Runner::default();
        let mut calls = Vec::new();
        for case in Series::BOTH.into_iter().flat_map(job_cases) {
            let line = runner.run(&case);
            if case.op == b'c' {
                let job = runner.job();
                let order = (job.q(), job.series(), job.m());
                calls.push((order, case.a, answer(&line)));
            }
        }
        calls
    }

    fn answer(line: &str) -> Answer {
        let parts: Vec<&str> = line.split(' ').collect();
        let number = parts[1].parse().expect("a number of 8 bits");
        (parts[4].to_string(), number, parts[2] == "0")
    }

    /// At q = 2 and m = 7 any seven symbols fit a message, so that none is known
    /// to fit only at the end.
    #[test]
    fn every_answer_of_every_order_occurs() {
        let calls = calls();
        for shape in Shape::every_short_in_both_series() {
            let order = shape.numbers();
            let of_order = calls.iter().filter(|call| call.0 == order);
            let found: BTreeSet<Answer> = of_order.map(|call| call.2.clone()).collect();
            let mut expected = BTreeSet::from([
                ("refused", 5, true),
                ("working", 9, true),
                ("working", 10, true),
                ("working", 10, false),
                ("finished", 0, true),
                ("finished", 9, true),
                ("finished", 10, false),
            ]);
            if (shape.q(), shape.m) == (2, 7) {
                expected.remove(&("working", 9, true));
            }
            let expected = expected.into_iter();
            let expected = expected.map(|(kind, number, is_0)| (kind.to_string(), number, is_0));
            assert_eq!(found, expected.collect(), "{shape:?}");
        }
    }

    /// Those of 64 and more finish any job.
    #[test]
    fn every_budget_occurs_at_many_orders() {
        let calls = calls();
        let orders = |budget, kind| {
            let found = calls.iter().filter(|call| call.1 == budget);
            let found = found.filter(|call| call.2 .0 == kind);
            found.map(|call| call.0).collect::<BTreeSet<_>>().len()
        };
        for budget in [0, 1, 7] {
            assert!(orders(budget, "working") >= 80, "{budget}");
        }
        for budget in [0, 7, 64, 255] {
            assert!(orders(budget, "finished") >= 80, "{budget}");
        }
    }
}
