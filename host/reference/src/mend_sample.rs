//! Calls of the mender of every kind, as cases.

mod refused;

use crate::case_record::Case;
use crate::curve::Series;
use crate::generator::Generator;
use crate::sample::{self, misleading, Shape};

const SEED: u64 = 3;

/// The cases of all orders, then those that no order below n has, and at last
/// words that mislead a mender.
pub fn mend_cases(series: Series) -> Vec<Case> {
    let mut builder = Builder {
        series,
        generator: Generator::with_seed(SEED),
        cases: Vec::new(),
    };
    for shape in Shape::every_short_in(series) {
        match shape.curve.radius(shape.m) {
            Some(radius) => builder.mended_order(shape, radius),
            None => builder.order_too_high_to_mend(shape),
        }
    }
    let [small, large] = sample::short_curves(series);
    for m in [3, 6] {
        builder.every_single_fault(Shape::of(small, m));
    }
    for m in [4, 37] {
        builder.every_single_fault(Shape::of(large, m));
    }
    builder.bad_orders();
    builder.bad_curves();
    for (shape, radius) in Shape::every_mended_in(series).filter(|&(_, radius)| radius > 0) {
        builder.misleading_words(shape, radius);
    }
    builder.cases
}

/// The right lengths of the slices for message, mended word and marks.
fn right_lengths(shape: Shape) -> [usize; 3] {
    [shape.k, shape.n, shape.n]
}

struct Builder {
    series: Series,
    generator: Generator,
    cases: Vec<Case>,
}

impl Builder {
    fn call(&mut self, q: u8, m: u16, word: &[u8], lengths: [usize; 3]) {
        let series = self.series.number();
        let case = Case::of_mending(q, series, m, word, lengths);
        self.cases.push(case);
    }

    fn call_at(&mut self, shape: Shape, word: &[u8], lengths: [usize; 3]) {
        self.call(shape.q(), shape.m, word, lengths);
    }

    fn shaped_call(&mut self, shape: Shape, word: &[u8]) {
        self.call_at(shape, word, right_lengths(shape));
    }

    fn codeword(&mut self, shape: Shape) -> Vec<u8> {
        sample::codeword(&mut self.generator, shape)
    }

    /// A codeword with `count` wrong symbols at arbitrary places.
    fn with_wrong(&mut self, shape: Shape, count: usize) -> Vec<u8> {
        let codeword = self.codeword(shape);
        sample::with_wrong(&mut self.generator, shape, &codeword, count)
    }

    fn arbitrary_word(&mut self, shape: Shape, length: usize) -> Vec<u8> {
        sample::symbols(&mut self.generator, shape, length)
    }
}

/// Calls that meet no refusal but 11.
impl Builder {
    fn mended_order(&mut self, shape: Shape, radius: usize) {
        for count in (0..=radius + 1).chain([shape.n / 2, shape.n]) {
            let word = self.with_wrong(shape, count);
            self.shaped_call(shape, &word);
        }
        let arbitrary = self.arbitrary_word(shape, shape.n);
        self.shaped_call(shape, &arbitrary);
        self.wrong_symbols_in_a_row(shape, radius);
        self.towards_a_neighbour(shape, radius);
        self.refused_calls(shape, radius);
    }

    /// t wrong symbols one after another, so that whole columns are wrong.
    fn wrong_symbols_in_a_row(&mut self, shape: Shape, radius: usize) {
        let mut word = self.codeword(shape);
        let first = self.generator.below(shape.n - radius + 1);
        for symbol in &mut word[first..first + radius] {
            *symbol = sample::another_symbol(&mut self.generator, shape, *symbol);
        }
        self.shaped_call(shape, &word);
    }

    /// Wrong symbols that are right in another codeword, t and one more.
    fn towards_a_neighbour(&mut self, shape: Shape, radius: usize) {
        let codeword = self.codeword(shape);
        let neighbour = sample::neighbour(&mut self.generator, shape, &codeword);
        for count in [radius, radius + 1] {
            let word = sample::on_the_way(&codeword, &neighbour, count);
            self.shaped_call(shape, &word);
        }
    }

    /// Some kinds only at every fourth order, the strap's among them.
    fn misleading_words(&mut self, shape: Shape, radius: usize) {
        let word = misleading::quotient(&mut self.generator, shape, radius);
        self.shaped_call(shape, &word);
        let word = misleading::quotient_without_zeros(&mut self.generator, shape, radius);
        self.shaped_call(shape, &word);
        let codeword = self.codeword(shape);
        let word = misleading::with_wrong_zeros(&mut self.generator, shape, &codeword, radius);
        self.shaped_call(shape, &word);
        let q = usize::from(shape.q());
        let most_columns = usize::from(misleading::order_of_f(shape, radius)) / q;
        self.wrong_columns(shape, most_columns);
        if shape.m % 4 == 1 {
            self.wrong_columns(shape, radius / q);
            self.wrong_columns(shape, most_columns + 1);
            let word = misleading::of_higher_order(&mut self.generator, shape, radius);
            self.shaped_call(shape, &word);
        }
    }

    fn wrong_columns(&mut self, shape: Shape, columns: usize) {
        let codeword = self.codeword(shape);
        let count = columns * usize::from(shape.q());
        let word = misleading::with_wrong_columns(&mut self.generator, shape, &codeword, count);
        self.shaped_call(shape, &word);
    }
}

#[cfg(test)]
mod tests {
    use super::*;
    use crate::case_record::{Runner, RECORD_LENGTH};
    use std::collections::BTreeSet;

    /// The number, the second number and the count of a case's line.
    fn numbers(case: &Case) -> [u8; 3] {
        let line = Runner::default().run(case);
        let mut parts = line.split(' ').skip(1);
        [(); 3].map(|()| {
            let part = parts.next().expect("three numbers");
            part.parse().expect("a number of 8 bits")
        })
    }

    #[test]
    fn the_cases_are_reproducible_and_fit_their_records() {
        for series in Series::BOTH {
            let cases = mend_cases(series);
            assert_eq!(cases, mend_cases(series));
            assert!((1500..=3000).contains(&cases.len()), "{}", cases.len());
            for case in &cases {
                let record: [u8; RECORD_LENGTH] = case.to_record();
                assert_eq!(&Case::from_record(&record), case);
                assert_eq!(case.op, b'm');
            }
        }
    }

    /// Each order is mended of 0 to t wrong symbols and refuses a word, or else
    /// always meets 12.
    #[test]
    fn every_answer_of_every_order_occurs() {
        Series::BOTH.into_iter().for_each(assert_answers);
    }

    fn assert_answers(series: Series) {
        let answers: BTreeSet<(u8, u16, u8, u8)> = mend_cases(series)
            .iter()
            .map(|case| {
                let [number, _, count] = numbers(case);
                (case.q, case.m, number, count)
            })
            .collect();
        for shape in Shape::every_short_in(series) {
            let of_order = answers
                .iter()
                .filter(|a| (a.0, a.1) == (shape.q(), shape.m));
            let found: Vec<(u8, u8)> = of_order.map(|a| (a.2, a.3)).collect();
            let expected: Vec<(u8, u8)> = match shape.curve.radius(shape.m) {
                Some(radius) => {
                    let mended = (0..=radius as u8).map(|count| (0, count));
                    mended.chain([(3, 0), (4, 0), (5, 0), (11, 0)]).collect()
                }
                None => vec![(12, 0)],
            };
            assert_eq!(found, expected, "{shape:?}");
        }
        let numbers: BTreeSet<u8> = answers.iter().map(|a| a.2).collect();
        assert_eq!(numbers, BTreeSet::from([0, 1, 2, 3, 4, 5, 11, 12]));
    }

    /// Those of the larger curve, except whole columns of t symbols or fewer.
    #[test]
    fn misleading_words_are_refused() {
        let mut builder = Builder {
            series: Series::Two,
            generator: Generator::with_seed(SEED),
            cases: Vec::new(),
        };
        let orders = Shape::every_mended_in(builder.series);
        let orders = orders.filter(|(shape, radius)| shape.q() == 4 && *radius > 0);
        for (shape, radius) in orders {
            builder.misleading_words(shape, radius);
            let found: Vec<[u8; 3]> = builder.cases.drain(..).map(|case| numbers(&case)).collect();
            let mut expected = vec![[11, 0, 0]; found.len()];
            if let Some(few_columns) = expected.get_mut(4) {
                *few_columns = [0, 0, (radius - radius % 4) as u8];
            }
            assert_eq!(found, expected, "{shape:?}");
        }
    }
}
