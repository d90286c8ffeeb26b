//! Numbers that name no series in every call of long blocks, alone and with other
//! faults, and the converter.

use super::Builder;
use crate::conversion_sample::conversions;
use crate::curve::Curve;
use crate::generator::Generator;
use crate::long_case_record::{LongCase, WorkLength, SLICE_ROOM};
use crate::sample::{self, Shape, BAD_SERIES};

const SEED: u64 = 13;

pub(super) fn series_cases() -> Vec<LongCase> {
    let mut builder = Builder {
        series: 1,
        generator: Generator::with_seed(SEED),
        cases: Vec::new(),
    };
    for curve in Curve::Q_IS_8.in_both_series() {
        let shape = Shape::of(curve, 300);
        for series in BAD_SERIES {
            builder.series = series;
            builder.refused_series(shape);
        }
        for call in conversions(curve, SLICE_ROOM) {
            builder.series = call.series;
            builder.call(b'C', call.q, 0, &call.word, call.length);
        }
    }
    builder.cases
}

impl Builder {
    /// Alone, with an order that is too high, with all later faults, and with a number
    /// that names no curve, which decides first where a curve is named. Plain recovery
    /// takes no long block.
    fn refused_series(&mut self, shape: Shape) {
        let message = sample::message(&mut self.generator, shape);
        let word = shape.word_of(&message);
        let broken = sample::with_known(&mut self.generator, &word, shape.n - 10);
        let bad = [64; 513];
        for (op, input) in [(b'e', &message), (b'u', &word), (b'l', &broken)] {
            self.fitting(op, shape, input);
            let length = if op == b'e' { shape.n } else { shape.k };
            self.call(op, 8, 512, input, length);
            self.call(op, 8, 512, &bad, length + 1);
            self.call(op, 16, shape.m, input, length);
        }
        self.fitting(b'r', shape, &broken);
        self.call(b'r', 4, 37, &[0; 64], 32);
        self.call(b'r', 4, 64, &bad, 33);
        for work_length in WorkLength::ALL {
            self.recover_with_work(512, &bad, shape.k + 1, work_length);
        }
    }
}

#[cfg(test)]
mod tests {
    use super::super::tests::op_and_number;
    use super::*;
    use std::collections::BTreeSet;

    /// But for `l`, which names no curve, 1 comes before 17.
    #[test]
    fn a_number_that_names_no_series_meets_17_or_before_it_1() {
        let mut found = BTreeSet::new();
        for case in series_cases() {
            let (op, number) = op_and_number(&case.line());
            if BAD_SERIES.contains(&case.series) {
                found.insert((op, case.series, number));
                let takes_curve = match case.op {
                    b'l' => true,
                    b'r' => [2, 4].contains(&case.q),
                    _ => [2, 4, 8].contains(&case.q),
                };
                assert_eq!(number, if takes_curve { 17 } else { 1 });
            }
        }
        for series in BAD_SERIES {
            assert!("eurlC".chars().all(|op| found.contains(&(op, series, 17))));
            assert!("eur".chars().all(|op| found.contains(&(op, series, 1))));
        }
    }
}
