//! What request T-11 brought, as cases: numbers that name no series in every call that
//! takes one and in sessions and jobs of any bytes, alone and with other faults, and
//! the converter.

mod refused;

use crate::case_record::{Case, SLICE_ROOM};
use crate::conversion_sample::{conversions, Conversion};
use crate::curve::Curve;
use crate::generator::Generator;

const SEED: u64 = 12;

pub fn series_cases() -> Vec<Case> {
    let mut builder = Builder {
        generator: Generator::with_seed(SEED),
        cases: Vec::new(),
    };
    builder.refused_series();
    builder.conversions();
    builder.words_too_short_for_a_long_block();
    builder.cases
}

struct Builder {
    generator: Generator,
    cases: Vec<Case>,
}

/// Calls of the converter. The slice to be written holds arbitrary bytes before the
/// call, so that a refusal that writes is seen.
impl Builder {
    fn convert(&mut self, call: Conversion) {
        let output = self.generator.bytes(call.length);
        self.cases.push(Case {
            op: b'C',
            q: call.q,
            series: call.series,
            input: call.word,
            output,
            ..Case::default()
        });
    }

    fn conversions(&mut self) {
        for curve in Curve::SHORT.into_iter().flat_map(Curve::in_both_series) {
            for call in conversions(curve, SLICE_ROOM) {
                self.convert(call);
            }
        }
    }

    /// 3, whatever the word holds and however long the slice is.
    fn words_too_short_for_a_long_block(&mut self) {
        for series in [1, 2] {
            for length in [0, 8, 64, SLICE_ROOM] {
                for symbol in [0, 63, 64, 255] {
                    self.convert(Conversion {
                        q: 8,
                        series,
                        word: vec![symbol; length],
                        length,
                    });
                }
            }
        }
    }
}

#[cfg(test)]
mod tests {
    use super::*;
    use crate::case_record::{Runner, RECORD_LENGTH};
    use crate::job::Job;
    use crate::sample::{Shape, BAD_SERIES};
    use crate::session::Session;
    use std::collections::BTreeSet;

    fn number(line: &str) -> u8 {
        let number = line.split(' ').nth(1).expect("a number");
        number.parse().expect("a number of 8 bits")
    }

    #[test]
    fn the_cases_are_reproducible_and_fit_their_records() {
        let cases = series_cases();
        assert_eq!(cases, series_cases());
        assert!((2000..=2600).contains(&cases.len()), "{}", cases.len());
        for case in &cases {
            let record: [u8; RECORD_LENGTH] = case.to_record();
            assert_eq!(&Case::from_record(&record), case);
        }
    }

    /// Sessions stay as they are, and what refused openings hand back is of series 1.
    /// No other refusal comes before these two, and none of them without cause.
    #[test]
    fn a_number_that_names_no_series_meets_17_or_before_it_1() {
        let mut runner = Runner::default();
        let mut found = BTreeSet::new();
        for case in series_cases() {
            let before = *runner.session();
            let line = runner.run(&case);
            let (q, series) = match case.op {
                b'a' | b'k' | b'J' => (before.q, before.series),
                _ => (case.q, case.series),
            };
            if BAD_SERIES.contains(&series) && !b"sy".contains(&case.op) {
                let takes_8 = b"euC".contains(&case.op);
                let takes_curve = [2, 4].contains(&q) || (q == 8 && takes_8);
                assert_eq!(number(&line), if takes_curve { 17 } else { 1 }, "{line}");
                found.insert((case.op, series, number(&line)));
                match case.op {
                    b'a' => assert_eq!(*runner.session(), before),
                    b'o' => assert_eq!(*runner.session(), Session::OF_REFUSED_OPENING),
                    b'j' | b'J' => assert_eq!(*runner.job(), Job::OF_REFUSED_OPENING),
                    _ => {}
                }
            } else {
                assert_ne!(number(&line), 17);
            }
        }
        let ops = *b"eurtpCjmEoakJ";
        assert_eq!(found.len(), ops.len() * BAD_SERIES.len() * 2);
    }

    /// So the number of the series alone decides where it is the only fault. The orders
    /// are low, as `p` has room for few arrivals.
    #[test]
    fn the_calls_are_good_in_their_series() {
        let mut builder = Builder {
            generator: Generator::with_seed(121),
            cases: Vec::new(),
        };
        for curve in Curve::SHORT.into_iter().flat_map(Curve::in_both_series) {
            for m in [3, 5] {
                for case in builder.good_calls(Shape::of(curve, m)) {
                    let line = Runner::default().run(&case);
                    assert_eq!(number(&line), 0, "{line}");
                }
            }
        }
    }
}
