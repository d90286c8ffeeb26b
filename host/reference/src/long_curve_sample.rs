//! What request T-09 brought to the calls of short records, as cases: field
//! operations at q = 8, encode and unencode at q = 8 with slices that are too short
//! for a long block, and the calls that take no long block and refuse 8.

mod code_calls;
mod field_calls;
mod refusing_calls;

use crate::case_record::Case;
use crate::curve::Series;
use crate::generator::Generator;

const SEED: u64 = 8;

/// The curve number of long blocks.
const Q: u8 = 8;

/// Orders that long blocks have, and some that are too high for them.
const ORDERS: [u16; 16] = [
    0, 1, 7, 8, 37, 54, 55, 63, 64, 255, 256, 293, 511, 512, 513, 65_535,
];

pub fn long_curve_cases(series: Series) -> Vec<Case> {
    let mut builder = Builder {
        series,
        generator: Generator::with_seed(SEED),
        cases: Vec::new(),
    };
    builder.field_calls();
    builder.code_calls();
    builder.refusing_calls();
    builder.cases
}

struct Builder {
    series: Series,
    generator: Generator,
    cases: Vec<Case>,
}

impl Builder {
    /// A call at q = 8. The slice to be written holds arbitrary bytes before it, so
    /// that a refusal that writes is seen.
    fn call(&mut self, op: u8, m: u16, input: &[u8], length: usize) {
        let output = self.generator.bytes(length);
        self.cases.push(Case {
            op,
            q: Q,
            series: self.series.number(),
            m,
            input: input.to_vec(),
            output,
            ..Case::default()
        });
    }

    /// Symbols of the field of 64.
    fn symbols(&mut self, length: usize) -> Vec<u8> {
        (0..length)
            .map(|_| self.generator.byte_from(0, 63))
            .collect()
    }
}

#[cfg(test)]
mod tests {
    use super::*;
    use crate::case_record::{Runner, RECORD_LENGTH};
    use crate::job::Job;
    use crate::session::Session;
    use std::collections::{BTreeMap, BTreeSet};

    fn number(line: &str) -> u8 {
        let number = line.split(' ').nth(1).expect("a number");
        number.parse().expect("a number of 8 bits")
    }

    #[test]
    fn the_cases_are_reproducible_and_fit_their_records() {
        for series in Series::BOTH {
            let cases = long_curve_cases(series);
            assert_eq!(cases, long_curve_cases(series));
            assert!((2000..=2800).contains(&cases.len()), "{}", cases.len());
            for case in &cases {
                let record: [u8; RECORD_LENGTH] = case.to_record();
                assert_eq!(&Case::from_record(&record), case);
            }
        }
    }

    #[test]
    fn each_op_at_q_8_meets_just_these_answers() {
        Series::BOTH.into_iter().for_each(assert_answers);
    }

    fn assert_answers(series: Series) {
        let mut runner = Runner::default();
        let mut found: BTreeMap<char, BTreeSet<u8>> = BTreeMap::new();
        for case in long_curve_cases(series) {
            let stored = runner.session().q;
            let line = runner.run(&case);
            let q = if b"akJ".contains(&case.op) {
                stored
            } else {
                case.q
            };
            if q == Q {
                let answers = found.entry(char::from(case.op)).or_default();
                answers.insert(number(&line));
            }
        }
        let field = [('+', vec![0, 4]), ('*', vec![0, 4]), ('i', vec![0, 4, 13])];
        let code = [('e', vec![2, 3, 4, 5]), ('u', vec![2, 3])];
        let raw = [('s', vec![0]), ('y', vec![0])];
        let refusing = "rmptojJak".chars().map(|op| (op, vec![1]));
        let expected: BTreeMap<char, BTreeSet<u8>> = field
            .into_iter()
            .chain(code)
            .chain(raw)
            .chain(refusing)
            .map(|(op, numbers)| (op, BTreeSet::from_iter(numbers)))
            .collect();
        assert_eq!(found, expected);
    }

    /// Sessions stored with q = 8 stay as they are, and what refused openings hand
    /// back is that of q = 2, series 1, m = 0.
    #[test]
    fn refusals_keep_the_session_and_hand_back_the_refused_job() {
        let mut runner = Runner::default();
        let mut kept = 0;
        for case in Series::BOTH.into_iter().flat_map(long_curve_cases) {
            let before = *runner.session();
            runner.run(&case);
            match case.op {
                b'o' => assert_eq!(*runner.session(), Session::OF_REFUSED_OPENING),
                b'j' | b'J' => assert_eq!(*runner.job(), Job::OF_REFUSED_OPENING),
                b'a' if before.q == Q => {
                    assert_eq!(*runner.session(), before);
                    kept += 1;
                }
                _ => {}
            }
        }
        assert!(kept >= 200, "{kept}");
    }

    /// At the order 0 the message of one symbol is good, and only the word's slice,
    /// which has no room for 512 symbols, is refused.
    #[test]
    fn all_symbols_are_inverted_and_every_order_is_encoded_as_far_as_there_is_room() {
        let cases = long_curve_cases(Series::Two);
        let inverted = cases.iter().filter(|case| case.op == b'i');
        let symbols: BTreeSet<u8> = inverted.map(|case| case.a).collect();
        assert!((0..64).all(|symbol| symbols.contains(&symbol)));
        let mut runner = Runner::default();
        let met_5 = cases
            .iter()
            .filter(|case| number(&runner.run(case)) == 5 && case.op == b'e')
            .map(|case| case.m)
            .collect::<BTreeSet<u16>>();
        assert!([0, 8, 54, 55, 98, 99].iter().all(|m| met_5.contains(m)));
    }
}
