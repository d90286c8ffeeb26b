//! Cases of long blocks (request T-09): encode, unencode and recovery at q = 8 in both
//! series and the converter (request T-11); apart from them those of the check (request
//! T-13). Each with every answer that it can give.

mod refused;
mod series;

use crate::curve::{Curve, Series};
use crate::dual_sample::{checks, Check};
use crate::generator::Generator;
use crate::long_case_record::{LongCase, WorkLength, SLICE_ROOM};
use crate::sample::{self, Shape};

const SEED: u64 = 9;

/// The lowest orders, those about 2g - 1 = 55, from which k is m + 1 - g, some in
/// between, and the highest.
pub const ORDERS: [u16; 12] = [0, 1, 8, 9, 17, 54, 55, 56, 255, 300, 510, 511];

/// The orders at which words are checked: below 2g - 1 = 55, from it on, among them 283,
/// which is its own partner, and the highest.
const CHECKED_ORDERS: [u16; 15] = [
    0, 1, 54, 55, 56, 63, 100, 255, 256, 266, 283, 300, 400, 510, 511,
];

/// Of a program of their own.
pub fn long_check_cases() -> Vec<LongCase> {
    let curves = Curve::Q_IS_8.in_both_series().into_iter();
    let calls = curves.flat_map(|curve| checks(curve, &CHECKED_ORDERS, SLICE_ROOM));
    let cases = calls.map(|Check { q, series, m, word }| LongCase {
        op: b'v',
        q,
        series,
        m,
        input: word,
        ..LongCase::default()
    });
    cases.collect()
}

/// Those from before request T-11 come first: that they and their lines stay as they
/// were shows that series 1 gives what the calls gave before there were two. Then come
/// the same with series 2, and at last numbers that name no series and the converter.
pub fn long_cases() -> Vec<LongCase> {
    let mut cases = cases_of_series(Series::One);
    cases.extend(cases_of_series(Series::Two));
    cases.extend(series::series_cases());
    cases
}

fn cases_of_series(series: Series) -> Vec<LongCase> {
    let mut builder = Builder {
        series: series.number(),
        generator: Generator::with_seed(SEED),
        cases: Vec::new(),
    };
    for m in ORDERS {
        let shape = Shape::of(Curve::Q_IS_8.in_series(series), m);
        builder.encoded_messages(shape);
        builder.unencoded_words(shape);
        builder.broken_words(shape);
        builder.broken_words_with_a_wrong_symbol(shape);
        builder.whole_columns(shape);
        builder.refused_calls(shape);
    }
    builder.short_blocks(series);
    builder.cases
}

struct Builder {
    series: u8,
    generator: Generator,
    cases: Vec<LongCase>,
}

impl Builder {
    /// The slice to be written and the work slice hold arbitrary bytes before the
    /// call, so that a refusal that writes is seen.
    fn call(&mut self, op: u8, q: u8, m: u16, input: &[u8], length: usize) {
        let output = self.generator.bytes(length);
        let work_byte = self.generator.byte();
        self.cases.push(LongCase {
            op,
            q,
            series: self.series,
            m,
            input: input.to_vec(),
            output,
            work_length: WorkLength::Right,
            work_byte,
        });
    }

    /// A call with the slice that its order asks for.
    fn fitting(&mut self, op: u8, shape: Shape, input: &[u8]) {
        let length = if op == b'e' { shape.n } else { shape.k };
        self.call(op, shape.q(), shape.m, input, length);
    }

    /// Recovery with a work slice of another length.
    fn recover_with_work(&mut self, m: u16, word: &[u8], length: usize, work_length: WorkLength) {
        self.call(b'l', 8, m, word, length);
        if let Some(case) = self.cases.last_mut() {
            case.work_length = work_length;
        }
    }

    fn codeword(&mut self, shape: Shape) -> Vec<u8> {
        sample::codeword(&mut self.generator, shape)
    }

    fn broken_word(&mut self, shape: Shape, known: usize) -> Vec<u8> {
        let word = self.codeword(shape);
        sample::with_known(&mut self.generator, &word, known)
    }

    fn encoded_messages(&mut self, shape: Shape) {
        let mut first_only = vec![0; shape.k];
        first_only[0] = 1;
        let mut last_only = vec![0; shape.k];
        last_only[shape.k - 1] = 63;
        let arbitrary = sample::message(&mut self.generator, shape);
        for message in [arbitrary, vec![63; shape.k], first_only, last_only] {
            self.fitting(b'e', shape, &message);
        }
    }

    /// The last one is a codeword of the order above, if there is one.
    fn unencoded_words(&mut self, shape: Shape) {
        let word = self.codeword(shape);
        let damaged = sample::damaged(&mut self.generator, shape, &word);
        let arbitrary = sample::symbols(&mut self.generator, shape, shape.n);
        let above = Shape::of(shape.curve, (shape.m + 8).min(511));
        let of_higher_order = self.codeword(above);
        for word in [word, damaged, arbitrary, of_higher_order] {
            self.fitting(b'u', shape, &word);
        }
    }

    /// Nothing missing, few symbols, exactly m + 1 and m known, k and k - 1, one and
    /// none.
    fn broken_words(&mut self, shape: Shape) {
        let (n, k, m) = (shape.n, shape.k, usize::from(shape.m));
        let arbitrary = self.generator.below(n + 1);
        for known in [n, n - 1, n - 2, n - 10, m + 1, m, k, k - 1, 1, 0, arbitrary] {
            let broken = self.broken_word(shape, known);
            self.fitting(b'l', shape, &broken);
        }
    }

    /// One that contradicts the others wherever m + 1 of these are known.
    fn broken_words_with_a_wrong_symbol(&mut self, shape: Shape) {
        let (n, k, m) = (shape.n, shape.k, usize::from(shape.m));
        for known in [n, n - 1, n - 10, m + 2, m + 1, k, 2] {
            let broken = self.broken_word(shape, known.min(n));
            let damaged = sample::damaged(&mut self.generator, shape, &broken);
            self.fitting(b'l', shape, &damaged);
        }
        let word = self.codeword(shape);
        for place in [0, n - 1] {
            let mut damaged = word.clone();
            damaged[place] = sample::another_symbol(&mut self.generator, shape, word[place]);
            self.fitting(b'l', shape, &damaged);
        }
    }

    /// m / q of them are never enough, one more always is.
    fn whole_columns(&mut self, shape: Shape) {
        let columns = shape.columns_of_order();
        for known in [columns, columns + 1] {
            let word = self.codeword(shape);
            let broken = sample::with_known_columns(&mut self.generator, shape, &word, known);
            self.fitting(b'l', shape, &broken);
            let damaged = sample::damaged(&mut self.generator, shape, &broken);
            self.fitting(b'l', shape, &damaged);
        }
    }

    /// Which go through the same calls, and `r` takes only them.
    fn short_blocks(&mut self, series: Series) {
        let [small, large] = sample::short_curves(series);
        for (curve, m) in [(small, 3), (large, 37), (large, 63)] {
            let shape = Shape::of(curve, m);
            let message = sample::message(&mut self.generator, shape);
            let word = shape.word_of(&message);
            let sure = usize::from(m) + 1;
            let broken = sample::with_known(&mut self.generator, &word, sure);
            let few = sample::with_known(&mut self.generator, &word, 2);
            let damaged = sample::damaged(&mut self.generator, shape, &word);
            self.fitting(b'e', shape, &message);
            self.fitting(b'u', shape, &word);
            for broken in [word, broken, few, damaged] {
                self.fitting(b'r', shape, &broken);
            }
        }
    }
}

#[cfg(test)]
mod tests {
    use super::*;
    use crate::checksum::checksum;
    use crate::code::MISSING;
    use crate::long_case_record::RECORD_LENGTH;
    use std::collections::BTreeSet;

    #[test]
    fn the_cases_are_reproducible_and_fit_their_records() {
        let cases = long_cases();
        assert_eq!(cases, long_cases());
        assert!((2600..=2800).contains(&cases.len()), "{}", cases.len());
        let check_cases = long_check_cases();
        assert_eq!(check_cases, long_check_cases());
        assert!(
            (300..=400).contains(&check_cases.len()),
            "{}",
            check_cases.len()
        );
        for case in cases.iter().chain(&check_cases) {
            let record: [u8; RECORD_LENGTH] = case.to_record();
            assert_eq!(&LongCase::from_record(&record), case);
        }
    }

    /// The cases from before request T-11 and their lines, by number and checksum.
    #[test]
    fn the_cases_before_the_second_series_come_first_and_are_unchanged() {
        let before = cases_of_series(Series::One);
        assert_eq!(before.len(), 1_234);
        assert_eq!(long_cases()[..1_234], before);
        let records: Vec<u8> = before.iter().flat_map(LongCase::to_record).collect();
        assert_eq!(checksum(&records), 0x39A5_36EC_DCC4_EADE);
        let lines: String = before.iter().map(LongCase::line).collect();
        assert_eq!(checksum(lines.as_bytes()), 0xEA7D_B704_1CEE_6625);
    }

    /// The cases of request T-11 and before and their lines, by number and checksum.
    #[test]
    fn the_cases_with_the_converter_are_unchanged() {
        let cases = long_cases();
        assert_eq!(cases.len(), 2_730);
        let records: Vec<u8> = cases.iter().flat_map(LongCase::to_record).collect();
        assert_eq!(checksum(&records), 0x4531_22F2_8D43_093C);
        let lines: String = cases.iter().map(LongCase::line).collect();
        assert_eq!(checksum(lines.as_bytes()), 0xC190_7549_2359_8D16);
    }

    /// Words are checked at all their orders in both series, and a yes is what unencoding
    /// accepts.
    #[test]
    fn a_yes_of_the_check_is_what_unencoding_accepts() {
        let mut found = BTreeSet::new();
        for case in long_check_cases() {
            let line = case.line();
            if op_and_number(&line) == ('v', 0) {
                let unencoding = LongCase {
                    op: b'u',
                    output: vec![0; Curve::Q_IS_8.terms(case.m).len()],
                    ..case.clone()
                };
                let is_codeword = op_and_number(&unencoding.line()) == ('u', 0);
                assert_eq!(
                    line,
                    if is_codeword {
                        "v 0 0 yes\n"
                    } else {
                        "v 0 0 no\n"
                    }
                );
                found.insert((case.series, case.m, is_codeword));
            }
        }
        let checked = CHECKED_ORDERS.iter().filter(|&&m| m >= 55).count();
        assert_eq!(found.len(), 2 * checked * 2);
    }

    /// Each op gets every answer that it can give and no other, and at every order of
    /// the list a message is encoded, unencoded and recovered in both series, refused
    /// with 9 and, by recovery, with 10 and 14.
    #[test]
    fn every_answer_of_every_op_occurs() {
        let mut answers: BTreeSet<(char, u8)> = BTreeSet::new();
        let mut at_order: BTreeSet<(char, u8, (u8, u16))> = BTreeSet::new();
        for case in long_cases().into_iter().chain(long_check_cases()) {
            let (op, number) = op_and_number(&case.line());
            answers.insert((op, number));
            if case.q == 8 {
                at_order.insert((op, number, (case.series, case.m)));
            }
        }
        let possible = [
            ('e', vec![0, 1, 2, 3, 4, 5, 17]),
            ('u', vec![0, 1, 2, 3, 4, 5, 9, 17]),
            ('r', vec![0, 1, 2, 3, 4, 5, 9, 10, 17]),
            ('l', vec![0, 2, 3, 4, 5, 9, 10, 14, 17]),
            ('C', vec![0, 1, 3, 4, 5, 17]),
            ('v', vec![0, 1, 2, 3, 4, 17, 19]),
        ];
        let possible = possible.into_iter();
        let possible = possible.flat_map(|(op, numbers)| numbers.into_iter().map(move |n| (op, n)));
        assert_eq!(answers, possible.collect());
        for order in orders_in_both_series() {
            let expected = ['e', 'u', 'l'].map(|op| (op, 0)).into_iter();
            let refused = [('u', 9), ('l', 9), ('l', 10), ('l', 14), ('r', 1)];
            for (op, number) in expected.chain(refused) {
                assert!(
                    at_order.contains(&(op, number, order)),
                    "{op} {number} {order:?}"
                );
            }
        }
    }

    /// The number of the series and the order.
    fn orders_in_both_series() -> impl Iterator<Item = (u8, u16)> {
        let series = Series::BOTH.into_iter().map(Series::number);
        series.flat_map(|series| ORDERS.map(|m| (series, m)))
    }

    pub(super) fn op_and_number(line: &str) -> (char, u8) {
        let mut parts = line.split(' ');
        let op = parts.next().and_then(|op| op.chars().next());
        let number = parts.next().and_then(|number| number.parse().ok());
        (op.expect("an op"), number.expect("a number"))
    }

    /// Words with more than n - m - 1 missing have a message too if k symbols happen
    /// to settle it, and leave several otherwise.
    #[test]
    fn recovery_meets_every_number_of_missing_symbols_that_matters() {
        let cases = long_cases();
        for (series, m) in orders_in_both_series() {
            let recoveries = cases
                .iter()
                .filter(|case| (case.op, case.series, case.m) == (b'l', series, m));
            let missing: BTreeSet<usize> = recoveries
                .map(|case| case.input.iter().filter(|&&s| s == MISSING).count())
                .collect();
            let sure = 511 - usize::from(m);
            for count in [0, 1, 2, 10, sure, sure + 1, 511, 512] {
                assert!(missing.contains(&count), "{m} {count}");
            }
        }
    }

    #[test]
    fn refusal_14_comes_with_every_other_length_and_every_kind_of_word() {
        let mut found = BTreeSet::new();
        let other_length = |case: &LongCase| case.work_length != WorkLength::Right;
        for case in long_cases().into_iter().filter(other_length) {
            if op_and_number(&case.line()) == ('l', 14) {
                let right = LongCase {
                    work_length: WorkLength::Right,
                    ..case.clone()
                };
                let (_, with_right_length) = op_and_number(&right.line());
                found.insert((case.work_length, with_right_length));
            }
        }
        for work_length in WorkLength::ALL.into_iter().skip(1) {
            for number in [0, 9, 10] {
                assert!(found.contains(&(work_length, number)));
            }
        }
    }
}
