//! One case of a long block for a program that runs the entries which take one, as
//! a record of fixed size, and the line that such a program must print for it.
//!
//! A record is 1136 bytes:
//!
//! | offset | content |
//! |---|---|
//! | 0 | the op |
//! | 1 | q |
//! | 2, 3 | m, low byte first |
//! | 4, 5 | the length of the input, low byte first, 0 to 560 |
//! | 6, 7 | the length of the output slice, low byte first, 0 to 560 |
//! | 8 | the length of the work slice: 0 for the right one, 262,144 bytes, 1 for a byte less, 2 for a byte more, 3 for none |
//! | 9 | every byte of the work slice before the call |
//! | 10 | the series with its lowest bit flipped: 0 for series 1, 3 for series 2 |
//! | 11 to 15 | zeros |
//! | 16 to 575 | the input, then zeros |
//! | 576 to 1135 | the output slice before the call, then zeros |
//!
//! The ops are these letters:
//!
//! - `e`, `u`, `r`: encode, unencode and recover, from the input into the output
//!   slice. The line ends with the slice after the call, two hexadecimal digits a
//!   byte.
//! - `C`: the converter (request T-11), from the input, a word of the series, into the
//!   output slice. It takes no m, and the line ends as with `e`.
//! - `l`: recovery of a long block, from the input into the output slice. It takes
//!   no q. The line has the slice as with `e`, a space, and what became of the
//!   work slice: `open` after a success and refusals 9 and 10, which may change it,
//!   `kept` if it is as it was after another refusal, and `changed` if it isn't,
//!   which no call may lead to.
//! - `v`: the check (request T-13), of the input as a word. It takes no output slice, and
//!   the line ends with `yes` or `no`.
//!
//! A line starts with the op and the two numbers of the answer, and its parts are
//! parted by one space each.
//!
//! Until request T-11 the series was among the zeros: a record from before it reads as
//! it did.

use crate::code;
use crate::conversion;
use crate::dual;
use crate::outcome::Outcome;

pub const RECORD_LENGTH: usize = 1136;

/// The most bytes that the input or the output slice of a case can have.
pub const SLICE_ROOM: usize = 560;

const FLIPPED_SERIES: usize = 10;
const INPUT_OFFSET: usize = 16;
const OUTPUT_OFFSET: usize = INPUT_OFFSET + SLICE_ROOM;

/// The length of the work slice.
#[derive(Clone, Copy, Debug, Default, PartialEq, Eq, PartialOrd, Ord)]
pub enum WorkLength {
    #[default]
    Right,
    OneLess,
    OneMore,
    None,
}

impl WorkLength {
    pub const ALL: [WorkLength; 4] = [
        WorkLength::Right,
        WorkLength::OneLess,
        WorkLength::OneMore,
        WorkLength::None,
    ];

    pub fn bytes(self) -> usize {
        match self {
            WorkLength::Right => code::WORK_LENGTH,
            WorkLength::OneLess => code::WORK_LENGTH - 1,
            WorkLength::OneMore => code::WORK_LENGTH + 1,
            WorkLength::None => 0,
        }
    }

    /// Of a record: any number from 3 on means none.
    fn numbered(number: u8) -> WorkLength {
        let lengths = WorkLength::ALL;
        lengths[usize::from(number).min(lengths.len() - 1)]
    }
}

/// What a record says. Slices longer than `SLICE_ROOM` are cut.
#[derive(Clone, Debug, PartialEq, Eq)]
pub struct LongCase {
    pub op: u8,
    pub q: u8,
    pub series: u8,
    pub m: u16,
    pub input: Vec<u8>,
    pub output: Vec<u8>,
    pub work_length: WorkLength,
    pub work_byte: u8,
}

/// Of series 1, and 0 or empty everywhere else.
impl Default for LongCase {
    fn default() -> LongCase {
        LongCase {
            op: 0,
            q: 0,
            series: 1,
            m: 0,
            input: Vec::new(),
            output: Vec::new(),
            work_length: WorkLength::Right,
            work_byte: 0,
        }
    }
}

impl LongCase {
    pub fn to_record(&self) -> [u8; RECORD_LENGTH] {
        let input = &self.input[..self.input.len().min(SLICE_ROOM)];
        let output = &self.output[..self.output.len().min(SLICE_ROOM)];
        let mut record = [0; RECORD_LENGTH];
        record[..2].copy_from_slice(&[self.op, self.q]);
        record[2..4].copy_from_slice(&self.m.to_le_bytes());
        record[4..6].copy_from_slice(&(input.len() as u16).to_le_bytes());
        record[6..8].copy_from_slice(&(output.len() as u16).to_le_bytes());
        record[8..10].copy_from_slice(&[self.work_length as u8, self.work_byte]);
        record[FLIPPED_SERIES] = self.series ^ 1;
        record[INPUT_OFFSET..][..input.len()].copy_from_slice(input);
        record[OUTPUT_OFFSET..][..output.len()].copy_from_slice(output);
        record
    }

    pub fn from_record(record: &[u8; RECORD_LENGTH]) -> LongCase {
        let number = |at: usize| u16::from_le_bytes([record[at], record[at + 1]]);
        let length = |at: usize| usize::from(number(at)).min(SLICE_ROOM);
        LongCase {
            op: record[0],
            q: record[1],
            series: record[FLIPPED_SERIES] ^ 1,
            m: number(2),
            input: record[INPUT_OFFSET..][..length(4)].to_vec(),
            output: record[OUTPUT_OFFSET..][..length(6)].to_vec(),
            work_length: WorkLength::numbered(record[8]),
            work_byte: record[9],
        }
    }

    /// The line of the case, with its line feed.
    pub fn line(&self) -> String {
        let (outcome, rest) = match self.op {
            b'v' => self.check_answer(),
            _ => self.slice_answer(),
        };
        let Outcome { number, second } = outcome;
        format!("{} {number} {second} {rest}\n", char::from(self.op))
    }

    fn check_answer(&self) -> (Outcome, String) {
        let (outcome, is_codeword) = dual::check(self.q, self.series, self.m, &self.input);
        let verdict = if is_codeword { "yes" } else { "no" };
        (outcome, verdict.to_string())
    }

    fn slice_answer(&self) -> (Outcome, String) {
        let mut output = self.output.clone();
        let (outcome, end) = match self.op {
            b'l' => self.recover_long(&mut output),
            _ => (self.call_without_work(&mut output), ""),
        };
        let slice: String = output.iter().map(|byte| format!("{byte:02x}")).collect();
        (outcome, format!("{slice}{end}"))
    }

    fn call_without_work(&self, output: &mut [u8]) -> Outcome {
        let LongCase { q, series, m, .. } = *self;
        match self.op {
            b'e' => code::encode(q, series, m, &self.input, output),
            b'u' => code::unencode(q, series, m, &self.input, output),
            b'C' => conversion::convert(q, series, &self.input, output),
            _ => code::recover(q, series, m, &self.input, output),
        }
    }

    fn recover_long(&self, output: &mut [u8]) -> (Outcome, &'static str) {
        let mut work = vec![self.work_byte; self.work_length.bytes()];
        let outcome = code::recover_long(self.series, self.m, &self.input, output, &mut work);
        match outcome.number {
            0 | 9 | 10 => (outcome, " open"),
            _ => (outcome, " kept"),
        }
    }
}

#[cfg(test)]
mod tests {
    use super::*;

    #[test]
    fn the_layout_of_a_record() {
        let case = LongCase {
            op: b'l',
            q: 8,
            series: 1,
            m: 300,
            input: vec![6; 513],
            output: vec![7, 9],
            work_length: WorkLength::OneMore,
            work_byte: 33,
        };
        let mut expected = [0; 1136];
        expected[..10].copy_from_slice(&[108, 8, 44, 1, 1, 2, 2, 0, 2, 33]);
        expected[16..529].fill(6);
        expected[576..578].copy_from_slice(&[7, 9]);
        for (series, byte) in [(1, 0), (2, 3), (0, 1), (3, 2), (255, 254)] {
            let case = LongCase {
                series,
                ..case.clone()
            };
            expected[10] = byte;
            assert_eq!(case.to_record(), expected);
            assert_eq!(LongCase::from_record(&expected), case);
        }
    }

    #[test]
    fn full_slices_fill_the_record_and_longer_ones_are_cut() {
        let case = LongCase {
            input: vec![1; 561],
            output: vec![2; 700],
            ..LongCase::default()
        };
        let record = case.to_record();
        assert_eq!(record[16..576], [1; 560]);
        assert_eq!(record[576..], [2; 560]);
        let mut any = [255; 1136];
        any[0] = b'e';
        let read = LongCase::from_record(&any);
        assert_eq!((read.input.len(), read.output.len()), (560, 560));
        assert_eq!(read.work_length, WorkLength::None);
        assert_eq!(read.line(), format!("e 1 0 {}\n", "ff".repeat(560)));
    }

    /// Of the order 0, where a word is one symbol everywhere.
    #[test]
    fn lines_of_each_op_and_of_each_end() {
        let case = |op, input: &[u8], output: &[u8]| LongCase {
            op,
            q: 8,
            input: input.to_vec(),
            output: output.to_vec(),
            ..LongCase::default()
        };
        let word = [5; 512];
        let mut damaged = word;
        damaged[0] = 4;
        let written = format!("e 0 0 {}\n", "05".repeat(512));
        assert_eq!(case(b'e', &[5], &[9; 512]).line(), written);
        let lines = [
            (case(b'u', &word, &[9]), "u 0 0 05\n"),
            (case(b'u', &damaged, &[9]), "u 9 0 09\n"),
            (case(b'r', &word, &[9]), "r 1 0 09\n"),
            (case(b'l', &word, &[9]), "l 0 0 05 open\n"),
            (case(b'l', &damaged, &[9]), "l 9 0 09 open\n"),
            (case(b'l', &[255; 512], &[9]), "l 10 1 09 open\n"),
            (case(b'l', &word, &[9, 8]), "l 5 0 0908 kept\n"),
            (case(b'l', &word, &[]), "l 5 0  kept\n"),
        ];
        for (case, line) in lines {
            assert_eq!(case.line(), line);
        }
        for work_length in WorkLength::ALL.into_iter().skip(1) {
            let refused = LongCase {
                work_length,
                ..case(b'l', &damaged, &[9])
            };
            assert_eq!(refused.line(), "l 14 0 09 kept\n");
        }
    }

    /// A word that has one symbol everywhere is one of any order.
    #[test]
    fn lines_of_the_check() {
        let line = |q, series, m, word: &[u8]| {
            let case = LongCase {
                op: b'v',
                q,
                series,
                m,
                input: word.to_vec(),
                ..LongCase::default()
            };
            case.line()
        };
        let mut word = [5; 512];
        assert_eq!(line(8, 1, 55, &word), "v 0 0 yes\n");
        assert_eq!(line(8, 2, 511, &word), "v 0 0 yes\n");
        assert_eq!(line(8, 2, 54, &word), "v 19 0 no\n");
        assert_eq!(line(8, 1, 512, &word), "v 2 0 no\n");
        assert_eq!(line(8, 1, 55, &word[1..]), "v 3 0 no\n");
        assert_eq!(line(4, 1, 55, &word[..64]), "v 0 0 yes\n");
        assert_eq!(line(8, 0, 55, &word), "v 17 0 no\n");
        assert_eq!(line(16, 0, 55, &word), "v 1 0 no\n");
        word[511] = 4;
        assert_eq!(line(8, 2, 511, &word), "v 0 0 no\n");
        word[511] = 64;
        assert_eq!(line(8, 2, 511, &word), "v 4 511 no\n");
    }

    /// Column 3 of series 1 is that of z + 1 = z^6, number 7 of series 2.
    #[test]
    fn lines_of_the_series() {
        let of_column_3 = |series| LongCase {
            op: b'C',
            q: 8,
            series,
            input: (0..512).map(|place| u8::from(place / 8 == 3)).collect(),
            output: vec![9; 512],
            ..LongCase::default()
        };
        let with_column = |column: usize| {
            let [before, after] = [8 * column, 8 * (63 - column)].map(|n| "00".repeat(n));
            format!("C 0 0 {before}{}{after}\n", "01".repeat(8))
        };
        assert_eq!(of_column_3(1).line(), with_column(7));
        // Number 3 of series 2 is z^2 = 4.
        assert_eq!(of_column_3(2).line(), with_column(4));
        let recovery = |series, work_length| LongCase {
            op: b'l',
            series,
            input: vec![5; 512],
            output: vec![9],
            work_length,
            ..LongCase::default()
        };
        assert_eq!(recovery(2, WorkLength::Right).line(), "l 0 0 05 open\n");
        for series in [0, 3, 255] {
            let refused = LongCase {
                op: b'C',
                q: 8,
                series,
                output: vec![9],
                ..LongCase::default()
            };
            assert_eq!(refused.line(), "C 17 0 09\n");
            for work_length in WorkLength::ALL {
                assert_eq!(recovery(series, work_length).line(), "l 17 0 09 kept\n");
            }
        }
    }

    /// The number of the curve is no part of it.
    #[test]
    fn long_recovery_takes_no_curve_number() {
        for q in [0, 2, 4, 8, 255] {
            let case = LongCase {
                op: b'l',
                q,
                input: vec![63; 512],
                output: vec![0],
                ..LongCase::default()
            };
            assert_eq!(case.line(), "l 0 0 3f open\n");
        }
    }
}
