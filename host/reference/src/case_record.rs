//! One case for a program that runs the public entries, as a record of fixed
//! size, and the line that such a program must print for it.
//!
//! A record is 160 bytes:
//!
//! | offset | content |
//! |---|---|
//! | 0 | the op |
//! | 1 | q |
//! | 2 | the low byte of m |
//! | 3 | the length of the input, 0 to 72; of `y` the low byte of the next place |
//! | 4 | the length of the output slice, 0 to 72; of `E` the number of symbols, of `X`, `U` and `R` that of the columns |
//! | 5 | the first operand, the low byte of an arrival's place, the length of the mended word's slice, the length of the slice that `E`, `X`, `U` and `R` write, the budget of a job's call, or the first budget of `t` |
//! | 6 | the second operand, the symbol of an arrival, the length of the marks' slice, the index of the place of `E` that has a high byte, or the second budget of `t`; of `y` its flags: 1 if a contradiction was met, 2 if the equations were complete |
//! | 7 | the round of an arrival, the byte that fills the slice that `E`, `X`, `U` and `R` write, or the third budget of `t`; of `y` the kind of work bytes |
//! | 8 to 79 | the input, of `y` 64 bytes, of `E` the low bytes of the places, then zeros |
//! | 80 to 151 | the output slice before the call, of `m` the longest one, of `E` the symbols, of `X`, `U` and `R` the columns, then zeros; of `y` any 72 bytes, which start with that slice |
//! | 152 | the high byte of m |
//! | 153 | the high byte of an arrival's place, of the next place of `y` or of one place of `E` |
//! | 154 | the series with its lowest bit flipped: 0 for series 1, 3 for series 2 |
//! | 155 to 159 | zeros |
//!
//! The ops are these letters. Those that take m take the series too, but for `X`, `U` and
//! `R`, and so does `C`.
//!
//! - `e`, `u`, `r`: encode, unencode and recover, from the input into the
//!   output slice. The line ends with the slice after the call, two
//!   hexadecimal digits a byte.
//! - `C`: the converter (request T-11), from the input, a word of the series, into
//!   the output slice. The line ends as with `e`.
//! - `+`, `*`, `i`: sum, product and inverse of the operands. The line ends
//!   with the symbol.
//! - `o`: opening with q and m; what it hands back becomes the current
//!   session. Before the first one it is that of a refused opening.
//! - `s`: the current session becomes q, m, the first 64 input bytes as its
//!   places and the first 64 bytes of the output slice as their rounds.
//! - `a`: an arrival at the current session; what it hands back becomes the
//!   current session. The lines of `o`, `s` and `a` end with the current
//!   session's q, after it a slash and the series unless that is 1, its m, its
//!   places and its rounds, two hexadecimal digits each.
//! - `k`: the current session is asked with the output slice, and the line
//!   ends as with `e`.
//! - `m`: mend, from the input into three slices. Each begins as a copy of the
//!   first bytes from offset 80: the message's slice, which is the output slice,
//!   the mended word's and the marks'. A length over 72 is taken as 72, as those
//!   of input and output are. The line ends with the count of changes in decimal
//!   and the three slices after the call, each as with `e`.
//! - `j`: opening of a job from q, m and the input as a broken word; what it
//!   hands back becomes the current job. Before the first one it is that of a
//!   refused opening.
//! - `J`: opening of a job from the current session; what it hands back becomes
//!   the current job. The lines of `j` and `J` end with the current job's q, series
//!   and m as with `o` and its 64 places, those from n on 255, two hexadecimal digits
//!   each.
//! - `c`: the current job is carried on with the budget and the output slice, and
//!   what the call hands back becomes the current job. The two numbers are 5 and
//!   0 for a refused call, 9 and 0 or 10 and r, which may be 0, while still
//!   working, and those of the result for a finished job. The line ends with the
//!   number of symbols brought in, in decimal, with `refused`, `working` or
//!   `finished`, and with the slice after the call as with `e`.
//! - `y`: a job that no opening gave is carried on four times with the budget and
//!   the output slice. It has q, m, the input as its places, the next place,
//!   its flags, the bytes at offset 80 on as the message found and as its word, and
//!   work bytes: all 0 for kind 0, only the diagonal set from the bytes at offset
//!   80 on for kind 1, and every byte set from those in turn for kind 2. Current
//!   session and job stay as they are. The results of such calls are left open,
//!   but the slice is written only with a message; the line ends with `kept` if
//!   that is so.
//! - `p`: a session of its own is opened with q and m, gets the arrivals that the
//!   input lists, four bytes each, and is asked with the output slice (module
//!   `replay`). Current session and job stay as they are, and the line ends as
//!   with `e`.
//! - `t`: recovery in turns, from q, m and the input as a broken word into the
//!   output slice: a job of its own is carried on with each of the three budgets
//!   and then until it is finished. That gives what recovery gives. Current
//!   session and job stay as they are, and the line ends as with `e`.
//! - `E`: encoding with symbols at chosen places (request T-10), from q, m, the
//!   places and the symbols into the word's slice. Each place is a byte of the input,
//!   and the one with the index at offset 6, if there is one, has a high byte too: one
//!   place at most is above 255. The word's slice holds the same byte everywhere
//!   before the call, and a length over 72 is taken as 72. Current session and job
//!   stay as they are, and the line ends as with `e`.
//! - `X`, `U`, `R`: encode, unencode and recover on chosen columns (request T-12), from
//!   q, the columns, m and the input into a slice that holds the same byte everywhere
//!   before the call; a length over 72 is taken as 72. Current session and job stay as
//!   they are, and the line ends as with `e`.
//! - `v`: the check (request T-13), from q, m and the input as a word. Current session and
//!   job stay as they are, and the line ends with `yes` or `no`.
//!
//! Until request T-08 orders and places had 8 bits, and the two high bytes were
//! among the zeros, as the series was until request T-11: a record from before them
//! reads as it did, and its line is as it was.
//!
//! A line starts with the op and the two numbers of the answer (0 and 0 for `s`
//! and `y`), and its parts are parted by one space each.

use crate::arithmetic;
use crate::chosen_columns;
use crate::code;
use crate::conversion;
use crate::dual;
use crate::job::{Job, Reply};
use crate::mend;
use crate::outcome::Outcome;
use crate::replay;
use crate::session::{Session, PLACE_COUNT};
use crate::systematic;

pub const RECORD_LENGTH: usize = 160;

/// The most bytes that the input or the output slice of a case can have.
pub const SLICE_ROOM: usize = 72;

const INPUT_OFFSET: usize = 8;
const OUTPUT_OFFSET: usize = INPUT_OFFSET + SLICE_ROOM;
const HIGH_BYTE_OF_ORDER: usize = OUTPUT_OFFSET + SLICE_ROOM;
const HIGH_BYTE_OF_PLACE: usize = HIGH_BYTE_OF_ORDER + 1;
const FLIPPED_SERIES: usize = HIGH_BYTE_OF_PLACE + 1;

/// What a record says. Slices longer than `SLICE_ROOM` are cut.
#[derive(Clone, Debug, PartialEq, Eq)]
pub struct Case {
    pub op: u8,
    pub q: u8,
    /// 1 where the op takes none.
    pub series: u8,
    pub m: u16,
    /// Of `a` and `y` only: the place of the arrival, the next place.
    pub place: u16,
    /// Of `E` only: the high byte of the place with the index `b`.
    pub high_byte: u8,
    /// Not of `a`, whose record has the place there.
    pub a: u8,
    pub b: u8,
    pub round: u8,
    pub input: Vec<u8>,
    pub output: Vec<u8>,
    /// The bytes after the output slice that a longer slice of `m` begins with,
    /// or those that `y` has there.
    pub beyond: Vec<u8>,
}

/// Of series 1, and 0 or empty everywhere else.
impl Default for Case {
    fn default() -> Case {
        Case {
            op: 0,
            q: 0,
            series: 1,
            m: 0,
            place: 0,
            high_byte: 0,
            a: 0,
            b: 0,
            round: 0,
            input: Vec::new(),
            output: Vec::new(),
            beyond: Vec::new(),
        }
    }
}

impl Case {
    /// A case of `o`.
    pub fn of_opening(q: u8, series: u8, m: u16) -> Case {
        Case {
            op: b'o',
            q,
            series,
            m,
            ..Case::default()
        }
    }

    /// A case of `s`.
    pub fn of_raw_session(session: &Session) -> Case {
        Case {
            op: b's',
            q: session.q,
            series: session.series,
            m: session.m,
            input: session.places.to_vec(),
            output: session.rounds.to_vec(),
            ..Case::default()
        }
    }

    /// A case of `a`.
    pub fn of_arrival(place: u16, symbol: u8, round: u8) -> Case {
        Case {
            op: b'a',
            place,
            b: symbol,
            round,
            ..Case::default()
        }
    }

    /// A case of `m`. The slices for message, mended word and marks have these
    /// lengths, and their bytes before the call count up from 128, so that none
    /// of them is a symbol or a mark.
    pub fn of_mending(q: u8, series: u8, m: u16, word: &[u8], lengths: [usize; 3]) -> Case {
        let [message, mended, marks] = lengths.map(|length| length.min(SLICE_ROOM));
        let longest = message.max(mended).max(marks);
        let area: Vec<u8> = (128..).take(longest).collect();
        let case = Case {
            op: b'm',
            q,
            series,
            m,
            a: mended as u8,
            b: marks as u8,
            input: word.to_vec(),
            ..Case::default()
        };
        case.with_area(&area, message)
    }

    /// A case of `E`. At most one of the places may be above 255. The word's slice
    /// has this length and holds `fill` everywhere.
    pub fn of_encoding_at(
        q: u8,
        series: u8,
        m: u16,
        places: &[u16],
        symbols: &[u8],
        length: usize,
        fill: u8,
    ) -> Case {
        let bytes = places.iter().map(|place| place.to_le_bytes());
        let (low_bytes, high_bytes): (Vec<u8>, Vec<u8>) =
            bytes.map(|[low, high]| (low, high)).unzip();
        let index = high_bytes.iter().position(|&high| high > 0).unwrap_or(0);
        Case {
            op: b'E',
            q,
            series,
            m,
            high_byte: high_bytes.get(index).copied().unwrap_or(0),
            a: length.min(SLICE_ROOM) as u8,
            b: index as u8,
            round: fill,
            input: low_bytes,
            output: symbols.to_vec(),
            ..Case::default()
        }
    }

    /// A case of `X`, `U` or `R`. The slice to be written has this length and holds
    /// `fill` everywhere.
    pub fn of_columns(
        op: u8,
        q: u8,
        columns: &[u8],
        m: u16,
        input: &[u8],
        length: usize,
        fill: u8,
    ) -> Case {
        Case {
            op,
            q,
            m,
            a: length.min(SLICE_ROOM) as u8,
            round: fill,
            input: input.to_vec(),
            output: columns.to_vec(),
            ..Case::default()
        }
    }

    /// The places of a case of `E`.
    pub fn places(&self) -> Vec<u16> {
        let high_byte = |index: usize| match index == usize::from(self.b) {
            true => self.high_byte,
            false => 0,
        };
        let low_bytes = self.input.iter().enumerate();
        low_bytes
            .map(|(index, &low)| u16::from_le_bytes([low, high_byte(index)]))
            .collect()
    }

    /// The output slice is the first `output_length` bytes of the area, or all
    /// of it if it has fewer.
    pub fn with_area(self, area: &[u8], output_length: usize) -> Case {
        let (output, beyond) = area.split_at(output_length.min(area.len()));
        Case {
            output: output.to_vec(),
            beyond: beyond.to_vec(),
            ..self
        }
    }

    pub fn to_record(&self) -> [u8; RECORD_LENGTH] {
        let input = &self.input[..self.input.len().min(SLICE_ROOM)];
        let output_length = self.output.len().min(SLICE_ROOM);
        let area = self.first_of_area(SLICE_ROOM);
        let [order, order_high] = self.m.to_le_bytes();
        let [place, place_high] = self.place.to_le_bytes();
        let (byte_3, byte_5) = match self.op {
            b'a' => (input.len() as u8, place),
            b'y' => (place, self.a),
            _ => (input.len() as u8, self.a),
        };
        let byte_153 = match self.op {
            b'E' => self.high_byte,
            _ => place_high,
        };
        let mut record = [0; RECORD_LENGTH];
        record[..3].copy_from_slice(&[self.op, self.q, order]);
        record[3..5].copy_from_slice(&[byte_3, output_length as u8]);
        record[5..8].copy_from_slice(&[byte_5, self.b, self.round]);
        record[HIGH_BYTE_OF_ORDER] = order_high;
        record[HIGH_BYTE_OF_PLACE] = byte_153;
        record[FLIPPED_SERIES] = self.series ^ 1;
        record[INPUT_OFFSET..][..input.len()].copy_from_slice(input);
        record[OUTPUT_OFFSET..][..SLICE_ROOM].copy_from_slice(&area);
        record
    }

    /// The output slice and what is beyond it, then zeros, cut to the length.
    fn first_of_area(&self, length: usize) -> Vec<u8> {
        let mut area = [self.output.as_slice(), &self.beyond].concat();
        area.resize(length.min(SLICE_ROOM), 0);
        area
    }

    pub fn from_record(record: &[u8; RECORD_LENGTH]) -> Case {
        let place = |low: u8| u16::from_le_bytes([low, record[HIGH_BYTE_OF_PLACE]]);
        let (input_length, place, a) = match record[0] {
            b'a' => (slice_length(record[3]), place(record[5]), 0),
            b'y' => (PLACE_COUNT, place(record[3]), record[5]),
            _ => (slice_length(record[3]), 0, record[5]),
        };
        let high_byte = match record[0] {
            b'E' => record[HIGH_BYTE_OF_PLACE],
            _ => 0,
        };
        let output_length = slice_length(record[4]);
        let area_length = match record[0] {
            b'm' => slice_length(record[4].max(record[5]).max(record[6])),
            b'y' => SLICE_ROOM,
            _ => output_length,
        };
        let case = Case {
            op: record[0],
            q: record[1],
            series: record[FLIPPED_SERIES] ^ 1,
            m: u16::from_le_bytes([record[2], record[HIGH_BYTE_OF_ORDER]]),
            place,
            high_byte,
            a,
            b: record[6],
            round: record[7],
            input: record[INPUT_OFFSET..][..input_length].to_vec(),
            ..Case::default()
        };
        case.with_area(&record[OUTPUT_OFFSET..][..area_length], output_length)
    }
}

fn slice_length(byte: u8) -> usize {
    usize::from(byte).min(SLICE_ROOM)
}

/// Runs cases one after another and keeps the current session and the current
/// job between them.
pub struct Runner {
    session: Session,
    job: Job,
}

impl Default for Runner {
    fn default() -> Runner {
        Runner {
            session: Session::OF_REFUSED_OPENING,
            job: Job::OF_REFUSED_OPENING,
        }
    }
}

impl Runner {
    pub fn session(&self) -> &Session {
        &self.session
    }

    pub fn job(&self) -> &Job {
        &self.job
    }

    /// The line of a case, with its line feed.
    pub fn run(&mut self, case: &Case) -> String {
        let (outcome, rest) = match case.op {
            b'+' | b'*' | b'i' => field_answer(case),
            b'o' | b's' | b'a' => self.session_answer(case),
            b'm' => mend_answer(case),
            b'E' => encode_at_answer(case),
            b'X' | b'U' | b'R' => chosen_columns_answer(case),
            b'v' => check_answer(case),
            b'j' | b'J' => self.job_opening_answer(case),
            b'c' => self.job_call_answer(case),
            b'y' => (Outcome::ACCEPTED, "kept".to_string()),
            _ => self.slice_answer(case),
        };
        let Outcome { number, second } = outcome;
        format!("{} {number} {second} {rest}\n", char::from(case.op))
    }

    fn slice_answer(&self, case: &Case) -> (Outcome, String) {
        let Case { q, series, m, .. } = *case;
        let mut output = case.output.clone();
        let outcome = match case.op {
            b'e' => code::encode(q, series, m, &case.input, &mut output),
            b'u' => code::unencode(q, series, m, &case.input, &mut output),
            b'r' | b't' => code::recover(q, series, m, &case.input, &mut output),
            b'C' => conversion::convert(q, series, &case.input, &mut output),
            b'p' => replay::replay(q, series, m, &case.input, &mut output),
            _ => self.session.ask(&mut output),
        };
        (outcome, hexadecimal(&output))
    }

    fn session_answer(&mut self, case: &Case) -> (Outcome, String) {
        let (session, outcome) = match case.op {
            b'o' => Session::open(case.q, case.series, case.m),
            b's' => (raw_session(case), Outcome::ACCEPTED),
            _ => self.session.arrive(case.place, case.b, case.round),
        };
        self.session = session;
        let Session { q, series, m, .. } = session;
        let numbers = numbers_text(q, series, m);
        let places = hexadecimal(&session.places);
        let rounds = hexadecimal(&session.rounds);
        (outcome, format!("{numbers} {places} {rounds}"))
    }

    fn job_opening_answer(&mut self, case: &Case) -> (Outcome, String) {
        let (job, outcome) = match case.op {
            b'j' => Job::open(case.q, case.series, case.m, &case.input),
            _ => self.session.job(),
        };
        self.job = job;
        let numbers = numbers_text(job.q(), job.series(), job.m());
        let places = hexadecimal(job.places());
        (outcome, format!("{numbers} {places}"))
    }

    fn job_call_answer(&mut self, case: &Case) -> (Outcome, String) {
        let mut message = case.output.clone();
        let (job, brought, reply) = self.job.carry_on(case.a, &mut message);
        self.job = job;
        let kind = match reply {
            Reply::Refused => "refused",
            Reply::NoneFits | Reply::Leaves(_) => "working",
            Reply::Finished(_) => "finished",
        };
        let message = hexadecimal(&message);
        (reply.outcome(), format!("{brought} {kind} {message}"))
    }
}

fn field_answer(case: &Case) -> (Outcome, String) {
    let (outcome, symbol) = match case.op {
        b'+' => arithmetic::add(case.q, case.a, case.b),
        b'*' => arithmetic::multiply(case.q, case.a, case.b),
        _ => arithmetic::invert(case.q, case.a),
    };
    (outcome, symbol.to_string())
}

fn mend_answer(case: &Case) -> (Outcome, String) {
    let mut message = case.output.clone();
    let mut mended = case.first_of_area(usize::from(case.a));
    let mut marks = case.first_of_area(usize::from(case.b));
    let (outcome, count) = mend::mend(
        case.q,
        case.series,
        case.m,
        &case.input,
        &mut message,
        &mut mended,
        &mut marks,
    );
    let [message, mended, marks] = [message, mended, marks].map(|slice| hexadecimal(&slice));
    (outcome, format!("{count} {message} {mended} {marks}"))
}

fn encode_at_answer(case: &Case) -> (Outcome, String) {
    let Case { q, series, m, .. } = *case;
    let mut word = vec![case.round; slice_length(case.a)];
    let outcome = systematic::encode_at(q, series, m, &case.places(), &case.output, &mut word);
    (outcome, hexadecimal(&word))
}

fn chosen_columns_answer(case: &Case) -> (Outcome, String) {
    let (columns, input) = (&case.output, &case.input);
    let mut output = vec![case.round; slice_length(case.a)];
    let call = match case.op {
        b'X' => chosen_columns::encode_on,
        b'U' => chosen_columns::unencode_on,
        _ => chosen_columns::recover_on,
    };
    let outcome = call(case.q, columns, case.m, input, &mut output);
    (outcome, hexadecimal(&output))
}

fn check_answer(case: &Case) -> (Outcome, String) {
    let (outcome, is_codeword) = dual::check(case.q, case.series, case.m, &case.input);
    let verdict = if is_codeword { "yes" } else { "no" };
    (outcome, verdict.to_string())
}

fn raw_session(case: &Case) -> Session {
    Session {
        q: case.q,
        series: case.series,
        m: case.m,
        places: one_byte_a_place(&case.input),
        rounds: one_byte_a_place(&case.output),
    }
}

/// Places that the slice doesn't reach get 0, as the record's bytes are there.
fn one_byte_a_place(slice: &[u8]) -> [u8; PLACE_COUNT] {
    let mut bytes = [0; PLACE_COUNT];
    for (byte, &value) in bytes.iter_mut().zip(slice) {
        *byte = value;
    }
    bytes
}

/// Those of a session or job.
fn numbers_text(q: u8, series: u8, m: u16) -> String {
    match series {
        1 => format!("{q} {m}"),
        _ => format!("{q}/{series} {m}"),
    }
}

fn hexadecimal(bytes: &[u8]) -> String {
    bytes.iter().map(|byte| format!("{byte:02x}")).collect()
}

#[cfg(test)]
mod tests {
    use super::*;

    fn lines(cases: &[Case]) -> Vec<String> {
        let mut runner = Runner::default();
        cases.iter().map(|case| runner.run(case)).collect()
    }

    fn session_case(op: u8, a: u8, b: u8, output: &[u8]) -> Case {
        Case {
            op,
            a,
            b,
            output: output.to_vec(),
            ..Case::default()
        }
    }

    #[test]
    fn the_layout_of_a_record() {
        let case = Case {
            op: b'e',
            q: 2,
            m: 3,
            a: 4,
            b: 5,
            round: 11,
            input: vec![6, 7],
            output: vec![8, 9, 10],
            ..Case::default()
        };
        let mut expected = [0; 160];
        expected[..10].copy_from_slice(&[101, 2, 3, 2, 3, 4, 5, 11, 6, 7]);
        expected[80..83].copy_from_slice(&[8, 9, 10]);
        assert_eq!(case.to_record(), expected);
        assert_eq!(Case::from_record(&expected), case);
    }

    #[test]
    fn full_slices_leave_the_end_zero() {
        let case = Case {
            input: vec![1; 72],
            output: vec![2; 72],
            ..Case::default()
        };
        let record = case.to_record();
        assert_eq!(record[8..80], [1; 72]);
        assert_eq!(record[80..152], [2; 72]);
        assert_eq!(record[152..], [0; 8]);
        assert_eq!(Case::from_record(&record), case);
    }

    #[test]
    fn the_layout_of_a_record_of_the_mender() {
        let case = Case::of_mending(2, 1, 3, &[6, 7], [2, 0, 4]);
        assert_eq!((case.output.len(), case.beyond.len()), (2, 2));
        let mut expected = [0; 160];
        expected[..10].copy_from_slice(&[109, 2, 3, 2, 2, 0, 4, 0, 6, 7]);
        expected[80..84].copy_from_slice(&[128, 129, 130, 131]);
        assert_eq!(case.to_record(), expected);
        assert_eq!(Case::from_record(&expected), case);
        // The operands of other ops are no lengths.
        expected[0] = b'e';
        assert_eq!(Case::from_record(&expected).beyond, []);
    }

    #[test]
    fn the_slices_of_the_mender_are_cut_to_72() {
        let mut record = [7; 160];
        record[..8].copy_from_slice(&[b'm', 0, 0, 0, 73, 255, 72, 0]);
        let slice = "07".repeat(72);
        let line = format!("m 1 0 0 {slice} {slice} {slice}\n");
        assert_eq!(lines(&[Case::from_record(&record)]), [line]);
        record[4] = 1;
        let line = format!("m 1 0 0 07 {slice} {slice}\n");
        assert_eq!(lines(&[Case::from_record(&record)]), [line]);
    }

    #[test]
    fn the_layout_of_a_record_of_a_job_that_no_opening_gave() {
        let places = [
            (0, 0, 0),
            (64, 64, 0),
            (73, 73, 0),
            (255, 255, 0),
            (264, 8, 1),
            (65_535, 255, 255),
        ];
        for (next_place, low, high) in places {
            let case = Case {
                op: b'y',
                q: 2,
                m: 3,
                place: next_place,
                a: 9,
                b: 1,
                round: 2,
                input: vec![5; 64],
                ..Case::default()
            };
            let case = case.with_area(&[6; 72], 3);
            let mut expected = [0; 160];
            expected[..8].copy_from_slice(&[121, 2, 3, low, 3, 9, 1, 2]);
            expected[8..72].fill(5);
            expected[80..152].fill(6);
            expected[153] = high;
            assert_eq!(case.to_record(), expected);
            assert_eq!(Case::from_record(&expected), case);
            // The slice is cut to 72, the input is always 64 bytes.
            expected[4] = 255;
            assert_eq!(Case::from_record(&expected), case.with_area(&[6; 72], 72));
        }
    }

    #[test]
    fn the_high_byte_of_an_order_is_at_offset_152() {
        for op in *b"eurmosjJptyEXURv" {
            let mut record = [0; 160];
            record[..3].copy_from_slice(&[op, 4, 37]);
            for (high, m) in [(0, 37), (1, 293), (255, 65_317)] {
                record[152] = high;
                let case = Case::from_record(&record);
                assert_eq!(case.m, m);
                assert_eq!(case.to_record(), record);
            }
        }
    }

    #[test]
    fn the_flipped_series_is_at_offset_154() {
        for op in *b"eurmosjptyECv" {
            let mut record = [0; 160];
            record[..2].copy_from_slice(&[op, 4]);
            for (byte, series) in [(0, 1), (3, 2), (1, 0), (2, 3), (254, 255)] {
                record[154] = byte;
                let case = Case::from_record(&record);
                assert_eq!(case.series, series);
                assert_eq!(case.to_record(), record);
            }
        }
    }

    #[test]
    fn the_high_byte_of_a_place_is_at_offset_153() {
        let mut record = [0; 160];
        record[..8].copy_from_slice(&[b'a', 0, 0, 0, 0, 7, 2, 3]);
        for (high, place) in [(0, 7), (1, 263), (255, 65_287)] {
            record[153] = high;
            let case = Case::of_arrival(place, 2, 3);
            assert_eq!(Case::from_record(&record), case);
            assert_eq!(case.to_record(), record);
        }
        // An op without a place has its first operand at offset 5.
        record[0] = b'+';
        let case = Case::from_record(&record);
        assert_eq!((case.place, case.a), (0, 7));
    }

    #[test]
    fn any_record_is_read_and_run() {
        for op in [255, b'm', b'j', b'J', b'c', b'a', b'p', b't'] {
            let case = Case::from_record(&[op; 160]);
            assert_eq!((case.input.len(), case.output.len()), (72, 72));
            assert_eq!(lines(&[case]).len(), 1);
        }
        let case = Case::from_record(&[b'y'; 160]);
        assert_eq!((case.input.len(), case.output.len()), (64, 72));
        assert_eq!(lines(&[case]), ["y 0 0 kept\n"]);
        let mut record = [255; 160];
        record[0] = b'E';
        let case = Case::from_record(&record);
        assert_eq!(case.places(), [255; 72]);
        assert_eq!(case.output, [255; 72]);
        assert_eq!(lines(&[case]), [format!("E 1 0 {}\n", "ff".repeat(72))]);
        for op in *b"XUR" {
            record[0] = op;
            let case = Case::from_record(&record);
            assert_eq!((case.input.len(), case.output.len()), (72, 72));
            let line = format!("{} 1 0 {}\n", char::from(op), "ff".repeat(72));
            assert_eq!(lines(&[case]), [line]);
        }
        record[0] = b'v';
        let case = Case::from_record(&record);
        assert_eq!(case.input, [255; 72]);
        assert_eq!(lines(&[case]), ["v 1 0 no\n"]);
    }

    #[test]
    fn the_layout_of_a_record_of_chosen_columns() {
        for op in *b"XUR" {
            let case = Case::of_columns(op, 2, &[1, 3], 259, &[6, 7, 8], 5, 99);
            let mut expected = [0; 160];
            expected[..11].copy_from_slice(&[op, 2, 3, 3, 2, 5, 0, 99, 6, 7, 8]);
            expected[80..82].copy_from_slice(&[1, 3]);
            expected[152] = 1;
            assert_eq!(case.to_record(), expected);
            assert_eq!(Case::from_record(&expected), case);
            let longest = Case::of_columns(op, 2, &[], 3, &[], 73, 99);
            assert_eq!(longest.a, 72);
        }
    }

    /// Value E of paper 01. Session and job stay those of a refused opening.
    #[test]
    fn lines_of_the_check() {
        let line = |q, series, m, word: &[u8]| {
            let call = Case {
                op: b'v',
                q,
                series,
                m,
                input: word.to_vec(),
                ..Case::default()
            };
            let after = lines(&[call, session_case(b'k', 0, 0, &[9]), job_call(1, &[9])]);
            assert_eq!(after[1..], ["k 10 1 09\n", "c 10 1 0 finished 09\n"]);
            after[0].clone()
        };
        let word = [1, 2, 2, 1, 3, 0, 1, 2];
        for series in [1, 2] {
            assert_eq!(line(2, series, 3, &word), "v 0 0 yes\n");
            assert_eq!(line(2, series, 2, &word), "v 0 0 no\n");
            assert_eq!(line(2, series, 0, &word), "v 19 0 no\n");
            assert_eq!(line(2, series, 256 + 3, &word), "v 2 0 no\n");
            assert_eq!(line(2, series, 3, &word[1..]), "v 3 0 no\n");
            assert_eq!(
                line(2, series, 3, &[0, 1, 255, 4, 0, 0, 0, 0]),
                "v 4 2 no\n"
            );
            assert_eq!(line(4, series, 10, &word), "v 19 0 no\n");
            assert_eq!(line(4, series, 37, &[5; 64]), "v 0 0 yes\n");
            assert_eq!(line(8, series, 55, &[5; 64]), "v 3 0 no\n");
        }
        assert_eq!(line(2, 3, 3, &word), "v 17 0 no\n");
        assert_eq!(line(3, 3, 3, &word), "v 1 0 no\n");
    }

    /// Value E of paper 01 on the columns 1 and 3: 2 1 1 2. Session and job stay those of
    /// a refused opening.
    #[test]
    fn lines_of_chosen_columns() {
        let line = |op, columns: &[u8], m, input: &[u8], length| {
            let call = Case::of_columns(op, 2, columns, m, input, length, 99);
            let after = lines(&[call, session_case(b'k', 0, 0, &[9]), job_call(1, &[9])]);
            assert_eq!(after[1..], ["k 10 1 09\n", "c 10 1 0 finished 09\n"]);
            after[0].clone()
        };
        let (columns, word) = ([1, 3], [2, 1, 1, 2]);
        assert_eq!(line(b'X', &columns, 3, &[1, 2, 3], 4), "X 0 0 02010102\n");
        assert_eq!(line(b'U', &columns, 3, &word, 3), "U 0 0 010203\n");
        assert_eq!(line(b'R', &columns, 3, &word, 3), "R 0 0 010203\n");
        let broken = [2, 1, 255, 255];
        assert_eq!(line(b'R', &columns, 3, &broken, 3), "R 10 1 636363\n");
        assert_eq!(line(b'U', &columns, 3, &broken, 3), "U 4 2 636363\n");
        assert_eq!(line(b'U', &columns, 2, &word, 2), "U 9 0 6363\n");
        assert_eq!(line(b'X', &[3, 1], 3, &[1, 2, 3], 4), "X 18 0 63636363\n");
        assert_eq!(line(b'X', &[], 3, &[1, 2, 3], 0), "X 18 0 \n");
        assert_eq!(line(b'X', &columns, 4, &[1, 2, 3, 0], 1), "X 2 0 63\n");
        assert_eq!(line(b'X', &columns, 3, &[4; 4], 1), "X 3 0 63\n");
        assert_eq!(
            line(b'X', &columns, 3, &[1, 2, 3], 8),
            "X 5 0 6363636363636363\n"
        );
    }

    #[test]
    fn the_layout_of_a_record_of_encoding_at_places() {
        let places = [
            (vec![6, 7, 255], 0, 0),
            (vec![6, 7, 256], 2, 1),
            (vec![6, 263, 255], 1, 1),
            (vec![65_535, 6, 7], 0, 255),
            (vec![], 0, 0),
        ];
        for (places, index, high) in places {
            let case = Case::of_encoding_at(2, 1, 259, &places, &[8, 9], 5, 99);
            let mut expected = [0; 160];
            expected[..8].copy_from_slice(&[69, 2, 3, places.len() as u8, 2, 5, index, 99]);
            for (byte, place) in expected[8..].iter_mut().zip(&places) {
                *byte = place.to_le_bytes()[0];
            }
            expected[80..82].copy_from_slice(&[8, 9]);
            expected[152..154].copy_from_slice(&[1, high]);
            assert_eq!(case.to_record(), expected);
            assert_eq!(Case::from_record(&expected), case);
            assert_eq!(case.places(), places);
            // No place has the index 3, nor the high byte then.
            expected[6] = 3;
            let low_bytes = places.iter().map(|place| place % 256);
            assert!(Case::from_record(&expected)
                .places()
                .into_iter()
                .eq(low_bytes));
        }
        let longest = Case::of_encoding_at(2, 1, 3, &[], &[], 73, 99);
        assert_eq!(longest.a, 72);
    }

    /// Value E of paper 01 by three of its symbols, and the places where value H is 0,
    /// as another codeword is. Session and job stay those of a refused opening.
    #[test]
    fn lines_of_encoding_at_places() {
        let line = |places: &[u16], symbols: &[u8], length| {
            let encoded = Case::of_encoding_at(2, 1, 3, places, symbols, length, 99);
            let after = lines(&[encoded, session_case(b'k', 0, 0, &[9]), job_call(1, &[9])]);
            assert_eq!(after[1..], ["k 10 1 09\n", "c 10 1 0 finished 09\n"]);
            after[0].clone()
        };
        let unchanged = "63".repeat(8);
        assert_eq!(line(&[0, 1, 2], &[1, 2, 2], 8), "E 0 0 0102020103000102\n");
        assert_eq!(line(&[5, 6, 7], &[0, 1, 2], 8), "E 0 0 0102020103000102\n");
        for symbols in [[0, 0, 0], [1, 2, 3]] {
            assert_eq!(
                line(&[0, 4, 7], &symbols, 8),
                format!("E 16 0 {unchanged}\n")
            );
            assert_eq!(
                line(&[0, 4, 7], &symbols, 9),
                format!("E 5 0 {unchanged}63\n")
            );
            assert_eq!(
                line(&[0, 4, 263], &symbols, 8),
                format!("E 15 0 {unchanged}\n")
            );
        }
        assert_eq!(line(&[0, 1, 2], &[1, 2, 4], 0), "E 4 2 \n");
        assert_eq!(line(&[0, 1, 2], &[4; 4], 1), "E 3 0 63\n");
    }

    #[test]
    fn lines_of_the_mender() {
        let line = |word: [u8; 8], lengths| {
            let case = Case::of_mending(2, 1, 3, &word, lengths);
            lines(&[case])[0].clone()
        };
        let (one_wrong, two_wrong) = ([1, 2, 0, 1, 3, 0, 1, 2], [1, 2, 0, 0, 3, 0, 1, 2]);
        let right = [3, 8, 8];
        let mended = "m 0 0 1 010203 0102020103000102 0000010000000000\n";
        assert_eq!(line(one_wrong, right), mended);
        let unchanged = "808182 8081828384858687 8081828384858687";
        assert_eq!(line(two_wrong, right), format!("m 11 0 0 {unchanged}\n"));
        assert_eq!(line([9; 8], right), format!("m 4 0 0 {unchanged}\n"));
        assert_eq!(
            line(one_wrong, [0, 2, 8]),
            "m 5 0 0  8081 8081828384858687\n"
        );
        assert_eq!(line(one_wrong, [8, 0, 0]), "m 5 0 0 8081828384858687  \n");
        assert_eq!(line(one_wrong, [0, 0, 0]), "m 5 0 0   \n");
    }

    #[test]
    fn lines_of_code_cases() {
        let mut case = Case {
            op: b'e',
            q: 2,
            m: 3,
            input: vec![1, 2, 3],
            output: vec![255; 8],
            ..Case::default()
        };
        assert_eq!(lines(&[case.clone()]), ["e 0 0 0102020103000102\n"]);
        case.input[2] = 4;
        assert_eq!(lines(&[case.clone()]), ["e 4 2 ffffffffffffffff\n"]);
        case.q = 1;
        case.output.clear();
        assert_eq!(lines(&[case.clone()]), ["e 1 0 \n"]);
        case.op = b'r';
        case.q = 2;
        case.input = vec![255; 8];
        case.output = vec![16; 3];
        assert_eq!(lines(&[case.clone()]), ["r 10 3 101010\n"]);
        case.op = b'u';
        assert_eq!(lines(&[case]), ["u 4 0 101010\n"]);
    }

    /// The columns of series 2 by the number of each in series 1. At q = 2 these are
    /// the same numbers.
    #[test]
    fn lines_of_the_converter() {
        let convert = |q, series, input: &[u8], length| {
            let case = Case {
                op: b'C',
                q,
                series,
                m: u16::MAX,
                input: input.to_vec(),
                output: vec![9; length],
                ..Case::default()
            };
            lines(&[case])[0].clone()
        };
        let broken = [1, 2, 3, 0, 255, 255, 1, 255];
        for series in [1, 2] {
            let line = convert(2, series, &broken, 8);
            assert_eq!(line, "C 0 0 01020300ffff01ff\n");
        }
        let word: Vec<u8> = (0..64).map(|place| place / 4).collect();
        let by_powers = [0, 1, 2, 4, 8, 3, 6, 12, 11, 5, 10, 7, 14, 15, 13, 9];
        let expected = by_powers.map(|x: u8| hexadecimal(&[x; 4])).concat();
        assert_eq!(convert(4, 1, &word, 64), format!("C 0 0 {expected}\n"));
        let unchanged = "09".repeat(8);
        assert_eq!(convert(2, 0, &broken, 8), format!("C 17 0 {unchanged}\n"));
        assert_eq!(convert(2, 3, &[], 8), format!("C 17 0 {unchanged}\n"));
        assert_eq!(convert(3, 255, &broken, 0), "C 1 0 \n");
        assert_eq!(convert(2, 2, &broken[1..], 7), "C 3 0 09090909090909\n");
        assert_eq!(convert(2, 2, &[254; 8], 0), "C 4 0 \n");
        assert_eq!(convert(2, 2, &broken, 0), "C 5 0 \n");
    }

    /// Only a series other than 1 is shown. Column 3 of series 1 is number 5 of series
    /// 2; a word of order 4 that is x there is x everywhere.
    #[test]
    fn lines_of_sessions_and_jobs_of_series_2() {
        let (missing, no_round) = ("ff".repeat(64), "00".repeat(64));
        let nothing = format!("{missing} {no_round}");
        let cases = [
            Case::of_opening(4, 2, 4),
            Case::of_arrival(20, 3, 0),
            session_case(b'k', 0, 0, &[9, 9]),
            Case::of_arrival(0, 0, 0),
            session_case(b'k', 0, 0, &[9, 9]),
            session_case(b'J', 0, 0, &[]),
            Case::of_opening(4, 3, 4),
            job_call(9, &[9, 9]),
        ];
        let word = |first: &str| {
            let [before, after] = [19, 43].map(|count| "ff".repeat(count));
            format!("{first}{before}03{after}")
        };
        let expected = [
            format!("o 0 0 4/2 4 {nothing}\n"),
            format!("a 0 0 4/2 4 {} {no_round}\n", word("ff")),
            "k 10 1 0909\n".to_string(),
            format!("a 0 0 4/2 4 {} {no_round}\n", word("00")),
            "k 0 0 0001\n".to_string(),
            format!("J 0 0 4/2 4 {}\n", word("00")),
            format!("o 17 0 2 0 {nothing}\n"),
            "c 0 0 2 finished 0001\n".to_string(),
        ];
        assert_eq!(lines(&cases), expected);
    }

    #[test]
    fn lines_of_a_stored_series_that_is_none() {
        for series in [0, 3, 255] {
            let stored = Session {
                series,
                ..Session::OF_REFUSED_OPENING
            };
            let cases = [
                Case::of_raw_session(&stored),
                Case::of_arrival(0, 1, 0),
                session_case(b'k', 0, 0, &[9]),
                session_case(b'J', 0, 0, &[]),
            ];
            let (missing, no_round) = ("ff".repeat(64), "00".repeat(64));
            let held = format!("2/{series} 0 {missing} {no_round}");
            let expected = [
                format!("s 0 0 {held}\n"),
                format!("a 17 0 {held}\n"),
                "k 17 0 09\n".to_string(),
                format!("J 17 0 2 0 {missing}\n"),
            ];
            assert_eq!(lines(&cases), expected);
        }
    }

    #[test]
    fn lines_of_field_cases() {
        let line = |op, q, a, b| {
            let case = Case {
                op,
                q,
                a,
                b,
                ..Case::default()
            };
            lines(&[case])[0].clone()
        };
        assert_eq!(line(b'*', 4, 9, 9), "* 0 0 13\n");
        assert_eq!(line(b'+', 4, 9, 16), "+ 4 1 0\n");
        assert_eq!(line(b'i', 4, 2, 0), "i 0 0 9\n");
        assert_eq!(line(b'i', 3, 2, 0), "i 1 0 0\n");
    }

    #[test]
    fn lines_before_any_opening() {
        let missing = "ff".repeat(63);
        let no_round = "00".repeat(63);
        let cases = [
            session_case(b'k', 0, 0, &[9]),
            Case {
                round: 7,
                ..session_case(b'a', 0, 3, &[])
            },
            session_case(b'k', 0, 0, &[9]),
        ];
        let arrived = format!("a 0 0 2 0 03{missing} 07{no_round}\n");
        assert_eq!(lines(&cases), ["k 10 1 09\n", &arrived, "k 0 0 03\n"]);
    }

    #[test]
    fn lines_of_sessions() {
        let open = Case {
            op: b'o',
            q: 4,
            m: 64,
            ..Case::default()
        };
        let raw = Case {
            op: b's',
            q: 3,
            m: 9,
            input: vec![1; 64],
            output: vec![2; 63],
            ..Case::default()
        };
        let cases = [open, raw, session_case(b'a', 0, 0, &[])];
        let opened = format!("o 2 0 2 0 {} {}\n", "ff".repeat(64), "00".repeat(64));
        let held = format!("{} {}00", "01".repeat(64), "02".repeat(63));
        let set = format!("s 0 0 3 9 {held}\n");
        let arrived = format!("a 1 0 3 9 {held}\n");
        assert_eq!(lines(&cases), [opened, set, arrived]);
    }

    /// The session as opened, and the same with places that a look at their low
    /// byte alone would take.
    #[test]
    fn lines_of_orders_and_places_above_255() {
        let (missing, no_round) = ("ff".repeat(64), "00".repeat(64));
        let mut stored = Session::OF_REFUSED_OPENING;
        stored.m = 259;
        let cases = [
            Case::of_opening(2, 1, 259),
            Case::of_opening(2, 1, 3),
            Case::of_arrival(256, 1, 0),
            Case::of_arrival(65_287, 4, 0),
            Case::of_raw_session(&stored),
            Case::of_arrival(0, 1, 0),
            session_case(b'k', 0, 0, &[9, 9, 9]),
            session_case(b'J', 0, 0, &[]),
        ];
        let nothing = format!("{missing} {no_round}");
        let expected = [
            format!("o 2 0 2 0 {nothing}\n"),
            format!("o 0 0 2 3 {nothing}\n"),
            format!("a 6 0 2 3 {nothing}\n"),
            format!("a 6 0 2 3 {nothing}\n"),
            format!("s 0 0 2 259 {nothing}\n"),
            format!("a 2 0 2 259 {nothing}\n"),
            "k 2 0 090909\n".to_string(),
            format!("J 2 0 2 0 {missing}\n"),
        ];
        assert_eq!(lines(&cases), expected);
    }

    /// Value H of paper 01, its zeros first. The session stays that of a refused
    /// opening.
    #[test]
    fn lines_of_whole_sessions() {
        let line = |m, input: &[u8]| {
            let whole = Case {
                op: b'p',
                q: 2,
                m,
                input: input.to_vec(),
                output: vec![9; 3],
                ..Case::default()
            };
            let after = lines(&[whole, session_case(b'k', 0, 0, &[9])]);
            assert_eq!(after[1], "k 10 1 09\n");
            after[0].clone()
        };
        let arrivals = [
            0, 0, 0, 0, 4, 0, 0, 0, 7, 0, 0, 0, 1, 0, 1, 0, 1, 1, 2, 9, 1, 0, 2,
        ];
        assert_eq!(line(3, &arrivals[..12]), "p 10 1 090909\n");
        assert_eq!(line(3, &arrivals[..16]), "p 0 0 000101\n");
        // A 2 at place 257, and a rest of three bytes.
        assert_eq!(line(3, &arrivals), "p 0 0 000101\n");
        assert_eq!(line(259, &arrivals), "p 2 0 090909\n");
    }

    /// Value H again, and the zeros alone. The job stays that of a refused opening.
    #[test]
    fn lines_of_recovery_in_turns() {
        let line = |m, word: [u8; 8], budgets: [u8; 3]| {
            let [a, b, round] = budgets;
            let turns = Case {
                op: b't',
                q: 2,
                m,
                a,
                b,
                round,
                input: word.to_vec(),
                output: vec![9; 3],
                ..Case::default()
            };
            let after = lines(&[turns, job_call(1, &[9])]);
            assert_eq!(after[1], "c 10 1 0 finished 09\n");
            after[0].clone()
        };
        let (value_h, zeros) = (
            [0, 1, 255, 255, 0, 255, 255, 0],
            [0, 255, 255, 255, 0, 255, 255, 0],
        );
        for budgets in [[0, 0, 0], [1, 2, 0], [255, 255, 255]] {
            assert_eq!(line(3, value_h, budgets), "t 0 0 000101\n");
            assert_eq!(line(3, zeros, budgets), "t 10 1 090909\n");
            assert_eq!(line(259, zeros, budgets), "t 2 0 090909\n");
        }
    }

    fn job_call(budget: u8, output: &[u8]) -> Case {
        session_case(b'c', budget, 0, output)
    }

    /// Value H of paper 01, and 2 at place 5 too, where its word has 1.
    #[test]
    fn lines_of_jobs() {
        let rest = "ff".repeat(56);
        let open = |word: [u8; 8]| Case {
            op: b'j',
            q: 2,
            m: 3,
            input: word.to_vec(),
            ..Case::default()
        };
        let cases = [
            open([0, 1, 255, 255, 0, 255, 255, 0]),
            job_call(2, &[7, 8, 9]),
            job_call(1, &[7, 8]),
            job_call(1, &[7, 8, 9]),
            job_call(9, &[7, 8, 9]),
            job_call(9, &[]),
            open([0, 1, 255, 255, 0, 2, 255, 0]),
            job_call(4, &[7, 8, 9]),
            job_call(4, &[7, 8, 9]),
            open([0, 1, 255, 255, 0, 2, 254, 0]),
            job_call(0, &[7]),
        ];
        let expected = [
            format!("j 0 0 2 3 0001ffff00ffff00{rest}\n"),
            "c 10 1 2 working 070809\n".to_string(),
            "c 5 0 0 refused 0708\n".to_string(),
            "c 10 0 1 working 070809\n".to_string(),
            "c 0 0 1 finished 000101\n".to_string(),
            "c 5 0 0 refused \n".to_string(),
            format!("j 0 0 2 3 0001ffff0002ff00{rest}\n"),
            "c 9 0 4 working 070809\n".to_string(),
            "c 9 0 1 finished 070809\n".to_string(),
            format!("j 4 6 2 0 ffffffffffffffff{rest}\n"),
            "c 10 1 0 finished 07\n".to_string(),
        ];
        assert_eq!(lines(&cases), expected);
    }

    #[test]
    fn lines_of_jobs_before_any_opening_and_of_sessions() {
        let raw = |places: [u8; 64]| Case {
            op: b's',
            q: 2,
            input: places.to_vec(),
            output: vec![0; 64],
            ..Case::default()
        };
        let mut places = [77; 64];
        places[..8].copy_from_slice(&[255, 254, 3, 255, 3, 254, 254, 255]);
        let mut bad_places = places;
        bad_places[7] = 253;
        let open = session_case(b'J', 0, 0, &[]);
        let cases = [
            job_call(5, &[9]),
            raw(places),
            open.clone(),
            job_call(1, &[9]),
            raw(bad_places),
            // The job doesn't change with the session.
            job_call(1, &[9]),
            open,
            job_call(1, &[9]),
        ];
        let lines = lines(&cases);
        let of_jobs: Vec<&str> = lines
            .iter()
            .filter(|line| !line.starts_with('s'))
            .map(String::as_str)
            .collect();
        let (missing, rest) = ("ff".repeat(64), "ff".repeat(56));
        let opened = format!("J 0 0 2 0 ffff03ff03ffffff{rest}\n");
        let refused = format!("J 4 7 2 0 {missing}\n");
        let expected = [
            "c 10 1 0 finished 09\n",
            &opened,
            "c 10 0 1 working 09\n",
            "c 0 0 1 finished 03\n",
            &refused,
            "c 10 1 0 finished 09\n",
        ];
        assert_eq!(of_jobs, expected);
    }
}
