//! Writes the case file and the text that a program which runs it must print.
//! The module `case_record` says how both are laid out.

use reference::case_record::{Case, Runner, SLICE_ROOM};
use reference::chosen_columns_sample::chosen_columns_cases;
use reference::code::MISSING;
use reference::curve::{Curve, Series};
use reference::file_pair;
use reference::generator::Generator;
use reference::job_sample::job_cases;
use reference::long_curve_sample::long_curve_cases;
use reference::mend_sample::mend_cases;
use reference::sample::{self, Shape, BAD_CURVES, BAD_ORDERS, ROUNDS};
use reference::series_sample::series_cases;
use reference::session::{Session, CONFLICT, PLACE_COUNT};
use reference::sixteen_bit_sample::sixteen_bit_cases;
use reference::systematic_sample::systematic_cases;
use reference::worked_session::worked_sessions;
use std::process::ExitCode;

const SEED: u64 = 1;

fn main() -> ExitCode {
    let cases = all_cases();
    let records: Vec<u8> = cases.iter().flat_map(Case::to_record).collect();
    let mut runner = Runner::default();
    let expected: String = cases.iter().map(|case| runner.run(case)).collect();
    file_pair::write_to_arguments("cases CASE_FILE EXPECTED_FILE", &records, &expected)
}

/// Those from before request T-12 come first: that they and their lines stay as they
/// were shows that the older calls give what they gave. Those of request T-13 have a
/// program of their own, `check_cases`.
fn all_cases() -> Vec<Case> {
    let mut cases = cases_before_chosen_columns();
    cases.extend(chosen_columns_cases());
    cases
}

/// Those from before request T-11 come first: that they and their lines stay as they
/// were shows that series 1 gives what the calls gave before there were two. Then
/// come the same with series 2, but for field operations, which name none, and the
/// cases of numbers that name no series and of the converter.
fn cases_before_chosen_columns() -> Vec<Case> {
    let mut cases = cases_of_series(Series::One);
    cases.extend(refused_openings());
    let of_series_2 = cases_of_series(Series::Two).into_iter();
    cases.extend(of_series_2.filter(is_over_points));
    cases.extend(series_cases());
    cases
}

fn is_over_points(case: &Case) -> bool {
    !b"+*i".contains(&case.op)
}

/// They hand back the session and the job that are there before any opening.
fn refused_openings() -> [Case; 2] {
    let refused = Case::of_opening(0, 2, 0);
    let refused_job = Case {
        op: b'j',
        ..refused.clone()
    };
    [refused, refused_job]
}

/// Those from before request T-10 come first: that they and their lines stay as they
/// were shows that the older calls give what they gave.
fn cases_of_series(series: Series) -> Vec<Case> {
    let mut cases = cases_before_chosen_places(series);
    cases.extend(systematic_cases(series));
    cases
}

/// Those from before request T-09 come first: that they and their lines stay as they
/// were, but for the calls that take q = 8 now, shows that short blocks give what they
/// gave.
fn cases_before_chosen_places(series: Series) -> Vec<Case> {
    let mut cases = cases_before_long_blocks(series);
    cases.extend(long_curve_cases(series));
    cases
}

/// Those from before request T-08 come first: that they and their lines stay as they
/// were shows that calls with numbers of 8 bits give what they gave.
fn cases_before_long_blocks(series: Series) -> Vec<Case> {
    let mut cases = eight_bit_cases(series);
    cases.extend(sixteen_bit_cases(series));
    cases
}

fn eight_bit_cases(series: Series) -> Vec<Case> {
    let mut builder = Builder {
        series,
        generator: Generator::with_seed(SEED),
        cases: Vec::new(),
    };
    builder.before_any_opening();
    builder.field_cases();
    builder.bad_curves_and_orders();
    for shape in Shape::every_short_in(series) {
        builder.encode_cases(shape);
        builder.unencode_cases(shape);
        builder.recover_cases(shape);
    }
    builder.session_runs();
    builder.conflict_runs();
    builder.round_runs();
    builder.raw_sessions();
    builder.worked_sessions();
    builder.cases.extend(mend_cases(series));
    builder.cases.extend(job_cases(series));
    builder.cases
}

struct Builder {
    series: Series,
    generator: Generator,
    cases: Vec<Case>,
}

impl Builder {
    fn shape(&self, curve: Curve, m: u16) -> Shape {
        Shape::of(curve.in_series(self.series), m)
    }

    fn every_order(&self, curve: Curve) -> impl Iterator<Item = Shape> {
        Shape::every_order(curve.in_series(self.series))
    }
}

/// Cases of the field.
impl Builder {
    fn field_cases(&mut self) {
        for curve in Curve::SHORT {
            let size = curve.field().size();
            for a in 0..size {
                (0..size).for_each(|b| self.field_pair(curve.q(), a, b));
                self.field_case(b'i', curve.q(), a, 0);
            }
            self.bad_operands(curve.q(), size);
        }
        for q in BAD_CURVES {
            for (a, b) in [(0, 1), (3, 2), (1, 255), (255, 255)] {
                self.field_pair(q, a, b);
                self.field_case(b'i', q, a, 0);
            }
        }
    }

    fn bad_operands(&mut self, q: u8, size: u8) {
        let bad = [size, size + 1, 128, 254, 255];
        for first in bad {
            self.field_case(b'i', q, first, 0);
            self.field_pair(q, first, 0);
            self.field_pair(q, first, size - 1);
            self.field_pair(q, 0, first);
            self.field_pair(q, size - 1, first);
            bad.iter()
                .for_each(|&second| self.field_pair(q, first, second));
        }
    }

    fn field_pair(&mut self, q: u8, a: u8, b: u8) {
        self.field_case(b'+', q, a, b);
        self.field_case(b'*', q, a, b);
    }

    fn field_case(&mut self, op: u8, q: u8, a: u8, b: u8) {
        self.cases.push(Case {
            op,
            q,
            a,
            b,
            ..Case::default()
        });
    }
}

/// Cases of encoding, unencoding and recovery.
impl Builder {
    /// The slice to be written holds arbitrary bytes before the call, so that a
    /// refusal that writes is seen.
    fn code_case(&mut self, op: u8, q: u8, m: u16, input: Vec<u8>, output_length: usize) {
        let output = self.generator.bytes(output_length);
        self.cases.push(Case {
            op,
            q,
            series: self.series.number(),
            m,
            input,
            output,
            ..Case::default()
        });
    }

    fn shaped_case(&mut self, op: u8, shape: Shape, input: Vec<u8>) {
        let (_, output_length) = slice_lengths(op, shape);
        self.code_case(op, shape.q(), shape.m, input, output_length);
    }

    fn bad_curves_and_orders(&mut self) {
        let bad_curves = BAD_CURVES.into_iter();
        let bad_curves = bad_curves.flat_map(|q| [(q, 3), (q, 37), (q, 255)]);
        for (q, m) in bad_curves.chain(BAD_ORDERS) {
            let n = if q == 2 { 8 } else { 64 };
            for (op, input, output) in [(b'e', 32, n), (b'u', n, 32), (b'r', n, 32)] {
                self.code_case(op, q, m, vec![1; input], output);
                let arbitrary = self.generator.bytes(input - 1);
                self.code_case(op, q, m, arbitrary, output + 1);
            }
        }
    }

    fn encode_cases(&mut self, shape: Shape) {
        let mut first_only = vec![0; shape.k];
        first_only[0] = 1;
        let mut last_only = vec![0; shape.k];
        last_only[shape.k - 1] = shape.field_size - 1;
        let messages = [
            sample::message(&mut self.generator, shape),
            sample::message(&mut self.generator, shape),
            vec![shape.field_size - 1; shape.k],
            first_only,
            last_only,
        ];
        for message in messages {
            self.shaped_case(b'e', shape, message);
        }
        let good = sample::message(&mut self.generator, shape);
        self.refused_inputs(b'e', shape, &good);
    }

    fn unencode_cases(&mut self, shape: Shape) {
        let word = sample::codeword(&mut self.generator, shape);
        let damaged = sample::damaged(&mut self.generator, shape, &word);
        let arbitrary = sample::symbols(&mut self.generator, shape, shape.n);
        self.code_case(b'u', shape.q(), shape.m, damaged.clone(), shape.k + 1);
        let another = sample::codeword(&mut self.generator, shape);
        for input in [word.clone(), another, damaged, arbitrary] {
            self.shaped_case(b'u', shape, input);
        }
        self.refused_inputs(b'u', shape, &word);
    }

    fn recover_cases(&mut self, shape: Shape) {
        let (n, k, m) = (shape.n, shape.k, usize::from(shape.m));
        let arbitrary = self.generator.below(n + 1);
        for known in [n, n - 1, k, k, m + 1, m, k - 1, 1, 0, arbitrary] {
            let word = sample::codeword(&mut self.generator, shape);
            let broken = sample::with_known(&mut self.generator, &word, known.min(n));
            self.shaped_case(b'r', shape, broken);
        }
        for known in [n, m + 2, k, arbitrary] {
            let word = sample::codeword(&mut self.generator, shape);
            let broken = sample::with_known(&mut self.generator, &word, known.min(n));
            let damaged = sample::damaged(&mut self.generator, shape, &broken);
            self.shaped_case(b'r', shape, damaged);
        }
        self.recover_columns(shape);
        self.code_case(b'r', shape.q(), shape.m, vec![MISSING; n], k + 1);
        let word = sample::codeword(&mut self.generator, shape);
        let broken = sample::with_known(&mut self.generator, &word, n - n / 4);
        self.refused_inputs(b'r', shape, &broken);
    }

    /// Whole columns: m / q of them are never enough, one more always is.
    fn recover_columns(&mut self, shape: Shape) {
        let columns = shape.columns_of_order();
        let word = sample::codeword(&mut self.generator, shape);
        for known in [columns, columns + 1] {
            let broken = sample::with_known_columns(&mut self.generator, shape, &word, known);
            self.shaped_case(b'r', shape, broken.clone());
            let damaged = sample::damaged(&mut self.generator, shape, &broken);
            self.shaped_case(b'r', shape, damaged);
        }
    }

    /// Bad values, wrong lengths, and several faults at once.
    fn refused_inputs(&mut self, op: u8, shape: Shape, good: &[u8]) {
        let (input_length, output_length) = slice_lengths(op, shape);
        for input in self.with_bad_values(op, shape, good) {
            self.shaped_case(op, shape, input);
        }
        for length in self.wrong_lengths(input_length) {
            let input = sample::symbols(&mut self.generator, shape, length);
            self.shaped_case(op, shape, input);
        }
        for length in self.wrong_lengths(output_length) {
            self.code_case(op, shape.q(), shape.m, good.to_vec(), length);
        }
        let (q, m) = (shape.q(), shape.m);
        let [_, _, bad] = self.with_bad_values(op, shape, good);
        self.code_case(op, q, m, bad.clone(), output_length - 1);
        let longer = [bad.as_slice(), &[shape.field_size]].concat();
        self.code_case(op, q, m, longer, output_length + 1);
    }

    /// The input with a bad value first, last, and at two arbitrary indexes.
    fn with_bad_values(&mut self, op: u8, shape: Shape, good: &[u8]) -> [Vec<u8>; 3] {
        let highest_bad = if op == b'r' { 254 } else { 255 };
        let mut first = good.to_vec();
        first[0] = shape.field_size;
        let mut last = good.to_vec();
        last[good.len() - 1] = highest_bad;
        let mut two = good.to_vec();
        for _ in 0..2 {
            let index = self.generator.below(good.len());
            two[index] = self.generator.byte_from(shape.field_size, highest_bad);
        }
        [first, last, two]
    }

    /// One length just beside the right one and one anywhere else.
    fn wrong_lengths(&mut self, right: usize) -> [usize; 2] {
        let beside = if self.generator.below(2) == 0 {
            right - 1
        } else {
            right + 1
        };
        let farther = [0, SLICE_ROOM, self.generator.below(right)];
        [beside, farther[self.generator.below(farther.len())]]
    }
}

/// The right lengths of the input and of the slice to be written.
fn slice_lengths(op: u8, shape: Shape) -> (usize, usize) {
    if op == b'e' {
        (shape.k, shape.n)
    } else {
        (shape.n, shape.k)
    }
}

/// Cases of sessions.
impl Builder {
    fn open(&mut self, q: u8, m: u16) {
        let series = self.series.number();
        self.cases.push(Case::of_opening(q, series, m));
    }

    fn round(&mut self) -> u8 {
        ROUNDS[self.generator.below(ROUNDS.len())]
    }

    /// A session with these places and arbitrary rounds, also at missing ones.
    fn set(&mut self, q: u8, m: u16, places: &[u8]) {
        let session = Session {
            q,
            series: self.series.number(),
            m,
            places: places.try_into().expect("64 places"),
            rounds: [(); PLACE_COUNT].map(|()| self.round()),
        };
        self.cases.push(Case::of_raw_session(&session));
    }

    fn arrive_in_round(&mut self, round: u8, place: usize, symbol: u8) {
        let place = place as u16;
        self.cases.push(Case::of_arrival(place, symbol, round));
    }

    /// An arrival of an arbitrary round.
    fn arrive(&mut self, place: usize, symbol: u8) {
        let round = self.round();
        self.arrive_in_round(round, place, symbol);
    }

    fn ask(&mut self, length: usize) {
        let output = self.generator.bytes(length);
        self.cases.push(Case {
            op: b'k',
            output,
            ..Case::default()
        });
    }

    /// The session of a refused opening, which has q = 2 and m = 0.
    fn before_any_opening(&mut self) {
        self.ask(1);
        self.ask(0);
        self.arrive(8, 0);
        self.arrive(7, 3);
        self.ask(1);
    }

    fn session_runs(&mut self) {
        for shape in self.every_order(Curve::Q_IS_2) {
            for damaged in [false, true] {
                self.session_run(shape, shape.n, damaged);
            }
        }
        for shape in self.every_order(Curve::Q_IS_4) {
            let (known, damaged) = match shape.m {
                12 | 63 => (shape.n, false),
                37 => (shape.n, true),
                _ => (2, false),
            };
            self.session_run(shape, known, damaged);
        }
        self.session_run(self.shape(Curve::Q_IS_4, 37), 50, false);
        let bad_curves = BAD_CURVES.into_iter().flat_map(|q| [(q, 3), (q, 255)]);
        for (q, m) in bad_curves.chain(BAD_ORDERS) {
            self.open(q, m);
            self.ask(1);
            self.arrive(usize::from(m % 10), 2);
        }
    }

    /// Conflicts in one round that leave exactly m + 1 or m symbols, and fewer.
    fn conflict_runs(&mut self) {
        for shape in self.every_order(Curve::Q_IS_2) {
            let m = usize::from(shape.m);
            for left in [m + 1, m, m / 2] {
                self.conflict_run(shape, left);
            }
        }
        for m in [2, 5, 11, 37, 62] {
            let shape = self.shape(Curve::Q_IS_4, m);
            self.conflict_run(shape, usize::from(m) + 1);
            self.conflict_run(shape, usize::from(m));
        }
    }

    /// Opens a session, lets one symbol of a word more than `left` arrive, or
    /// all n, and makes one of their places a conflict; then one that was missing.
    fn conflict_run(&mut self, shape: Shape, left: usize) {
        let word = sample::codeword(&mut self.generator, shape);
        let places = self.generator.permutation(shape.n);
        let known = (left + 1).min(shape.n);
        let round = self.round();
        self.open(shape.q(), shape.m);
        for &place in &places[..known] {
            self.arrive_in_round(round, place, word[place]);
        }
        self.ask(shape.k);
        let conflict = places[self.generator.below(known)];
        self.conflict(shape, round, conflict, word[conflict]);
        if let Some(&place) = places.get(known) {
            self.conflict_with_the_wrong_symbol_first(shape, round, place, word[place]);
        }
        if let Some(higher) = round.checked_add(1) {
            self.arrive_in_round(higher, conflict, word[conflict]);
            self.ask(shape.k);
        }
    }

    /// `place` holds `first` of the round: another, a third, and the first again
    /// arrive.
    fn conflict(&mut self, shape: Shape, round: u8, place: usize, first: u8) {
        let another = sample::another_symbol(&mut self.generator, shape, first);
        self.arrive_in_round(round, place, another);
        self.ask(shape.k);
        let third = (0..shape.field_size).find(|&symbol| symbol != first && symbol != another);
        for symbol in third.into_iter().chain([first, another]) {
            self.arrive_in_round(round, place, symbol);
        }
        self.ask(shape.k);
    }

    fn conflict_with_the_wrong_symbol_first(
        &mut self,
        shape: Shape,
        round: u8,
        place: usize,
        right: u8,
    ) {
        let another = sample::another_symbol(&mut self.generator, shape, right);
        self.arrive_in_round(round, place, another);
        self.ask(shape.k);
        self.arrive_in_round(round, place, right);
        self.ask(shape.k);
    }

    fn round_runs(&mut self) {
        for shape in self.every_order(Curve::Q_IS_2) {
            self.round_run(shape, 40);
        }
        for m in [2, 11, 37] {
            self.round_run(self.shape(Curve::Q_IS_4, m), 60);
        }
    }

    /// Right and wrong symbols of arbitrary rounds at few places, and then the
    /// whole word in the highest round but for one place.
    fn round_run(&mut self, shape: Shape, count: usize) {
        let word = sample::codeword(&mut self.generator, shape);
        self.open(shape.q(), shape.m);
        for _ in 0..count {
            let place = self.generator.below(4);
            let another = sample::another_symbol(&mut self.generator, shape, word[place]);
            let symbols = [word[place], word[place], another];
            let symbol = symbols[self.generator.below(symbols.len())];
            let lower_round = ROUNDS[self.generator.below(3)];
            self.arrive_in_round(lower_round, place, symbol);
            if self.generator.below(4) == 0 {
                self.ask(shape.k);
            }
        }
        for place in self.generator.permutation(shape.n).into_iter().skip(1) {
            self.arrive_in_round(255, place, word[place]);
        }
        self.ask(shape.k);
    }

    /// Opens a session and lets `known` symbols of a word arrive in an
    /// arbitrary order, with other events in between.
    fn session_run(&mut self, shape: Shape, known: usize, is_damaged: bool) {
        let mut word = sample::codeword(&mut self.generator, shape);
        if is_damaged {
            word = sample::damaged(&mut self.generator, shape, &word);
        }
        self.open(shape.q(), shape.m);
        self.ask(shape.k);
        let places = self.generator.permutation(shape.n);
        for (earlier, &place) in places.iter().take(known).enumerate() {
            self.arrive(place, word[place]);
            let arrived = earlier + 1;
            if [shape.k, usize::from(shape.m), usize::from(shape.m) + 1].contains(&arrived) {
                self.ask(shape.k);
            }
            if self.generator.below(3) > 0 {
                self.other_event(shape, place, word[place]);
            }
        }
        self.ask(shape.k);
    }

    /// Any event but a first arrival; `place` holds `symbol`.
    fn other_event(&mut self, shape: Shape, place: usize, symbol: u8) {
        let bad_place = usize::from(self.generator.byte_from(shape.n as u8, 255));
        let bad_symbol = self.generator.byte_from(shape.field_size, 255);
        let another = sample::another_symbol(&mut self.generator, shape, symbol);
        let any_place = self.generator.below(shape.n);
        match self.generator.below(11) {
            0 => self.arrive(place, symbol),
            1 => self.arrive(place, another),
            2 => self.arrive(bad_place, symbol),
            3 => self.arrive(shape.n, bad_symbol),
            4 => self.arrive(place, bad_symbol),
            5 => self.arrive(any_place, MISSING),
            6 => self.arrive(bad_place, bad_symbol),
            7 => {
                let [beside, farther] = self.wrong_lengths(shape.k);
                self.ask(beside);
                self.ask(farther);
            }
            _ => self.ask(shape.k),
        }
    }

    fn raw_sessions(&mut self) {
        for shape in self.every_order(Curve::Q_IS_2) {
            self.arbitrary_bytes_after_the_word(shape);
        }
        for curve in Curve::SHORT {
            for m in [3, 7] {
                self.stored_values(self.shape(curve, m));
            }
        }
        self.stored_values(self.shape(Curve::Q_IS_4, 37));
        let bad_curves = BAD_CURVES.into_iter().flat_map(|q| [(q, 3), (q, 255)]);
        for (q, m) in bad_curves.chain(BAD_ORDERS) {
            self.bad_stored_numbers(q, m);
        }
    }

    fn stored_values(&mut self, shape: Shape) {
        self.whole_word_stored(shape);
        self.stored_conflicts(shape);
        self.bad_stored_values(shape);
    }

    /// A q = 2 session whose places from 8 on hold anything.
    fn arbitrary_bytes_after_the_word(&mut self, shape: Shape) {
        let word = sample::codeword(&mut self.generator, shape);
        let known = self.generator.below(shape.n);
        let mut places = sample::with_known(&mut self.generator, &word, known);
        let missing = places.iter().position(|&symbol| symbol == MISSING);
        let arbitrary = self.generator.bytes(PLACE_COUNT - shape.n);
        places.extend(arbitrary);
        self.set(shape.q(), shape.m, &places);
        self.ask(shape.k);
        self.ask(shape.k + 1);
        self.arrive(shape.n, places[shape.n]);
        self.arrive(63, 1);
        let place = missing.unwrap_or(0);
        self.arrive(place, word[place]);
        self.ask(shape.k);
    }

    fn whole_word_stored(&mut self, shape: Shape) {
        let word = sample::codeword(&mut self.generator, shape);
        let mut places = word.clone();
        places.resize(PLACE_COUNT, CONFLICT);
        self.set(shape.q(), shape.m, &places);
        self.ask(shape.k);
        let place = self.generator.below(shape.n);
        let another = sample::another_symbol(&mut self.generator, shape, word[place]);
        self.arrive(place, word[place]);
        self.arrive(place, another);
        self.ask(shape.k);
        places[place] = another;
        self.set(shape.q(), shape.m, &places);
        self.ask(shape.k);
    }

    /// A word with half of its missing places in conflict, and then also a
    /// value that no place may hold.
    fn stored_conflicts(&mut self, shape: Shape) {
        let word = sample::codeword(&mut self.generator, shape);
        let known = self.generator.below(shape.n - 1);
        let mut places = sample::with_known(&mut self.generator, &word, known);
        let missing = places.iter_mut().filter(|symbol| **symbol == MISSING);
        missing.step_by(2).for_each(|symbol| *symbol = CONFLICT);
        places.resize(PLACE_COUNT, CONFLICT);
        self.set(shape.q(), shape.m, &places);
        self.ask(shape.k);
        for place in [0, shape.n / 2, shape.n - 1] {
            self.arrive(place, word[place]);
            self.ask(shape.k);
        }
        self.arrive(shape.n, 0);
        let index = self.generator.below(shape.n);
        places[index] = CONFLICT - 1;
        self.set(shape.q(), shape.m, &places);
        self.ask(shape.k);
        self.arrive(index, 0);
    }

    fn bad_stored_values(&mut self, shape: Shape) {
        let arbitrary = self.generator.below(shape.n);
        for index in [0, arbitrary, shape.n - 1] {
            let mut places = vec![MISSING; PLACE_COUNT];
            places[shape.n - 1] = CONFLICT;
            places[index] = shape.field_size;
            self.set(shape.q(), shape.m, &places);
            self.ask(shape.k);
            self.ask(shape.k + 1);
            self.arrive((index + 1) % shape.n, 0);
            self.arrive(index, shape.field_size);
            self.arrive(shape.n, 255);
        }
    }

    /// Asked with an empty slice after each arrival too, which changes nothing.
    fn worked_sessions(&mut self) {
        for worked in worked_sessions() {
            let shape = self.shape(Curve::Q_IS_2, worked.m);
            self.open(shape.q(), shape.m);
            for (place, symbol, round) in worked.arrivals {
                self.arrive_in_round(round, usize::from(place), symbol);
                self.ask(0);
            }
            self.ask(shape.k);
        }
    }

    /// Stored q and m that no opening accepts, also with bad stored values.
    fn bad_stored_numbers(&mut self, q: u8, m: u16) {
        self.set(q, m, &[MISSING; PLACE_COUNT]);
        self.arrive(0, 0);
        self.ask(1);
        let arbitrary = self.generator.bytes(PLACE_COUNT);
        self.set(q, m, &arbitrary);
        self.arrive(255, 255);
        self.ask(0);
    }
}

#[cfg(test)]
mod tests {
    use super::*;
    use reference::case_record::RECORD_LENGTH;
    use reference::checksum::checksum;
    use reference::outcome::Outcome;
    use reference::{code, conversion};
    use std::collections::BTreeSet;

    #[test]
    fn the_cases_are_reproducible() {
        assert_eq!(all_cases(), all_cases());
    }

    #[test]
    fn there_are_about_65000_cases_and_each_fits_its_record() {
        let cases = all_cases();
        assert!((64000..=66000).contains(&cases.len()), "{}", cases.len());
        for case in &cases {
            let record: [u8; RECORD_LENGTH] = case.to_record();
            assert_eq!(&Case::from_record(&record), case);
            assert!(case.op != b's' || case.input.len() == PLACE_COUNT);
        }
    }

    /// The cases from before request T-08 and their lines, by number and checksum.
    #[test]
    fn the_cases_of_8_bits_come_first_and_are_unchanged() {
        let eight_bit = eight_bit_cases(Series::One);
        assert_eq!(eight_bit.len(), 20_067);
        assert_eq!(all_cases()[..20_067], eight_bit);
        assert_eq!(checksum(&records(&eight_bit)), 0x58D0_75EB_720B_C1DE);
        let lines = lines_before_long_blocks(&eight_bit);
        assert_eq!(checksum(lines.as_bytes()), 0xEB97_CD76_D8CA_B4D7);
    }

    /// The cases from before request T-09 and their lines, by number and checksum.
    #[test]
    fn the_cases_before_long_blocks_come_first_and_are_unchanged() {
        let before = cases_before_long_blocks(Series::One);
        assert_eq!(before.len(), 24_325);
        assert_eq!(all_cases()[..24_325], before);
        assert_eq!(checksum(&records(&before)), 0x0C23_295B_7637_8017);
        let then = lines_before_long_blocks(&before);
        assert_eq!(checksum(then.as_bytes()), 0x0E89_E96F_2513_BAD9);
        let now = lines(&before);
        let changed = then.lines().zip(now.lines()).filter(|(a, b)| a != b);
        assert_eq!(changed.count(), 40);
    }

    /// The cases from before request T-10 and their lines, by number and checksum.
    #[test]
    fn the_cases_before_chosen_places_come_first_and_are_unchanged() {
        let before = cases_before_chosen_places(Series::One);
        assert_eq!(before.len(), 26_759);
        assert_eq!(all_cases()[..26_759], before);
        assert_eq!(checksum(&records(&before)), 0x9833_9149_6A4C_8F82);
        assert_eq!(checksum(lines(&before).as_bytes()), 0xFA67_B56B_44F0_F78A);
    }

    /// The cases from before request T-11 and their lines, by number and checksum.
    #[test]
    fn the_cases_before_the_second_series_come_first_and_are_unchanged() {
        let before = cases_of_series(Series::One);
        assert_eq!(before.len(), 29_257);
        assert_eq!(all_cases()[..29_257], before);
        assert_eq!(checksum(&records(&before)), 0x48F0_D8D8_5DAB_3F69);
        assert_eq!(checksum(lines(&before).as_bytes()), 0x3B53_6B38_3DBF_8264);
    }

    /// The cases from before request T-12 and their lines, by number and checksum.
    #[test]
    fn the_cases_before_chosen_columns_come_first_and_are_unchanged() {
        let before = cases_before_chosen_columns();
        assert_eq!(before.len(), 59_124);
        assert_eq!(all_cases()[..59_124], before);
        assert_eq!(checksum(&records(&before)), 0x175E_6326_3785_BE45);
        assert_eq!(checksum(lines(&before).as_bytes()), 0x8091_F2AA_CC97_703E);
    }

    /// The cases of request T-12 and before and their lines, by number and checksum.
    #[test]
    fn the_cases_with_chosen_columns_are_unchanged() {
        let cases = all_cases();
        assert_eq!(cases.len(), 65_139);
        assert_eq!(checksum(&records(&cases)), 0xBC1A_C4A9_F164_9F43);
        assert_eq!(checksum(lines(&cases).as_bytes()), 0x008E_315A_32A7_3976);
    }

    /// Those of field operations apart. At q = 4 most messages have another word.
    #[test]
    fn the_same_cases_come_again_in_series_2() {
        let [first, second] = Series::BOTH.map(|series| {
            let cases = cases_of_series(series).into_iter();
            cases.filter(is_over_points).collect::<Vec<Case>>()
        });
        let start = 29_257 + refused_openings().len();
        assert_eq!(all_cases()[start..][..second.len()], second);
        assert_eq!(second.len(), first.len());
        let mut different = 0;
        for (a, b) in first.iter().zip(&second) {
            assert_eq!((a.op, a.q, a.m), (b.op, b.q, b.m));
            let names_series = !b"akJc".contains(&a.op);
            assert_eq!([a.series, b.series], [1, 1 + u8::from(names_series)]);
            if a.op == b'e' {
                assert_eq!((&a.input, a.output.len()), (&b.input, b.output.len()));
                different += usize::from(a.q == 4 && is_another_word(a, b));
            }
        }
        assert!(different >= 230, "{different}");
    }

    /// Whether encoding is accepted and gives another word in series 2, which must be
    /// that of series 1, converted.
    fn is_another_word(first: &Case, second: &Case) -> bool {
        let [(outcome, word), (outcome_2, word_2)] = [first, second].map(|case| {
            let Case { q, series, m, .. } = *case;
            let mut word = case.output.clone();
            (code::encode(q, series, m, &case.input, &mut word), word)
        });
        assert_eq!(outcome, outcome_2);
        if outcome != Outcome::ACCEPTED {
            return false;
        }
        let mut converted = vec![0; word.len()];
        conversion::convert(first.q, 1, &word, &mut converted);
        assert_eq!(converted, word_2);
        word != word_2
    }

    fn records(cases: &[Case]) -> Vec<u8> {
        cases.iter().flat_map(Case::to_record).collect()
    }

    fn lines(cases: &[Case]) -> String {
        let mut runner = Runner::default();
        cases.iter().map(|case| runner.run(case)).collect()
    }

    /// The lines as they were when 8 named no curve: field operations, encode and
    /// unencode, the calls that take it now, get 9 in its place, a number that isn't
    /// in their lines. All others have 8 as they had.
    fn lines_before_long_blocks(cases: &[Case]) -> String {
        let mut runner = Runner::default();
        let line = |case: &Case| {
            let takes_8_now = case.q == 8 && b"+*ieu".contains(&case.op);
            let q = if takes_8_now { 9 } else { case.q };
            let case = case.clone();
            runner.run(&Case { q, ..case })
        };
        cases.iter().map(line).collect()
    }

    /// Each op gets every answer that it can give and no other, and every
    /// order is encoded, unencoded and recovered in both series.
    #[test]
    fn every_answer_of_every_op_and_every_order_occur() {
        let cases = all_cases();
        let mut runner = Runner::default();
        let lines: Vec<String> = cases.iter().map(|case| runner.run(case)).collect();
        let answers: BTreeSet<String> = lines.iter().map(|line| op_and_number(line)).collect();
        assert_eq!(answers, possible_answers());
        let accepted: BTreeSet<(u8, u8, u8, u16)> = cases
            .iter()
            .zip(&lines)
            .filter(|(case, line)| b"eur".contains(&case.op) && op_and_number(line).ends_with(" 0"))
            .map(|(case, _)| (case.op, case.q, case.series, case.m))
            .collect();
        assert_eq!(accepted.len(), 3 * 2 * (8 + 64));
    }

    /// A missing place, and a symbol or a conflict where one of a lower, the same
    /// or a higher round arrives, the same symbol or another.
    #[test]
    fn every_kind_of_arrival_occurs() {
        let mut runner = Runner::default();
        let mut kinds = BTreeSet::new();
        for case in all_cases() {
            let before = *runner.session();
            let line = runner.run(&case);
            if op_and_number(&line) == "a 0" {
                let index = usize::from(case.place);
                let held = before.places[index];
                let mark = [MISSING, CONFLICT].into_iter().find(|&mark| mark == held);
                let round = case.round.cmp(&before.rounds[index]);
                kinds.insert((mark, round, held == case.b));
            }
        }
        assert_eq!(kinds.len(), 3 + 3 + 3 * 2);
    }

    fn op_and_number(line: &str) -> String {
        line.split(' ').take(2).collect::<Vec<_>>().join(" ")
    }

    fn possible_answers() -> BTreeSet<String> {
        let possible = [
            ("+", vec![0, 1, 4]),
            ("*", vec![0, 1, 4]),
            ("i", vec![0, 1, 4, 13]),
            ("e", vec![0, 1, 2, 3, 4, 5, 17]),
            ("u", vec![0, 1, 2, 3, 4, 5, 9, 17]),
            ("r", vec![0, 1, 2, 3, 4, 5, 9, 10, 17]),
            ("C", vec![0, 1, 3, 4, 5, 17]),
            ("o", vec![0, 1, 2, 17]),
            ("s", vec![0]),
            ("a", vec![0, 1, 2, 4, 6, 7, 17]),
            ("k", vec![0, 1, 2, 4, 5, 9, 10, 17]),
            ("m", vec![0, 1, 2, 3, 4, 5, 11, 12, 17]),
            ("j", vec![0, 1, 2, 3, 4, 17]),
            ("J", vec![0, 1, 2, 4, 17]),
            ("c", vec![0, 5, 9, 10]),
            ("y", vec![0]),
            ("p", vec![0, 1, 2, 5, 9, 10, 17]),
            ("t", vec![0, 1, 2, 3, 4, 5, 9, 10, 17]),
            ("E", vec![0, 1, 2, 3, 4, 5, 15, 16, 17]),
            ("X", vec![0, 1, 2, 3, 4, 5, 18]),
            ("U", vec![0, 1, 2, 3, 4, 5, 9, 18]),
            ("R", vec![0, 1, 2, 3, 4, 5, 9, 10, 18]),
        ];
        possible
            .into_iter()
            .flat_map(|(op, numbers)| numbers.into_iter().map(move |n| format!("{op} {n}")))
            .collect()
    }
}
