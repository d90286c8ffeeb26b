//! Orders of n or more in every call that takes one, and in sessions and jobs that
//! no opening gave.

use super::{Builder, MOST_ARRIVALS};
use crate::case_record::{Case, SLICE_ROOM};
use crate::code::MISSING;
use crate::curve::{Curve, Series};
use crate::sample::{self, Shape, BAD_CURVES};
use crate::session::PLACE_COUNT;

/// A curve number and an order that are refused. The shape is that of the order's
/// low byte, or another one if there is none: what a call that looked at no more
/// would need.
#[derive(Clone, Copy)]
struct Refused {
    q: u8,
    m: u16,
    shape: Shape,
}

impl Refused {
    fn of(q: u8, series: Series, m: u16) -> Refused {
        let curve = Curve::short_named(q).unwrap_or(Curve::Q_IS_4);
        let low_byte = m % 256;
        let is_order = usize::from(low_byte) < curve.point_count();
        let order = if is_order { low_byte } else { 3 };
        let shape = Shape::of(curve.in_series(series), order);
        Refused { q, m, shape }
    }
}

/// What is wrong with a call beside its order.
#[derive(Clone, Copy)]
enum Fault {
    None,
    InputLength,
    Value,
    OutputLength,
    All,
}

const FAULTS: [Fault; 4] = [
    Fault::InputLength,
    Fault::Value,
    Fault::OutputLength,
    Fault::All,
];

impl Fault {
    /// The input, or one of another length or with a value that is always bad.
    fn in_input(self, shape: Shape, good: &[u8]) -> Vec<u8> {
        let mut input = good.to_vec();
        if matches!(self, Fault::Value | Fault::All) {
            input[good.len() / 2] = shape.field_size;
        }
        if matches!(self, Fault::InputLength | Fault::All) {
            input.push(0);
        }
        input
    }

    fn in_length(self, right: usize) -> usize {
        match self {
            Fault::OutputLength => right - 1,
            Fault::All => right + 1,
            _ => right,
        }
    }
}

impl Builder {
    /// The highest one and every other one below it with further faults too.
    pub(super) fn orders_too_high(&mut self) {
        for curve in Curve::SHORT {
            let orders = sample::numbers_too_high(curve);
            for (number, &m) in orders.iter().rev().enumerate() {
                let refused = Refused::of(curve.q(), self.series, m);
                self.good_but_for_the_order(refused);
                if number % 2 == 0 {
                    self.with_further_faults(refused, number / 2);
                }
            }
        }
    }

    /// 1 comes before 2.
    pub(super) fn orders_of_unknown_curves(&mut self) {
        for (number, q) in BAD_CURVES.into_iter().enumerate() {
            for m in [255, 256, 256 + 37, u16::MAX] {
                let refused = Refused::of(q, self.series, m);
                self.good_but_for_the_order(refused);
                self.with_further_faults(refused, number);
            }
        }
    }

    fn good_but_for_the_order(&mut self, refused: Refused) {
        self.every_call(refused, Fault::None);
        let Refused { q, m, shape } = refused;
        self.open(q, m);
        let word = self.codeword(shape);
        self.store(q, m, &word);
        self.calls_of_session(0, 0, shape.k);
        self.unopened_job(refused);
    }

    fn with_further_faults(&mut self, refused: Refused, number: usize) {
        self.every_call(refused, FAULTS[number % FAULTS.len()]);
        let Refused { q, m, shape } = refused;
        let mut word = self.codeword(shape);
        word[shape.n / 2] = shape.field_size;
        self.store(q, m, &word);
        self.calls_of_session(256, shape.field_size, shape.k + 1);
    }

    /// All that lend slices, and the opening of a job with a call of what it hands
    /// back, where k is 1.
    fn every_call(&mut self, refused: Refused, fault: Fault) {
        let Refused { q, m, shape } = refused;
        let message = sample::message(&mut self.generator, shape);
        let word = shape.word_of(&message);
        let broken = self.broken_word(shape, usize::from(shape.m) + 1);
        let length = fault.in_length(shape.k);
        let message = fault.in_input(shape, &message);
        self.call(b'e', q, m, &message, fault.in_length(shape.n));
        self.call(b'u', q, m, &fault.in_input(shape, &word), length);
        self.call(b'r', q, m, &fault.in_input(shape, &broken), length);
        self.mend(refused, fault);
        self.open_job(q, m, &fault.in_input(shape, &broken));
        self.carry_on(1, 1);
        self.recover_in_turns(q, m, &fault.in_input(shape, &broken), length);
        let arrivals = self.arrivals(&word, MOST_ARRIVALS, 0);
        self.call(b'p', q, m, &arrivals, length);
    }

    /// A word with one wrong symbol, or a codeword where t is 0 or there is none.
    fn mend(&mut self, Refused { q, m, shape }: Refused, fault: Fault) {
        let codeword = self.codeword(shape);
        let wrong = shape.curve.radius(shape.m).unwrap_or(0).min(1);
        let word = sample::with_wrong(&mut self.generator, shape, &codeword, wrong);
        let word = fault.in_input(shape, &word);
        let lengths = [shape.k, shape.n, shape.n].map(|length| fault.in_length(length));
        let case = Case::of_mending(q, shape.series(), m, &word, lengths);
        self.cases.push(case);
    }

    fn calls_of_session(&mut self, place: u16, symbol: u8, length: usize) {
        let round = self.round();
        self.arrive(place, symbol, round);
        self.ask(length);
        self.open_job_from_session();
    }

    /// But for the order what an opening gives.
    fn unopened_job(&mut self, Refused { q, m, shape }: Refused) {
        let mut places = self.codeword(shape);
        places.resize(PLACE_COUNT, MISSING);
        let case = Case {
            op: b'y',
            q,
            series: shape.series(),
            m,
            a: shape.n as u8 / 4,
            input: places,
            ..Case::default()
        };
        let area = self.generator.bytes(SLICE_ROOM);
        self.cases.push(case.with_area(&area, shape.k));
    }
}
