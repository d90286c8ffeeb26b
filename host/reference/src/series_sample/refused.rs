//! Numbers that name no series: in every call that takes one, and stored in sessions
//! and jobs that no opening gave. 1 comes before 17, and 17 before all others.

use super::Builder;
use crate::case_record::{Case, SLICE_ROOM};
use crate::code::MISSING;
use crate::curve::Curve;
use crate::replay::arrival_bytes;
use crate::sample::{self, places, Shape, BAD_CURVES, BAD_SERIES, ROUNDS};
use crate::session::{Session, PLACE_COUNT};

/// Arrivals of `p` that leave room for more in the input.
const ARRIVALS: usize = 17;

/// A value that no word may hold.
const BAD_VALUE: u8 = 254;

/// The case with every fault that is looked for after the series.
fn with_later_faults(case: &Case) -> Case {
    let mut faulty = case.clone();
    faulty.m = u16::MAX;
    if case.op != b'o' {
        faulty.input.push(BAD_VALUE);
    }
    if !b"oj".contains(&case.op) {
        faulty.output.push(BAD_VALUE);
    }
    if b"mE".contains(&case.op) {
        faulty.a += 1;
    }
    if case.op == b'm' {
        faulty.b += 1;
    }
    faulty
}

impl Builder {
    pub(super) fn refused_series(&mut self) {
        let strap = Curve::Q_IS_4.in_both_series();
        let [strap, other_strap] = strap.map(|curve| Shape::of(curve, 37));
        for shape in [Shape::of(Curve::Q_IS_2, 3), strap, other_strap] {
            for series in BAD_SERIES {
                for good in self.good_calls(shape) {
                    self.with_bad_series(&good, series);
                }
                self.stored_sessions(shape, series);
                self.jobs_that_no_opening_gave(shape, series);
            }
        }
    }

    /// A call of every kind that no check refuses.
    pub(super) fn good_calls(&mut self, shape: Shape) -> Vec<Case> {
        let (q, series, m) = shape.numbers();
        let message = sample::message(&mut self.generator, shape);
        let word = shape.word_of(&message);
        let broken = self.broken_word(shape);
        let arrivals = (0..).zip(&word).take(ARRIVALS);
        let arrivals = arrivals.flat_map(|(place, &symbol)| arrival_bytes(place, symbol, 0));
        let places = places::staircase(&mut self.generator, shape);
        vec![
            self.call(b'e', shape, &message, shape.n),
            self.call(b'u', shape, &word, shape.k),
            self.call(b'r', shape, &broken, shape.k),
            self.call(b't', shape, &broken, shape.k),
            self.call(b'p', shape, &arrivals.collect::<Vec<u8>>(), shape.k),
            self.call(b'C', shape, &broken, shape.n),
            self.call(b'j', shape, &broken, 0),
            Case::of_mending(q, series, m, &word, [shape.k, shape.n, shape.n]),
            Case::of_encoding_at(q, series, m, &places, &message, shape.n, BAD_VALUE),
            Case::of_opening(q, series, m),
        ]
    }

    /// The slice to be written holds arbitrary bytes.
    fn call(&mut self, op: u8, shape: Shape, input: &[u8], length: usize) -> Case {
        Case {
            op,
            q: shape.q(),
            series: shape.series(),
            m: shape.m,
            input: input.to_vec(),
            output: self.generator.bytes(length),
            ..Case::default()
        }
    }

    fn broken_word(&mut self, shape: Shape) -> Vec<u8> {
        let word = sample::codeword(&mut self.generator, shape);
        sample::with_known(&mut self.generator, &word, usize::from(shape.m) + 1)
    }

    /// Alone, with an order that is too high, with all later faults, and with numbers
    /// that name no curve, all later faults beside one of them.
    fn with_bad_series(&mut self, good: &Case, series: u8) {
        let good = good.clone();
        let bad = Case { series, ..good };
        let bad_order = Case {
            m: u16::MAX,
            ..bad.clone()
        };
        let faulty = with_later_faults(&bad);
        let [q, ..] = BAD_CURVES;
        let faulty_curve = Case {
            q,
            ..faulty.clone()
        };
        let bad_curves = BAD_CURVES.map(|q| Case { q, ..bad.clone() });
        for case in [bad, bad_order, faulty, faulty_curve] {
            self.add(case);
        }
        for case in bad_curves {
            self.add(case);
        }
    }

    /// After an opening what it hands back is looked at: k is 1 there.
    fn add(&mut self, case: Case) {
        let op = case.op;
        self.cases.push(case);
        match op {
            b'o' => self.call_of_current(b'k', 1),
            b'j' => self.call_of_current(b'c', 1),
            _ => {}
        }
    }

    /// Of the current session or job.
    fn call_of_current(&mut self, op: u8, length: usize) {
        let output = self.generator.bytes(length);
        self.cases.push(Case {
            op,
            a: 1,
            output,
            ..Case::default()
        });
    }
}

/// Sessions and jobs of any bytes.
impl Builder {
    /// Good but for the series, and with one more fault each.
    fn stored_sessions(&mut self, shape: Shape, series: u8) {
        let mut places = [MISSING; PLACE_COUNT];
        places[..shape.n].copy_from_slice(&self.broken_word(shape));
        let good = Session {
            q: shape.q(),
            series,
            m: shape.m,
            places,
            rounds: [(); PLACE_COUNT].map(|()| ROUNDS[self.generator.below(ROUNDS.len())]),
        };
        let mut bad_value = good;
        bad_value.places[shape.n / 2] = shape.field_size;
        let bad_order = Session { m: 512, ..good };
        let bad_curve = Session { q: 8, ..good };
        for session in [good, bad_value, bad_order, bad_curve] {
            self.cases.push(Case::of_raw_session(&session));
            self.cases.push(Case::of_arrival(0, 0, 255));
            self.cases.push(Case::of_arrival(512, 255, 255));
            self.call_of_current(b'k', shape.k);
            self.call_of_current(b'k', shape.k + 1);
            self.call_of_current(b'J', 0);
            self.call_of_current(b'c', 1);
        }
    }

    /// One that an opening would give but for the series, and with work bytes of every
    /// kind and any flags.
    fn jobs_that_no_opening_gave(&mut self, shape: Shape, series: u8) {
        let mut places = sample::codeword(&mut self.generator, shape);
        places.resize(PLACE_COUNT, MISSING);
        let opened = Case {
            op: b'y',
            q: shape.q(),
            series,
            m: shape.m,
            a: shape.n as u8 / 4,
            input: places,
            ..Case::default()
        };
        for work_kind in 0..3 {
            for flags in 0..4 {
                let case = Case {
                    b: flags,
                    round: work_kind,
                    ..opened.clone()
                };
                let area = sample::symbols(&mut self.generator, shape, SLICE_ROOM);
                self.cases.push(case.with_area(&area, shape.k));
            }
        }
    }
}
