//! Jobs of any bytes, which no opening gave.

use super::{wrong_lengths, Builder};
use crate::case_record::{Case, SLICE_ROOM};
use crate::code::MISSING;
use crate::curve::{Curve, Series};
use crate::sample::{self, Shape, BAD_CURVES, BAD_ORDERS};
use crate::session::{CONFLICT, PLACE_COUNT};

/// All zero, only the diagonal set, every byte set.
const WORK_KINDS: [u8; 3] = [0, 1, 2];
const AREA_KINDS: usize = 6;
const PLACES_KINDS: usize = 6;
const BUDGETS: [u8; 5] = [0, 1, 7, 64, 255];
/// By their two lowest bits: a contradiction was met, the equations were
/// complete.
const FLAGS: [u8; 4] = [0, 1, 254, 255];
const ARBITRARY_RECORDS: usize = 60;

/// What the cases of one q and m are made of. The shape is that of q and m, or if
/// these are bad the one that places and lengths are made for.
#[derive(Clone, Copy)]
struct Numbers {
    q: u8,
    m: u16,
    shape: Shape,
}

impl Numbers {
    fn of(shape: Shape) -> Numbers {
        Numbers {
            q: shape.q(),
            m: shape.m,
            shape,
        }
    }

    fn bad(q: u8, series: Series, m: u16) -> Numbers {
        let (curve, order) = match q {
            2 => (Curve::Q_IS_2, 7),
            _ => (Curve::Q_IS_4, 37),
        };
        let shape = Shape::of(curve.in_series(series), order);
        Numbers { q, m, shape }
    }

    fn next_places(self) -> [u16; 5] {
        let n = self.shape.n as u16;
        [0, n - 1, n, 64, 255]
    }
}

impl Builder {
    /// A job from an opening is carried on in between, and at last one is opened
    /// from the session, as none of these changes either.
    pub(super) fn unopened_jobs(&mut self) {
        let [small, large] = sample::short_curves(self.series);
        let strap = Shape::of(large, 37);
        let word = self.broken_word(strap, 40);
        self.open(strap.q(), strap.m, &word);
        let small = [0, 3, 7].map(|m| Shape::of(small, m));
        let large = [0, 5, 11, 37, 63].map(|m| Shape::of(large, m));
        for shape in small.into_iter().chain(large) {
            self.every_kind(Numbers::of(shape));
            self.call(5, strap.k);
        }
        let series = self.series;
        let every_order = Shape::every_short_in(series).map(Numbers::of);
        let bad_curves = BAD_CURVES.into_iter().flat_map(|q| [(q, 3), (q, 255)]);
        let bad = bad_curves.chain(BAD_ORDERS);
        let bad = bad.map(|(q, m)| Numbers::bad(q, series, m));
        let bad = bad.flat_map(|numbers| [numbers; 2]);
        for numbers in every_order.chain(bad) {
            self.every_work_kind(numbers);
        }
        for _ in 0..ARBITRARY_RECORDS {
            self.arbitrary_record();
        }
        for shape in Shape::every_short_in(series) {
            self.whole_word_in_four_calls(shape);
        }
        self.call(0, strap.k);
        self.whole_run_from_session(0);
    }

    /// All work bytes with all next places, and the other parts by turns.
    fn every_kind(&mut self, numbers: Numbers) {
        for work_kind in WORK_KINDS {
            for area_kind in 0..AREA_KINDS {
                for next_place in numbers.next_places() {
                    self.unopened_job(numbers, work_kind, area_kind, next_place);
                }
            }
        }
    }

    fn every_work_kind(&mut self, numbers: Numbers) {
        for work_kind in WORK_KINDS {
            let area_kind = self.generator.below(AREA_KINDS);
            let next_place = u16::from(self.generator.byte_from(0, 70));
            self.unopened_job(numbers, work_kind, area_kind, next_place);
        }
    }

    fn unopened_job(&mut self, numbers: Numbers, work_kind: u8, area_kind: usize, next_place: u16) {
        let area = self.area(numbers.shape, area_kind);
        let length = self.any_length(numbers.shape.k);
        let case = Case {
            op: b'y',
            q: numbers.q,
            series: self.series.number(),
            m: numbers.m,
            place: next_place,
            a: BUDGETS[self.generator.below(BUDGETS.len())],
            b: FLAGS[self.generator.below(FLAGS.len())],
            round: work_kind,
            input: self.any_places(numbers.shape),
            ..Case::default()
        };
        self.cases.push(case.with_area(&area, length));
    }

    /// The bytes that an opening would give, so that the last of the four calls
    /// gives a message and those before it don't.
    fn whole_word_in_four_calls(&mut self, shape: Shape) {
        let mut places = self.codeword(shape);
        places.resize(PLACE_COUNT, MISSING);
        let case = Case {
            op: b'y',
            q: shape.q(),
            series: shape.series(),
            m: shape.m,
            a: shape.n as u8 / 4,
            input: places,
            ..Case::default()
        };
        let area = self.generator.bytes(SLICE_ROOM);
        self.cases.push(case.with_area(&area, shape.k));
    }

    fn area(&mut self, shape: Shape, kind: usize) -> Vec<u8> {
        match kind {
            0 => vec![0; SLICE_ROOM],
            1 => vec![1; SLICE_ROOM],
            2 => vec![255; SLICE_ROOM],
            3 => sample::symbols(&mut self.generator, shape, SLICE_ROOM),
            4 => self.nonzero_symbols(shape),
            _ => self.generator.bytes(SLICE_ROOM),
        }
    }

    fn nonzero_symbols(&mut self, shape: Shape) -> Vec<u8> {
        let highest = shape.field_size - 1;
        (0..SLICE_ROOM)
            .map(|_| self.generator.byte_from(1, highest))
            .collect()
    }

    /// The right one three times in four.
    fn any_length(&mut self, k: usize) -> usize {
        let wrong = wrong_lengths(k);
        match self.generator.below(4) {
            0 => wrong[self.generator.below(wrong.len())],
            _ => k,
        }
    }

    /// A word of any kind, and what an opening puts from n on, or anything.
    fn any_places(&mut self, shape: Shape) -> Vec<u8> {
        let n = shape.n;
        let known = self.generator.below(n + 1);
        let mut places = match self.generator.below(PLACES_KINDS) {
            0 => self.codeword(shape),
            1 => sample::symbols(&mut self.generator, shape, n),
            2 => vec![MISSING; n],
            3 => self.broken_word(shape, known),
            4 => self.with_bad_values(shape, known),
            _ => self.generator.bytes(n),
        };
        let rest = match self.generator.below(2) {
            0 => vec![MISSING; PLACE_COUNT - n],
            _ => self.generator.bytes(PLACE_COUNT - n),
        };
        places.extend(rest);
        places
    }

    fn with_bad_values(&mut self, shape: Shape, known: usize) -> Vec<u8> {
        let mut word = self.broken_word(shape, known);
        for value in [shape.field_size, CONFLICT] {
            let place = self.generator.below(shape.n);
            word[place] = value;
        }
        word
    }

    /// Arbitrary bytes but for the op and the kind of work bytes.
    fn arbitrary_record(&mut self) {
        let length = self.generator.below(SLICE_ROOM + 1);
        let work_kind = WORK_KINDS[self.generator.below(WORK_KINDS.len())];
        let area = self.generator.bytes(SLICE_ROOM);
        let [q, m, next_place, a, b] = [(); 5].map(|()| self.generator.byte());
        let case = Case {
            op: b'y',
            q,
            series: self.series.number(),
            m: u16::from(m),
            place: u16::from(next_place),
            a,
            b,
            round: work_kind,
            input: self.generator.bytes(PLACE_COUNT),
            ..Case::default()
        };
        self.cases.push(case.with_area(&area, length));
    }
}
