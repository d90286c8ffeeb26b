//! Calls that take no long block: with the number 8 each meets refusal 1, whatever
//! else it is given.

use super::{Builder, ORDERS, Q};
use crate::case_record::{Case, SLICE_ROOM};
use crate::code::MISSING;
use crate::replay::arrival_bytes;
use crate::sample::ROUNDS;
use crate::session::{Session, CONFLICT, PLACE_COUNT};

impl Builder {
    pub(super) fn refusing_calls(&mut self) {
        for m in ORDERS {
            self.recoveries(m);
            self.openings(m);
            self.mending(m);
            self.whole_session(m);
            self.stored_sessions(m);
            self.job_that_no_opening_gave(m);
        }
    }

    /// In one go and in turns. The words are those of a short block, whole, broken
    /// and with a bad value, and one that is too short.
    fn recoveries(&mut self, m: u16) {
        let whole = self.symbols(64);
        let mut broken = whole.clone();
        broken[5..20].fill(MISSING);
        let mut bad = whole.clone();
        bad[63] = 64;
        for (word, length) in [
            (whole.as_slice(), 32),
            (&broken, 1),
            (&bad, SLICE_ROOM),
            (&whole[..8], 3),
        ] {
            self.call(b'r', m, word, length);
            let output = self.generator.bytes(length);
            self.cases.push(Case {
                op: b't',
                q: Q,
                series: self.series.number(),
                m,
                a: 1,
                b: 0,
                round: 255,
                input: word.to_vec(),
                output,
                ..Case::default()
            });
        }
    }

    /// What is handed back has q = 2, m = 0 and nothing arrived: asking and a call
    /// of the job show it.
    fn openings(&mut self, m: u16) {
        let series = self.series.number();
        self.cases.push(Case::of_opening(Q, series, m));
        self.plain(b'k', 0, 1);
        for length in [64, 8, 0] {
            let word = self.symbols(length);
            self.call(b'j', m, &word, 0);
            self.plain(b'c', 255, 1);
        }
        self.call(b'j', m, &[MISSING; 64], 0);
    }

    fn mending(&mut self, m: u16) {
        let series = self.series.number();
        let word = self.symbols(64);
        for (length, lengths) in [(64, [32, 64, 64]), (64, [1, 0, 72]), (8, [0, 0, 0])] {
            let case = Case::of_mending(Q, series, m, &word[..length], lengths);
            self.cases.push(case);
        }
    }

    fn whole_session(&mut self, m: u16) {
        let arrivals: Vec<u8> = (0..18)
            .flat_map(|place| arrival_bytes(place, place as u8, 0))
            .collect();
        for (length, message) in [(72, 1), (8, 32), (0, 0)] {
            self.call(b'p', m, &arrivals[..length], message);
        }
    }

    /// Sessions that no opening gave: good but for the number 8, with conflicts, and
    /// with values that no place may hold. Arrivals have places and symbols of long
    /// blocks, and some that are too high for them.
    fn stored_sessions(&mut self, m: u16) {
        let good = self.symbols(PLACE_COUNT);
        let bad = self.generator.bytes(PLACE_COUNT);
        for places in [&[MISSING; PLACE_COUNT][..], &[CONFLICT; 64], &good, &bad] {
            self.store(m, places);
            for (place, symbol) in [(0, 0), (63, 63), (64, 1), (511, 40), (512, 64)] {
                let round = self.round();
                self.cases.push(Case::of_arrival(place, symbol, round));
            }
            self.plain(b'k', 0, 1);
            self.plain(b'k', 0, 32);
            self.plain(b'J', 0, 0);
        }
    }

    fn store(&mut self, m: u16, places: &[u8]) {
        let session = Session {
            q: Q,
            series: self.series.number(),
            m,
            places: places.try_into().expect("64 places"),
            rounds: [(); PLACE_COUNT].map(|()| self.round()),
        };
        self.cases.push(Case::of_raw_session(&session));
    }

    fn round(&mut self) -> u8 {
        ROUNDS[self.generator.below(ROUNDS.len())]
    }

    /// A call of the current session or job, which names no curve.
    fn plain(&mut self, op: u8, budget: u8, length: usize) {
        let output = self.generator.bytes(length);
        self.cases.push(Case {
            op,
            a: budget,
            output,
            ..Case::default()
        });
    }

    fn job_that_no_opening_gave(&mut self, m: u16) {
        let places = self.symbols(PLACE_COUNT);
        for (kind, flags) in [(0, 0), (1, 2), (2, 3)] {
            let case = Case {
                op: b'y',
                q: Q,
                series: self.series.number(),
                m,
                place: self.generator.below(600) as u16,
                a: 20,
                b: flags,
                round: kind,
                input: places.clone(),
                ..Case::default()
            };
            let area = self.generator.bytes(SLICE_ROOM);
            self.cases.push(case.with_area(&area, 32));
        }
    }
}
