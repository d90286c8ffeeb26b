//! Jobs that are opened from sessions.

use super::{pattern, Builder};
use crate::case_record::Case;
use crate::code::MISSING;
use crate::job::Job;
use crate::sample::{self, Shape, BAD_CURVES, BAD_ORDERS, ROUNDS};
use crate::session::{Session, CONFLICT, PLACE_COUNT};

impl Builder {
    fn open_session(&mut self, shape: Shape) {
        let (q, series, m) = shape.numbers();
        self.cases.push(Case::of_opening(q, series, m));
        self.session = Session::open(q, series, m).0;
    }

    /// With arbitrary rounds, also at missing places.
    fn store_session(&mut self, q: u8, m: u16, places: [u8; PLACE_COUNT]) {
        let rounds = [(); PLACE_COUNT].map(|()| self.round());
        self.session = Session {
            q,
            series: self.series.number(),
            m,
            places,
            rounds,
        };
        self.cases.push(Case::of_raw_session(&self.session));
    }

    fn round(&mut self) -> u8 {
        ROUNDS[self.generator.below(ROUNDS.len())]
    }

    fn arrive(&mut self, place: usize, symbol: u8, round: u8) {
        let place = place as u16;
        self.cases.push(Case::of_arrival(place, symbol, round));
        self.session = self.session.arrive(place, symbol, round).0;
    }

    /// Gives the job that the opening hands back.
    fn open_from_session(&mut self) -> Job {
        self.cases.push(Case {
            op: b'J',
            ..Case::default()
        });
        self.session.job().0
    }

    pub(super) fn whole_run_from_session(&mut self, pattern_number: usize) {
        let job = self.open_from_session();
        self.carry_to_the_end(job, pattern(pattern_number));
    }
}

/// Sessions whose bytes are set, with the values that they may hold and others.
impl Builder {
    pub(super) fn jobs_of_stored_sessions(&mut self, shape: Shape) {
        let known = usize::from(shape.m) + self.generator.below(2);
        let places = self.places_with_conflicts(shape, known);
        self.store_session(shape.q(), shape.m, places);
        self.whole_run_from_session(usize::from(shape.m));
        if shape.m % 3 == 1 {
            self.bad_stored_value(shape, places);
        }
    }

    /// A broken word with half of its missing places in conflict, and arbitrary
    /// bytes from n on.
    fn places_with_conflicts(&mut self, shape: Shape, known: usize) -> [u8; PLACE_COUNT] {
        let mut word = self.broken_word(shape, known);
        let missing = word.iter_mut().filter(|symbol| **symbol == MISSING);
        missing.step_by(2).for_each(|symbol| *symbol = CONFLICT);
        let mut places = [(); PLACE_COUNT].map(|()| self.generator.byte());
        places[..shape.n].copy_from_slice(&word);
        places
    }

    fn bad_stored_value(&mut self, shape: Shape, mut places: [u8; PLACE_COUNT]) {
        let indexes = [0, shape.n / 2, shape.n - 1];
        let values = [shape.field_size, CONFLICT - 1];
        let number = usize::from(shape.m / 3);
        places[indexes[number % indexes.len()]] = values[number % values.len()];
        self.store_session(shape.q(), shape.m, places);
        self.refused_opening_from_session(shape.k);
    }

    /// The job handed back has k = 1; `length` is the k of another.
    fn refused_opening_from_session(&mut self, length: usize) {
        self.open_from_session();
        let budget = self.generator.byte();
        self.call(budget, 1);
        self.call(budget, length);
    }

    /// Stored q and m that no opening accepts, also with bad stored values.
    pub(super) fn bad_stored_numbers(&mut self) {
        let bad_curves = BAD_CURVES.into_iter().flat_map(|q| [(q, 3), (q, 255)]);
        for (q, m) in bad_curves.chain(BAD_ORDERS) {
            self.stored_numbers(q, m);
        }
    }

    fn stored_numbers(&mut self, q: u8, m: u16) {
        self.store_session(q, m, [0; PLACE_COUNT]);
        self.refused_opening_from_session(32);
        let arbitrary = [(); PLACE_COUNT].map(|()| self.generator.byte());
        self.store_session(q, m, arbitrary);
        self.refused_opening_from_session(0);
    }
}

/// Sessions whose symbols arrive one by one.
impl Builder {
    pub(super) fn session_runs(&mut self) {
        let [small, large] = sample::short_curves(self.series);
        for shape in Shape::every_order(small) {
            self.session_run(shape, 16);
        }
        for m in [5, 37] {
            self.session_run(Shape::of(large, m), 60);
        }
    }

    /// Jobs of the session as opened, halfway, with most of its places held, and
    /// with the whole word received.
    fn session_run(&mut self, shape: Shape, count: usize) {
        let word = self.codeword(shape);
        let number = usize::from(shape.m);
        self.open_session(shape);
        self.whole_run_from_session(number);
        self.arrivals(shape, &word, count / 2);
        self.whole_run_from_session(number + 1);
        self.arrivals(shape, &word, count / 2);
        self.job_while_symbols_arrive(shape, &word);
        for place in self.generator.permutation(shape.n) {
            self.arrive(place, word[place], 255);
        }
        self.whole_run_from_session(number + 3);
    }

    /// Arrivals at arbitrary places, one in six of a wrong symbol.
    fn arrivals(&mut self, shape: Shape, word: &[u8], count: usize) {
        for _ in 0..count {
            let place = self.generator.below(shape.n);
            let is_right = self.generator.below(6) > 0;
            let another = sample::another_symbol(&mut self.generator, shape, word[place]);
            let symbol = if is_right { word[place] } else { another };
            // The highest round is kept for the whole word.
            let round = ROUNDS[self.generator.below(ROUNDS.len() - 1)];
            self.arrive(place, symbol, round);
        }
    }

    /// The job keeps the session's symbols as they were when it was opened.
    fn job_while_symbols_arrive(&mut self, shape: Shape, word: &[u8]) {
        self.open_from_session();
        for budget in [0, 2, 5, 255, 0] {
            self.call(budget, shape.k);
            self.arrivals(shape, word, 2);
        }
    }
}
