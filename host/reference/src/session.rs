//! A receiving session: symbols arrive one by one and the message may be
//! asked for at any time, in one go or by a job.

use crate::checks;
use crate::code::{self, MISSING};
use crate::curve::Curve;
use crate::job::Job;
use crate::outcome::Outcome;

/// The places that a session holds, for either curve of short blocks.
pub const PLACE_COUNT: usize = 64;

/// The mark of a conflict, a place where two different symbols of its round
/// arrived (requests T-01 and T-04: the place is struck out).
pub const CONFLICT: u8 = 254;

/// Every value is allowed, also one that no opening or arrival hands back.
#[derive(Clone, Copy, Debug, PartialEq, Eq)]
pub struct Session {
    pub q: u8,
    pub series: u8,
    pub m: u16,
    pub places: [u8; PLACE_COUNT],
    /// The highest round received at each place (request T-04: heard there).
    pub rounds: [u8; PLACE_COUNT],
}

impl Session {
    /// What a refused opening hands back.
    pub const OF_REFUSED_OPENING: Session = Session::with_all_missing(2, 1, 0);

    const fn with_all_missing(q: u8, series: u8, m: u16) -> Session {
        Session {
            q,
            series,
            m,
            places: [MISSING; PLACE_COUNT],
            rounds: [0; PLACE_COUNT],
        }
    }

    pub fn open(q: u8, series: u8, m: u16) -> (Session, Outcome) {
        match checks::short_curve_and_order(q, series, m) {
            Ok(_) => (Session::with_all_missing(q, series, m), Outcome::ACCEPTED),
            Err(refusal) => (Session::OF_REFUSED_OPENING, refusal),
        }
    }

    /// Hands the session back with the symbol and its round stored or the place
    /// marked as a conflict, or unchanged.
    pub fn arrive(self, place: u16, symbol: u8, round: u8) -> (Session, Outcome) {
        match self.check_arrival(place, symbol) {
            Ok(()) => (self.merged(place, symbol, round), Outcome::ACCEPTED),
            Err(refusal) => (self, refusal),
        }
    }

    /// Recovery from the stored q, series, m and first n places, a conflict
    /// being missing.
    pub fn ask(&self, message: &mut [u8]) -> Outcome {
        match Curve::short_named(self.q) {
            Some(curve) => {
                let word = self.received_word(curve);
                code::recover(self.q, self.series, self.m, &word, message)
            }
            None => Outcome::UNKNOWN_CURVE,
        }
    }

    /// Opens a job from what asking takes, a conflict being missing.
    pub fn job(&self) -> (Job, Outcome) {
        match Curve::short_named(self.q) {
            Some(curve) => {
                let word = self.received_word(curve);
                Job::open(self.q, self.series, self.m, &word)
            }
            None => (Job::OF_REFUSED_OPENING, Outcome::UNKNOWN_CURVE),
        }
    }

    fn check_arrival(&self, place: u16, symbol: u8) -> Result<(), Outcome> {
        let curve = checks::short_curve_and_order(self.q, self.series, self.m)?;
        checks::symbols_or_missing(curve.field(), &self.received_word(curve))?;
        if usize::from(place) >= curve.point_count() {
            return Err(Outcome::PLACE_TOO_HIGH);
        }
        if symbol >= curve.field().size() {
            return Err(Outcome::SYMBOL_TOO_HIGH);
        }
        Ok(())
    }

    /// A missing place takes any symbol, and any other place a symbol of a
    /// higher round. Else only a symbol of the same round counts: the place is a
    /// conflict if it holds anything else.
    fn merged(mut self, place: u16, symbol: u8, round: u8) -> Session {
        let index = usize::from(place);
        let (held, highest) = (self.places[index], self.rounds[index]);
        if held == MISSING || round > highest {
            self.places[index] = symbol;
            self.rounds[index] = round;
        } else if round == highest && held != symbol {
            self.places[index] = CONFLICT;
        }
        self
    }

    /// The first n places, a conflict as missing; those from n on are never
    /// read.
    fn received_word(&self, curve: Curve) -> Vec<u8> {
        let conflict_as_missing = |&held: &u8| if held == CONFLICT { MISSING } else { held };
        let used = &self.places[..curve.point_count()];
        used.iter().map(conflict_as_missing).collect()
    }
}

#[cfg(test)]
mod tests {
    use super::*;
    use crate::generator::Generator;
    use crate::job::Reply;
    use crate::sample::{self, Shape};

    fn opened(q: u8, series: u8, m: u16) -> Session {
        let (session, outcome) = Session::open(q, series, m);
        assert_eq!(outcome, Outcome::ACCEPTED);
        session
    }

    fn opened_shaped(shape: Shape) -> Session {
        opened(shape.q(), shape.series(), shape.m)
    }

    /// The same value and round at every place.
    fn with_one_value(q: u8, series: u8, m: u16, value: u8, round: u8) -> Session {
        Session {
            q,
            series,
            m,
            places: [value; PLACE_COUNT],
            rounds: [round; PLACE_COUNT],
        }
    }

    fn refused_arrival(session: Session, place: u16, symbol: u8) -> Outcome {
        let (after, outcome) = session.arrive(place, symbol, 255);
        assert_ne!(outcome, Outcome::ACCEPTED);
        assert_eq!(after, session);
        outcome
    }

    /// Arrivals of round 0.
    fn after_arrivals(session: Session, arrivals: &[(u16, u8)]) -> Session {
        let in_round_0 = |&(place, symbol)| (place, symbol, 0);
        let arrivals: Vec<(u16, u8, u8)> = arrivals.iter().map(in_round_0).collect();
        after_rounds(session, &arrivals)
    }

    /// Arrivals of a place, a symbol and a round.
    fn after_rounds(session: Session, arrivals: &[(u16, u8, u8)]) -> Session {
        arrivals
            .iter()
            .fold(session, |session, &(place, symbol, round)| {
                let (after, outcome) = session.arrive(place, symbol, round);
                assert_eq!(outcome, Outcome::ACCEPTED);
                after
            })
    }

    fn held_at(session: &Session, place: usize) -> (u8, u8) {
        (session.places[place], session.rounds[place])
    }

    #[test]
    fn opening_marks_all_64_places_missing() {
        for q in 0..=255 {
            for m in (0..=320).chain([0x0503, 0xFF00, 0xFF25, u16::MAX]) {
                for series in [0, 1, 2, 3, 255] {
                    check_opening(q, series, m);
                }
            }
            for series in 0..=255 {
                check_opening(q, series, 7);
            }
        }
    }

    fn check_opening(q: u8, series: u8, m: u16) {
        let (session, outcome) = Session::open(q, series, m);
        match (q, series, m) {
            (2, 1 | 2, 0..=7) | (4, 1 | 2, 0..=63) => {
                assert_eq!(outcome, Outcome::ACCEPTED);
                assert_eq!((session.q, session.series, session.m), (q, series, m));
            }
            (2 | 4, 1 | 2, _) => assert_eq!(outcome, Outcome::ORDER_TOO_HIGH),
            (2 | 4, _, _) => assert_eq!(outcome, Outcome::BAD_SERIES),
            _ => assert_eq!(outcome, Outcome::UNKNOWN_CURVE),
        }
        if outcome != Outcome::ACCEPTED {
            assert_eq!((session.q, session.series, session.m), (2, 1, 0));
        }
        assert_eq!(session.places, [255; 64]);
        assert_eq!(session.rounds, [0; 64]);
    }

    /// Two symbols of x, the message 0 1 of order 4, in the columns 3 and 15.
    #[test]
    fn a_session_keeps_its_series() {
        for (series, symbols) in [(1, [3, 15]), (2, [4, 9])] {
            let arrivals = [(12, symbols[0]), (60, symbols[1])];
            let mut session = after_arrivals(opened(4, series, 4), &arrivals);
            assert_eq!(session.series, series);
            assert_eq!(session.job().0.series(), series);
            let mut message = [9; 2];
            assert_eq!(session.ask(&mut message), Outcome::ACCEPTED);
            assert_eq!(message, [0, 1]);
            let (_, _, reply) = session.job().0.carry_on(2, &mut message);
            assert_eq!(
                (reply, message),
                (Reply::Finished(Outcome::ACCEPTED), [0, 1])
            );
            // Another message fits the same places in the other series.
            session.series = 3 - series;
            assert_eq!(session.ask(&mut message), Outcome::ACCEPTED);
            assert_ne!(message, [0, 1]);
        }
    }

    #[test]
    fn value_h_in_a_session() {
        let session = after_arrivals(opened(2, 1, 3), &[(0, 0), (4, 0), (7, 0)]);
        let mut message = [9; 3];
        let outcome = session.ask(&mut message);
        assert_eq!(outcome, Outcome::several_messages_fit(1));
        assert_eq!(message, [9; 3]);
        let session = after_arrivals(session, &[(1, 1)]);
        assert_eq!(session.ask(&mut message), Outcome::ACCEPTED);
        assert_eq!(message, [0, 1, 1]);
        assert_eq!(session.ask(&mut message), Outcome::ACCEPTED);
    }

    #[test]
    fn nothing_arrived_at_every_order() {
        for shape in Shape::every_short_in_both_series() {
            let mut message = vec![7; shape.k];
            let outcome = opened_shaped(shape).ask(&mut message);
            assert_eq!(outcome.number, 10);
            assert_eq!(usize::from(outcome.second), shape.k);
            assert_eq!(message, vec![7; shape.k]);
        }
    }

    #[test]
    fn the_same_symbol_again_is_accepted_and_changes_nothing() {
        let session = after_arrivals(opened(4, 1, 37), &[(63, 15)]);
        assert_eq!(session.places[63], 15);
        assert_eq!(after_arrivals(session, &[(63, 15)]), session);
    }

    #[test]
    fn arrivals_are_refused_in_the_order_of_the_checks() {
        let mut session = with_one_value(3, 0, 64, 253, 0);
        assert_eq!(refused_arrival(session, 64, 16), Outcome::UNKNOWN_CURVE);
        session.q = 4;
        for series in sample::BAD_SERIES {
            session.series = series;
            assert_eq!(refused_arrival(session, 64, 16), Outcome::BAD_SERIES);
        }
        session.series = 2;
        for m in [64, 255, 256, 256 + 37, u16::MAX] {
            session.m = m;
            assert_eq!(refused_arrival(session, 64, 16), Outcome::ORDER_TOO_HIGH);
        }
        session.m = 63;
        let bad_value = Outcome::value_too_high(0);
        assert_eq!(refused_arrival(session, 64, 16), bad_value);
        assert_eq!(refused_arrival(session, 256, 16), bad_value);
        session.places = [1; 64];
        for place in [64, 255, 256, 256 + 63, u16::MAX] {
            let refused = refused_arrival(session, place, 16);
            assert_eq!(refused, Outcome::PLACE_TOO_HIGH);
        }
        assert_eq!(refused_arrival(session, 63, 16), Outcome::SYMBOL_TOO_HIGH);
        assert_eq!(refused_arrival(session, 63, 255), Outcome::SYMBOL_TOO_HIGH);
        assert_eq!(after_arrivals(session, &[(63, 1)]), session);
    }

    #[test]
    fn a_differing_symbol_of_the_same_round_is_a_conflict() {
        let session = after_arrivals(opened(4, 1, 37), &[(5, 1)]);
        let conflict = after_arrivals(session, &[(5, 2)]);
        assert_eq!(conflict.places[5], 254);
        for symbol in 0..16 {
            assert_eq!(after_arrivals(conflict, &[(5, symbol)]), conflict);
        }
        let all_missing = Session {
            places: [MISSING; PLACE_COUNT],
            ..conflict
        };
        let mut message = [9; 32];
        assert_eq!(conflict.ask(&mut message), all_missing.ask(&mut [9; 32]));
        assert_eq!(message, [9; 32]);
    }

    #[test]
    fn the_round_is_compared_first() {
        let session = after_rounds(opened(4, 1, 37), &[(5, 1, 3)]);
        assert_eq!(held_at(&session, 5), (1, 3));
        let stored = |symbol, round| held_at(&after_rounds(session, &[(5, symbol, round)]), 5);
        for symbol in [1, 2] {
            assert_eq!(stored(symbol, 0), (1, 3));
            assert_eq!(stored(symbol, 2), (1, 3));
            assert_eq!(stored(symbol, 4), (symbol, 4));
            assert_eq!(stored(symbol, 255), (symbol, 255));
        }
        assert_eq!(stored(1, 3), (1, 3));
        assert_eq!(stored(2, 3), (254, 3));
    }

    #[test]
    fn a_conflict_keeps_its_round_until_a_higher_one() {
        let conflict = after_rounds(opened(4, 1, 37), &[(5, 1, 3), (5, 2, 3)]);
        for symbol in 0..16 {
            let unchanged = after_rounds(conflict, &[(5, symbol, 2), (5, symbol, 3)]);
            assert_eq!(unchanged, conflict);
            let replaced = after_rounds(conflict, &[(5, symbol, 4)]);
            assert_eq!(held_at(&replaced, 5), (symbol, 4));
        }
    }

    #[test]
    fn a_missing_place_takes_any_round() {
        let mut session = opened(4, 1, 37);
        session.rounds[5] = 200;
        for round in [0, 199, 200, 201] {
            let after = after_rounds(session, &[(5, 1, round)]);
            assert_eq!(held_at(&after, 5), (1, round));
        }
    }

    #[test]
    fn conflicts_are_no_bad_values_and_count_as_missing() {
        let mut session = opened(2, 1, 3);
        session.places[..8].copy_from_slice(&[0, 1, 254, 254, 0, 254, 255, 0]);
        let mut message = [0; 3];
        assert_eq!(session.ask(&mut message), Outcome::ACCEPTED);
        assert_eq!(message, [0, 1, 1]);
        session.places[6] = 253;
        let bad_value = Outcome::value_too_high(6);
        assert_eq!(session.ask(&mut message), bad_value);
        assert_eq!(refused_arrival(session, 2, 0), bad_value);
    }

    #[test]
    fn m_plus_1_places_without_conflict_are_enough() {
        let mut generator = Generator::with_seed(33);
        for shape in Shape::every_short_in_both_series() {
            let message = sample::message(&mut generator, shape);
            let word = shape.word_of(&message);
            let mut session = opened_shaped(shape);
            let places = generator.permutation(shape.n);
            for (index, &place) in places.iter().enumerate() {
                let right = (place as u16, word[place]);
                let another = sample::another_symbol(&mut generator, shape, word[place]);
                let wrong = (place as u16, another);
                let arrivals: &[_] = match (index <= usize::from(shape.m), index % 2) {
                    (true, _) => &[right],
                    (false, 0) => &[wrong, right],
                    (false, _) => &[right, wrong, right],
                };
                session = after_arrivals(session, arrivals);
            }
            let mut asked = vec![99; shape.k];
            assert_eq!(session.ask(&mut asked), Outcome::ACCEPTED);
            assert_eq!(asked, message);
        }
    }

    #[test]
    fn the_end_state_does_not_depend_on_the_order() {
        let mut generator = Generator::with_seed(34);
        for _ in 0..2_000 {
            let mut up_to = |highest| generator.byte_from(0, highest);
            let arrival = |_| (u16::from(up_to(3)), up_to(3), up_to(2));
            let arrivals: Vec<(u16, u8, u8)> = (0..12).map(arrival).collect();
            let order = generator.permutation(arrivals.len());
            let reordered: Vec<_> = order.iter().map(|&index| arrivals[index]).collect();
            let end = after_rounds(opened(2, 1, 3), &arrivals);
            assert_eq!(after_rounds(opened(2, 1, 3), &reordered), end);
            assert_eq!(after_rounds(end, &reordered), end);
        }
    }

    #[test]
    fn askings_are_refused_in_the_order_of_the_checks() {
        let mut session = with_one_value(255, 3, 8, 4, 255);
        let ask = |session: &Session, length: usize| {
            let mut message = vec![200; length];
            let outcome = session.ask(&mut message);
            assert_eq!(message, vec![200; length]);
            outcome
        };
        assert_eq!(ask(&session, 99), Outcome::UNKNOWN_CURVE);
        session.q = 2;
        for series in sample::BAD_SERIES {
            session.series = series;
            assert_eq!(ask(&session, 99), Outcome::BAD_SERIES);
        }
        session.series = 2;
        for m in [8, 255, 256, 256 + 7, u16::MAX] {
            session.m = m;
            assert_eq!(ask(&session, 99), Outcome::ORDER_TOO_HIGH);
        }
        session.m = 7;
        session.places[..5].copy_from_slice(&[0, 255, 1, 2, 3]);
        assert_eq!(ask(&session, 99), Outcome::value_too_high(5));
        session.places[..8].copy_from_slice(&[0, 0, 0, 0, 0, 0, 0, 1]);
        for length in [0, 6, 8, 99] {
            assert_eq!(ask(&session, length), Outcome::WRONG_OUTPUT_LENGTH);
        }
        assert_eq!(ask(&session, 7), Outcome::NO_MESSAGE_FITS);
        session.places[6..8].copy_from_slice(&[255, 255]);
        assert_eq!(ask(&session, 7), Outcome::several_messages_fit(1));
    }

    fn refused_job(session: &Session) -> Outcome {
        let (job, outcome) = session.job();
        assert_eq!(job, Job::OF_REFUSED_OPENING);
        assert_eq!(session.ask(&mut [0; 99]), outcome);
        outcome
    }

    #[test]
    fn jobs_are_refused_in_the_order_of_the_checks() {
        let mut session = with_one_value(255, 0, 8, 4, 255);
        assert_eq!(refused_job(&session), Outcome::UNKNOWN_CURVE);
        session.q = 2;
        for series in sample::BAD_SERIES {
            session.series = series;
            assert_eq!(refused_job(&session), Outcome::BAD_SERIES);
        }
        session.series = 2;
        for m in [8, 255, 256, 256 + 7, u16::MAX] {
            session.m = m;
            assert_eq!(refused_job(&session), Outcome::ORDER_TOO_HIGH);
        }
        session.m = 7;
        session.places[..5].copy_from_slice(&[0, 255, 1, 254, 3]);
        assert_eq!(refused_job(&session), Outcome::value_too_high(5));
        session.places[5..8].copy_from_slice(&[254, 255, 253]);
        assert_eq!(refused_job(&session), Outcome::value_too_high(7));
        session.places[7] = 0;
        assert_eq!(session.job().1, Outcome::ACCEPTED);
    }

    /// A conflict is missing, and the places from n on are missing in the job.
    #[test]
    fn a_job_of_a_session_is_that_of_its_received_word() {
        let mut session = with_one_value(2, 2, 3, 77, 5);
        session.places[..8].copy_from_slice(&[0, 1, 254, 254, 0, 254, 255, 0]);
        let received = [0, 1, 255, 255, 0, 255, 255, 0];
        assert_eq!(session.job(), Job::open(2, 2, 3, &received));
        let mut message = [9; 3];
        let (_, brought, reply) = session.job().0.carry_on(255, &mut message);
        assert_eq!((brought, reply), (4, Reply::Finished(Outcome::ACCEPTED)));
        assert_eq!(message, [0, 1, 1]);
    }

    #[test]
    fn a_finished_job_says_what_asking_says() {
        let mut generator = Generator::with_seed(35);
        for shape in Shape::every_short_in_both_series().flat_map(|shape| [shape; 4]) {
            let word = sample::codeword(&mut generator, shape);
            let mut session = opened_shaped(shape);
            for _ in 0..generator.below(2 * shape.n) {
                let place = generator.below(shape.n);
                let another = sample::another_symbol(&mut generator, shape, word[place]);
                let is_right = generator.below(20) > 0;
                let symbol = if is_right { word[place] } else { another };
                let round = generator.byte_from(0, 2);
                session = after_rounds(session, &[(place as u16, symbol, round)]);
            }
            let mut asked = vec![99; shape.k];
            let expected = Reply::Finished(session.ask(&mut asked));
            let mut message = vec![99; shape.k];
            let (job, _, _) = session.job().0.carry_on(9, &mut message);
            let (_, _, reply) = job.carry_on(255, &mut message);
            assert_eq!((reply, message), (expected, asked));
        }
    }

    #[test]
    fn places_from_n_on_are_never_read() {
        let mut session = opened(2, 1, 3);
        for (index, held) in session.places.iter_mut().enumerate().skip(8) {
            *held = 190 + index as u8;
            session.rounds[index] = index as u8;
        }
        let full = after_arrivals(session, &[(0, 0), (4, 0), (7, 0), (1, 1)]);
        assert_eq!(full.places[8..], session.places[8..]);
        assert_eq!(full.rounds[8..], session.rounds[8..]);
        let mut message = [0; 3];
        assert_eq!(full.ask(&mut message), Outcome::ACCEPTED);
        assert_eq!(message, [0, 1, 1]);
        for place in 8..=u16::MAX {
            assert_eq!(refused_arrival(full, place, 0), Outcome::PLACE_TOO_HIGH);
        }
    }

    #[test]
    fn every_session_value_gets_an_answer() {
        let mut generator = Generator::with_seed(31);
        for turn in 0..20_000 {
            let mut places = [0; PLACE_COUNT];
            places.fill_with(|| generator.byte());
            let mut rounds = [0; PLACE_COUNT];
            rounds.fill_with(|| generator.byte());
            let session = Session {
                q: [2, 4, 0, 3][turn % 4],
                series: [1, 2, 0, 3, 255][turn % 5],
                m: generator.sixteen_bits(),
                places,
                rounds,
            };
            let [symbol, round] = [(); 2].map(|()| generator.byte());
            let (after, outcome) = session.arrive(generator.sixteen_bits(), symbol, round);
            assert!(outcome == Outcome::ACCEPTED || after == session);
            let mut message = generator.bytes(turn % 72);
            session.ask(&mut message);
        }
    }

    /// The reference model of a session, which is document 01's slate, worked
    /// out from the arguments alone: for each place the symbols that were
    /// accepted there (document 01: taken), with their rounds.
    struct Model {
        accepted: Vec<Vec<(u8, u8)>>,
        field_size: u8,
    }

    impl Model {
        /// Whether the arrival is accepted.
        fn arrive(&mut self, place: u16, symbol: u8, round: u8) -> bool {
            let Some(accepted) = self.accepted.get_mut(usize::from(place)) else {
                return false;
            };
            if symbol >= self.field_size {
                return false;
            }
            accepted.push((symbol, round));
            true
        }

        /// The symbol of each place: the only one of the highest round there.
        fn symbols(&self) -> impl Iterator<Item = Option<u8>> + '_ {
            self.accepted.iter().map(|accepted| {
                let highest = accepted.iter().map(|&(_, round)| round).max()?;
                let mut of_it = accepted.iter().filter(|&&(_, round)| round == highest);
                let &(first, _) = of_it.next()?;
                of_it.all(|&(symbol, _)| symbol == first).then_some(first)
            })
        }

        fn fits(&self, word: &[u8]) -> bool {
            let mut pairs = self.symbols().zip(word);
            pairs.all(|(held, &symbol)| held.is_none_or(|held| held == symbol))
        }

        fn symbol_count(&self) -> usize {
            self.symbols().flatten().count()
        }
    }

    #[test]
    fn lists_of_arrivals_and_askings_agree_with_the_reference_model() {
        let mut generator = Generator::with_seed(32);
        for m in (0..5).cycle().take(600) {
            compare_with_model(&mut generator, Shape::of(Curve::Q_IS_2, m));
        }
        for curve in Curve::Q_IS_4.in_both_series() {
            for m in [0, 4, 4, 4, 5] {
                compare_with_model(&mut generator, Shape::of(curve, m));
            }
        }
    }

    fn compare_with_model(generator: &mut Generator, shape: Shape) {
        let words = sample::all_messages_with_words(shape);
        let (_, target) = words[generator.below(words.len())].clone();
        let mut session = opened_shaped(shape);
        let mut model = Model {
            accepted: vec![Vec::new(); shape.n],
            field_size: shape.field_size,
        };
        for _ in 0..20 {
            let place = generator.below(shape.n + 2);
            let arbitrary = generator.below(usize::from(shape.field_size) + 2) as u8;
            let follows_target = place < shape.n && generator.below(8) > 0;
            let symbol = if follows_target {
                target[place]
            } else {
                arbitrary
            };
            let round = generator.byte_from(0, 2);
            let (after, outcome) = session.arrive(place as u16, symbol, round);
            let accepted = model.arrive(place as u16, symbol, round);
            assert_eq!(outcome == Outcome::ACCEPTED, accepted);
            session = after;
            compare_asking_with_model(&session, &model, &words, shape);
        }
    }

    fn compare_asking_with_model(
        session: &Session,
        model: &Model,
        words: &[(Vec<u8>, Vec<u8>)],
        shape: Shape,
    ) {
        let fitting: Vec<&Vec<u8>> = words
            .iter()
            .filter(|(_, word)| model.fits(word))
            .map(|(message, _)| message)
            .collect();
        let mut message = vec![99; shape.k];
        let outcome = session.ask(&mut message);
        match fitting.as_slice() {
            [] => assert_eq!(outcome, Outcome::NO_MESSAGE_FITS),
            [only] => {
                assert_eq!(outcome, Outcome::ACCEPTED);
                assert_eq!(&message, *only);
            }
            several => {
                assert!(model.symbol_count() <= usize::from(shape.m));
                assert_eq!(outcome.number, 10);
                let size = usize::from(shape.field_size);
                assert_eq!(size.pow(u32::from(outcome.second)), several.len());
            }
        }
    }
}
