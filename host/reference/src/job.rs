//! Recovery in slices, written from request T-05: a job that is carried on by
//! calls, each with a budget of symbols.

use crate::checks;
use crate::code::{self, MISSING};
use crate::curve::Curve;
use crate::outcome::Outcome;
use crate::session::PLACE_COUNT;

/// A broken word and how many of its arrived symbols are brought in, which are
/// those at the lowest places. The parts are private, so that a `Job` always
/// comes from an opening.
#[derive(Clone, Copy, Debug, PartialEq, Eq)]
pub struct Job {
    curve: Curve,
    m: u16,
    /// Those from n on are missing.
    places: [u8; PLACE_COUNT],
    brought_in: u8,
}

/// What a call says beside the number of symbols that it brings in.
#[derive(Clone, Copy, Debug, PartialEq, Eq)]
pub enum Reply {
    /// Refusal 5: the slice hasn't length k.
    Refused,
    /// Still working, and no message fits the symbols brought in so far.
    NoneFits,
    /// Still working, and exactly Q to the power r messages fit the symbols
    /// brought in so far. Here r may be 0.
    Leaves(u16),
    /// All arrived symbols are brought in: what recovery in one go says.
    Finished(Outcome),
}

impl Reply {
    /// Of a job that is still working, from recovery's answer for the symbols
    /// brought in so far.
    fn so_far(outcome: Outcome) -> Reply {
        match outcome {
            Outcome::NO_MESSAGE_FITS => Reply::NoneFits,
            // 0 if the only message was found.
            Outcome { second, .. } => Reply::Leaves(second),
        }
    }

    /// The two numbers of the reply; while still working 9 and 0, or 10 and r.
    pub fn outcome(self) -> Outcome {
        match self {
            Reply::Refused => Outcome::WRONG_OUTPUT_LENGTH,
            Reply::NoneFits => Outcome::NO_MESSAGE_FITS,
            Reply::Leaves(r) => Outcome::several_messages_fit(r),
            Reply::Finished(outcome) => outcome,
        }
    }
}

impl Job {
    /// What a refused opening hands back.
    pub const OF_REFUSED_OPENING: Job = Job {
        curve: Curve::Q_IS_2,
        m: 0,
        places: [MISSING; PLACE_COUNT],
        brought_in: 0,
    };

    /// From what recovery takes, without the slice.
    pub fn open(q: u8, series: u8, m: u16, word: &[u8]) -> (Job, Outcome) {
        match Job::try_open(q, series, m, word) {
            Ok(job) => (job, Outcome::ACCEPTED),
            Err(refusal) => (Job::OF_REFUSED_OPENING, refusal),
        }
    }

    fn try_open(q: u8, series: u8, m: u16, word: &[u8]) -> Result<Job, Outcome> {
        let curve = checks::short_curve_and_order(q, series, m)?;
        checks::input_length(word, curve.point_count())?;
        checks::symbols_or_missing(curve.field(), word)?;
        let mut places = [MISSING; PLACE_COUNT];
        places[..word.len()].copy_from_slice(word);
        Ok(Job {
            curve,
            m,
            places,
            brought_in: 0,
        })
    }

    pub fn q(&self) -> u8 {
        self.curve.q()
    }

    pub fn series(&self) -> u8 {
        self.curve.series().number()
    }

    pub fn m(&self) -> u16 {
        self.m
    }

    pub fn places(&self) -> &[u8; PLACE_COUNT] {
        &self.places
    }

    /// k, the length of the slice that a call is lent.
    pub fn message_length(&self) -> usize {
        self.curve.terms(self.m).len()
    }

    /// The arrived symbols of the whole word, those brought in among them.
    pub fn arrived_count(&self) -> u8 {
        // There are 64 places.
        self.arrived_places().count() as u8
    }

    /// By ascending place.
    fn arrived_places(&self) -> impl Iterator<Item = usize> + '_ {
        (0..PLACE_COUNT).filter(|&place| self.places[place] != MISSING)
    }

    /// Hands the job back with as many more symbols brought in as the budget
    /// allows, their number, and what is known then. The slice is written only
    /// with the message of a finished job.
    pub fn carry_on(self, budget: u8, message: &mut [u8]) -> (Job, u8, Reply) {
        let remaining = self.arrived_count() - self.brought_in;
        let brought = budget.min(remaining);
        let after = Job {
            brought_in: self.brought_in + brought,
            ..self
        };
        let mut written = message.to_vec();
        let word = after.word_so_far();
        let outcome = code::recover(self.q(), self.series(), self.m, &word, &mut written);
        if outcome == Outcome::WRONG_OUTPUT_LENGTH {
            return (self, 0, Reply::Refused);
        }
        if brought < remaining {
            return (after, brought, Reply::so_far(outcome));
        }
        message.copy_from_slice(&written);
        (after, brought, Reply::Finished(outcome))
    }

    /// The word with only the symbols that are brought in.
    fn word_so_far(&self) -> Vec<u8> {
        let mut word = vec![MISSING; self.curve.point_count()];
        for place in self.arrived_places().take(usize::from(self.brought_in)) {
            word[place] = self.places[place];
        }
        word
    }
}

#[cfg(test)]
mod tests {
    use super::*;
    use crate::generator::Generator;
    use crate::sample::{self, Shape};

    const BUDGETS: [u8; 8] = [0, 1, 2, 3, 7, 20, 64, 255];

    fn opened(q: u8, series: u8, m: u16, word: &[u8]) -> Job {
        let (job, outcome) = Job::open(q, series, m, word);
        assert_eq!(outcome, Outcome::ACCEPTED);
        job
    }

    fn opened_shaped(shape: Shape, word: &[u8]) -> Job {
        opened(shape.q(), shape.series(), shape.m, word)
    }

    fn several(r: u16) -> Reply {
        Reply::Finished(Outcome::several_messages_fit(r))
    }

    const NONE: Reply = Reply::Finished(Outcome::NO_MESSAGE_FITS);
    const MESSAGE: Reply = Reply::Finished(Outcome::ACCEPTED);

    /// Each budget with the number brought in and the reply that are expected.
    /// The slice is written just with a message.
    fn assert_replies(mut job: Job, message: &[u8], calls: &[(u8, u8, Reply)]) {
        for &(budget, expected, expected_reply) in calls {
            let mut slice = vec![99; job.message_length()];
            let (after, brought, reply) = job.carry_on(budget, &mut slice);
            assert_eq!((brought, reply), (expected, expected_reply));
            if reply == MESSAGE {
                assert_eq!(slice, message);
            } else {
                assert_eq!(slice, vec![99; slice.len()]);
            }
            job = after;
        }
    }

    /// Both zeros stand in one column, so the second says nothing new of a
    /// polynomial in x alone.
    #[test]
    fn value_g() {
        let job = opened(2, 1, 2, &[0, 0, 255, 255, 255, 255, 255, 255]);
        let one_by_one = [
            (0, 0, Reply::Leaves(2)),
            (1, 1, Reply::Leaves(1)),
            (0, 0, Reply::Leaves(1)),
            (1, 1, several(1)),
            (0, 0, several(1)),
            (255, 0, several(1)),
        ];
        assert_replies(job, &[], &one_by_one);
        assert_replies(job, &[], &[(255, 2, several(1)), (1, 0, several(1))]);
    }

    /// The polynomial a + b * x + c * y at (0,0), (0,1), (2,2) and (3,3): a = 0,
    /// c = 1, b = c, and once more b = c.
    #[test]
    fn value_h() {
        let mut word = [0, 255, 255, 255, 0, 255, 255, 0];
        let three_zeros = [
            (1, 1, Reply::Leaves(2)),
            (1, 1, Reply::Leaves(1)),
            (1, 1, several(1)),
        ];
        assert_replies(opened(2, 1, 3, &word), &[], &three_zeros);
        word[1] = 1;
        let job = opened(2, 1, 3, &word);
        let one_by_one = [
            (0, 0, Reply::Leaves(3)),
            (1, 1, Reply::Leaves(2)),
            (1, 1, Reply::Leaves(1)),
            (1, 1, Reply::Leaves(0)),
            (0, 0, Reply::Leaves(0)),
            (1, 1, MESSAGE),
            (0, 0, MESSAGE),
            (9, 0, MESSAGE),
        ];
        assert_replies(job, &[0, 1, 1], &one_by_one);
        let others = [(2, 2, Reply::Leaves(1)), (7, 2, MESSAGE), (7, 0, MESSAGE)];
        assert_replies(job, &[0, 1, 1], &others);
    }

    /// Word F has 1 at place 5, so 2 there contradicts those before it; a 1 at
    /// place 7 contradicts them only at the end.
    #[test]
    fn value_h_with_a_wrong_symbol() {
        let early = opened(2, 1, 3, &[0, 1, 255, 255, 0, 2, 255, 0]);
        let calls = [
            (3, 3, Reply::Leaves(0)),
            (1, 1, Reply::NoneFits),
            (0, 0, Reply::NoneFits),
            (1, 1, NONE),
            (1, 0, NONE),
        ];
        assert_replies(early, &[], &calls);
        let late = opened(2, 1, 3, &[0, 1, 255, 255, 0, 255, 255, 1]);
        assert_replies(late, &[], &[(3, 3, Reply::Leaves(0)), (1, 1, NONE)]);
    }

    #[test]
    fn value_i() {
        let job = opened(2, 1, 7, &[0, 0, 0, 0, 0, 0, 0, 1]);
        let calls = [
            (6, 6, Reply::Leaves(1)),
            (1, 1, Reply::Leaves(0)),
            (1, 1, NONE),
            (0, 0, NONE),
        ];
        assert_replies(job, &[], &calls);
        assert_replies(job, &[], &[(255, 8, NONE), (255, 0, NONE)]);
    }

    #[test]
    fn nothing_arrived_is_finished_by_any_call() {
        for shape in Shape::every_short_in_both_series() {
            let job = opened_shaped(shape, &vec![MISSING; shape.n]);
            let expected = several(shape.k as u16);
            for budget in BUDGETS {
                assert_replies(job, &[], &[(budget, 0, expected), (1, 0, expected)]);
            }
        }
    }

    #[test]
    fn the_job_of_a_refused_opening() {
        let job = Job::OF_REFUSED_OPENING;
        assert_eq!(job, opened(2, 1, 0, &[MISSING; 8]));
        assert_eq!((job.q(), job.series(), job.m()), (2, 1, 0));
        assert_eq!(job.places(), &[255; 64]);
        assert_replies(job, &[], &[(0, 0, several(1)), (255, 0, several(1))]);
    }

    fn assert_refused_opening(q: u8, series: u8, m: u16, word: &[u8], expected: Outcome) {
        let refused = (Job::OF_REFUSED_OPENING, expected);
        assert_eq!(Job::open(q, series, m, word), refused);
        // Recovery's own refusal, which comes before a look at its slice.
        assert_eq!(code::recover(q, series, m, word, &mut [0; 99]), expected);
    }

    /// The opening starts with every fault and loses them one by one.
    #[test]
    fn openings_are_refused_in_the_order_of_the_checks() {
        for shape in Shape::every_short_in_both_series() {
            let (q, series, m, n) = (shape.q(), shape.series(), shape.m, shape.n);
            let bad = vec![shape.field_size; n + 1];
            for curve_number in [0, 1, 3, 5, 8, 255] {
                for (series, order) in [(0, 255), (series, 256 + m), (3, u16::MAX)] {
                    let expected = Outcome::UNKNOWN_CURVE;
                    assert_refused_opening(curve_number, series, order, &bad, expected);
                }
            }
            for bad_series in sample::BAD_SERIES {
                for order in [m, u16::MAX] {
                    assert_refused_opening(q, bad_series, order, &bad, Outcome::BAD_SERIES);
                }
            }
            for order in sample::numbers_too_high(shape.curve) {
                assert_refused_opening(q, series, order, &bad, Outcome::ORDER_TOO_HIGH);
            }
            for length in [0, 1, n - 1, n + 1] {
                let word = &bad[..length];
                assert_refused_opening(q, series, m, word, Outcome::WRONG_INPUT_LENGTH);
            }
            for value in [shape.field_size, 128, 254] {
                for index in 0..n {
                    let mut word = vec![MISSING; n];
                    word[index..].fill(value);
                    let expected = Outcome::value_too_high(index as u16);
                    assert_refused_opening(q, series, m, &word, expected);
                }
            }
            opened(q, series, m, &vec![0; n]);
        }
    }

    #[test]
    fn a_job_keeps_its_word() {
        let mut generator = Generator::with_seed(71);
        for shape in Shape::every_short_in_both_series() {
            let word = arbitrary_word(&mut generator, shape);
            let mut job = opened_shaped(shape, &word);
            assert_eq!(job.message_length(), shape.k);
            assert_eq!(usize::from(job.arrived_count()), sample::known_count(&word));
            for _ in 0..3 {
                assert_eq!((job.q(), job.m()), (shape.q(), shape.m));
                assert_eq!(job.series(), shape.series());
                assert_eq!(job.places()[..shape.n], word);
                assert_eq!(job.places()[shape.n..], vec![255; 64 - shape.n]);
                job = job.carry_on(20, &mut vec![0; shape.k]).0;
            }
        }
    }

    /// A codeword with any number of symbols known, every third one damaged.
    fn arbitrary_word(generator: &mut Generator, shape: Shape) -> Vec<u8> {
        let codeword = sample::codeword(generator, shape);
        let known = generator.below(shape.n + 1);
        let broken = sample::with_known(generator, &codeword, known);
        if generator.below(3) == 0 {
            sample::damaged(generator, shape, &broken)
        } else {
            broken
        }
    }

    fn arbitrary_budget(generator: &mut Generator) -> u8 {
        BUDGETS[generator.below(BUDGETS.len())]
    }

    /// Every order, with calls of wrong length in between.
    #[test]
    fn finished_jobs_say_what_recovery_in_one_go_says() {
        let mut generator = Generator::with_seed(72);
        for shape in Shape::every_short_in_both_series().flat_map(|shape| [shape; 4]) {
            let word = arbitrary_word(&mut generator, shape);
            let slice = generator.bytes(shape.k);
            let mut message = slice.clone();
            let (q, series) = (shape.q(), shape.series());
            let outcome = code::recover(q, series, shape.m, &word, &mut message);
            let expected = (Reply::Finished(outcome), message);
            let job = opened_shaped(shape, &word);
            let (job, result) = carried_to_the_end(&mut generator, shape, job, &slice);
            assert_eq!(result, expected);
            for budget in BUDGETS {
                assert_refused_call(&mut generator, shape, job);
                let mut message = slice.clone();
                let again = job.carry_on(budget, &mut message);
                assert_eq!(again, (job, 0, expected.0));
                assert_eq!(message, expected.1);
            }
        }
    }

    /// The finished job, and the last call's reply and slice, which holds the
    /// given bytes before every call.
    fn carried_to_the_end(
        generator: &mut Generator,
        shape: Shape,
        mut job: Job,
        slice: &[u8],
    ) -> (Job, (Reply, Vec<u8>)) {
        let mut remaining = job.arrived_count();
        loop {
            assert_refused_call(generator, shape, job);
            let budget = arbitrary_budget(generator);
            let mut message = slice.to_vec();
            let (after, brought, reply) = job.carry_on(budget, &mut message);
            assert_eq!(brought, budget.min(remaining));
            remaining -= brought;
            if remaining == 0 {
                return (after, (reply, message));
            }
            assert!(matches!(reply, Reply::NoneFits | Reply::Leaves(_)));
            assert_eq!(message, slice);
            job = after;
        }
    }

    fn assert_refused_call(generator: &mut Generator, shape: Shape, job: Job) {
        for length in [0, shape.k - 1, shape.k + 1, 72] {
            if length != shape.k {
                let before = generator.bytes(length);
                let mut slice = before.clone();
                let budget = arbitrary_budget(generator);
                let refused = (job, 0, Reply::Refused);
                assert_eq!(job.carry_on(budget, &mut slice), refused);
                assert_eq!(slice, before);
            }
        }
    }

    #[test]
    fn two_calls_bring_in_what_one_of_both_budgets_does() {
        let mut generator = Generator::with_seed(73);
        for shape in Shape::every_short_in_both_series() {
            let word = arbitrary_word(&mut generator, shape);
            let job = opened_shaped(shape, &word);
            let [first, second] = [(); 2].map(|()| generator.byte_from(0, 40));
            let mut message = vec![99; shape.k];
            let (after, one, _) = job.carry_on(first, &mut message);
            let (after, other, reply) = after.carry_on(second, &mut message);
            let mut at_once = vec![99; shape.k];
            let expected = (after, one + other, reply);
            assert_eq!(job.carry_on(first + second, &mut at_once), expected);
            assert_eq!(message, at_once);
        }
    }

    /// Orders whose messages can all be tried.
    #[test]
    fn replies_while_working_agree_with_trying_every_message() {
        let mut generator = Generator::with_seed(74);
        for shape in Shape::every_order(Curve::Q_IS_2).take(5) {
            let words = sample::all_messages_with_words(shape);
            for _ in 0..300 {
                let word = arbitrary_word(&mut generator, shape);
                agrees_with_trial(shape, &words, &word);
            }
        }
    }

    /// One symbol a call.
    fn agrees_with_trial(shape: Shape, words: &[(Vec<u8>, Vec<u8>)], broken: &[u8]) {
        let arrived: Vec<usize> = (0..shape.n).filter(|&p| broken[p] != MISSING).collect();
        let mut job = opened_shaped(shape, broken);
        for count in 0..arrived.len() {
            let so_far = &arrived[..count];
            let fits = |word: &[u8]| so_far.iter().all(|&place| word[place] == broken[place]);
            let fitting = words.iter().filter(|(_, word)| fits(word)).count();
            let mut message = vec![99; shape.k];
            let (after, brought, reply) = job.carry_on(u8::from(count > 0), &mut message);
            assert_eq!(brought, u8::from(count > 0));
            assert_eq!(message, vec![99; shape.k]);
            match reply {
                Reply::NoneFits => assert_eq!(fitting, 0),
                Reply::Leaves(r) => assert_eq!(fitting, 4usize.pow(u32::from(r))),
                other => panic!("{other:?} although some symbols remain"),
            }
            job = after;
        }
    }

    #[test]
    fn the_two_numbers_of_a_reply() {
        let pairs = [
            (Reply::Refused, (5, 0)),
            (Reply::NoneFits, (9, 0)),
            (Reply::Leaves(0), (10, 0)),
            (Reply::Leaves(58), (10, 58)),
            (MESSAGE, (0, 0)),
            (NONE, (9, 0)),
            (several(3), (10, 3)),
        ];
        for (reply, expected) in pairs {
            let Outcome { number, second } = reply.outcome();
            assert_eq!((number, second), expected);
        }
    }
}
