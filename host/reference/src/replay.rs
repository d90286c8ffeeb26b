//! A whole session in one call, from its opening to one asking.

use crate::outcome::Outcome;
use crate::session::Session;

/// The bytes of an arrival: the place's low byte and its high byte, the symbol,
/// the round.
pub const ARRIVAL_LENGTH: usize = 4;

/// Opens a session, lets the arrivals come one after another, accepted or not, and
/// asks. A rest that is too short for an arrival is ignored. A refused opening is
/// the answer.
pub fn replay(q: u8, series: u8, m: u16, arrivals: &[u8], message: &mut [u8]) -> Outcome {
    let (opened, outcome) = Session::open(q, series, m);
    if outcome != Outcome::ACCEPTED {
        return outcome;
    }
    let arrivals = arrivals.chunks_exact(ARRIVAL_LENGTH);
    let session = arrivals.fold(opened, |session, bytes| {
        let place = u16::from_le_bytes([bytes[0], bytes[1]]);
        session.arrive(place, bytes[2], bytes[3]).0
    });
    session.ask(message)
}

/// The bytes of an arrival in a list for `replay`.
pub fn arrival_bytes(place: u16, symbol: u8, round: u8) -> [u8; ARRIVAL_LENGTH] {
    let [low, high] = place.to_le_bytes();
    [low, high, symbol, round]
}

#[cfg(test)]
mod tests {
    use super::*;
    use crate::generator::Generator;
    use crate::sample::{self, Shape};
    use crate::worked_session::worked_sessions;

    /// The answer with a slice of this length, which only a message is written
    /// to.
    fn run(q: u8, series: u8, m: u16, arrivals: &[u8], length: usize) -> Result<Vec<u8>, Outcome> {
        let mut message = vec![99; length];
        match replay(q, series, m, arrivals, &mut message) {
            Outcome::ACCEPTED => Ok(message),
            refusal => {
                assert_eq!(message, vec![99; length]);
                Err(refusal)
            }
        }
    }

    /// Value H of paper 01: three zeros, and a 1 at place 1.
    const VALUE_H: [u8; 16] = [0, 0, 0, 0, 4, 0, 0, 0, 7, 0, 0, 0, 1, 0, 1, 0];

    #[test]
    fn value_h() {
        assert_eq!(run(2, 1, 3, &VALUE_H, 3), Ok(vec![0, 1, 1]));
        let several = |r| Err(Outcome::several_messages_fit(r));
        assert_eq!(run(2, 1, 3, &VALUE_H[..12], 3), several(1));
        assert_eq!(run(2, 1, 3, &[], 3), several(3));
    }

    /// The rest would be a 2 at place 5, where the word has 1.
    #[test]
    fn a_rest_of_one_to_three_bytes_is_ignored() {
        let wrong = arrival_bytes(5, 2, 0);
        assert_eq!(wrong, [5, 0, 2, 0]);
        for length in 0..4 {
            let arrivals = [VALUE_H.as_slice(), &wrong[..length]].concat();
            assert_eq!(run(2, 1, 3, &arrivals, 3), Ok(vec![0, 1, 1]));
        }
        let arrivals = [VALUE_H, [5, 0, 2, 0, 9, 9, 9, 9, 9, 9, 9, 9, 9, 9, 9, 9]].concat();
        assert_eq!(run(2, 1, 3, &arrivals, 3), Err(Outcome::NO_MESSAGE_FITS));
    }

    /// A 2 in a higher round: at place 1 of another message, at place 5 of none, and
    /// refused at the places that end in the same eight bits.
    #[test]
    fn the_second_byte_of_a_place_counts() {
        assert_eq!(arrival_bytes(258, 3, 7), [2, 1, 3, 7]);
        let answers = [(1, Ok(vec![0, 2, 2])), (5, Err(Outcome::NO_MESSAGE_FITS))];
        for (place, answer) in answers {
            let at_place = [VALUE_H.as_slice(), &[place, 0, 2, 9]].concat();
            assert_eq!(run(2, 1, 3, &at_place, 3), answer);
            for high in [1, 2, 128, 255] {
                let beyond = [VALUE_H.as_slice(), &[place, high, 2, 9]].concat();
                assert_eq!(run(2, 1, 3, &beyond, 3), Ok(vec![0, 1, 1]));
            }
        }
    }

    #[test]
    fn refusals_of_the_opening_and_of_the_asking() {
        assert_eq!(run(3, 0, 65535, &VALUE_H, 3), Err(Outcome::UNKNOWN_CURVE));
        for series in sample::BAD_SERIES {
            let refused = Err(Outcome::BAD_SERIES);
            assert_eq!(run(2, series, 65535, &VALUE_H, 3), refused);
        }
        for m in [8, 255, 256, 259, 65535] {
            assert_eq!(run(2, 1, m, &VALUE_H, 3), Err(Outcome::ORDER_TOO_HIGH));
        }
        for length in [0, 2, 4] {
            let refused = Err(Outcome::WRONG_OUTPUT_LENGTH);
            assert_eq!(run(2, 1, 3, &VALUE_H, length), refused);
        }
    }

    #[test]
    fn the_worked_sessions() {
        for worked in worked_sessions() {
            let arrivals = worked.arrivals.iter();
            let bytes: Vec<u8> = arrivals
                .flat_map(|&(place, symbol, round)| arrival_bytes(place, symbol, round))
                .collect();
            let k = if worked.m == 0 { 1 } else { 3 };
            for series in [1, 2] {
                assert_eq!(run(2, series, worked.m, &bytes, k), worked.answer);
            }
        }
    }

    #[test]
    fn m_plus_1_arrivals_are_enough_at_every_order() {
        let mut generator = Generator::with_seed(81);
        for shape in Shape::every_short_in_both_series() {
            let message = sample::message(&mut generator, shape);
            let word = shape.word_of(&message);
            let places = generator.permutation(shape.n);
            let known = &places[..=usize::from(shape.m)];
            let arrivals: Vec<u8> = known
                .iter()
                .flat_map(|&place| arrival_bytes(place as u16, word[place], generator.byte()))
                .collect();
            let (q, series) = (shape.q(), shape.series());
            assert_eq!(run(q, series, shape.m, &arrivals, shape.k), Ok(message));
        }
    }
}
