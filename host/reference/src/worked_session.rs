//! Sessions at q = 2 whose answers are worked out by hand from value H of paper
//! 01 and the requests T-01 and T-04. Both series have the same points there.

use crate::outcome::Outcome;

/// A place, a symbol and a round.
pub type Arrival = (u16, u8, u8);

/// A session of order `m`, and what it is answered when asked after the
/// arrivals: a message, or a refusal.
pub struct WorkedSession {
    pub m: u16,
    pub arrivals: Vec<Arrival>,
    pub answer: Result<Vec<u8>, Outcome>,
}

/// The zeros of value H, one of them twice, and a symbol that is refused.
const ZEROS: [Arrival; 5] = [(0, 0, 0), (4, 0, 0), (7, 0, 0), (7, 0, 0), (5, 4, 0)];
const ONE: [Arrival; 1] = [(1, 1, 0)];

/// Two different symbols of round 3, a conflict, and the first again.
const fn conflict(place: u16) -> [Arrival; 3] {
    [(place, 1, 3), (place, 2, 3), (place, 1, 3)]
}

pub fn worked_sessions() -> Vec<WorkedSession> {
    let several = |r| Err(Outcome::several_messages_fit(r));
    let message = || Ok(vec![0, 1, 1]);
    let at_order_3: [(&[&[Arrival]], _); 9] = [
        // Nothing arrived, value H, and H with 1 at place 1 too.
        (&[], several(3)),
        (&[&ZEROS], several(1)),
        (&[&ZEROS, &ONE], message()),
        // A conflict counts as missing, whether the place was needed or not.
        (&[&conflict(2), &ZEROS, &ONE], message()),
        (&[&ZEROS, &conflict(1)], several(1)),
        // A symbol after a conflict, in its round and in a higher one.
        (&[&ZEROS, &conflict(1), &[(1, 1, 3)]], several(1)),
        (&[&ZEROS, &conflict(1), &[(1, 1, 4)]], message()),
        // Differing symbols of a higher and a lower round.
        (&[&ZEROS, &[(1, 2, 0), (1, 1, 1), (1, 3, 0)]], message()),
        // The same symbol of a higher round takes that round.
        (&[&ZEROS, &[(1, 1, 0), (1, 1, 2), (1, 3, 1)]], message()),
    ];
    let mut sessions: Vec<WorkedSession> = at_order_3
        .into_iter()
        .map(|(parts, answer)| WorkedSession {
            m: 3,
            arrivals: parts.concat(),
            answer,
        })
        .collect();
    // Words of order 0 hold one symbol everywhere.
    sessions.push(WorkedSession {
        m: 0,
        arrivals: vec![(3, 1, 0), (6, 2, 0)],
        answer: Err(Outcome::NO_MESSAGE_FITS),
    });
    sessions
}

#[cfg(test)]
mod tests {
    use super::*;
    use crate::session::Session;

    #[test]
    fn each_session_is_answered_as_worked_out() {
        let sessions = || worked_sessions().into_iter();
        let in_both_series = [1, 2].map(|series| sessions().map(move |worked| (series, worked)));
        for (series, worked) in in_both_series.into_iter().flatten() {
            let (mut session, _) = Session::open(2, series, worked.m);
            for &(place, symbol, round) in &worked.arrivals {
                session = session.arrive(place, symbol, round).0;
            }
            let k = if worked.m == 0 { 1 } else { 3 };
            let mut slice = vec![9; k];
            let answer = match session.ask(&mut slice) {
                Outcome::ACCEPTED => Ok(slice),
                refusal => {
                    assert_eq!(slice, vec![9; k]);
                    Err(refusal)
                }
            };
            assert_eq!(answer, worked.answer, "{:?}", worked.arrivals);
        }
    }
}
