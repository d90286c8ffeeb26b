//! Encoding with given symbols at chosen places.

use crate::entries;
use crate::refusal::{self, Refusal};

/// Writes the only word of a short block that has `symbols[i]` at place `places[i]`,
/// for all i: k places and k symbols in, n symbols out. The places ascend strictly
/// and are below n; place q·c + i is point i of column c, both from 0, in the list of
/// the series.
///
/// Whoever knows the places reads the symbols straight from the word. It is a
/// codeword like any other: [`unencode`](crate::unencode) gives its message, which
/// isn't the symbols, and [`recover`](crate::recover) finds what gets lost.
///
/// ```
/// use hermitian::{encode_at, unencode, Refusal};
///
/// // In every column the first place, and the second or the third in turn.
/// let places: Vec<u16> = (0..16).flat_map(|x| [4 * x, 4 * x + 1 + x % 2]).collect();
/// let payload: Vec<u8> = (0..16).cycle().take(32).collect();
/// let mut word = [0; 64];
/// encode_at(4, 1, 37, &places, &payload, &mut word)?;
///
/// let read = places.iter().map(|&place| word[usize::from(place)]);
/// assert!(read.eq(payload.clone()));
/// unencode(4, 1, 37, &word, &mut [0; 32])?;
///
/// // Two codewords agree on the first eight columns.
/// let columns: Vec<u16> = (0..32).collect();
/// let refusal = encode_at(4, 1, 37, &columns, &payload, &mut word).unwrap_err();
/// assert_eq!(refusal, Refusal::PlacesLeaveSeveral);
/// # Ok::<(), Refusal>(())
/// ```
///
/// # Errors
///
/// Refusals 1, 17, 2, 15, 3, 4, 5 and 16, checked in this order; q = 8 meets 1.
/// Whether 16 comes depends on q, the series, m and the places alone. A refused call
/// leaves `word` unchanged.
pub fn encode_at(
    q: u8,
    series: u8,
    m: u16,
    places: &[u16],
    symbols: &[u8],
    word: &mut [u8],
) -> Result<(), Refusal> {
    // Safety: slices are never null, are aligned for what they hold and good for
    // their length, and a mutably borrowed one overlaps with no other.
    let answer = unsafe {
        entries::hermitian_encode_at(
            q,
            series,
            m,
            places.as_ptr(),
            places.len(),
            symbols.as_ptr(),
            symbols.len(),
            word.as_mut_ptr(),
            word.len(),
        )
    };
    refusal::of_answer(answer)
}

#[cfg(test)]
mod tests {
    use super::*;
    use crate::{encode, recover};

    #[test]
    fn value_e_from_three_of_its_symbols() -> Result<(), Refusal> {
        for (places, symbols) in [([0, 1, 2], [1, 2, 2]), ([5, 6, 7], [0, 1, 2])] {
            let mut word = [9; 8];
            encode_at(2, 1, 3, &places, &symbols, &mut word)?;
            assert_eq!(word, [1, 2, 2, 1, 3, 0, 1, 2]);
        }
        Ok(())
    }

    /// A word that is known without the curve: at order 0 all symbols are the same.
    #[test]
    fn any_one_place_will_do_at_order_0() -> Result<(), Refusal> {
        for place in 0..64 {
            let mut word = [9; 64];
            encode_at(4, 1, 0, &[place], &[13], &mut word)?;
            assert_eq!(word, [13; 64]);
            let mut message = [0];
            recover(4, 1, 0, &word, &mut message)?;
            assert_eq!(message, [13]);
        }
        Ok(())
    }

    /// x, the word of the message 0 1 of order 4, from its symbols in the columns 3
    /// and 15.
    #[test]
    fn the_series_counts() -> Result<(), Refusal> {
        for (series, symbols) in [(1, [3, 15]), (2, [4, 9])] {
            let (mut word, mut x) = ([99; 64], [0; 64]);
            encode_at(4, series, 4, &[12, 60], &symbols, &mut word)?;
            encode(4, series, 4, &[0, 1], &mut x)?;
            assert_eq!(word, x);
        }
        Ok(())
    }

    /// q, the series, m, places, symbols, length of the word, and the refusal.
    type Refused<'a> = (u8, u8, u16, &'a [u16], &'a [u8], usize, Refusal);

    /// Each call has the faults of all that follow it.
    #[test]
    fn every_refusal_is_named() {
        let bad: [u8; 3] = [0, 4, 255];
        let calls: [Refused; 15] = [
            (8, 0, 8, &[], &[], 0, Refusal::UnknownCurve),
            (2, 0, 8, &[], &[], 0, Refusal::BadSeries),
            (2, 3, 8, &[], &[], 0, Refusal::BadSeries),
            (2, 255, 8, &[], &[], 0, Refusal::BadSeries),
            (2, 1, 8, &[], &[], 0, Refusal::OrderTooHigh),
            (2, 2, 256 + 3, &[], &[], 0, Refusal::OrderTooHigh),
            (2, 1, 3, &[], &[], 0, Refusal::BadPlaces),
            (2, 1, 3, &[0, 1], &[], 0, Refusal::BadPlaces),
            (2, 1, 3, &[0, 4, 4], &[], 0, Refusal::BadPlaces),
            (2, 1, 3, &[0, 4, 8], &[], 0, Refusal::BadPlaces),
            (2, 1, 3, &[0, 4, 256 + 7], &[], 0, Refusal::BadPlaces),
            (2, 1, 3, &[0, 4, 7], &bad[1..], 0, Refusal::WrongInputLength),
            (
                2,
                1,
                3,
                &[0, 4, 7],
                &bad,
                0,
                Refusal::NotASymbol { index: 1 },
            ),
            (2, 1, 3, &[0, 4, 7], &[0; 3], 9, Refusal::WrongOutputLength),
            (
                2,
                1,
                3,
                &[0, 4, 7],
                &[1, 2, 3],
                8,
                Refusal::PlacesLeaveSeveral,
            ),
        ];
        for (q, series, m, places, symbols, length, refusal) in calls {
            let mut word = vec![9; length];
            let answer = encode_at(q, series, m, places, symbols, &mut word);
            assert_eq!(answer, Err(refusal));
            assert_eq!(word, vec![9; length]);
        }
    }
}
