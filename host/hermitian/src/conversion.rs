//! Words of one strap series as words of the other.

use crate::entries;
use crate::refusal::{self, Refusal};

/// Writes a word of the named series, whole or broken, as the word of the other one:
/// each point keeps its symbol or [`MISSING`](crate::MISSING). n bytes in, n bytes out.
///
/// The word may hold any symbols; that of a message becomes the message's word in the
/// other series.
///
/// ```
/// use hermitian::{convert, encode, recover, Refusal, MISSING};
///
/// let message = [7; 32];
/// let (mut sent, mut converted, mut expected) = ([0; 64], [0; 64], [0; 64]);
/// encode(4, 2, 37, &message, &mut sent)?;
/// convert(4, 2, &sent, &mut converted)?;
/// encode(4, 1, 37, &message, &mut expected)?;
/// assert_eq!(converted, expected);
///
/// // A lost column: the fourth of series 2 is x = 4, the fifth of series 1.
/// sent[12..16].fill(MISSING);
/// convert(4, 2, &sent, &mut converted)?;
/// assert_eq!(converted[16..20], [MISSING; 4]);
/// let mut read = [0; 32];
/// recover(4, 1, 37, &converted, &mut read)?;
/// assert_eq!(read, message);
/// # Ok::<(), Refusal>(())
/// ```
///
/// # Errors
///
/// Refusals 1, 17 and 3 to 5, checked in this order. A refused call leaves `out`
/// unchanged.
pub fn convert(q: u8, series: u8, word: &[u8], out: &mut [u8]) -> Result<(), Refusal> {
    // Safety: slices are never null and are good for their length, and a mutably
    // borrowed one overlaps with no other.
    let answer = unsafe {
        entries::hermitian_convert(
            q,
            series,
            word.as_ptr(),
            word.len(),
            out.as_mut_ptr(),
            out.len(),
        )
    };
    refusal::of_answer(answer)
}

#[cfg(test)]
mod tests {
    use super::*;
    use crate::MISSING;

    /// Column 3 of series 2 is x = 4, and column 15 is x = 9.
    #[test]
    fn places_go_to_the_places_of_their_points() -> Result<(), Refusal> {
        let word: [u8; 64] = std::array::from_fn(|place| place as u8 % 13);
        let (mut out, mut back) = ([99; 64], [99; 64]);
        convert(4, 2, &word, &mut out)?;
        assert_eq!(out[..12], word[..12]);
        assert_eq!(out[16..20], word[12..16]);
        assert_eq!(out[36..40], word[60..]);
        convert(4, 1, &out, &mut back)?;
        assert_eq!(back, word);
        convert(4, 1, &word, &mut out)?;
        assert_eq!(out[12..16], word[16..20]);
        assert_eq!(out[60..], word[36..40]);
        Ok(())
    }

    #[test]
    fn small_words_stay_as_they_are() -> Result<(), Refusal> {
        let word = [0, 1, 2, 3, MISSING, 3, MISSING, 0];
        for series in [1, 2] {
            let mut out = [99; 8];
            convert(2, series, &word, &mut out)?;
            assert_eq!(out, word);
        }
        Ok(())
    }

    /// Each call has the faults of all that follow it.
    #[test]
    fn every_refusal_is_named() {
        let bad = [255, 16, 254, 0, 0, 0, 0, 0];
        let calls: [(u8, u8, &[u8], usize, Refusal); 8] = [
            (3, 0, &bad[1..], 0, Refusal::UnknownCurve),
            (2, 0, &bad[1..], 0, Refusal::BadSeries),
            (4, 3, &bad[1..], 0, Refusal::BadSeries),
            (8, 255, &bad[1..], 0, Refusal::BadSeries),
            (2, 1, &bad[1..], 0, Refusal::WrongInputLength),
            (2, 2, &bad, 0, Refusal::NotASymbol { index: 1 }),
            (2, 1, &[255; 8], 7, Refusal::WrongOutputLength),
            (2, 2, &[255; 8], 64, Refusal::WrongOutputLength),
        ];
        for (q, series, word, length, refusal) in calls {
            let mut out = vec![9; length];
            assert_eq!(convert(q, series, word, &mut out), Err(refusal));
            assert_eq!(out, vec![9; length]);
        }
    }
}
