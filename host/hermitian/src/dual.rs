//! Checking whole words without unencoding them.

use crate::entries;
use crate::refusal::{self, Refusal};

/// Whether a whole word is a codeword of the order m, found without its message: n
/// symbols in.
///
/// Where it isn't refused it says yes exactly when [`unencode`](crate::unencode) by the
/// same q, series and m, lent a slice of length k, succeeds. It takes all three curves,
/// and orders from 2g - 1 on, where g is 1 for q = 2, 6 for q = 4 and 28 for q = 8: from 1,
/// 11 and 55.
///
/// A relay that passes good blocks of the strap on and drops the others:
///
/// ```
/// use hermitian::{check, encode, Refusal};
///
/// let mut block = [0; 64];
/// encode(4, 1, 37, &[7; 32], &mut block)?;
/// assert!(check(4, 1, 37, &block)?);
///
/// block[20] ^= 1;
/// assert!(!check(4, 1, 37, &block)?);
///
/// assert_eq!(check(4, 1, 10, &block), Err(Refusal::OrderTooLowToCheck));
/// # Ok::<(), Refusal>(())
/// ```
///
/// # Errors
///
/// Refusals 1, 17, 2, 19, 3 and 4, checked in this order. A word that is no codeword is
/// no error.
pub fn check(q: u8, series: u8, m: u16, word: &[u8]) -> Result<bool, Refusal> {
    let mut verdict = 0;
    // Safety: a slice's pointer is never null and is good for its length, and that to a
    // local variable is good for one byte, which is no part of the slice.
    let answer =
        unsafe { entries::hermitian_check(q, series, m, word.as_ptr(), word.len(), &mut verdict) };
    refusal::of_answer(answer)?;
    Ok(verdict == 1)
}

#[cfg(test)]
mod tests {
    use super::*;
    use crate::{encode, message_length};

    /// Value E of the paper: message 1 2 3 of order 3 has the word 1 2 2 1 3 0 1 2.
    #[test]
    fn value_e() {
        for series in [1, 2] {
            let mut word = [1, 2, 2, 1, 3, 0, 1, 2];
            let verdicts = [1, 2, 3, 4, 5, 6, 7].map(|m| check(2, series, m, &word));
            assert_eq!(verdicts, [1, 2, 3, 4, 5, 6, 7].map(|m| Ok(m >= 3)));
            word[4] = 0;
            assert_eq!(check(2, series, 3, &word), Ok(false));
        }
    }

    /// x, the message 0 1 of order 4, which is one of order 37 too.
    #[test]
    fn the_series_counts() -> Result<(), Refusal> {
        for series in [1, 2] {
            let mut word = [0; 64];
            encode(4, series, 4, &[0, 1], &mut word)?;
            assert!(check(4, series, 37, &word)?);
            assert!(!check(4, 3 - series, 37, &word)?);
        }
        Ok(())
    }

    /// A word of the next order is none of this one; and a wrong symbol is noticed at the
    /// highest order too.
    #[test]
    fn words_of_every_curve() -> Result<(), Refusal> {
        for (q, n, m) in [
            (2, 8, 1),
            (2, 8, 4),
            (4, 64, 11),
            (4, 64, 37),
            (8, 512, 283),
        ] {
            for order in [m, m + 1] {
                let k = message_length(q, order).ok_or(Refusal::OrderTooHigh)?;
                let mut word = vec![0; n];
                encode(q, 1, order, &vec![1; k], &mut word)?;
                assert_eq!(check(q, 1, m, &word), Ok(order == m));
                assert_eq!(check(q, 1, m + 1, &word), Ok(true));
                word[n - 1] ^= 1;
                assert_eq!(check(q, 1, n as u16 - 1, &word), Ok(false));
            }
        }
        Ok(())
    }

    /// Each call has the faults of all that follow it.
    #[test]
    fn every_refusal_is_named() {
        let mut word = [0; 512];
        word[3] = 255;
        word[5] = 64;
        for (q, n, lowest) in [(2, 8, 1), (4, 64, 11), (8, 512, 55)] {
            let (too_long, bad) = (&[16; 513][..n + 1], &word[..n]);
            let refused = |q, series, m, word| check(q, series, m, word).unwrap_err();
            assert_eq!(refused(3, 0, 0, too_long), Refusal::UnknownCurve);
            for m in [0, lowest, n as u16, 256 + n as u16, u16::MAX] {
                assert_eq!(refused(q, 0, m, too_long), Refusal::BadSeries);
                assert_eq!(refused(q, 3, m, too_long), Refusal::BadSeries);
            }
            for m in [n as u16, 512, 512 + lowest, u16::MAX] {
                assert_eq!(refused(q, 1, m, too_long), Refusal::OrderTooHigh);
            }
            for m in 0..lowest {
                assert_eq!(refused(q, 2, m, too_long), Refusal::OrderTooLowToCheck);
            }
            assert_eq!(refused(q, 1, lowest, too_long), Refusal::WrongInputLength);
            assert_eq!(refused(q, 1, lowest, &[]), Refusal::WrongInputLength);
            let not_a_symbol = Refusal::NotASymbol { index: 3 };
            assert_eq!(refused(q, 2, lowest, bad), not_a_symbol);
        }
    }
}
