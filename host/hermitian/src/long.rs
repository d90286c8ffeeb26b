//! Recovery of long blocks, q = 8.

use crate::entries;
use crate::refusal::{self, Refusal};

/// The bytes that [`recover_long`] is lent to work in.
pub const WORK_LENGTH: usize = 262_144;

/// Writes the only message that fits a word of a long block in which
/// [`MISSING`](crate::MISSING) stands at each missing place: 512 bytes in, k symbols
/// of q = 8 out. `work` is [`WORK_LENGTH`] bytes with any content.
///
/// ```
/// use hermitian::{encode, recover_long, MISSING, WORK_LENGTH};
///
/// let message: Vec<u8> = (0..64).cycle().take(273).collect();
/// let mut word = [0; 512];
/// encode(8, 1, 300, &message, &mut word)?;
///
/// // Any 301 symbols are enough.
/// word[..211].fill(MISSING);
/// let mut work = vec![0; WORK_LENGTH];
/// let mut read = [0; 273];
/// recover_long(1, 300, &word, &mut read, &mut work)?;
/// assert_eq!(read.as_slice(), message);
/// # Ok::<(), hermitian::Refusal>(())
/// ```
///
/// # Errors
///
/// Refusals 17, 2 to 5, 14, 9 and 10, checked in this order. A refused call leaves
/// `message` unchanged. What `work` holds afterwards is left open after a success and after refusals 9 and 10;
/// the other refusals leave it unchanged.
pub fn recover_long(
    series: u8,
    m: u16,
    word: &[u8],
    message: &mut [u8],
    work: &mut [u8],
) -> Result<(), Refusal> {
    // Safety: slices are never null and are good for their length, and a mutably
    // borrowed one overlaps with no other.
    let answer = unsafe {
        entries::hermitian_recover_long(
            series,
            m,
            word.as_ptr(),
            word.len(),
            message.as_mut_ptr(),
            message.len(),
            work.as_mut_ptr(),
            work.len(),
        )
    };
    refusal::of_answer(answer)
}

#[cfg(test)]
mod tests {
    use super::*;
    use crate::{encode, mend, recover, unencode, MISSING};

    /// x, the message 0 1 of order 8, has the value of its column at each place.
    #[test]
    fn a_word_that_is_known_without_the_curve() -> Result<(), Refusal> {
        let mut word = [0; 512];
        encode(8, 1, 8, &[0, 1], &mut word)?;
        assert!((0..512).all(|place| usize::from(word[place]) == place / 8));
        let mut message = [9; 2];
        unencode(8, 1, 8, &word, &mut message)?;
        assert_eq!(message, [0, 1]);
        word[16..].fill(MISSING);
        let mut work = vec![1; WORK_LENGTH];
        message = [9; 2];
        recover_long(1, 8, &word, &mut message, &mut work)?;
        assert_eq!(message, [0, 1]);
        Ok(())
    }

    /// Column 63 of series 2 is z to the power 62, the inverse of z. The word of one
    /// series fits no message in the other.
    #[test]
    fn the_series_counts() -> Result<(), Refusal> {
        let mut word = [0; 512];
        encode(8, 2, 8, &[0, 1], &mut word)?;
        assert_eq!(
            [16, 24, 48, 56, 504].map(|place| word[place]),
            [2, 4, 32, 3, 33]
        );
        let mut work = vec![1; WORK_LENGTH];
        let mut message = [9; 2];
        recover_long(2, 8, &word, &mut message, &mut work)?;
        assert_eq!(message, [0, 1]);
        let refusal = recover_long(1, 8, &word, &mut message, &mut work).unwrap_err();
        assert_eq!(refusal, Refusal::NoMessageFits);
        Ok(())
    }

    /// One column leaves the factor of x open, and no symbol both of them.
    #[test]
    fn refusals_9_and_10_of_a_long_block() {
        let mut work = vec![1; WORK_LENGTH];
        let mut word = [MISSING; 512];
        let mut recovered = |word: &[u8]| {
            let mut message = [9; 2];
            let answer = recover_long(1, 8, word, &mut message, &mut work);
            assert_eq!(message, [9; 2]);
            answer
        };
        let several = |power| Err(Refusal::SeveralMessagesFit { power });
        assert_eq!(recovered(&word), several(2));
        word[..8].fill(5);
        assert_eq!(recovered(&word), several(1));
        word[7] = 4;
        assert_eq!(recovered(&word), Err(Refusal::NoMessageFits));
    }

    /// The series, m, word, lengths of the message and of the work slice, and the
    /// refusal.
    type Refused<'a> = (u8, u16, &'a [u8], usize, usize, Refusal);

    #[test]
    fn refusals_before_the_work_begins_leave_all_slices() {
        let word = [0; 512];
        let bad = [64; 512];
        let right = WORK_LENGTH;
        let calls: [Refused; 8] = [
            (0, 512, &bad[1..], 0, 0, Refusal::BadSeries),
            (3, 512, &bad[1..], 0, 0, Refusal::BadSeries),
            (1, 512, &bad[1..], 0, 0, Refusal::OrderTooHigh),
            (2, 8, &bad[1..], 0, 0, Refusal::WrongInputLength),
            (1, 8, &bad, 0, 0, Refusal::NotASymbol { index: 0 }),
            (2, 8, &word, 3, 0, Refusal::WrongOutputLength),
            (1, 8, &word, 2, right - 1, Refusal::WrongWorkLength),
            (2, 8, &word, 2, right + 1, Refusal::WrongWorkLength),
        ];
        for (series, m, word, length, work_length, refusal) in calls {
            let mut message = vec![9; length];
            let mut work = vec![7; work_length];
            let answer = recover_long(series, m, word, &mut message, &mut work);
            assert_eq!(answer, Err(refusal));
            assert_eq!(message, vec![9; length]);
            assert!(work.iter().all(|&byte| byte == 7));
        }
    }

    #[test]
    fn the_calls_for_short_blocks_refuse_8() {
        let mut message = [9; 273];
        let answer = recover(8, 1, 300, &[0; 512], &mut message);
        assert_eq!(answer, Err(Refusal::UnknownCurve));
        assert_eq!(message, [9; 273]);
        assert_eq!(mend(8, 1, 300, &[0; 512]), Err(Refusal::UnknownCurve));
    }
}
