//! Mending of whole words with wrong symbols.

use crate::entries;
use crate::refusal::{self, Refusal};
use crate::{message_length, word_length};

/// What was found near a word.
#[derive(Clone, Debug, PartialEq, Eq)]
pub struct Mended {
    /// The message of the codeword.
    pub message: Vec<u8>,
    /// The codeword.
    pub word: Vec<u8>,
    /// The places where the codeword differs from the word given, ascending.
    pub changed_places: Vec<usize>,
}

impl Mended {
    /// How many symbols were changed.
    pub fn change_count(&self) -> usize {
        self.changed_places.len()
    }
}

/// Finds the only codeword that differs from a whole word in at most t places,
/// where t is n - m - 1 - g halved and rounded down, and g is 1 for q = 2 and 6
/// for q = 4. At t = 0 only codewords pass.
///
/// A block of the strap, where t is 10, with 10 wrong symbols:
///
/// ```
/// use hermitian::{encode, mend, Refusal};
///
/// let message = [7; 32];
/// let mut sent = [0; 64];
/// encode(4, 1, 37, &message, &mut sent)?;
///
/// let mut received = sent;
/// let wrong_places = [0, 3, 8, 15, 24, 35, 48, 61, 62, 63];
/// for place in wrong_places {
///     received[place] ^= 5;
/// }
/// let mended = mend(4, 1, 37, &received)?;
/// assert_eq!(mended.message, message);
/// assert_eq!(mended.word, sent);
/// assert_eq!(mended.change_count(), 10);
/// assert_eq!(mended.changed_places, wrong_places);
///
/// received[1] ^= 5;
/// assert_eq!(mend(4, 1, 37, &received), Err(Refusal::NoCodewordNear));
/// # Ok::<(), Refusal>(())
/// ```
///
/// # Errors
///
/// Refusals 1, 17, 2, 12, 3, 4 and 11, checked in this order; q = 8 meets 1.
pub fn mend(q: u8, series: u8, m: u16, word: &[u8]) -> Result<Mended, Refusal> {
    // A q or m without lengths is refused before the lengths are looked at.
    let n = word_length(q).unwrap_or(0);
    let k = message_length(q, m).unwrap_or(0);
    let (mut message, mut mended, mut marks) = (vec![0; k], vec![0; n], vec![0; n]);
    mend_into(q, series, m, word, &mut message, &mut mended, &mut marks)?;
    Ok(Mended {
        message,
        word: mended,
        changed_places: marked_places(&marks),
    })
}

/// Like [`mend`], into lent slices: n symbols in; k symbols of the message, n
/// symbols of the codeword and n marks out, 1 where a symbol was changed and 0
/// elsewhere. Gives the count of changes.
///
/// # Errors
///
/// Refusals 1, 17, 2, 12, 3 to 5 and 11, checked in this order. A refused call
/// leaves all slices unchanged.
pub fn mend_into(
    q: u8,
    series: u8,
    m: u16,
    word: &[u8],
    message: &mut [u8],
    mended: &mut [u8],
    marks: &mut [u8],
) -> Result<usize, Refusal> {
    // Safety: a slice's pointer is never null and is good for its length, and
    // a mutably borrowed slice doesn't overlap with another borrowed one.
    let answer = unsafe {
        entries::hermitian_mend(
            q,
            series,
            m,
            word.as_ptr(),
            word.len(),
            message.as_mut_ptr(),
            message.len(),
            mended.as_mut_ptr(),
            mended.len(),
            marks.as_mut_ptr(),
            marks.len(),
        )
    };
    refusal::of_answer(answer)?;
    Ok(marks.iter().filter(|&&mark| mark == 1).count())
}

fn marked_places(marks: &[u8]) -> Vec<usize> {
    let places = (0..).zip(marks).filter(|(_, &mark)| mark == 1);
    places.map(|(place, _)| place).collect()
}

#[cfg(test)]
mod tests {
    use super::*;
    use crate::encode;

    #[test]
    fn a_wrong_symbol_of_value_e() {
        let mended = mend(2, 1, 3, &[1, 2, 2, 1, 0, 0, 1, 2]).unwrap();
        assert_eq!(mended.message, [1, 2, 3]);
        assert_eq!(mended.word, [1, 2, 2, 1, 3, 0, 1, 2]);
        assert_eq!(mended.changed_places, [4]);
        assert_eq!(mended.change_count(), 1);
    }

    /// x, the message 0 1 of order 4: the word of series 2 has wrong symbols in
    /// series 1, too many to mend.
    #[test]
    fn the_series_counts() -> Result<(), Refusal> {
        let mut sent = [0; 64];
        encode(4, 2, 4, &[0, 1], &mut sent)?;
        let mut received = sent;
        received[63] ^= 1;
        let mended = mend(4, 2, 4, &received)?;
        assert_eq!(mended.message, [0, 1]);
        assert_eq!(mended.word, sent);
        assert_eq!(mended.changed_places, [63]);
        assert_eq!(mend(4, 1, 4, &received), Err(Refusal::NoCodewordNear));
        Ok(())
    }

    #[test]
    fn a_codeword_is_not_changed() {
        let mended = mend(4, 1, 57, &[0; 64]).unwrap();
        assert_eq!(mended.change_count(), 0);
        assert_eq!((mended.message, mended.word), (vec![0; 52], vec![0; 64]));
    }

    #[test]
    fn every_refusal_is_named() {
        let mut word = [0; 64];
        assert_eq!(mend(3, 0, 64, &word), Err(Refusal::UnknownCurve));
        for series in [0, 3, 255] {
            assert_eq!(mend(4, series, 64, &word), Err(Refusal::BadSeries));
        }
        for m in [64, 255, 256, 256 + 37, u16::MAX] {
            assert_eq!(mend(4, 1, m, &word), Err(Refusal::OrderTooHigh));
        }
        assert_eq!(mend(4, 1, 58, &word), Err(Refusal::OrderTooHighToMend));
        assert_eq!(mend(4, 1, 57, &[]), Err(Refusal::WrongInputLength));
        word[9] = 1;
        assert_eq!(mend(4, 1, 57, &word), Err(Refusal::NoCodewordNear));
        word[9] = 255;
        assert_eq!(mend(4, 1, 57, &word), Err(Refusal::NotASymbol { index: 9 }));
    }

    #[test]
    fn each_slice_must_have_its_length() {
        let lengths_refused = [(2, 8, 8), (3, 7, 8), (3, 8, 9), (0, 0, 0)];
        for (k, n, marks) in lengths_refused {
            let (mut message, mut mended, mut marks) = (vec![9; k], vec![9; n], vec![9; marks]);
            let answer = mend_into(2, 1, 3, &[0; 8], &mut message, &mut mended, &mut marks);
            assert_eq!(answer, Err(Refusal::WrongOutputLength));
            let written = [message, mended, marks].concat();
            assert!(written.iter().all(|&byte| byte == 9));
        }
    }
}
