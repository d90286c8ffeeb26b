//! Short blocks of chosen columns.

use crate::entries::{self, EntryOn};
use crate::refusal::{self, Refusal};

/// Writes the word of a message on chosen columns: k symbols in, n symbols out, where
/// n is q times the number of columns.
///
/// The columns are values x, at least one, strictly ascending and less than q·q. Place
/// q·i + j is point j of the column with x = `columns[i]`, the points of a column being
/// listed by y ascending. The order m is below n. The word is what
/// [`encode`](crate::encode) writes in these columns with series 1.
///
/// ```
/// use hermitian::{encode, encode_on, Refusal};
///
/// let message = [7, 0, 3, 15, 1, 2];
/// let (mut whole, mut word) = ([0; 64], [0; 12]);
/// encode(4, 1, 11, &message, &mut whole)?;
/// encode_on(4, &[2, 5, 15], 11, &message, &mut word)?;
/// assert_eq!(word[..4], whole[8..12]);
/// assert_eq!(word[4..8], whole[20..24]);
/// assert_eq!(word[8..], whole[60..]);
///
/// let refusal = encode_on(4, &[2, 15, 5], 11, &message, &mut word).unwrap_err();
/// assert_eq!(refusal, Refusal::BadColumns);
///
/// // Three columns have twelve points.
/// let refusal = encode_on(4, &[2, 5, 15], 12, &[0; 7], &mut word).unwrap_err();
/// assert_eq!(refusal, Refusal::OrderTooHigh);
/// # Ok::<(), Refusal>(())
/// ```
///
/// # Errors
///
/// Refusals 1, 18 and 2 to 5, checked in this order; q = 8 meets 1. A refused call
/// leaves `word` unchanged.
pub fn encode_on(
    q: u8,
    columns: &[u8],
    m: u16,
    message: &[u8],
    word: &mut [u8],
) -> Result<(), Refusal> {
    let entry = entries::hermitian_encode_on;
    refusal::of_answer(call(entry, q, columns, m, message, word))
}

/// Writes the message of a whole word on chosen columns: n symbols in, k symbols out.
/// Columns, n and places are those of [`encode_on`].
///
/// ```
/// use hermitian::{encode_on, unencode_on, Refusal};
///
/// let columns = [0, 3];
/// let (mut word, mut read) = ([0; 4], [0; 3]);
/// encode_on(2, &columns, 3, &[1, 2, 3], &mut word)?;
/// assert_eq!(word, [1, 2, 1, 2]);
/// unencode_on(2, &columns, 3, &word, &mut read)?;
/// assert_eq!(read, [1, 2, 3]);
///
/// word[0] = 3;
/// let refusal = unencode_on(2, &columns, 3, &word, &mut read).unwrap_err();
/// assert_eq!(refusal, Refusal::NoMessageFits);
/// # Ok::<(), Refusal>(())
/// ```
///
/// # Errors
///
/// Refusals 1, 18, 2 to 5 and 9, checked in this order; q = 8 meets 1. A refused call
/// leaves `message` unchanged.
pub fn unencode_on(
    q: u8,
    columns: &[u8],
    m: u16,
    word: &[u8],
    message: &mut [u8],
) -> Result<(), Refusal> {
    let entry = entries::hermitian_unencode_on;
    refusal::of_answer(call(entry, q, columns, m, word, message))
}

/// Writes the only message that fits a word on chosen columns in which
/// [`MISSING`](crate::MISSING) stands at each missing place: n bytes in, k symbols out.
/// Columns, n and places are those of [`encode_on`]. Any m + 1 symbols are enough,
/// whichever columns they are from; fewer may be.
///
/// ```
/// use hermitian::{encode_on, recover_on, Refusal, MISSING};
///
/// let columns = [0, 2, 3, 5, 8, 9, 12, 15];
/// let message = [9, 8, 7, 6, 5, 4, 3, 2, 1, 0, 15, 14];
/// let (mut word, mut read) = ([0; 32], [0; 12]);
/// encode_on(4, &columns, 17, &message, &mut word)?;
/// word[..14].fill(MISSING);
/// recover_on(4, &columns, 17, &word, &mut read)?;
/// assert_eq!(read, message);
///
/// // Two messages agree on the last four columns.
/// word[..16].fill(MISSING);
/// let refusal = recover_on(4, &columns, 17, &word, &mut read).unwrap_err();
/// assert_eq!(refusal, Refusal::SeveralMessagesFit { power: 1 });
/// # Ok::<(), Refusal>(())
/// ```
///
/// # Errors
///
/// Refusals 1, 18, 2 to 5, 9 and 10, checked in this order; q = 8 meets 1. A refused
/// call leaves `message` unchanged.
pub fn recover_on(
    q: u8,
    columns: &[u8],
    m: u16,
    word: &[u8],
    message: &mut [u8],
) -> Result<(), Refusal> {
    let entry = entries::hermitian_recover_on;
    refusal::of_answer(call(entry, q, columns, m, word, message))
}

/// Lends the slices to an entry for the time of the call.
fn call(entry: EntryOn, q: u8, columns: &[u8], m: u16, input: &[u8], output: &mut [u8]) -> u32 {
    // Safety: slices are never null and are good for their length, and a mutably
    // borrowed one overlaps with no other.
    unsafe {
        entry(
            q,
            columns.as_ptr(),
            columns.len(),
            m,
            input.as_ptr(),
            input.len(),
            output.as_mut_ptr(),
            output.len(),
        )
    }
}

#[cfg(test)]
mod tests {
    use super::*;
    use crate::MISSING;

    /// Value E of the paper: message 1 2 3 has the word 1 2 2 1 3 0 1 2.
    #[test]
    fn parts_of_value_e() -> Result<(), Refusal> {
        let whole = [1, 2, 2, 1, 3, 0, 1, 2];
        let lists: [&[u8]; 4] = [&[0, 1], &[1, 3], &[0, 2, 3], &[0, 1, 2, 3]];
        for columns in lists {
            let in_columns = columns.iter().flat_map(|&x| {
                let place = 2 * usize::from(x);
                [whole[place], whole[place + 1]]
            });
            let expected: Vec<u8> = in_columns.collect();
            let mut word = vec![99; expected.len()];
            encode_on(2, columns, 3, &[1, 2, 3], &mut word)?;
            assert_eq!(word, expected);
            for read in [unencode_on, recover_on] {
                let mut message = [99; 3];
                read(2, columns, 3, &word, &mut message)?;
                assert_eq!(message, [1, 2, 3]);
            }
        }
        Ok(())
    }

    /// At order 0 all symbols are the same, and one of them is enough.
    #[test]
    fn each_column_alone() -> Result<(), Refusal> {
        for x in 0..16 {
            let mut word = [99; 4];
            encode_on(4, &[x], 0, &[13], &mut word)?;
            assert_eq!(word, [13; 4]);
            word[1..].fill(MISSING);
            let mut message = [99];
            recover_on(4, &[x], 0, &word, &mut message)?;
            assert_eq!(message, [13]);
        }
        Ok(())
    }

    #[test]
    fn every_bad_list_is_refused() {
        let too_many: Vec<u8> = (0..=16).collect();
        let bytes: Vec<u8> = (0..=255).collect();
        let lists: [&[u8]; 7] = [&[], &[16], &[0, 255], &[3, 3], &[5, 4], &too_many, &bytes];
        for columns in lists {
            let refused = Err(Refusal::BadColumns);
            let mut output = [9; 64];
            assert_eq!(encode_on(4, columns, 0, &[0], &mut output), refused);
            assert_eq!(unencode_on(4, columns, 0, &[0; 4], &mut output), refused);
            assert_eq!(recover_on(4, columns, 0, &[0; 4], &mut output), refused);
            assert_eq!(output, [9; 64]);
        }
    }

    /// q, columns, m, word, length of the message, and the refusal.
    type Refused<'a> = (u8, &'a [u8], u16, &'a [u8], usize, Refusal);

    /// Each call has the faults of all that follow it.
    #[test]
    fn every_refusal_is_named() {
        let bad: [u8; 4] = [255, 16, 0, 0];
        let calls: [Refused; 11] = [
            (8, &[], 8, &[], 0, Refusal::UnknownCurve),
            (3, &[], 8, &[], 0, Refusal::UnknownCurve),
            (2, &[], 8, &[], 0, Refusal::BadColumns),
            (2, &[1, 1], 8, &[], 0, Refusal::BadColumns),
            (2, &[1, 4], 8, &[], 0, Refusal::BadColumns),
            (2, &[1, 3], 4, &[], 0, Refusal::OrderTooHigh),
            (2, &[1, 3], 256 + 3, &[], 0, Refusal::OrderTooHigh),
            (2, &[1, 3], 3, &bad[1..], 0, Refusal::WrongInputLength),
            (2, &[1, 3], 3, &bad, 0, Refusal::NotASymbol { index: 1 }),
            (2, &[1, 3], 3, &[0; 4], 4, Refusal::WrongOutputLength),
            (
                2,
                &[1, 3],
                3,
                &[255; 4],
                3,
                Refusal::SeveralMessagesFit { power: 3 },
            ),
        ];
        for (q, columns, m, word, length, refusal) in calls {
            let mut message = vec![9; length];
            let answer = recover_on(q, columns, m, word, &mut message);
            assert_eq!(answer, Err(refusal));
            assert_eq!(message, vec![9; length]);
        }
    }
}
