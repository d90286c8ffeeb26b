//! The proved Hermitian block code, safe to call from Rust.
//!
//! A message of k symbols becomes a word of n symbols, a codeword; the word
//! gives the message back, whole or with symbols missing. Wrong symbols are
//! corrected by [`mend`] alone: elsewhere the library says when no message fits.
//! [`encode_at`] finds the word that has k given symbols at k chosen places, and
//! [`convert`] turns a word of one strap series into that of the other. [`check`] says
//! whether a whole word is a codeword without unencoding it. [`encode_on`],
//! [`unencode_on`] and [`recover_on`] work on chosen columns alone.
//!
//! | q | n, length of a word | symbols | order m |
//! |---|---|---|---|
//! | 2 | 8 | 0 to 3 | 0 to 7 |
//! | 4 | 64 | 0 to 15 | 0 to 63 |
//! | 8 | 512 | 0 to 63 | 0 to 511 |
//!
//! Orders are numbers of 16 bits, and those from n on, up to 65535, are refused.
//! [`message_length`] gives k. The strap uses q = 4, m = 37, k = 32. Any m + 1
//! symbols of a word are enough to recover its message; fewer may be. Up to t
//! wrong symbols of a whole word are mended, 10 for the strap.
//!
//! The blocks of q = 8 are long ones. [`encode`], [`unencode`], [`convert`] and [`check`]
//! take all three curves; [`recover_long`] takes long blocks and is lent [`WORK_LENGTH`]
//! bytes to work in; the other six take short blocks only.
//!
//! The places of a word are the points of the curve, column by column, and by y
//! ascending in a column. A call names the series that lists the columns: series 1
//! by x ascending; series 2 has x = 0, then the powers of z, the symbol 2, from the
//! power 0 on. At q = 2 the two are the same list. The calls on chosen columns name no
//! series but list the columns themselves, by x ascending; for them n is q times the
//! number of columns.
//!
//! ```
//! use hermitian::{encode, recover, unencode, Refusal, MISSING};
//!
//! let message = [1, 2, 3];
//! let mut word = [0; 8];
//! encode(2, 1, 3, &message, &mut word)?;
//! assert_eq!(word, [1, 2, 2, 1, 3, 0, 1, 2]);
//!
//! let mut read = [0; 3];
//! unencode(2, 1, 3, &word, &mut read)?;
//! assert_eq!(read, message);
//!
//! word[2..6].fill(MISSING);
//! read = [0; 3];
//! recover(2, 1, 3, &word, &mut read)?;
//! assert_eq!(read, message);
//!
//! word[6] = MISSING;
//! word[7] = MISSING;
//! let refusal = recover(2, 1, 3, &word, &mut read).unwrap_err();
//! assert_eq!(refusal, Refusal::SeveralMessagesFit { power: 1 });
//!
//! let refusal = recover(2, 1, 256 + 3, &word, &mut read).unwrap_err();
//! assert_eq!(refusal, Refusal::OrderTooHigh);
//!
//! let refusal = recover(2, 3, 3, &word, &mut read).unwrap_err();
//! assert_eq!(refusal, Refusal::BadSeries);
//! # Ok::<(), Refusal>(())
//! ```
//!
//! The library trusts its caller in what C can't say: valid, aligned pointers
//! that aren't null, and buffers that don't overlap. Slices and borrows give all
//! of that, so the functions here are safe for every argument. That the
//! declarations in [`entries`] are those of the library isn't proved; the
//! differential tests hold them together.

mod chosen_columns;
mod conversion;
mod dual;
pub mod entries;
mod long;
mod mend;
mod refusal;
mod systematic;

pub use chosen_columns::{encode_on, recover_on, unencode_on};
pub use conversion::convert;
pub use dual::check;
pub use long::{recover_long, WORK_LENGTH};
pub use mend::{mend, mend_into, Mended};
pub use refusal::Refusal;
pub use systematic::encode_at;

/// Stands for a missing symbol in the word given to [`recover`], [`recover_long`],
/// [`recover_on`] or [`convert`].
pub const MISSING: u8 = 255;

/// Writes the word of a message: k symbols in, n symbols out.
///
/// # Errors
///
/// Refusals 1, 17 and 2 to 5, checked in this order. A refused call leaves `word`
/// unchanged.
pub fn encode(q: u8, series: u8, m: u16, message: &[u8], word: &mut [u8]) -> Result<(), Refusal> {
    let entry = entries::hermitian_encode;
    refusal::of_answer(call(entry, q, series, m, message, word))
}

/// Writes the message of a whole word: n symbols in, k symbols out.
///
/// # Errors
///
/// Refusals 1, 17, 2 to 5 and 9, checked in this order. A refused call leaves
/// `message` unchanged.
pub fn unencode(q: u8, series: u8, m: u16, word: &[u8], message: &mut [u8]) -> Result<(), Refusal> {
    let entry = entries::hermitian_unencode;
    refusal::of_answer(call(entry, q, series, m, word, message))
}

/// Writes the only message that fits a word of a short block in which [`MISSING`]
/// stands at each missing place: n bytes in, k symbols out.
///
/// # Errors
///
/// Refusals 1, 17, 2 to 5, 9 and 10, checked in this order; q = 8 meets 1. A refused
/// call leaves `message` unchanged.
pub fn recover(q: u8, series: u8, m: u16, word: &[u8], message: &mut [u8]) -> Result<(), Refusal> {
    let entry = entries::hermitian_recover;
    refusal::of_answer(call(entry, q, series, m, word, message))
}

/// n, the length of a word of all columns; `None` if q names no curve. On chosen columns
/// n is q times their number.
pub fn word_length(q: u8) -> Option<usize> {
    match q {
        2 => Some(8),
        4 => Some(64),
        8 => Some(512),
        _ => None,
    }
}

/// k, the length of a message: the number of terms x^i·y^j with j below q and
/// weight q·i + (q + 1)·j up to m. `None` if q or m would be refused on all columns. On
/// chosen columns k is the same.
pub fn message_length(q: u8, m: u16) -> Option<usize> {
    let order = usize::from(m);
    if order >= word_length(q)? {
        return None;
    }
    let width = usize::from(q);
    let weights_of_y_parts = (0..width).map(|j| (width + 1) * j);
    let counts = weights_of_y_parts
        .filter(|&weight| weight <= order)
        .map(|weight| (order - weight) / width + 1);
    Some(counts.sum())
}

/// Lends both slices to an entry for the time of the call.
fn call(entry: entries::Entry, q: u8, series: u8, m: u16, input: &[u8], output: &mut [u8]) -> u32 {
    // Safety: a slice's pointer is never null and is good for its length, and
    // a borrowed slice doesn't overlap with a mutably borrowed one.
    unsafe {
        entry(
            q,
            series,
            m,
            input.as_ptr(),
            input.len(),
            output.as_mut_ptr(),
            output.len(),
        )
    }
}

#[cfg(test)]
mod tests {
    use super::*;

    #[test]
    fn the_lengths_of_the_paper() {
        let rows = [(3, 1), (4, 2), (11, 6), (37, 32), (63, 58)];
        for (m, k) in rows {
            assert_eq!(message_length(4, m), Some(k));
        }
        assert_eq!(message_length(2, 7), Some(7));
        assert_eq!(message_length(2, 8), None);
        assert_eq!(message_length(4, 64), None);
        assert_eq!(message_length(3, 0), None);
        for (m, k) in [(0, 1), (8, 2), (54, 28), (55, 28), (300, 273), (511, 484)] {
            assert_eq!(message_length(8, m), Some(k));
        }
        assert_eq!(
            [512, 767, u16::MAX].map(|m| message_length(8, m)),
            [None; 3]
        );
        assert_eq!(
            [2, 3, 4, 8].map(word_length),
            [Some(8), None, Some(64), Some(512)]
        );
        for m in [255, 256, 256 + 3, 65_280, u16::MAX] {
            assert_eq!([2, 4].map(|q| message_length(q, m)), [None, None]);
        }
    }

    /// 256 + 37 isn't taken for 37, which is its low byte.
    #[test]
    fn orders_above_255_are_refused() {
        for m in [256, 256 + 37, 65_280 + 37, u16::MAX] {
            let mut word = [9; 64];
            let refused = Err(Refusal::OrderTooHigh);
            assert_eq!(encode(4, 1, m, &[0; 32], &mut word), refused);
            assert_eq!(unencode(4, 1, m, &[0; 64], &mut word[..32]), refused);
            assert_eq!(recover(4, 1, m, &[0; 64], &mut word[..32]), refused);
            assert_eq!(word, [9; 64]);
            assert_eq!(encode(3, 1, m, &[], &mut []), Err(Refusal::UnknownCurve));
        }
    }

    /// The message 0 1 of order 4 is x: each column holds its own x.
    #[test]
    fn each_series_lists_the_columns_in_its_order() -> Result<(), Refusal> {
        let columns = [
            (1, [0, 1, 2, 3, 4, 5, 6, 7, 8, 9, 10, 11, 12, 13, 14, 15]),
            (2, [0, 1, 2, 4, 8, 3, 6, 12, 11, 5, 10, 7, 14, 15, 13, 9]),
        ];
        for (series, columns) in columns {
            let mut word = [99; 64];
            encode(4, series, 4, &[0, 1], &mut word)?;
            assert_eq!(word, std::array::from_fn(|place| columns[place / 4]));
            let mut message = [99; 2];
            unencode(4, series, 4, &word, &mut message)?;
            assert_eq!(message, [0, 1]);
            word[5..].fill(MISSING);
            message = [99; 2];
            recover(4, series, 4, &word, &mut message)?;
            assert_eq!(message, [0, 1]);
        }
        Ok(())
    }

    #[test]
    fn every_other_series_is_refused_after_the_curve_and_before_the_order() {
        let refused = Err(Refusal::BadSeries);
        for series in (0..=255).filter(|series| ![1, 2].contains(series)) {
            for m in [37, 64, u16::MAX] {
                let mut word = [9; 64];
                assert_eq!(encode(4, series, m, &[0; 32], &mut word), refused);
                assert_eq!(unencode(4, series, m, &[0; 64], &mut word[..32]), refused);
                assert_eq!(recover(4, series, m, &[0; 64], &mut word[..32]), refused);
                assert_eq!(word, [9; 64]);
                let unknown = Err(Refusal::UnknownCurve);
                assert_eq!(encode(3, series, m, &[0; 32], &mut word), unknown);
            }
        }
    }

    #[test]
    fn empty_slices_are_refused() {
        assert_eq!(
            encode(4, 1, 37, &[], &mut []),
            Err(Refusal::WrongInputLength)
        );
        assert_eq!(
            recover(4, 1, 37, &[0; 64], &mut []),
            Err(Refusal::WrongOutputLength)
        );
    }
}
