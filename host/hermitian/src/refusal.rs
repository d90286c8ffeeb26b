//! Why a call was turned down.

use std::error::Error;
use std::fmt;

/// The refusals that the eleven entries can give. The library checks in the order of
/// the numbers, only 17 or 18 comes right after 1, 12, 15 or 19 right after 2 and 14 right
/// after 5, and the first that applies decides. Numbers 6 and 7 belong to receiving
/// sessions and 13 to the field's inverse, which have no C entry; 8 no longer occurs.
#[derive(Clone, Copy, Debug, PartialEq, Eq, Hash)]
pub enum Refusal {
    /// 1: q is none of 2, 4 and 8; to encode at places, to recover, to mend and on
    /// chosen columns: q is neither 2 nor 4.
    UnknownCurve,
    /// 2: m is n or more, up to 65535; on chosen columns n is q times their number.
    OrderTooHigh,
    /// 3: the message isn't k long, or the word isn't n long; to encode at places:
    /// the symbols aren't k in number.
    WrongInputLength,
    /// 4: an input byte is no symbol; `index` is the lowest such index.
    NotASymbol { index: u16 },
    /// 5: a slice to be written hasn't exactly the length of the result.
    WrongOutputLength,
    /// 9: no message has these symbols in its word.
    NoMessageFits,
    /// 10: exactly Q to the power `power` messages fit, where Q = q·q.
    SeveralMessagesFit { power: u16 },
    /// 11: no codeword differs from the word in at most t places.
    NoCodewordNear,
    /// 12: nothing is mended at this order, since n - m - 1 is less than g.
    OrderTooHighToMend,
    /// 14: the work slice hasn't exactly [`crate::WORK_LENGTH`] bytes.
    WrongWorkLength,
    /// 15: the places aren't k in number, or not strictly ascending, or one of them
    /// is n or more, up to 65535.
    BadPlaces,
    /// 16: two codewords agree on all the places, whichever symbols come along.
    PlacesLeaveSeveral,
    /// 17: the series is neither 1 nor 2.
    BadSeries,
    /// 18: the list of columns is empty, or not strictly ascending, or holds a value
    /// of q·q or more.
    BadColumns,
    /// 19: words aren't checked at this order, since it is below 2g - 1.
    OrderTooLowToCheck,
    /// No answer of the rules: what is linked isn't the library that this
    /// wrapper was written for.
    NotInTheRules { answer: u32 },
}

impl fmt::Display for Refusal {
    fn fmt(&self, f: &mut fmt::Formatter<'_>) -> fmt::Result {
        match self {
            Refusal::UnknownCurve => write!(
                f,
                "the curve number q must be 2 or 4, or 8 to encode, unencode, convert or check a \
                 long block"
            ),
            Refusal::OrderTooHigh => write!(
                f,
                "the order m is too high: at most 7 for q = 2, 63 for q = 4, 511 for q = 8, \
                 and less than q times the number of chosen columns"
            ),
            Refusal::WrongInputLength => {
                write!(f, "the input is longer or shorter than this order asks for")
            }
            Refusal::NotASymbol { index } => {
                write!(f, "the input's byte at index {index} is no symbol")
            }
            Refusal::WrongOutputLength => {
                write!(f, "the output is longer or shorter than the result")
            }
            Refusal::NoMessageFits => {
                write!(f, "no message fits: at least one symbol is wrong")
            }
            Refusal::SeveralMessagesFit { power } => write!(
                f,
                "too many symbols are missing: (q * q)^{power} messages fit"
            ),
            Refusal::NoCodewordNear => {
                write!(f, "no codeword is near: too many symbols are wrong")
            }
            Refusal::OrderTooHighToMend => write!(
                f,
                "the order m is too high to mend: at most 6 for q = 2, at most 57 for q = 4"
            ),
            Refusal::WrongWorkLength => write!(
                f,
                "the work slice is longer or shorter than {} bytes",
                crate::WORK_LENGTH
            ),
            Refusal::BadPlaces => write!(
                f,
                "the places must be as many as a message has symbols, ascending and in the block"
            ),
            Refusal::PlacesLeaveSeveral => {
                write!(f, "the places don't fix the codeword at this order")
            }
            Refusal::BadSeries => write!(f, "the series must be 1 or 2"),
            Refusal::BadColumns => write!(
                f,
                "the columns must be at least one, ascending and less than q * q"
            ),
            Refusal::OrderTooLowToCheck => write!(
                f,
                "the order m is too low to check a word: at least 1 for q = 2, 11 for q = 4, \
                 55 for q = 8"
            ),
            Refusal::NotInTheRules { answer } => write!(
                f,
                "the linked library gave an answer outside the rules: {answer}"
            ),
        }
    }
}

impl Error for Refusal {}

/// Reads the one number that a call returns from C.
pub(crate) fn of_answer(answer: u32) -> Result<(), Refusal> {
    let second = (answer & 0xFFFF) as u16;
    let refusal = match answer >> 16 {
        0 if answer == 0 => return Ok(()),
        1 => Refusal::UnknownCurve,
        2 => Refusal::OrderTooHigh,
        3 => Refusal::WrongInputLength,
        4 => Refusal::NotASymbol { index: second },
        5 => Refusal::WrongOutputLength,
        9 => Refusal::NoMessageFits,
        10 => Refusal::SeveralMessagesFit { power: second },
        11 => Refusal::NoCodewordNear,
        12 => Refusal::OrderTooHighToMend,
        14 => Refusal::WrongWorkLength,
        15 => Refusal::BadPlaces,
        16 => Refusal::PlacesLeaveSeveral,
        17 => Refusal::BadSeries,
        18 => Refusal::BadColumns,
        19 => Refusal::OrderTooLowToCheck,
        _ => Refusal::NotInTheRules { answer },
    };
    if refusal.answer() == answer {
        Err(refusal)
    } else {
        Err(Refusal::NotInTheRules { answer })
    }
}

impl Refusal {
    /// The number that the C entry returned.
    pub fn answer(self) -> u32 {
        let (number, second) = match self {
            Refusal::UnknownCurve => (1, 0),
            Refusal::OrderTooHigh => (2, 0),
            Refusal::WrongInputLength => (3, 0),
            Refusal::NotASymbol { index } => (4, index),
            Refusal::WrongOutputLength => (5, 0),
            Refusal::NoMessageFits => (9, 0),
            Refusal::SeveralMessagesFit { power } => (10, power),
            Refusal::NoCodewordNear => (11, 0),
            Refusal::OrderTooHighToMend => (12, 0),
            Refusal::WrongWorkLength => (14, 0),
            Refusal::BadPlaces => (15, 0),
            Refusal::PlacesLeaveSeveral => (16, 0),
            Refusal::BadSeries => (17, 0),
            Refusal::BadColumns => (18, 0),
            Refusal::OrderTooLowToCheck => (19, 0),
            Refusal::NotInTheRules { answer } => return answer,
        };
        number * 65536 + u32::from(second)
    }
}

#[cfg(test)]
mod tests {
    use super::*;

    #[test]
    fn answers_are_read_and_given_back() {
        assert_eq!(of_answer(0), Ok(()));
        let rows = [
            (65_536, Refusal::UnknownCurve),
            (131_072, Refusal::OrderTooHigh),
            (196_608, Refusal::WrongInputLength),
            (262_207, Refusal::NotASymbol { index: 63 }),
            (327_680, Refusal::WrongOutputLength),
            (589_824, Refusal::NoMessageFits),
            (655_392, Refusal::SeveralMessagesFit { power: 32 }),
            (327_679, Refusal::NotASymbol { index: 65_535 }),
            (720_895, Refusal::SeveralMessagesFit { power: 65_535 }),
            (720_896, Refusal::NoCodewordNear),
            (786_432, Refusal::OrderTooHighToMend),
            (917_504, Refusal::WrongWorkLength),
            (983_040, Refusal::BadPlaces),
            (1_048_576, Refusal::PlacesLeaveSeveral),
            (1_114_112, Refusal::BadSeries),
            (1_179_648, Refusal::BadColumns),
            (1_245_184, Refusal::OrderTooLowToCheck),
        ];
        for (answer, refusal) in rows {
            assert_eq!(of_answer(answer), Err(refusal));
            assert_eq!(refusal.answer(), answer);
        }
    }

    #[test]
    fn answers_outside_the_rules_are_not_taken_for_others() {
        let with_second = [
            65_537,
            (2 << 16) + 293,
            (9 << 16) + 256,
            (11 << 16) + 1,
            (14 << 16) + 1,
            (15 << 16) + 1,
            (16 << 16) + 1,
            (17 << 16) + 3,
            (18 << 16) + 1,
            (19 << 16) + 1,
        ];
        let no_refusal = [1, 6 << 16, 13 << 16, 20 << 16, u32::MAX];
        for answer in [with_second.as_slice(), &no_refusal].concat() {
            let refusal = Refusal::NotInTheRules { answer };
            assert_eq!(of_answer(answer), Err(refusal));
        }
    }
}
