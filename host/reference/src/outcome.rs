//! The two numbers that every call gives.

/// 0 and 0, or a refusal's number and its second number.
#[derive(Clone, Copy, Debug, PartialEq, Eq)]
pub struct Outcome {
    pub number: u8,
    pub second: u16,
}

impl Outcome {
    pub const ACCEPTED: Outcome = Outcome::plain(0);
    pub const UNKNOWN_CURVE: Outcome = Outcome::plain(1);
    pub const ORDER_TOO_HIGH: Outcome = Outcome::plain(2);
    pub const WRONG_INPUT_LENGTH: Outcome = Outcome::plain(3);
    pub const WRONG_OUTPUT_LENGTH: Outcome = Outcome::plain(5);
    pub const PLACE_TOO_HIGH: Outcome = Outcome::plain(6);
    pub const SYMBOL_TOO_HIGH: Outcome = Outcome::plain(7);
    pub const NO_MESSAGE_FITS: Outcome = Outcome::plain(9);
    pub const NO_CODEWORD_NEAR: Outcome = Outcome::plain(11);
    pub const ORDER_TOO_HIGH_TO_MEND: Outcome = Outcome::plain(12);
    pub const INVERSE_OF_ZERO: Outcome = Outcome::plain(13);
    pub const WRONG_WORK_LENGTH: Outcome = Outcome::plain(14);
    pub const BAD_PLACES: Outcome = Outcome::plain(15);
    pub const PLACES_LEAVE_SEVERAL: Outcome = Outcome::plain(16);
    pub const BAD_SERIES: Outcome = Outcome::plain(17);
    pub const BAD_COLUMNS: Outcome = Outcome::plain(18);
    pub const ORDER_TOO_LOW_TO_CHECK: Outcome = Outcome::plain(19);

    const fn plain(number: u8) -> Outcome {
        Outcome { number, second: 0 }
    }

    /// Refusal 4, with the lowest index of a value that is Q or more.
    pub const fn value_too_high(index: u16) -> Outcome {
        Outcome {
            number: 4,
            second: index,
        }
    }

    /// Refusal 10, with r where exactly Q to the power r messages fit.
    pub const fn several_messages_fit(r: u16) -> Outcome {
        Outcome {
            number: 10,
            second: r,
        }
    }

    /// The one number that a call returns from C.
    pub fn packed(self) -> u32 {
        u32::from(self.number) * 65536 + u32::from(self.second)
    }
}

impl From<Result<(), Outcome>> for Outcome {
    fn from(result: Result<(), Outcome>) -> Outcome {
        match result {
            Ok(()) => Outcome::ACCEPTED,
            Err(refusal) => refusal,
        }
    }
}

#[cfg(test)]
mod tests {
    use super::*;

    #[test]
    fn refusals_have_the_numbers_of_the_paper() {
        let numbers = [
            Outcome::ACCEPTED,
            Outcome::UNKNOWN_CURVE,
            Outcome::ORDER_TOO_HIGH,
            Outcome::WRONG_INPUT_LENGTH,
            Outcome::value_too_high(0),
            Outcome::WRONG_OUTPUT_LENGTH,
            Outcome::PLACE_TOO_HIGH,
            Outcome::SYMBOL_TOO_HIGH,
            Outcome::NO_MESSAGE_FITS,
            Outcome::several_messages_fit(0),
            Outcome::NO_CODEWORD_NEAR,
            Outcome::ORDER_TOO_HIGH_TO_MEND,
            Outcome::INVERSE_OF_ZERO,
            Outcome::WRONG_WORK_LENGTH,
            Outcome::BAD_PLACES,
            Outcome::PLACES_LEAVE_SEVERAL,
            Outcome::BAD_SERIES,
            Outcome::BAD_COLUMNS,
            Outcome::ORDER_TOO_LOW_TO_CHECK,
        ];
        // Request T-01: refusal 8 no longer occurs.
        let expected = (0u8..).filter(|&number| number != 8);
        for (expected, outcome) in expected.zip(numbers) {
            assert_eq!((outcome.number, outcome.second), (expected, 0));
        }
    }

    #[test]
    fn packed_is_the_number_times_65536_plus_the_second() {
        assert_eq!(Outcome::ACCEPTED.packed(), 0);
        assert_eq!(Outcome::UNKNOWN_CURVE.packed(), 65_536);
        assert_eq!(Outcome::value_too_high(63).packed(), 262_207);
        assert_eq!(Outcome::several_messages_fit(32).packed(), 655_392);
        let largest = Outcome {
            number: 255,
            second: 65_535,
        };
        assert_eq!(largest.packed(), 16_777_215);
    }

    #[test]
    fn a_result_turns_into_its_outcome() {
        assert_eq!(Outcome::from(Ok(())), Outcome::ACCEPTED);
        let refusal = Outcome::several_messages_fit(3);
        assert_eq!(Outcome::from(Err(refusal)), refusal);
    }
}
