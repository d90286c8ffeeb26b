//! Sum, product and inverse of symbols as public entries, which refuse unknown
//! curves and operands that are no symbols.

use crate::checks;
use crate::field::Field;
use crate::outcome::Outcome;

/// The sum of two symbols; the symbol is 0 if the call is refused.
pub fn add(q: u8, a: u8, b: u8) -> (Outcome, u8) {
    answer(field_for(q, &[a, b]).map(|field| field.sum(a, b)))
}

/// The product of two symbols; the symbol is 0 if the call is refused.
pub fn multiply(q: u8, a: u8, b: u8) -> (Outcome, u8) {
    answer(field_for(q, &[a, b]).map(|field| field.product(a, b)))
}

/// The inverse of a symbol; the symbol is 0 if the call is refused.
pub fn invert(q: u8, a: u8) -> (Outcome, u8) {
    answer(field_for(q, &[a]).and_then(|field| field.inverse(a).ok_or(Outcome::INVERSE_OF_ZERO)))
}

fn field_for(q: u8, operands: &[u8]) -> Result<Field, Outcome> {
    let field = checks::field(q)?;
    checks::symbols(field, operands)?;
    Ok(field)
}

fn answer(result: Result<u8, Outcome>) -> (Outcome, u8) {
    match result {
        Ok(symbol) => (Outcome::ACCEPTED, symbol),
        Err(refusal) => (refusal, 0),
    }
}

#[cfg(test)]
mod tests {
    use super::*;

    fn accepted(symbol: u8) -> (Outcome, u8) {
        (Outcome::ACCEPTED, symbol)
    }

    #[test]
    fn value_a_products_of_4_elements() {
        assert_eq!(multiply(2, 2, 2), accepted(3));
        assert_eq!(multiply(2, 2, 3), accepted(1));
        assert_eq!(multiply(2, 3, 3), accepted(2));
    }

    #[test]
    fn value_b_products_and_inverse_of_16_elements() {
        assert_eq!(multiply(4, 2, 8), accepted(3));
        assert_eq!(multiply(4, 9, 9), accepted(13));
        assert_eq!(invert(4, 2), accepted(9));
    }

    /// z * z^5 = z^6 = z + 1, and z * (z^5 + 1) = 1.
    #[test]
    fn products_and_inverse_of_64_elements() {
        assert_eq!(multiply(8, 2, 32), accepted(3));
        assert_eq!(multiply(8, 2, 33), accepted(1));
        assert_eq!(invert(8, 2), accepted(33));
        assert_eq!(invert(8, 33), accepted(2));
    }

    #[test]
    fn sums_are_bitwise_exclusive_or() {
        for (q, size) in [(2, 4), (4, 16), (8, 64)] {
            for a in 0..size {
                for b in 0..size {
                    assert_eq!(add(q, a, b), accepted(a ^ b));
                }
            }
        }
    }

    #[test]
    fn the_inverse_of_0_is_refused() {
        assert_eq!(invert(2, 0), (Outcome::INVERSE_OF_ZERO, 0));
        assert_eq!(invert(4, 0), (Outcome::INVERSE_OF_ZERO, 0));
        assert_eq!(invert(8, 0), (Outcome::INVERSE_OF_ZERO, 0));
        assert_eq!(invert(3, 0), (Outcome::UNKNOWN_CURVE, 0));
    }

    #[test]
    fn each_other_symbol_times_its_inverse_is_1() {
        for (q, size) in [(2, 4), (4, 16), (8, 64)] {
            for a in 1..size {
                let (outcome, inverse) = invert(q, a);
                assert_eq!(outcome, Outcome::ACCEPTED);
                assert_eq!(multiply(q, a, inverse), accepted(1));
            }
        }
    }

    #[test]
    fn unknown_curves_are_refused_before_operands() {
        let refused = (Outcome::UNKNOWN_CURVE, 0);
        for q in (0..=255).filter(|q| ![2, 4, 8].contains(q)) {
            for a in [0, 1, 3, 255] {
                assert_eq!(add(q, a, 1), refused);
                assert_eq!(multiply(q, 1, a), refused);
                assert_eq!(invert(q, a), refused);
            }
        }
    }

    #[test]
    fn operands_too_high_are_refused_by_the_lowest_index() {
        for (q, size) in [(2, 4), (4, 16), (8, 64)] {
            for bad in size..=255 {
                for other in 0..=255 {
                    let first = (Outcome::value_too_high(0), 0);
                    assert_eq!(add(q, bad, other), first);
                    assert_eq!(multiply(q, bad, other), first);
                }
                for good in 0..size {
                    let second = (Outcome::value_too_high(1), 0);
                    assert_eq!(add(q, good, bad), second);
                    assert_eq!(multiply(q, good, bad), second);
                }
                assert_eq!(invert(q, bad), (Outcome::value_too_high(0), 0));
            }
        }
    }
}
