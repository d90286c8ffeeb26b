//! The check of request T-13, which tells codewords without unencoding them, by its
//! definition: a word is a codeword of order m exactly when, against every codeword of
//! the partner order n + 2g - 2 - m, the place-by-place products add up to 0.

use crate::checks;
use crate::code::Code;
use crate::curve::Curve;
use crate::field::Field;
use crate::outcome::Outcome;

/// Whether the word is a codeword of the order m; a refused check says no.
pub fn check(q: u8, series: u8, m: u16, word: &[u8]) -> (Outcome, bool) {
    match try_check(q, series, m, word) {
        Ok(is_codeword) => (Outcome::ACCEPTED, is_codeword),
        Err(refusal) => (refusal, false),
    }
}

fn try_check(q: u8, series: u8, m: u16, word: &[u8]) -> Result<bool, Outcome> {
    let curve = checks::curve(q, series)?;
    checks::order(curve, m)?;
    let partner = checks::partner_order(curve, m)?;
    checks::input_length(word, curve.point_count())?;
    checks::symbols(curve.field(), word)?;
    Ok(is_orthogonal(curve, partner, word))
}

/// Whether the products with every codeword of the order add up to 0. Codewords are sums
/// of multiples of the basis words, and so it's enough that those with each of these do.
fn is_orthogonal(curve: Curve, m: u16, word: &[u8]) -> bool {
    let basis_words = basis_words(curve, m);
    basis_words
        .iter()
        .all(|basis_word| sum_of_products(curve.field(), word, basis_word) == 0)
}

/// The word of each term of the order alone: its values at the points.
fn basis_words(curve: Curve, m: u16) -> Vec<Vec<u8>> {
    let code = Code::of_order(curve, m);
    let points = code.points.iter();
    let term_values: Vec<Vec<u8>> = points.map(|&point| code.term_values(point)).collect();
    let word = |term| term_values.iter().map(|values| values[term]).collect();
    (0..code.terms.len()).map(word).collect()
}

/// The place-by-place products of two words, added up.
fn sum_of_products(field: Field, word: &[u8], other: &[u8]) -> u8 {
    let products = word.iter().zip(other).map(|(&a, &b)| field.product(a, b));
    products.fold(0, |sum, product| field.sum(sum, product))
}

#[cfg(test)]
mod tests;
