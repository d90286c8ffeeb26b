//! The checks that several calls share, each with its refusal.

use crate::curve::{Curve, Series};
use crate::field::Field;
use crate::outcome::Outcome;

/// The mark of a missing symbol in broken words and sessions.
pub const MISSING: u8 = 255;

/// The bytes of the work slice that recovery of long blocks is lent.
pub const WORK_LENGTH: usize = 262_144;

/// Refusal 1 of field operations, which name no series.
pub fn field(q: u8) -> Result<Field, Outcome> {
    let curve = Curve::named(q).ok_or(Outcome::UNKNOWN_CURVE)?;
    Ok(curve.field())
}

/// Refusals 1 and 17 where long blocks are taken too.
pub fn curve(q: u8, series: u8) -> Result<Curve, Outcome> {
    let curve = Curve::named(q).ok_or(Outcome::UNKNOWN_CURVE)?;
    in_series(curve, series)
}

/// Refusals 1 and 17 where only short blocks are taken.
pub fn short_curve(q: u8, series: u8) -> Result<Curve, Outcome> {
    let curve = Curve::short_named(q).ok_or(Outcome::UNKNOWN_CURVE)?;
    in_series(curve, series)
}

/// Refusal 17.
pub fn in_series(curve: Curve, series: u8) -> Result<Curve, Outcome> {
    let series = Series::named(series).ok_or(Outcome::BAD_SERIES)?;
    Ok(curve.in_series(series))
}

/// Refusals 1, 17 and 2 where only short blocks are taken.
pub fn short_curve_and_order(q: u8, series: u8, m: u16) -> Result<Curve, Outcome> {
    let curve = short_curve(q, series)?;
    order(curve, m)?;
    Ok(curve)
}

/// Refusals 1, 18 and 2 of short blocks from chosen columns (request T-12), which
/// name no series and have the points of series 1.
pub fn short_curve_columns_and_order(q: u8, columns: &[u8], m: u16) -> Result<Curve, Outcome> {
    let curve = Curve::short_named(q).ok_or(Outcome::UNKNOWN_CURVE)?;
    self::columns(curve.field(), columns)?;
    order_below(m, usize::from(q) * columns.len())?;
    Ok(curve)
}

/// Refusal 18.
pub fn columns(field: Field, columns: &[u8]) -> Result<(), Outcome> {
    let ascending = columns.windows(2).all(|pair| pair[0] < pair[1]);
    let in_the_field = columns.iter().all(|&x| x < field.size());
    if columns.is_empty() || !ascending || !in_the_field {
        return Err(Outcome::BAD_COLUMNS);
    }
    Ok(())
}

/// Refusal 2.
pub fn order(curve: Curve, m: u16) -> Result<(), Outcome> {
    order_below(m, curve.point_count())
}

/// Refusal 2 of a block with n places.
fn order_below(m: u16, n: usize) -> Result<(), Outcome> {
    if usize::from(m) >= n {
        return Err(Outcome::ORDER_TOO_HIGH);
    }
    Ok(())
}

/// Refusal 12, or else t.
pub fn radius(curve: Curve, m: u16) -> Result<usize, Outcome> {
    curve.radius(m).ok_or(Outcome::ORDER_TOO_HIGH_TO_MEND)
}

/// Refusal 19 of an order below n, or else its partner (request T-13).
pub fn partner_order(curve: Curve, m: u16) -> Result<u16, Outcome> {
    let partner = curve.partner_order(m);
    partner.ok_or(Outcome::ORDER_TOO_LOW_TO_CHECK)
}

/// Refusal 15.
pub fn places(places: &[u16], k: usize, n: usize) -> Result<(), Outcome> {
    let ascending = places.windows(2).all(|pair| pair[0] < pair[1]);
    let below_n = places.iter().all(|&place| usize::from(place) < n);
    if places.len() != k || !ascending || !below_n {
        return Err(Outcome::BAD_PLACES);
    }
    Ok(())
}

/// Refusal 3.
pub fn input_length(input: &[u8], expected: usize) -> Result<(), Outcome> {
    if input.len() != expected {
        return Err(Outcome::WRONG_INPUT_LENGTH);
    }
    Ok(())
}

/// Refusal 4 where 255 is a bad value like any other.
pub fn symbols(field: Field, values: &[u8]) -> Result<(), Outcome> {
    no_value(values, |value| value >= field.size())
}

/// Refusal 4 where 255 marks a missing symbol.
pub fn symbols_or_missing(field: Field, values: &[u8]) -> Result<(), Outcome> {
    no_value(values, |value| value >= field.size() && value != MISSING)
}

/// Lengths are checked before values, so an index fits in the second number.
fn no_value(values: &[u8], is_bad: impl Fn(u8) -> bool) -> Result<(), Outcome> {
    match (0..=u16::MAX).zip(values).find(|(_, &value)| is_bad(value)) {
        Some((index, _)) => Err(Outcome::value_too_high(index)),
        None => Ok(()),
    }
}

/// Refusal 5.
pub fn output_length(output: &[u8], expected: usize) -> Result<(), Outcome> {
    if output.len() != expected {
        return Err(Outcome::WRONG_OUTPUT_LENGTH);
    }
    Ok(())
}

/// Refusal 14.
pub fn work_length(work: &[u8]) -> Result<(), Outcome> {
    if work.len() != WORK_LENGTH {
        return Err(Outcome::WRONG_WORK_LENGTH);
    }
    Ok(())
}

#[cfg(test)]
mod tests {
    use super::*;

    #[test]
    fn orders_up_to_n_minus_1_are_accepted() {
        for (curve, n) in Curve::ALL.into_iter().zip([8, 64, 512]) {
            for m in 0..=u16::MAX {
                let expected = if m < n {
                    Ok(())
                } else {
                    Err(Outcome::ORDER_TOO_HIGH)
                };
                assert_eq!(order(curve, m), expected);
            }
        }
    }

    #[test]
    fn orders_from_2g_minus_1_on_are_accepted_to_check() {
        for (curve, lowest) in Curve::ALL.into_iter().zip([1, 11, 55]) {
            for m in curve.orders() {
                let refused = partner_order(curve, m) == Err(Outcome::ORDER_TOO_LOW_TO_CHECK);
                assert_eq!(refused, m < lowest);
            }
        }
    }

    #[test]
    fn an_unknown_curve_is_refused_before_the_order() {
        for q in (0..=255).filter(|q| ![2, 4].contains(q)) {
            for m in [0, 255, 256, 256 + 37, u16::MAX] {
                for series in [0, 1, 2, 3] {
                    let refused = Err(Outcome::UNKNOWN_CURVE);
                    assert_eq!(short_curve_and_order(q, series, m), refused);
                }
            }
        }
        assert_eq!(short_curve_and_order(4, 1, 63), Ok(Curve::Q_IS_4));
        let refused = Err(Outcome::ORDER_TOO_HIGH);
        assert_eq!(short_curve_and_order(4, 1, 64), refused);
    }

    #[test]
    fn series_1_and_2_are_accepted_and_others_refused_before_the_order() {
        for known in Curve::ALL {
            let q = known.q();
            for series in 0..=255 {
                let expected = match series {
                    1 => Ok(known.in_series(Series::One)),
                    2 => Ok(known.in_series(Series::Two)),
                    _ => Err(Outcome::BAD_SERIES),
                };
                assert_eq!(curve(q, series), expected);
                assert_eq!(in_series(known, series), expected);
                if q != 8 {
                    assert_eq!(short_curve_and_order(q, series, 0), expected);
                    let too_high = expected.and(Err(Outcome::ORDER_TOO_HIGH));
                    assert_eq!(short_curve_and_order(q, series, 512), too_high);
                }
            }
        }
    }

    #[test]
    fn only_k_ascending_places_below_n_are_accepted() {
        let good: [&[u16]; 4] = [&[0, 1, 2], &[0, 3, 7], &[1, 2, 6], &[5, 6, 7]];
        for list in good {
            assert_eq!(places(list, 3, 8), Ok(()));
        }
        let bad: [&[u16]; 9] = [
            &[],
            &[0, 1],
            &[0, 1, 2, 3],
            &[0, 0, 1],
            &[1, 2, 2],
            &[0, 2, 1],
            &[5, 6, 8],
            &[5, 6, 256 + 7],
            &[0, 1, u16::MAX],
        ];
        for list in bad {
            assert_eq!(places(list, 3, 8), Err(Outcome::BAD_PLACES));
        }
    }

    #[test]
    fn only_ascending_columns_of_the_field_are_accepted() {
        let good: [&[u8]; 5] = [&[0], &[3], &[0, 3], &[1, 2], &[0, 1, 2, 3]];
        for list in good {
            assert_eq!(columns(Field::OF_4, list), Ok(()));
        }
        let bad: [&[u8]; 9] = [
            &[],
            &[4],
            &[255],
            &[0, 0],
            &[1, 0],
            &[0, 2, 1],
            &[0, 1, 4],
            &[0, 1, 2, 3, 3],
            &[0, 1, 2, 3, 4],
        ];
        for list in bad {
            let refused = Err(Outcome::BAD_COLUMNS);
            assert_eq!(columns(Field::OF_4, list), refused, "{list:?}");
        }
        let all: Vec<u8> = (0..17).collect();
        assert_eq!(columns(Field::OF_16, &all[..16]), Ok(()));
        assert_eq!(columns(Field::OF_16, &all), Err(Outcome::BAD_COLUMNS));
    }

    #[test]
    fn orders_below_q_times_the_number_of_columns_are_accepted() {
        for q in [2, 4] {
            let field_size = q * q;
            for first in 0..field_size {
                let columns: Vec<u8> = (first..field_size).collect();
                let n = u16::from(q) * columns.len() as u16;
                for m in 0..=u16::MAX {
                    let found = short_curve_columns_and_order(q, &columns, m);
                    let too_high = found == Err(Outcome::ORDER_TOO_HIGH);
                    assert_eq!((found.is_ok(), too_high), (m < n, m >= n));
                }
                let refused = Err(Outcome::BAD_COLUMNS);
                let longer = [columns, vec![0]].concat();
                assert_eq!(short_curve_columns_and_order(q, &longer, u16::MAX), refused);
            }
        }
        for q in (0..=255).filter(|q| ![2, 4].contains(q)) {
            let refused = Err(Outcome::UNKNOWN_CURVE);
            assert_eq!(short_curve_columns_and_order(q, &[0], 0), refused);
            assert_eq!(short_curve_columns_and_order(q, &[], 512), refused);
        }
    }

    #[test]
    fn only_one_length_of_the_work_slice_is_accepted() {
        let bytes = vec![0; 262_146];
        assert_eq!(work_length(&bytes[..262_144]), Ok(()));
        for length in [0, 1, 512, 262_143, 262_145, 262_146] {
            let refused = Err(Outcome::WRONG_WORK_LENGTH);
            assert_eq!(work_length(&bytes[..length]), refused);
        }
    }

    #[test]
    fn the_lowest_bad_index_is_given() {
        let values = [0, 255, 15, 16, 254];
        let whole = symbols(Field::OF_16, &values);
        let broken = symbols_or_missing(Field::OF_16, &values);
        assert_eq!(whole, Err(Outcome::value_too_high(1)));
        assert_eq!(broken, Err(Outcome::value_too_high(3)));
        assert_eq!(symbols_or_missing(Field::OF_16, &values[..3]), Ok(()));
        assert_eq!(symbols(Field::OF_16, &[]), Ok(()));
    }
}
