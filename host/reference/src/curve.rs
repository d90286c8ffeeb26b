//! The three Hermitian curves y^q + y = x^(q+1), their points and their terms.

use crate::field::Field;

/// A curve with the fixed numbers of the paper's table, and the series of its
/// list of points. The parts are private, so that a `Curve` is always one of the
/// three in one of the two series.
#[derive(Clone, Copy, Debug, PartialEq, Eq)]
pub struct Curve {
    q: u8,
    series: Series,
    field: Field,
    point_count: usize,
    genus: usize,
}

/// How the columns are listed (request T-11).
#[derive(Clone, Copy, Debug, PartialEq, Eq)]
pub enum Series {
    /// By x ascending as a number.
    One,
    /// x = 0, then z to the power 0, 1, 2 and so on.
    Two,
}

/// A pair (x, y) on the curve.
#[derive(Clone, Copy, Debug, PartialEq, Eq)]
pub struct Point {
    pub x: u8,
    pub y: u8,
}

/// x^`x_power` * y^`y_power`.
#[derive(Clone, Copy, Debug, PartialEq, Eq)]
pub struct Term {
    pub x_power: usize,
    pub y_power: usize,
}

impl Series {
    pub const BOTH: [Series; 2] = [Series::One, Series::Two];

    /// The series that a number names.
    pub fn named(number: u8) -> Option<Series> {
        Series::BOTH
            .into_iter()
            .find(|series| series.number() == number)
    }

    pub fn number(self) -> u8 {
        match self {
            Series::One => 1,
            Series::Two => 2,
        }
    }

    pub fn other(self) -> Series {
        match self {
            Series::One => Series::Two,
            Series::Two => Series::One,
        }
    }
}

/// The constants are those of series 1.
impl Curve {
    pub const Q_IS_2: Curve = Curve {
        q: 2,
        series: Series::One,
        field: Field::OF_4,
        point_count: 8,
        genus: 1,
    };

    pub const Q_IS_4: Curve = Curve {
        q: 4,
        series: Series::One,
        field: Field::OF_16,
        point_count: 64,
        genus: 6,
    };

    /// Request T-09: the curve of long blocks.
    pub const Q_IS_8: Curve = Curve {
        q: 8,
        series: Series::One,
        field: Field::OF_64,
        point_count: 512,
        genus: 28,
    };

    /// The curves of short blocks, which every call takes that names a curve.
    pub const SHORT: [Curve; 2] = [Curve::Q_IS_2, Curve::Q_IS_4];

    pub const ALL: [Curve; 3] = [Curve::Q_IS_2, Curve::Q_IS_4, Curve::Q_IS_8];

    /// The curve that q names, in series 1.
    pub fn named(q: u8) -> Option<Curve> {
        Curve::ALL.into_iter().find(|curve| curve.q == q)
    }

    /// The curve of short blocks that q names, in series 1.
    pub fn short_named(q: u8) -> Option<Curve> {
        Curve::SHORT.into_iter().find(|curve| curve.q == q)
    }

    /// The same curve with the points listed by this series.
    pub fn in_series(self, series: Series) -> Curve {
        Curve { series, ..self }
    }

    /// The same curve in either series.
    pub fn in_both_series(self) -> [Curve; 2] {
        Series::BOTH.map(|series| self.in_series(series))
    }

    pub fn q(self) -> u8 {
        self.q
    }

    pub fn series(self) -> Series {
        self.series
    }

    pub fn field(self) -> Field {
        self.field
    }

    /// n, the number of points.
    pub fn point_count(self) -> usize {
        self.point_count
    }

    /// The orders that are accepted: 0 to n - 1.
    pub fn orders(self) -> impl Iterator<Item = u16> {
        (0..=u16::MAX).take(self.point_count)
    }

    /// g, the genus.
    pub fn genus(self) -> usize {
        self.genus
    }

    /// t of request T-03, the most wrong symbols that are mended: n - m - 1 - g
    /// halved and rounded down. There is none if n - m - 1 is less than g.
    pub fn radius(self, m: u16) -> Option<usize> {
        let rest = self
            .point_count
            .checked_sub(usize::from(m) + 1 + self.genus)?;
        Some(rest / 2)
    }

    /// The order of request T-13 whose codewords tell whether a word is one of order m:
    /// n + 2g - 2 - m. There is none if m is below 2g - 1, or n or more.
    pub fn partner_order(self, m: u16) -> Option<u16> {
        let lowest = 2 * self.genus - 1;
        let highest = self.point_count - 1;
        let has_partner = (lowest..=highest).contains(&usize::from(m));
        has_partner.then(|| (highest + lowest) as u16 - m)
    }

    /// Every x, in the order of the series.
    pub fn columns(self) -> Vec<u8> {
        let size = self.field.size();
        match self.series {
            Series::One => (0..size).collect(),
            Series::Two => {
                let powers = self.field.powers(Field::Z, usize::from(size) - 2);
                [vec![0], powers].concat()
            }
        }
    }

    /// The points column by column, then y ascending; the index is the place.
    pub fn points(self) -> Vec<Point> {
        self.points_of(&self.columns())
    }

    /// The points of these columns in the order of the list, then y ascending.
    pub fn points_of(self, columns: &[u8]) -> Vec<Point> {
        let q = usize::from(self.q);
        let left_side = |y| self.field.sum(self.field.power(y, q), y);
        let symbols = 0..self.field.size();
        let left_sides: Vec<(u8, u8)> = symbols.map(|y| (y, left_side(y))).collect();
        let column = |&x: &u8| {
            let right_side = self.field.power(x, q + 1);
            let on_the_curve = left_sides
                .iter()
                .filter(move |(_, left)| *left == right_side);
            on_the_curve.map(move |&(y, _)| Point { x, y })
        };
        columns.iter().flat_map(column).collect()
    }

    /// The terms of weight up to the order m, by ascending weight.
    pub fn terms(self, m: u16) -> Vec<Term> {
        let order = usize::from(m);
        let mut terms: Vec<Term> = (0..usize::from(self.q))
            .flat_map(|y_power| (0..=order).map(move |x_power| Term { x_power, y_power }))
            .filter(|&term| self.weight(term) <= order)
            .collect();
        terms.sort_by_key(|&term| self.weight(term));
        terms
    }

    /// The weight of x is q and the weight of y is q + 1.
    pub fn weight(self, term: Term) -> usize {
        let q = usize::from(self.q);
        q * term.x_power + (q + 1) * term.y_power
    }
}

#[cfg(test)]
mod tests {
    use super::*;

    fn points_as_pairs(curve: Curve) -> Vec<(u8, u8)> {
        curve.points().iter().map(|p| (p.x, p.y)).collect()
    }

    #[test]
    fn the_table_of_the_paper() {
        let x = Term {
            x_power: 1,
            y_power: 0,
        };
        let y = Term {
            x_power: 0,
            y_power: 1,
        };
        let rows = [
            (2, 4, 8, 1, 2, 3),
            (4, 16, 64, 6, 4, 5),
            (8, 64, 512, 28, 8, 9),
        ];
        for (q, size, n, g, x_weight, y_weight) in rows {
            let curve = Curve::named(q).expect("one of the three curves");
            assert_eq!(curve.q(), q);
            assert_eq!(curve.field().size(), size);
            assert_eq!((curve.point_count(), curve.genus()), (n, g));
            assert_eq!((curve.weight(x), curve.weight(y)), (x_weight, y_weight));
        }
    }

    #[test]
    fn only_2_4_and_8_name_a_curve_and_8_no_short_one() {
        for q in 0..=255 {
            let short = [2, 4].contains(&q).then_some(q);
            let any = [2, 4, 8].contains(&q).then_some(q);
            assert_eq!(Curve::short_named(q).map(Curve::q), short);
            assert_eq!(Curve::named(q).map(Curve::q), any);
        }
    }

    #[test]
    fn only_1_and_2_name_a_series() {
        for number in 0..=255 {
            let named = [1, 2].contains(&number).then_some(number);
            assert_eq!(Series::named(number).map(Series::number), named);
        }
        assert_eq!(Series::One.other(), Series::Two);
        assert_eq!(Series::Two.other(), Series::One);
    }

    #[test]
    fn value_c_points_of_q_2() {
        let expected = [
            (0, 0),
            (0, 1),
            (1, 2),
            (1, 3),
            (2, 2),
            (2, 3),
            (3, 2),
            (3, 3),
        ];
        for curve in Curve::Q_IS_2.in_both_series() {
            assert_eq!(points_as_pairs(curve), expected);
        }
    }

    #[test]
    fn value_d_first_points_of_q_4() {
        let expected = [
            (0, 0),
            (0, 1),
            (0, 6),
            (0, 7),
            (1, 2),
            (1, 3),
            (1, 4),
            (1, 5),
        ];
        for curve in Curve::Q_IS_4.in_both_series() {
            assert_eq!(points_as_pairs(curve)[..8], expected);
        }
    }

    /// z^4 = z + 1 is 3, z^5 is 6, and so on.
    const POWERS_OF_Q_4: [u8; 15] = [1, 2, 4, 8, 3, 6, 12, 11, 5, 10, 7, 14, 15, 13, 9];

    /// z^6 = z + 1 is 3, z^7 is 6, and so on.
    const POWERS_OF_Q_8: [u8; 63] = [
        1, 2, 4, 8, 16, 32, 3, 6, 12, 24, 48, 35, 5, 10, 20, 40, 19, 38, 15, 30, 60, 59, 53, 41,
        17, 34, 7, 14, 28, 56, 51, 37, 9, 18, 36, 11, 22, 44, 27, 54, 47, 29, 58, 55, 45, 25, 50,
        39, 13, 26, 52, 43, 21, 42, 23, 46, 31, 62, 63, 61, 57, 49, 33,
    ];

    #[test]
    fn the_columns_of_both_series() {
        let lists: [(Curve, &[u8]); 3] = [
            (Curve::Q_IS_2, &[1, 2, 3]),
            (Curve::Q_IS_4, &POWERS_OF_Q_4),
            (Curve::Q_IS_8, &POWERS_OF_Q_8),
        ];
        for (curve, powers) in lists {
            let [one, two] = curve.in_both_series().map(Curve::columns);
            assert!(one.iter().copied().eq(0..curve.field().size()));
            assert_eq!(two[0], 0);
            assert_eq!(two[1..], *powers);
            let mut sorted = two;
            sorted.sort_unstable();
            assert_eq!(sorted, one, "each column once");
        }
    }

    #[test]
    fn some_points_of_series_2() {
        let [_, curve] = Curve::Q_IS_4.in_both_series();
        let points = points_as_pairs(curve);
        assert_eq!(points[12..16], [(4, 8), (4, 9), (4, 14), (4, 15)]);
        assert_eq!(points[60..], [(9, 8), (9, 9), (9, 14), (9, 15)]);
        let [_, curve] = Curve::Q_IS_8.in_both_series();
        let points = points_as_pairs(curve);
        let column_4 = [32, 33, 46, 47, 54, 55, 56, 57].map(|y| (4, y));
        assert_eq!(points[24..32], column_4);
        let column_9 = [38, 39, 40, 41, 48, 49, 62, 63].map(|y| (9, y));
        assert_eq!(points[264..272], column_9);
    }

    /// Column 0 is the field of 8 elements in that of 64: the powers of z^9 = 24.
    #[test]
    fn first_points_of_q_8() {
        let column_0 = [0, 1, 14, 15, 22, 23, 24, 25].map(|y| (0, y));
        let column_1 = [34, 35, 44, 45, 52, 53, 58, 59].map(|y| (1, y));
        let points = points_as_pairs(Curve::Q_IS_8);
        assert_eq!(points[..8], column_0);
        assert_eq!(points[8..16], column_1);
    }

    /// All 4096 pairs of two symbols, by the equation as the request writes it.
    #[test]
    fn every_point_of_q_8_is_there_once_and_nothing_else() {
        let field = Field::OF_64;
        let points = points_as_pairs(Curve::Q_IS_8);
        assert_eq!(points.len(), 512);
        assert!(points.windows(2).all(|pair| pair[0] < pair[1]));
        let mut on_the_curve = 0;
        for x in 0..64 {
            for y in 0..64 {
                let left = field.power(y, 8) ^ y;
                let is_point = left == field.power(x, 9);
                assert_eq!(points.contains(&(x, y)), is_point, "{x} {y}");
                on_the_curve += usize::from(is_point);
            }
        }
        assert_eq!(on_the_curve, 512);
    }

    /// In series 1 column c is x = c.
    #[test]
    fn column_c_is_the_q_places_from_q_times_c() {
        for curve in Curve::ALL.into_iter().flat_map(Curve::in_both_series) {
            let points = curve.points();
            assert_eq!(points.len(), curve.point_count());
            let columns = points.chunks(usize::from(curve.q()));
            for (x, column) in curve.columns().into_iter().zip(columns) {
                assert!(column.iter().all(|point| point.x == x));
                assert!(column.windows(2).all(|pair| pair[0].y < pair[1].y));
            }
        }
    }

    #[test]
    fn value_j_message_lengths_of_q_4() {
        for (m, k) in [(3, 1), (4, 2), (11, 6), (37, 32), (63, 58)] {
            assert_eq!(Curve::Q_IS_4.terms(m).len(), k);
        }
    }

    /// Below 2g - 1 = 55 some weights are no term's: 1 to 7 and others.
    #[test]
    fn message_lengths_of_q_8() {
        let rows = [
            (0, 1),
            (7, 1),
            (8, 2),
            (9, 3),
            (53, 27),
            (54, 28),
            (55, 28),
            (56, 29),
            (300, 273),
            (510, 483),
            (511, 484),
        ];
        for (m, k) in rows {
            assert_eq!(Curve::Q_IS_8.terms(m).len(), k, "{m}");
        }
    }

    #[test]
    fn weights_of_different_terms_differ_and_ascend() {
        for curve in Curve::ALL {
            for m in curve.orders() {
                let terms = curve.terms(m);
                let weights: Vec<usize> = terms.iter().map(|&t| curve.weight(t)).collect();
                assert!(weights.windows(2).all(|pair| pair[0] < pair[1]));
                assert!(weights.iter().all(|&weight| weight <= usize::from(m)));
                assert!(terms.iter().all(|t| t.y_power < usize::from(curve.q())));
            }
        }
    }

    #[test]
    fn from_2g_minus_1_on_there_are_m_plus_1_minus_g_terms() {
        for curve in Curve::ALL {
            let g = curve.genus();
            for m in curve.orders().filter(|&m| usize::from(m) + 1 >= 2 * g) {
                assert_eq!(curve.terms(m).len(), usize::from(m) + 1 - g);
            }
        }
    }

    #[test]
    fn the_radius_of_each_order() {
        let small: Vec<Option<usize>> = (0..=8).map(|m| Curve::Q_IS_2.radius(m)).collect();
        let expected = [3, 2, 2, 1, 1, 0, 0].map(Some);
        assert_eq!(small[..7], expected);
        assert_eq!(small[7..], [None, None]);
        for (m, radius) in [
            (0, 28),
            (1, 28),
            (2, 27),
            (37, 10),
            (55, 1),
            (56, 0),
            (57, 0),
        ] {
            assert_eq!(Curve::Q_IS_4.radius(m), Some(radius));
        }
        assert!((58..=u16::MAX).all(|m| Curve::Q_IS_4.radius(m).is_none()));
    }

    /// For the strap, 37 is its own partner.
    #[test]
    fn partner_orders() {
        let rows = [
            (2, 1, 7),
            (2, 4, 4),
            (2, 7, 1),
            (4, 11, 63),
            (4, 36, 38),
            (4, 37, 37),
            (4, 63, 11),
            (8, 55, 511),
            (8, 283, 283),
            (8, 300, 266),
            (8, 511, 55),
        ];
        for (q, m, partner) in rows {
            let curve = Curve::named(q).expect("one of the three curves");
            assert_eq!(curve.partner_order(m), Some(partner), "{q} {m}");
        }
    }

    #[test]
    fn orders_from_2g_minus_1_to_n_minus_1_have_a_partner_among_them() {
        for curve in Curve::ALL {
            let (n, g) = (curve.point_count(), curve.genus());
            for m in 0..=u16::MAX {
                let order = usize::from(m);
                let sum = n + 2 * g - 2;
                let partner = (2 * g - 1..n)
                    .contains(&order)
                    .then(|| (sum - order) as u16);
                assert_eq!(curve.partner_order(m), partner);
                if let Some(partner) = partner {
                    assert_eq!(curve.partner_order(partner), Some(m));
                }
            }
        }
    }

    #[test]
    fn first_terms_of_q_4_by_weight() {
        let powers: Vec<(usize, usize)> = Curve::Q_IS_4
            .terms(12)
            .iter()
            .map(|t| (t.x_power, t.y_power))
            .collect();
        let expected = [(0, 0), (1, 0), (0, 1), (2, 0), (1, 1), (0, 2), (3, 0)];
        assert_eq!(powers, expected);
    }
}
