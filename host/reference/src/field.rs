//! The fields of 4, of 16 and of 64 elements.
//!
//! A symbol's bits are the coefficients of a polynomial in z, lowest first,
//! and products are polynomial products reduced by z^2 = z + 1, z^4 = z + 1 or
//! z^6 = z + 1.

/// A field of 2 to the power `degree` elements. Its operations are for symbols
/// below that number.
#[derive(Clone, Copy, Debug, PartialEq, Eq)]
pub struct Field {
    degree: u32,
    /// The bits of the polynomial in z that equals 0; its degree is `degree`.
    modulus: u16,
}

impl Field {
    /// The symbol whose only coefficient is that of z to the power 1.
    pub const Z: u8 = 2;

    /// Q = 4, with z^2 + z + 1 = 0.
    pub const OF_4: Field = Field {
        degree: 2,
        modulus: 0b111,
    };

    /// Q = 16, with z^4 + z + 1 = 0.
    pub const OF_16: Field = Field {
        degree: 4,
        modulus: 0b10011,
    };

    /// Q = 64, with z^6 + z + 1 = 0 (request T-09).
    pub const OF_64: Field = Field {
        degree: 6,
        modulus: 0b1000011,
    };

    /// Q, the number of elements.
    pub fn size(self) -> u8 {
        1 << self.degree
    }

    pub fn sum(self, a: u8, b: u8) -> u8 {
        a ^ b
    }

    pub fn product(self, a: u8, b: u8) -> u8 {
        self.remainder(self.polynomial_product(a, b))
    }

    /// The `exponent`-fold product of `base`; 1 if `exponent` is 0.
    pub fn power(self, base: u8, exponent: usize) -> u8 {
        (0..exponent).fold(1, |product, _| self.product(product, base))
    }

    /// The powers of `base` with the exponents from 0 to `highest`.
    pub fn powers(self, base: u8, highest: usize) -> Vec<u8> {
        let next = |power: &u8| Some(self.product(*power, base));
        std::iter::successors(Some(1), next)
            .take(highest + 1)
            .collect()
    }

    /// The products of all symbols: row a holds those with a.
    pub fn product_rows(self) -> Vec<Vec<u8>> {
        let symbols = 0..self.size();
        let row = |a| symbols.clone().map(|b| self.product(a, b)).collect();
        symbols.clone().map(row).collect()
    }

    /// Found by trying every element. No product with 0 is 1, so 0 has none.
    pub fn inverse(self, a: u8) -> Option<u8> {
        (1..self.size()).find(|&b| self.product(a, b) == 1)
    }

    /// The sum of a * z^bit over the bits of b, not yet reduced.
    fn polynomial_product(self, a: u8, b: u8) -> u16 {
        let mut product = 0;
        for bit in 0..self.degree {
            if b >> bit & 1 == 1 {
                product ^= u16::from(a) << bit;
            }
        }
        product
    }

    /// Long division by the modulus, from the highest power of z that the
    /// product of two symbols can have.
    fn remainder(self, polynomial: u16) -> u8 {
        let mut rest = polynomial;
        for bit in (self.degree..=2 * self.degree - 2).rev() {
            if rest >> bit & 1 == 1 {
                rest ^= self.modulus << (bit - self.degree);
            }
        }
        rest as u8
    }
}

#[cfg(test)]
mod tests {
    use super::*;

    const FIELDS: [Field; 3] = [Field::OF_4, Field::OF_16, Field::OF_64];

    #[test]
    fn products_obey_the_laws_of_a_field() {
        for field in FIELDS {
            let size = field.size();
            for a in 0..size {
                assert_eq!(field.product(a, 1), a);
                assert_eq!(field.product(a, 0), 0);
                for b in 0..size {
                    assert!(field.product(a, b) < size);
                    assert_eq!(field.product(a, b), field.product(b, a));
                    for c in 0..size {
                        distributes_and_associates(field, a, b, c);
                    }
                }
            }
        }
    }

    fn distributes_and_associates(field: Field, a: u8, b: u8, c: u8) {
        let (ab, bc, ac) = (
            field.product(a, b),
            field.product(b, c),
            field.product(a, c),
        );
        assert_eq!(field.product(ab, c), field.product(a, bc));
        assert_eq!(field.product(a, field.sum(b, c)), field.sum(ab, ac));
    }

    #[test]
    fn z_obeys_the_rule_of_its_field() {
        assert_eq!(Field::OF_4.power(2, 2), 2 ^ 1);
        assert_eq!(Field::OF_16.power(2, 4), 2 ^ 1);
        assert_eq!(Field::OF_64.power(2, 6), 2 ^ 1);
    }

    /// 2 and 9 by hand: z * z^5 = z + 1, and (z^3 + 1)^2 = z^6 + 1 = z.
    #[test]
    fn some_products_of_64_elements() {
        let products = [(2, 32, 3), (9, 9, 2), (32, 32, 48), (2, 33, 1)];
        for (a, b, product) in products {
            assert_eq!(Field::OF_64.product(a, b), product);
        }
        assert_eq!(Field::OF_64.inverse(2), Some(33));
    }

    #[test]
    fn lists_of_powers_and_products_hold_each_of_them() {
        for field in FIELDS {
            for (a, row) in (0..).zip(field.product_rows()) {
                let products = (0..field.size()).map(|b| field.product(a, b));
                assert!(products.eq(row));
                let powers = (0..9).map(|exponent| field.power(a, exponent));
                assert!(powers.eq(field.powers(a, 8)));
            }
            assert_eq!(field.product_rows().len(), usize::from(field.size()));
            assert_eq!(field.powers(0, 0), [1]);
        }
    }

    #[test]
    fn every_element_is_a_root_of_x_to_the_q_minus_x() {
        for field in FIELDS {
            for a in 0..field.size() {
                assert_eq!(field.power(a, usize::from(field.size())), a);
                assert_eq!(field.power(a, 0), 1);
            }
        }
    }
}
