//! Sums, products and inverses of the field of 64.

use super::{Builder, Q};
use crate::case_record::Case;

/// Values that are no symbols.
const BAD: [u8; 6] = [64, 65, 127, 128, 254, 255];

impl Builder {
    pub(super) fn field_calls(&mut self) {
        for a in 0..64 {
            self.inverse(a);
            // Each symbol with 0, z, itself, the highest one and another.
            for b in [0, 2, a, 63, (5 * a + 7) % 64] {
                self.sum_and_product(a, b);
            }
        }
        for first in BAD {
            self.inverse(first);
            for good in [0, 1, 40, 63] {
                self.sum_and_product(first, good);
                self.sum_and_product(good, first);
            }
            for second in BAD {
                self.sum_and_product(first, second);
            }
        }
    }

    fn inverse(&mut self, a: u8) {
        self.field_call(b'i', a, 0);
    }

    fn sum_and_product(&mut self, a: u8, b: u8) {
        self.field_call(b'+', a, b);
        self.field_call(b'*', a, b);
    }

    fn field_call(&mut self, op: u8, a: u8, b: u8) {
        self.cases.push(Case {
            op,
            q: Q,
            a,
            b,
            ..Case::default()
        });
    }
}
