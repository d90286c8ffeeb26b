//! Encode and unencode at q = 8 with slices that have room in a record. A word
//! hasn't, so that each call is refused, by the first check that applies.

use super::{Builder, ORDERS};
use crate::case_record::SLICE_ROOM;
use crate::curve::Curve;

/// Lengths that are right for a short block, and the longest one.
const SHORT_LENGTHS: [usize; 6] = [0, 1, 8, 32, 64, SLICE_ROOM];

impl Builder {
    pub(super) fn code_calls(&mut self) {
        for m in ORDERS {
            self.lengths_of_short_blocks(m);
        }
        for m in [0, 1, 7, 8, 9, 10, 37, 53, 54, 55, 56, 60, 97, 98, 99] {
            self.messages_of_long_blocks(m);
        }
    }

    /// 2 or 3, but where the message has length k.
    fn lengths_of_short_blocks(&mut self, m: u16) {
        for length in SHORT_LENGTHS {
            let input = self.symbols(length);
            let bad = vec![64; length];
            self.call(b'e', m, &input, 64);
            self.call(b'u', m, &input, 32);
            self.call(b'e', m, &bad, 0);
            self.call(b'u', m, &bad, 0);
        }
    }

    /// Up to the order 99, where k is 72, a message has room: 3 with one symbol more
    /// or less, 4 with a bad value, and 5 for the word, also beside a bad length that
    /// is right for another curve.
    fn messages_of_long_blocks(&mut self, m: u16) {
        let k = Curve::Q_IS_8.terms(m).len();
        let good = self.symbols(k);
        for output in [0, 8, 64, SLICE_ROOM] {
            self.call(b'e', m, &good, output);
        }
        self.call(b'e', m, &good[1..], 64);
        let longer = self.symbols((k + 1).min(SLICE_ROOM));
        self.call(b'e', m, &longer, 64);
        let middle = self.generator.below(k);
        for (index, value) in [(0, 64), (k - 1, 255), (middle, 254)] {
            let mut bad = good.clone();
            bad[index] = value;
            self.call(b'e', m, &bad, 64);
            bad[k - 1] = 100;
            self.call(b'e', m, &bad, 0);
        }
    }
}
