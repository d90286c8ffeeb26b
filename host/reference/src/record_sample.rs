//! Records of every kind, which the programs over block records are tried on.

use crate::blocks::RECORD_LENGTH;
use crate::curve::Curve;
use crate::generator::Generator;
use crate::sample::{self, Shape};

const SEED: u64 = 2;
const SEED_OF_FEW: u64 = 5;
const SHORT_LENGTH: usize = 41;

/// Many records end to end, and a last part that is too short: for `blocks` and
/// `page`, which print one result a record.
pub fn records() -> Vec<u8> {
    // 26 missing leave m + 1 symbols and 32 missing leave k.
    let often = [25, 26, 27, 32, 33].into_iter().cycle().take(50);
    let mut builder = Builder::with_seed(SEED);
    builder.whole_words(10);
    builder.broken_words((1..=RECORD_LENGTH).chain(often));
    builder.damaged_words([0, 1, 5, 10, 20, 25, 26, 30, 32, 40].repeat(5));
    builder.whole_columns(1..=15);
    builder.bad_values((0..RECORD_LENGTH).step_by(3));
    builder.arbitrary_records(10);
    builder.with_short_part()
}

/// Fewer records, for `progress`, which prints several lines a record. It brings
/// in 8 symbols a call, so numbers of arrived symbols about a multiple of 8 occur,
/// and so do early and late contradictions.
pub fn few_records() -> Vec<u8> {
    let about_multiples_of_8 = [64, 63, 57, 56, 55, 48, 40, 33, 32, 31, 24, 16, 8, 7, 1];
    let mut builder = Builder::with_seed(SEED_OF_FEW);
    builder.whole_words(3);
    builder.broken_words(about_multiples_of_8.into_iter().chain([25, 26, 27]));
    builder.damaged_words([0, 10, 26, 32]);
    builder.words_with_first_or_last_wrong([0, 1, 8, 20, 25]);
    builder.whole_columns([1, 2, 8, 9, 10]);
    builder.bad_values([0, 31, 62]);
    builder.arbitrary_records(1);
    builder.with_short_part()
}

/// The three records of the paper's example.
fn example_records() -> Vec<u8> {
    let mut input = [[0; RECORD_LENGTH], [255; RECORD_LENGTH]].concat();
    input.extend([0; RECORD_LENGTH - 1]);
    input.push(1);
    input
}

struct Builder {
    generator: Generator,
    shape: Shape,
    input: Vec<u8>,
}

impl Builder {
    /// Starts with the paper's example.
    fn with_seed(seed: u64) -> Builder {
        Builder {
            generator: Generator::with_seed(seed),
            shape: Shape::of(Curve::Q_IS_4, 37),
            input: example_records(),
        }
    }

    fn with_short_part(mut self) -> Vec<u8> {
        let short_part = self.generator.bytes(SHORT_LENGTH);
        [self.input, short_part].concat()
    }

    fn codeword(&mut self) -> Vec<u8> {
        sample::codeword(&mut self.generator, self.shape)
    }

    fn broken_word(&mut self, missing: usize) -> Vec<u8> {
        let word = self.codeword();
        sample::with_known(&mut self.generator, &word, self.shape.n - missing)
    }

    fn whole_words(&mut self, count: usize) {
        for _ in 0..count {
            let word = self.codeword();
            self.input.extend(word);
        }
    }

    /// One word for each number of missing symbols.
    fn broken_words(&mut self, missing: impl IntoIterator<Item = usize>) {
        for missing in missing {
            let broken = self.broken_word(missing);
            self.input.extend(broken);
        }
    }

    /// One word for each number of missing symbols, with a wrong one anywhere.
    fn damaged_words(&mut self, missing: impl IntoIterator<Item = usize>) {
        for missing in missing {
            let broken = self.broken_word(missing);
            let damaged = sample::damaged(&mut self.generator, self.shape, &broken);
            self.input.extend(damaged);
        }
    }

    /// Two words for each number of missing symbols. Of those known the first is
    /// wrong in one of them, the last in the other.
    fn words_with_first_or_last_wrong(&mut self, missing: impl IntoIterator<Item = usize>) {
        for missing in missing {
            for choice in [0, self.shape.n - missing - 1] {
                let broken = self.broken_word(missing);
                let damaged = sample::damaged_at(&mut self.generator, self.shape, &broken, choice);
                self.input.extend(damaged);
            }
        }
    }

    /// 9 whole columns are 36 symbols, more than k, and still not enough.
    fn whole_columns(&mut self, columns: impl IntoIterator<Item = usize>) {
        for columns in columns {
            let word = self.codeword();
            let broken =
                sample::with_known_columns(&mut self.generator, self.shape, &word, columns);
            self.input.extend(broken);
        }
    }

    /// Three bad values at each index, and one last.
    fn bad_values(&mut self, indexes: impl IntoIterator<Item = usize>) {
        for index in indexes {
            for value in [16, 254, self.generator.byte_from(17, 253)] {
                let missing = self.generator.below(RECORD_LENGTH);
                let mut record = self.broken_word(missing);
                record[RECORD_LENGTH - 1] = 128;
                record[index] = value;
                self.input.extend(record);
            }
        }
    }

    /// Each time one of any bytes and one of any symbols.
    fn arbitrary_records(&mut self, count: usize) {
        for _ in 0..count {
            let bytes = self.generator.bytes(RECORD_LENGTH);
            let symbols = sample::symbols(&mut self.generator, self.shape, RECORD_LENGTH);
            self.input.extend(bytes);
            self.input.extend(symbols);
        }
    }
}

#[cfg(test)]
mod tests {
    use super::*;

    #[test]
    fn the_records_are_reproducible() {
        assert_eq!(records(), records());
        assert_eq!(few_records(), few_records());
    }

    #[test]
    fn a_short_part_comes_last() {
        let input = records();
        assert!(input.len() / RECORD_LENGTH >= 253);
        assert_eq!(input.len() % RECORD_LENGTH, SHORT_LENGTH);
        let few = few_records();
        let count = few.len() / RECORD_LENGTH;
        assert!((40..=60).contains(&count), "{count}");
        assert_eq!(few.len() % RECORD_LENGTH, SHORT_LENGTH);
    }
}
