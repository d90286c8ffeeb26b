//! Lists of columns and words on them (request T-12).

use super::Shape;
use crate::chosen_columns;
use crate::curve::Curve;
use crate::generator::Generator;

/// A list of columns of series 1 and an order below its n.
#[derive(Clone, Debug)]
pub struct Block {
    pub columns: Vec<u8>,
    /// Its n is that of the list: q times the number of columns.
    pub shape: Shape,
}

impl Block {
    pub fn of(curve: Curve, columns: &[u8], m: u16) -> Block {
        let n = usize::from(curve.q()) * columns.len();
        let shape = Shape {
            n,
            ..Shape::of(curve, m)
        };
        Block {
            columns: columns.to_vec(),
            shape,
        }
    }

    /// Every order that the list of columns has.
    pub fn every_order(curve: Curve, columns: &[u8]) -> Vec<Block> {
        let n = u16::from(curve.q()) * columns.len() as u16;
        (0..n).map(|m| Block::of(curve, columns, m)).collect()
    }

    pub fn q(&self) -> u8 {
        self.shape.q()
    }

    /// Any order below n gets its word, so the outcome needs no look.
    pub fn word_of(&self, message: &[u8]) -> Vec<u8> {
        let mut word = vec![0; self.shape.n];
        chosen_columns::encode_on(self.q(), &self.columns, self.shape.m, message, &mut word);
        word
    }

    pub fn codeword(&self, generator: &mut Generator) -> Vec<u8> {
        let message = super::message(generator, self.shape);
        self.word_of(&message)
    }
}

/// Every list of columns, in the order of the numbers whose bits they are.
pub fn every_list(curve: Curve) -> impl Iterator<Item = Vec<u8>> {
    let size = curve.field().size();
    let has_bit = |number: u32, x: u8| number >> x & 1 == 1;
    (1..1u32 << size).map(move |number| (0..size).filter(|&x| has_bit(number, x)).collect())
}

/// Any list of so many columns.
pub fn arbitrary(generator: &mut Generator, curve: Curve, count: usize) -> Vec<u8> {
    let size = usize::from(curve.field().size());
    let columns = generator.permutation(size).into_iter().take(count);
    let mut columns: Vec<u8> = columns.map(|x| x as u8).collect();
    columns.sort_unstable();
    columns
}

#[cfg(test)]
mod tests {
    use super::*;
    use std::collections::BTreeSet;

    #[test]
    fn all_15_lists_of_the_small_curve_are_there_once() {
        let lists: Vec<Vec<u8>> = every_list(Curve::Q_IS_2).collect();
        assert_eq!(lists[..4], [vec![0], vec![1], vec![0, 1], vec![2]]);
        assert_eq!(lists[14], [0, 1, 2, 3]);
        let different: BTreeSet<&Vec<u8>> = lists.iter().collect();
        assert_eq!((lists.len(), different.len()), (15, 15));
        let ascends = |list: &Vec<u8>| list.windows(2).all(|pair| pair[0] < pair[1]);
        assert!(lists.iter().all(ascends));
        assert_eq!(every_list(Curve::Q_IS_4).count(), 65_535);
    }

    #[test]
    fn arbitrary_lists_have_their_length_and_ascend() {
        let mut generator = Generator::with_seed(46);
        for curve in Curve::SHORT {
            for count in 1..=usize::from(curve.field().size()) {
                let list = arbitrary(&mut generator, curve, count);
                assert_eq!(list.len(), count);
                assert!(list.windows(2).all(|pair| pair[0] < pair[1]));
                assert!(list.iter().all(|&x| x < curve.field().size()));
            }
        }
    }

    #[test]
    fn the_numbers_of_a_block() {
        let block = Block::of(Curve::Q_IS_4, &[3, 7, 9], 11);
        let Shape { n, k, m, .. } = block.shape;
        assert_eq!((block.q(), n, k, m), (4, 12, 6, 11));
        let orders = Block::every_order(Curve::Q_IS_4, &[3, 7, 9]);
        assert!(orders.iter().map(|block| block.shape.m).eq(0..12));
    }
}
