//! What request T-12 brought, as cases: encode, unencode and recover on chosen columns,
//! with lists of every length and words of every kind, and with one fault or several.

mod refused;

use crate::case_record::Case;
use crate::code::MISSING;
use crate::curve::Curve;
use crate::generator::Generator;
use crate::sample::columns::{self, Block};
use crate::sample::{self, Shape};

const SEED: u64 = 13;

/// The order of the strap.
const STRAP_ORDER: u16 = 37;

/// At q = 2 every list at every order, at q = 4 some lists of every length at some
/// orders each, with the orders beyond both. Then the refusals of single blocks.
pub fn chosen_columns_cases() -> Vec<Case> {
    let mut builder = Builder {
        generator: Generator::with_seed(SEED),
        cases: Vec::new(),
    };
    for list in columns::every_list(Curve::Q_IS_2) {
        for block in Block::every_order(Curve::Q_IS_2, &list) {
            builder.accepted_calls(&block);
        }
        builder.orders_too_high(Curve::Q_IS_2, &list);
    }
    for list in builder.large_lists() {
        for m in builder.some_orders(&list) {
            builder.accepted_calls(&Block::of(Curve::Q_IS_4, &list, m));
        }
        builder.orders_too_high(Curve::Q_IS_4, &list);
    }
    builder.refused_calls();
    builder.cases
}

/// The arguments of a call.
#[derive(Clone)]
struct Call {
    op: u8,
    q: u8,
    columns: Vec<u8>,
    m: u16,
    input: Vec<u8>,
    /// That of the slice to be written.
    length: usize,
}

impl Call {
    /// With a slice of the right length.
    fn of(op: u8, block: &Block, input: Vec<u8>) -> Call {
        let Shape { n, k, m, .. } = block.shape;
        Call {
            op,
            q: block.q(),
            columns: block.columns.clone(),
            m,
            input,
            length: if op == b'X' { n } else { k },
        }
    }
}

struct Builder {
    generator: Generator,
    cases: Vec<Case>,
}

impl Builder {
    /// The slice is filled with an arbitrary byte that is no symbol.
    fn add(&mut self, call: &Call) {
        let fill = self.generator.byte_from(16, 255);
        self.cases.push(Case::of_columns(
            call.op,
            call.q,
            &call.columns,
            call.m,
            &call.input,
            call.length,
            fill,
        ));
    }

    fn call(&mut self, op: u8, block: &Block, input: Vec<u8>) {
        self.add(&Call::of(op, block, input));
    }
}

/// Lists of columns and orders.
impl Builder {
    /// Of each length the first columns, the last ones, any with column 0 and any
    /// without it; each list once.
    fn large_lists(&mut self) -> Vec<Vec<u8>> {
        let mut lists: Vec<Vec<u8>> = Vec::new();
        for count in 1..=16 {
            let of_count = [
                (0..count).collect(),
                (16 - count..16).collect(),
                self.list_with_column_0(usize::from(count)),
                self.list_without_column_0(usize::from(count)),
            ];
            for list in of_count {
                if !lists.contains(&list) {
                    lists.push(list);
                }
            }
        }
        lists
    }

    fn list_with_column_0(&mut self, count: usize) -> Vec<u8> {
        let others = self.list_without_column_0(count - 1);
        [vec![0], others].concat()
    }

    /// All 15 columns if there aren't so many.
    fn list_without_column_0(&mut self, count: usize) -> Vec<u8> {
        let others = self.generator.permutation(15).into_iter().take(count);
        let mut list: Vec<u8> = others.map(|index| index as u8 + 1).collect();
        list.sort_unstable();
        list
    }

    /// 0, a small one, any, the strap's if there is room for it, and the highest.
    fn some_orders(&mut self, list: &[u8]) -> Vec<u16> {
        let n = 4 * list.len();
        let small = 1 + self.generator.below(n.min(11) - 1);
        let any = self.generator.below(n);
        let chosen = [0, small, any, usize::from(STRAP_ORDER), n - 1];
        let below_n = chosen.into_iter().filter(|&m| m < n);
        let mut orders: Vec<u16> = below_n.map(|m| m as u16).collect();
        orders.sort_unstable();
        orders.dedup();
        orders
    }
}

/// Calls that meet no refusal but 9 and 10.
impl Builder {
    fn accepted_calls(&mut self, block: &Block) {
        let message = sample::message(&mut self.generator, block.shape);
        let word = block.word_of(&message);
        self.call(b'X', block, message);
        self.whole_words(block, &word);
        self.broken_words(block, &word);
        self.known_columns(block, &word);
    }

    /// The codeword, the same with one symbol off, and any word.
    fn whole_words(&mut self, block: &Block, codeword: &[u8]) {
        let damaged = sample::damaged(&mut self.generator, block.shape, codeword);
        let arbitrary = sample::symbols(&mut self.generator, block.shape, block.shape.n);
        for word in [codeword.to_vec(), damaged, arbitrary] {
            self.call(b'U', block, word);
        }
    }

    /// Nothing missing, a few, any number, all but the m + 1 that are sure to be enough,
    /// all but k, all; and m + 2 symbols or, at the highest order, all, one of them wrong.
    fn broken_words(&mut self, block: &Block, codeword: &[u8]) {
        let Shape { n, k, m, .. } = block.shape;
        let few = 1 + self.generator.below(n.min(4));
        let any = self.generator.below(n + 1);
        let enough = usize::from(m) + 1;
        for known in [n, n - few, any, enough, k, 0] {
            let broken = sample::with_known(&mut self.generator, codeword, known);
            self.call(b'R', block, broken);
        }
        let more = n.min(enough + 1);
        let broken = sample::with_known(&mut self.generator, codeword, more);
        let wrong = sample::damaged(&mut self.generator, block.shape, &broken);
        self.call(b'R', block, wrong);
    }

    /// m / q whole columns, which leave several messages, and one more, which are enough.
    fn known_columns(&mut self, block: &Block, codeword: &[u8]) {
        let columns = block.shape.columns_of_order();
        for known in [columns, columns + 1] {
            let shape = block.shape;
            let broken = sample::with_known_columns(&mut self.generator, shape, codeword, known);
            self.call(b'R', block, broken);
        }
    }

    /// n, at q = 2 n + 1 too, and the highest that all columns have, or 65535 where the
    /// list is that of all columns. The other arguments are good at the order n - 1.
    fn orders_too_high(&mut self, curve: Curve, list: &[u8]) {
        let n = u16::from(curve.q()) * list.len() as u16;
        let block = Block::of(curve, list, n - 1);
        let all = curve.point_count() as u16 - 1;
        let other = if n <= all { all } else { u16::MAX };
        let mut orders = vec![n, other];
        if curve == Curve::Q_IS_2 {
            orders.push(n + 1);
        }
        for m in orders {
            for call in self.good_calls(&block) {
                self.add(&Call { m, ..call });
            }
        }
    }

    /// Of each op one that no check refuses. The broken word has some symbols missing if
    /// there can be.
    fn good_calls(&mut self, block: &Block) -> [Call; 3] {
        let message = sample::message(&mut self.generator, block.shape);
        let word = block.word_of(&message);
        let enough = usize::from(block.shape.m) + 1;
        let broken = sample::with_known(&mut self.generator, &word, enough);
        [
            Call::of(b'X', block, message),
            Call::of(b'U', block, word),
            Call::of(b'R', block, broken),
        ]
    }
}

#[cfg(test)]
mod tests;
