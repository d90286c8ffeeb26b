//! The long code at q = 8, m = 300 as one would write it plainly in Rust, by the
//! methods of the short one's baseline: a product table and matrices worked out
//! beforehand, and Gauss elimination.

use reference::code;
use reference::curve::Curve;
use reference::outcome::Outcome;

use crate::baseline::DONE;
use crate::long::{Message, Word, K, M, N, Q};
use crate::{MISSING, SERIES};

const SIZE: usize = 64;

/// The numbers that a call returns from C, so that answers can be compared.
const NOT_A_SYMBOL: u32 = 4 << 16;
const NO_MESSAGE_FITS: u32 = 9 << 16;
const SEVERAL_MESSAGES_FIT: u32 = 10 << 16;

/// An equation of recovery: a place's coefficients, then the symbol there.
type Row = [u8; K + 1];

/// A row of a matrix, and beside it one of the matrix that it turns into.
type PairRow = [u8; 2 * K];

pub struct LongBaseline {
    products: [[u8; SIZE]; SIZE],
    inverses: [u8; SIZE],
    /// Row i is the word of the message that is 1 at i and 0 elsewhere.
    generator: Vec<Word>,
    /// Column p of the generator, as the start of an equation.
    equations: Vec<Message>,
    /// k places whose symbols settle the message.
    chosen_places: Vec<usize>,
    /// Takes the symbols at the chosen places to the message: row i belongs
    /// to the symbol at chosen place i.
    chosen_inverse: Vec<Message>,
}

impl LongBaseline {
    pub fn new() -> LongBaseline {
        let field = Curve::Q_IS_8.field();
        let symbol = |index: usize| index as u8;
        let generator: Vec<Word> = (0..K).map(word_of_term).collect();
        let equation = |p: usize| std::array::from_fn(|i| generator[i][p]);
        let mut baseline = LongBaseline {
            products: std::array::from_fn(|a| {
                std::array::from_fn(|b| field.product(symbol(a), symbol(b)))
            }),
            inverses: std::array::from_fn(|a| field.inverse(symbol(a)).unwrap_or(0)),
            equations: (0..N).map(equation).collect(),
            generator,
            chosen_places: Vec::new(),
            chosen_inverse: Vec::new(),
        };
        baseline.choose_places();
        baseline.invert_chosen();
        baseline
    }

    /// The message times the generator matrix.
    pub fn encode(&self, message: &Message, word: &mut Word) -> u32 {
        if let Some(index) = message.iter().position(|&s| usize::from(s) >= SIZE) {
            return NOT_A_SYMBOL + index as u32;
        }
        *word = self.word_of(message);
        DONE
    }

    /// The chosen symbols times the inverse, checked by encoding again.
    pub fn unencode(&self, word: &Word, message: &mut Message) -> u32 {
        if let Some(index) = word.iter().position(|&s| usize::from(s) >= SIZE) {
            return NOT_A_SYMBOL + index as u32;
        }
        let mut candidate = [0; K];
        for (&place, row) in self.chosen_places.iter().zip(&self.chosen_inverse) {
            self.add_scaled(word[place], row, &mut candidate);
        }
        if self.word_of(&candidate) != *word {
            return NO_MESSAGE_FITS;
        }
        *message = candidate;
        DONE
    }

    /// Gauss elimination on the equations of the symbols that are there.
    pub fn recover(&self, word: &Word, message: &mut Message) -> u32 {
        let is_bad = |s: u8| usize::from(s) >= SIZE && s != MISSING;
        if let Some(index) = word.iter().position(|&s| is_bad(s)) {
            return NOT_A_SYMBOL + index as u32;
        }
        let mut rows = [[0; K + 1]; N];
        let count = self.write_equations(word, &mut rows);
        let rows = &mut rows[..count];
        let rank = self.reduce(rows, K).len();
        // From the rank on every coefficient is 0, so the symbol must be too.
        if rows[rank..].iter().any(|row| row[K] != 0) {
            return NO_MESSAGE_FITS;
        }
        if rank < K {
            return SEVERAL_MESSAGES_FIT + (K - rank) as u32;
        }
        self.substitute_back(rows, message);
        DONE
    }

    fn word_of(&self, message: &Message) -> Word {
        let mut word = [0; N];
        for (&coefficient, row) in message.iter().zip(&self.generator) {
            self.add_scaled(coefficient, row, &mut word);
        }
        word
    }

    fn add_scaled(&self, factor: u8, row: &[u8], sum: &mut [u8]) {
        let products = &self.products[usize::from(factor) % SIZE];
        for (entry, &symbol) in sum.iter_mut().zip(row) {
            *entry ^= products[usize::from(symbol) % SIZE];
        }
    }

    fn write_equations(&self, word: &Word, rows: &mut [Row; N]) -> usize {
        let mut count = 0;
        for (equation, &symbol) in self.equations.iter().zip(word) {
            if symbol != MISSING {
                rows[count][..K].copy_from_slice(equation);
                rows[count][K] = symbol;
                count += 1;
            }
        }
        count
    }

    /// Brings the rows to echelon form with leading ones, as far as the first
    /// `columns` go; gives the columns of the leading ones.
    fn reduce<const WIDTH: usize>(&self, rows: &mut [[u8; WIDTH]], columns: usize) -> Vec<usize> {
        let mut leads = Vec::with_capacity(columns);
        for column in 0..columns {
            let rank = leads.len();
            let pivot = (rank..rows.len()).find(|&row| rows[row][column] != 0);
            if let Some(pivot) = pivot {
                rows.swap(rank, pivot);
                self.clear_below(rows, rank, column);
                leads.push(column);
            }
        }
        leads
    }

    fn clear_below<const WIDTH: usize>(
        &self,
        rows: &mut [[u8; WIDTH]],
        rank: usize,
        column: usize,
    ) {
        let (above, below) = rows.split_at_mut(rank + 1);
        let pivot = &mut above[rank];
        let lead_inverse = self.inverses[usize::from(pivot[column]) % SIZE];
        let scale = &self.products[usize::from(lead_inverse) % SIZE];
        for entry in &mut pivot[column..] {
            *entry = scale[usize::from(*entry) % SIZE];
        }
        for row in below {
            let factor = row[column];
            if factor != 0 {
                self.add_scaled(factor, &pivot[column..], &mut row[column..]);
            }
        }
    }

    /// At full rank row i has its leading one at i.
    fn substitute_back(&self, rows: &[Row], message: &mut Message) {
        for i in (0..K).rev() {
            message[i] = rows[i][K] ^ self.product_sum(&rows[i][i + 1..K], &message[i + 1..]);
        }
    }

    fn product_sum(&self, left: &[u8], right: &[u8]) -> u8 {
        let pairs = left.iter().zip(right);
        pairs.fold(0, |sum, (&a, &b)| {
            sum ^ self.products[usize::from(a) % SIZE][usize::from(b) % SIZE]
        })
    }

    /// Takes each place whose column of the generator is independent of those before.
    fn choose_places(&mut self) {
        let mut rows = self.generator.clone();
        self.chosen_places = self.reduce(&mut rows, N);
        assert_eq!(self.chosen_places.len(), K, "the code has dimension k");
    }

    /// Row i is the message whose word is 1 at chosen place i and 0 at the other
    /// chosen ones. The generator's part at the chosen places takes messages to their
    /// symbols there, and the same steps take the unit matrix to its inverse.
    fn invert_chosen(&mut self) {
        let pair = |i: usize| -> PairRow {
            std::array::from_fn(|j| match j.checked_sub(K) {
                None => self.generator[i][self.chosen_places[j]],
                Some(unit) => u8::from(unit == i),
            })
        };
        let mut rows: Vec<PairRow> = (0..K).map(pair).collect();
        assert_eq!(self.reduce(&mut rows, K).len(), K);
        for i in (0..K).rev() {
            let (above, below) = rows.split_at_mut(i);
            for row in above {
                self.add_scaled(row[i], &below[0], row);
            }
        }
        let inverse_row = |row: &PairRow| std::array::from_fn(|j| row[K + j]);
        self.chosen_inverse = rows.iter().map(inverse_row).collect();
    }
}

/// The values of one term at every place.
fn word_of_term(index: usize) -> Word {
    let mut coefficients = [0; K];
    coefficients[index] = 1;
    let mut word = [0; N];
    let outcome = code::encode(Q, SERIES, M, &coefficients, &mut word);
    assert_eq!(outcome, Outcome::ACCEPTED);
    word
}
