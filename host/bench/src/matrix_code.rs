//! A code at q = 4 as one would write it plainly in Rust, with a product table and
//! matrices worked out beforehand.

use reference::curve::Curve;

use crate::MISSING;

const SIZE: usize = 16;

/// The numbers that a call returns from C, so that answers can be compared.
pub const DONE: u32 = 0;
pub const NOT_A_SYMBOL: u32 = 4 << 16;
const NO_MESSAGE_FITS: u32 = 9 << 16;
const SEVERAL_MESSAGES_FIT: u32 = 10 << 16;

/// Words of N symbols with messages of K. A row of WIDTH = K + 1 entries is an equation
/// of recovery: a place's coefficients, then the symbol there.
pub struct MatrixCode<const K: usize, const WIDTH: usize, const N: usize> {
    products: [[u8; SIZE]; SIZE],
    inverses: [u8; SIZE],
    /// Row i is the word of the message that is 1 at i and 0 elsewhere.
    generator: [[u8; N]; K],
    /// Column p of the generator, as the start of an equation.
    equations: [[u8; K]; N],
    /// k places whose symbols settle the message.
    chosen_places: [usize; K],
    /// Takes the symbols at the chosen places to the message: row i belongs
    /// to the symbol at chosen place i.
    chosen_inverse: [[u8; K]; K],
}

/// Whether a value is one of the field.
pub fn is_symbol(value: u8) -> bool {
    usize::from(value) < SIZE
}

impl<const K: usize, const WIDTH: usize, const N: usize> MatrixCode<K, WIDTH, N> {
    pub fn new(generator: [[u8; N]; K]) -> MatrixCode<K, WIDTH, N> {
        assert_eq!(WIDTH, K + 1);
        let field = Curve::Q_IS_4.field();
        let symbol = |index: usize| index as u8;
        let mut code = MatrixCode {
            products: std::array::from_fn(|a| {
                std::array::from_fn(|b| field.product(symbol(a), symbol(b)))
            }),
            inverses: std::array::from_fn(|a| field.inverse(symbol(a)).unwrap_or(0)),
            equations: std::array::from_fn(|p| std::array::from_fn(|i| generator[i][p])),
            generator,
            chosen_places: [0; K],
            chosen_inverse: [[0; K]; K],
        };
        code.choose_places();
        code.invert_chosen();
        code
    }

    /// The message times the generator matrix.
    pub fn encode(&self, message: &[u8; K], word: &mut [u8; N]) -> u32 {
        if let Some(index) = message.iter().position(|&s| !is_symbol(s)) {
            return NOT_A_SYMBOL + index as u32;
        }
        *word = self.word_of(message);
        DONE
    }

    /// The chosen symbols times the inverse, checked by encoding again.
    pub fn unencode(&self, word: &[u8; N], message: &mut [u8; K]) -> u32 {
        if let Some(index) = word.iter().position(|&s| !is_symbol(s)) {
            return NOT_A_SYMBOL + index as u32;
        }
        let mut candidate = [0; K];
        for (&place, row) in self.chosen_places.iter().zip(&self.chosen_inverse) {
            self.add_scaled(word[place], row, &mut candidate);
        }
        if self.word_of(&candidate) != *word {
            return NO_MESSAGE_FITS;
        }
        *message = candidate;
        DONE
    }

    /// Gauss elimination on the equations of the symbols that are there.
    pub fn recover(&self, word: &[u8; N], message: &mut [u8; K]) -> u32 {
        let is_bad = |s: u8| !is_symbol(s) && s != MISSING;
        if let Some(index) = word.iter().position(|&s| is_bad(s)) {
            return NOT_A_SYMBOL + index as u32;
        }
        let mut rows = [[0; WIDTH]; N];
        let count = self.write_equations(word, &mut rows);
        let rows = &mut rows[..count];
        let rank = self.reduce(rows, K);
        // From the rank on every coefficient is 0, so the symbol must be too.
        if rows[rank..].iter().any(|row| row[K] != 0) {
            return NO_MESSAGE_FITS;
        }
        if rank < K {
            return SEVERAL_MESSAGES_FIT + (K - rank) as u32;
        }
        self.substitute_back(rows, message);
        DONE
    }

    /// The coefficients at a place, and the symbol there.
    pub fn equation(&self, place: usize, symbol: u8) -> [u8; WIDTH] {
        let mut row = [symbol; WIDTH];
        row[..K].copy_from_slice(&self.equations[place]);
        row
    }

    /// The message, or its first part where the rest is 0, times the generator matrix.
    pub fn word_of(&self, message: &[u8]) -> [u8; N] {
        let mut word = [0; N];
        for (&symbol, row) in message.iter().zip(&self.generator) {
            self.add_scaled(symbol, row, &mut word);
        }
        word
    }

    /// `sum` += `factor` * `row`
    pub fn add_scaled(&self, factor: u8, row: &[u8], sum: &mut [u8]) {
        let products = &self.products[usize::from(factor) % SIZE];
        for (left, &right) in sum.iter_mut().zip(row) {
            // The remainder keeps the index below 16 without a test.
            *left ^= products[usize::from(right) % SIZE];
        }
    }

    /// `row` *= `factor`
    pub fn scale(&self, factor: u8, row: &mut [u8]) {
        let products = &self.products[usize::from(factor) % SIZE];
        for entry in row {
            *entry = products[usize::from(*entry) % SIZE];
        }
    }

    fn write_equations(&self, word: &[u8; N], rows: &mut [[u8; WIDTH]; N]) -> usize {
        let mut count = 0;
        for (equation, &symbol) in self.equations.iter().zip(word) {
            if symbol != MISSING {
                rows[count][..K].copy_from_slice(equation);
                rows[count][K] = symbol;
                count += 1;
            }
        }
        count
    }

    /// Brings the rows to echelon form with leading ones, as far as the first
    /// `columns` go; gives the rank of these.
    pub fn reduce<const LENGTH: usize>(&self, rows: &mut [[u8; LENGTH]], columns: usize) -> usize {
        let mut rank = 0;
        for column in 0..columns {
            let pivot = (rank..rows.len()).find(|&row| rows[row][column] != 0);
            if let Some(pivot) = pivot {
                rows.swap(rank, pivot);
                self.clear_below(rows, rank, column);
                rank += 1;
            }
        }
        rank
    }

    fn clear_below<const LENGTH: usize>(
        &self,
        rows: &mut [[u8; LENGTH]],
        rank: usize,
        column: usize,
    ) {
        let (above, below) = rows.split_at_mut(rank + 1);
        let pivot = &mut above[rank];
        let lead_inverse = self.inverses[usize::from(pivot[column]) % SIZE];
        self.scale(lead_inverse, &mut pivot[column..]);
        for row in below {
            let factor = row[column];
            if factor != 0 {
                self.add_scaled(factor, &pivot[column..], &mut row[column..]);
            }
        }
    }

    /// At full rank row i has its leading one at i.
    pub fn substitute_back(&self, rows: &[[u8; WIDTH]], message: &mut [u8; K]) {
        for i in (0..K).rev() {
            message[i] = rows[i][K] ^ self.product_sum(&rows[i][i + 1..K], &message[i + 1..]);
        }
    }

    pub fn product_sum(&self, left: &[u8], right: &[u8]) -> u8 {
        let pairs = left.iter().zip(right);
        pairs.fold(0, |sum, (&a, &b)| {
            sum ^ self.products[usize::from(a) % SIZE][usize::from(b) % SIZE]
        })
    }

    /// Takes each place whose equation is independent of those before.
    fn choose_places(&mut self) {
        let mut rows: Vec<[u8; WIDTH]> = Vec::new();
        let mut chosen = Vec::new();
        for place in 0..N {
            let row = self.equation(place, 0);
            let mut tried = rows.clone();
            tried.push(row);
            if self.reduce(&mut tried, K) == tried.len() {
                rows.push(row);
                chosen.push(place);
            }
        }
        self.chosen_places = chosen.try_into().expect("the code has dimension k");
    }

    /// Row i is the message whose word is 1 at chosen place i and 0 at the
    /// other chosen ones.
    fn invert_chosen(&mut self) {
        for i in 0..K {
            let mut word = [MISSING; N];
            for &place in &self.chosen_places {
                word[place] = 0;
            }
            word[self.chosen_places[i]] = 1;
            let mut message = [0; K];
            assert_eq!(self.recover(&word, &mut message), DONE);
            self.chosen_inverse[i] = message;
        }
    }
}
