//! The code at q = 4, m = 37 in series 1 as one would write it plainly in Rust, with a
//! product table and matrices worked out beforehand.

use reference::code;
use reference::outcome::Outcome;

use crate::matrix_code::{is_symbol, MatrixCode, NOT_A_SYMBOL};
use crate::{K, M, MISSING, N, Q, SERIES};

pub use crate::matrix_code::DONE;

/// The numbers that a call returns from C, so that answers can be compared.
pub const NO_CODEWORD_NEAR: u32 = 11 << 16;
const BAD_PLACES: u32 = 15 << 16;
pub const PLACES_LEAVE_SEVERAL: u32 = 16 << 16;

/// The most wrong symbols that are mended, t.
pub const RADIUS: usize = 10;
/// Mending looks for f and h with f times the word = h at every place: f has the
/// terms of order t + 6, h those of order t + 6 + m.
const F_TERMS: usize = 11;
const H_TERMS: usize = 48;
const H_ORDER: u16 = RADIUS as u16 + 6 + M;

/// An equation of mending: the coefficients of h at a place, then those of f.
type PairRow = [u8; H_TERMS + F_TERMS];

pub struct Baseline {
    /// Encodes, unencodes and recovers.
    pub code: MatrixCode<K, { K + 1 }, N>,
    /// The equations of mending for a word that is 1 at every place.
    pair_equations: [PairRow; N],
}

impl Baseline {
    pub fn new() -> Baseline {
        // Terms come by ascending weight, so those of a lower order come first.
        let terms: [[u8; N]; H_TERMS] = std::array::from_fn(term_word);
        let pair_term = |i| if i < H_TERMS { i } else { i - H_TERMS };
        Baseline {
            code: MatrixCode::new(std::array::from_fn(|i| terms[i])),
            pair_equations: std::array::from_fn(|p| {
                std::array::from_fn(|i| terms[pair_term(i)][p])
            }),
        }
    }

    /// Gauss elimination on the equations of the places gives the message, which is
    /// encoded.
    pub fn encode_at(&self, places: &[u16; K], symbols: &[u8; K], word: &mut [u8; N]) -> u32 {
        let ascending = places.windows(2).all(|pair| pair[0] < pair[1]);
        if !ascending || usize::from(places[K - 1]) >= N {
            return BAD_PLACES;
        }
        if let Some(index) = symbols.iter().position(|&s| !is_symbol(s)) {
            return NOT_A_SYMBOL + index as u32;
        }
        let mut rows = [[0; K + 1]; K];
        for (row, (&place, &symbol)) in rows.iter_mut().zip(places.iter().zip(symbols)) {
            *row = self.code.equation(usize::from(place), symbol);
        }
        if self.code.reduce(&mut rows, K) < K {
            return PLACES_LEAVE_SEVERAL;
        }
        let mut message = [0; K];
        self.code.substitute_back(&rows, &mut message);
        *word = self.code.word_of(&message);
        DONE
    }

    /// Takes the places where f is 0 as missing, recovers, encodes again and
    /// counts the differences.
    pub fn mend(
        &self,
        word: &[u8; N],
        message: &mut [u8; K],
        mended: &mut [u8; N],
        marks: &mut [u8; N],
    ) -> u32 {
        if let Some(index) = word.iter().position(|&s| !is_symbol(s)) {
            return NOT_A_SYMBOL + index as u32;
        }
        let Some(f) = self.find_f(word) else {
            return NO_CODEWORD_NEAR;
        };
        let mut candidate = [0; K];
        let broken = self.without_zeros(word, &f);
        if self.code.recover(&broken, &mut candidate) != DONE {
            return NO_CODEWORD_NEAR;
        }
        let codeword = self.code.word_of(&candidate);
        let changes: [u8; N] = std::array::from_fn(|p| u8::from(word[p] != codeword[p]));
        if changes.iter().filter(|&&change| change != 0).count() > RADIUS {
            return NO_CODEWORD_NEAR;
        }
        *message = candidate;
        *mended = codeword;
        *marks = changes;
        DONE
    }

    /// Gauss elimination on the equations of all places. The words of h's terms
    /// are independent, so each of the first H_TERMS rows leads with one of them,
    /// and h needn't be worked out.
    fn find_f(&self, word: &[u8; N]) -> Option<[u8; F_TERMS]> {
        let mut rows = self.pair_equations;
        for (row, &symbol) in rows.iter_mut().zip(word) {
            self.code.scale(symbol, &mut row[H_TERMS..]);
        }
        self.code.reduce(&mut rows, H_TERMS + F_TERMS);
        let free = (0..F_TERMS).find(|&i| rows[H_TERMS + i][H_TERMS + i] == 0)?;
        let mut f = [0; F_TERMS];
        f[free] = 1;
        for i in (0..free).rev() {
            let rest = &rows[H_TERMS + i][H_TERMS + i + 1..];
            f[i] = self.code.product_sum(rest, &f[i + 1..]);
        }
        Some(f)
    }

    /// The terms of f are the first of those of a message.
    fn without_zeros(&self, word: &[u8; N], f: &[u8; F_TERMS]) -> [u8; N] {
        let values = self.code.word_of(f);
        std::array::from_fn(|p| if values[p] == 0 { MISSING } else { word[p] })
    }
}

/// The values of one term of h at every place.
fn term_word(index: usize) -> [u8; N] {
    let mut coefficients = [0; H_TERMS];
    coefficients[index] = 1;
    let mut word = [0; N];
    let outcome = code::encode(Q, SERIES, H_ORDER, &coefficients, &mut word);
    assert_eq!(outcome, Outcome::ACCEPTED);
    word
}
