//! Calls of the encoder at chosen places with one fault or several.

use super::{Builder, Call};
use crate::case_record::SLICE_ROOM;
use crate::curve::Series;
use crate::sample::{self, places, Shape, BAD_CURVES};

/// The first index, one in the middle and the last of a list.
fn three_indexes(length: usize) -> [usize; 3] {
    [0, length / 2, length - 1]
}

impl Call {
    fn with_places(&self, places: Vec<u16>) -> Call {
        let call = self.clone();
        Call { places, ..call }
    }

    fn with_symbols(&self, symbols: Vec<u8>) -> Call {
        let call = self.clone();
        Call { symbols, ..call }
    }

    fn with_length(&self, length: usize) -> Call {
        let call = self.clone();
        Call { length, ..call }
    }

    fn with_place(&self, index: usize, place: u16) -> Call {
        let mut places = self.places.clone();
        places[index] = place;
        self.with_places(places)
    }

    fn with_swapped_places(&self, index: usize) -> Call {
        let mut places = self.places.clone();
        places.swap(index, index + 1);
        self.with_places(places)
    }

    fn with_symbol(&self, index: usize, symbol: u8) -> Call {
        let mut symbols = self.symbols.clone();
        symbols[index] = symbol;
        self.with_symbols(symbols)
    }
}

/// Calls that are good but for what is said.
impl Builder {
    /// No check refuses it.
    fn good_call(&mut self, shape: Shape) -> Call {
        let places = places::staircase(&mut self.generator, shape);
        let symbols = sample::message(&mut self.generator, shape);
        Call::of(shape, &places, symbols)
    }

    /// 16, or no refusal where all places fix the codeword.
    fn call_at_few_columns(&mut self, shape: Shape) -> Call {
        let places = places::column_by_column(&mut self.generator, shape);
        self.good_call(shape).with_places(places)
    }

    /// One of the places is missing, which may leave none.
    fn with_one_place_less(&mut self, call: &Call) -> Call {
        let mut places = call.places.clone();
        places.remove(self.generator.below(places.len()));
        call.with_places(places)
    }

    /// The places are still ascending.
    fn with_one_place_more(&mut self, shape: Shape, call: &Call) -> Call {
        let mut places = call.places.clone();
        let others: Vec<u16> = (0..shape.n as u16)
            .filter(|p| !places.contains(p))
            .collect();
        places.push(others[self.generator.below(others.len())]);
        places.sort_unstable();
        call.with_places(places)
    }

    /// Two values are bad, perhaps at the same index.
    fn with_two_bad_symbols(&mut self, shape: Shape, call: &Call) -> Call {
        let bad = [(); 2].map(|()| self.generator.byte_from(shape.field_size, 255));
        let indexes = [(); 2].map(|()| self.generator.below(call.symbols.len()));
        call.with_symbol(indexes[0], bad[0])
            .with_symbol(indexes[1], bad[1])
    }
}

/// Refusals at every order.
impl Builder {
    pub(super) fn refused_calls(&mut self, shape: Shape) {
        self.bad_places(shape);
        self.bad_symbols(shape);
        self.several_faults(shape);
        let good = self.good_call(shape);
        let lengths = [shape.n - 1, shape.n + 1, 0, SLICE_ROOM];
        self.add(&good.with_length(lengths[usize::from(shape.m) % lengths.len()]));
    }

    /// Two places swapped or equal, none, one too few, one too many, and one too high:
    /// a number with a good low byte at any index, and another one at the end.
    fn bad_places(&mut self, shape: Shape) {
        let (n, k) = (shape.n as u16, shape.k);
        let good = self.good_call(shape);
        if k > 1 {
            let first = self.generator.below(k - 1);
            self.add(&good.with_swapped_places(first));
            let first = self.generator.below(k - 1);
            self.add(&good.with_place(first, good.places[first + 1]));
            self.add(&good.with_places(vec![]));
        }
        let less = self.with_one_place_less(&good);
        self.add(&less);
        let more = self.with_one_place_more(shape, &good);
        self.add(&more);
        let index = self.generator.below(k);
        self.add(&good.with_place(index, good.places[index] + 256));
        let last = good.places[k - 1];
        let too_high = [n, 255, 256, u16::MAX, 256 + last, 0xFF00 + last];
        let too_high = too_high[usize::from(shape.m) % too_high.len()];
        self.add(&good.with_place(k - 1, too_high));
    }

    fn bad_symbols(&mut self, shape: Shape) {
        let good = self.good_call(shape);
        let lengths = [shape.k - 1, shape.k + 1, 0, SLICE_ROOM];
        let length = lengths[usize::from(shape.m) / 2 % lengths.len()];
        let symbols = sample::symbols(&mut self.generator, shape, length);
        self.add(&good.with_symbols(symbols));
        let two = self.with_two_bad_symbols(shape, &good);
        self.add(&two);
        let edges = [
            (0, shape.field_size),
            (shape.k - 1, 255),
            (0, 255),
            (shape.k - 1, shape.field_size),
        ];
        let (index, value) = edges[usize::from(shape.m) % edges.len()];
        self.add(&good.with_symbol(index, value));
    }

    /// All faults that come after one in the order of the checks, beside it: 15, 3, 4
    /// and 5, with places that leave several codewords where there are such. Before
    /// that as many symbols as places, too few or too many of both.
    fn several_faults(&mut self, shape: Shape) {
        let good = self.good_call(shape);
        let mut both = match shape.m % 2 {
            0 => self.with_one_place_less(&good),
            _ => self.with_one_place_more(shape, &good),
        };
        both.symbols = sample::symbols(&mut self.generator, shape, both.places.len());
        self.add(&both);
        let lengths = [shape.n - 1, shape.n + 1, 0, shape.k];
        let length = lengths[usize::from(shape.m) / 2 % lengths.len()];
        let bad_word = self.call_at_few_columns(shape).with_length(length);
        let bad_value = self.with_two_bad_symbols(shape, &bad_word);
        let mut more_symbols = bad_value.symbols.clone();
        more_symbols.push(255);
        let bad_count = bad_value.with_symbols(more_symbols);
        let bad_places = bad_count.with_place(0, shape.n as u16);
        for call in [bad_places, bad_count, bad_value, bad_word] {
            self.add(&call);
        }
    }
}

/// Refusals at some orders, one by one.
impl Builder {
    pub(super) fn every_single_fault(&mut self, shape: Shape) {
        let good = self.good_call(shape);
        self.every_bad_place(shape, &good);
        self.every_wrong_number(shape, &good);
        for value in [shape.field_size, 254, 255] {
            for index in three_indexes(shape.k) {
                self.add(&good.with_symbol(index, value));
            }
        }
    }

    /// The shape has at least two places.
    fn every_bad_place(&mut self, shape: Shape, good: &Call) {
        let (n, last) = (shape.n as u16, shape.k - 1);
        let limits = [n, n + 1, 254, 255, 256, 257, 0x7FFF, 0x8000, u16::MAX];
        for too_high in limits {
            self.add(&good.with_place(last, too_high));
        }
        for index in three_indexes(shape.k) {
            for high_byte in [1, 128, 255] {
                let too_high = 256 * high_byte + good.places[index];
                self.add(&good.with_place(index, too_high));
            }
        }
        for first in [0, last - 1] {
            self.add(&good.with_swapped_places(first));
            self.add(&good.with_place(first, good.places[first + 1]));
        }
        let descending = good.places.iter().rev().copied().collect();
        self.add(&good.with_places(descending));
        self.add(&good.with_places(vec![good.places[0]; shape.k]));
    }

    /// Of places, which are the lowest ones, of symbols and of the slice's bytes.
    fn every_wrong_number(&mut self, shape: Shape, good: &Call) {
        let (n, k) = (shape.n, shape.k);
        for count in [0, 1, k - 1, k + 1, n, n + 1, SLICE_ROOM] {
            self.add(&good.with_places((0..count as u16).collect()));
        }
        for count in [0, 1, k - 1, k + 1, n, SLICE_ROOM] {
            let symbols = sample::symbols(&mut self.generator, shape, count);
            self.add(&good.with_symbols(symbols));
        }
        for length in [0, 1, k, n - 1, n + 1, SLICE_ROOM] {
            self.add(&good.with_length(length));
        }
    }

    pub(super) fn bad_orders(&mut self, series: Series) {
        let [small, large] = sample::short_curves(series);
        for shape in [Shape::of(small, 3), Shape::of(large, 37)] {
            let n = shape.n as u16;
            let low_byte_is_good = [256 + shape.m, 0xFF00 + shape.m];
            let orders = [n, n + 1, 255, 256, u16::MAX].into_iter();
            for m in orders.chain(low_byte_is_good) {
                self.later_faults(shape, shape.q(), m);
            }
        }
    }

    /// At the orders 0, 3 and 37 a call with another number would be good.
    pub(super) fn bad_curves(&mut self, series: Series) {
        let [small, large] = sample::short_curves(series);
        for q in BAD_CURVES {
            for m in [0, 37] {
                self.later_faults(Shape::of(large, m), q, m);
            }
            let mut call = self.good_call(Shape::of(small, 3));
            call.q = q;
            for m in [3, 255, 256, u16::MAX] {
                call.m = m;
                self.add(&call);
            }
        }
    }

    /// A call that is good but for q or m, and the same with one fault more: of the
    /// places, of the symbols' number, of a symbol, of the slice, and all of them.
    fn later_faults(&mut self, shape: Shape, q: u8, m: u16) {
        let good = self.good_call(shape);
        let good = Call { q, m, ..good };
        self.add(&good);
        let bad_places = self.with_one_place_less(&good);
        self.add(&bad_places);
        self.add(&good.with_symbols(good.symbols[1..].to_vec()));
        self.add(&good.with_symbol(shape.k / 2, 255));
        self.add(&good.with_length(shape.n - 1));
        let all = good.with_place(0, u16::MAX).with_length(SLICE_ROOM);
        self.add(&all.with_symbols(vec![255; shape.k + 1]));
    }
}
