//! Whole sessions in one call and recovery in turns at every order.

use super::{Builder, MOST_ARRIVALS};
use crate::case_record::SLICE_ROOM;
use crate::replay::arrival_bytes;
use crate::sample::{self, Shape};

/// Places that few arrivals meet again and again.
const FEW_PLACES: usize = 4;

impl Builder {
    /// At last the session and the job that were opened before are the current
    /// ones still.
    pub(super) fn ordinary_calls(&mut self) {
        self.open(2, 3);
        self.arrive(1, 2, 0);
        self.open_job(2, 3, &[1, 2, 2, 1, 3, 0, 1, 2]);
        self.carry_on(3, 3);
        for shape in Shape::every_short_in(self.series) {
            self.whole_sessions(shape);
            self.turns(shape);
        }
        self.ask(3);
        self.carry_on(255, 3);
    }

    fn whole_sessions(&mut self, shape: Shape) {
        let (q, m) = (shape.q(), shape.m);
        let word = self.codeword(shape);
        let enough = self.arrivals_and_rest(shape, &word);
        self.call(b'p', q, m, &enough, shape.k);
        let mixed = self.mixed_arrivals(shape, &word);
        self.call(b'p', q, m, &mixed, shape.k);
        let most = self.arrivals(&word, MOST_ARRIVALS, 0);
        match m % 3 {
            0 => self.call(b'p', q, m, &most, shape.k + 1),
            1 => self.call(b'p', q, m, &most, shape.k - 1),
            _ => self.call(b'p', q, m, &most, shape.k),
        }
    }

    /// m + 1 arrivals if there is room for them, and a rest of 0 to 3 bytes. With a
    /// round after it the rest would bring another symbol to the first place.
    fn arrivals_and_rest(&mut self, shape: Shape, word: &[u8]) -> Vec<u8> {
        let mut arrivals = self.arrivals(word, usize::from(shape.m) + 1, 0);
        let mut rest = [arrivals[0], arrivals[1], arrivals[2], 0];
        rest[2] = sample::another_symbol(&mut self.generator, shape, rest[2]);
        arrivals.extend(&rest[..usize::from(shape.m) % 4]);
        arrivals.truncate(SLICE_ROOM);
        arrivals
    }

    /// Right and wrong symbols of several rounds at few places, and among them
    /// places and symbols that are too high.
    fn mixed_arrivals(&mut self, shape: Shape, word: &[u8]) -> Vec<u8> {
        let too_high = sample::numbers_too_high(shape.curve);
        let mut arrivals = Vec::new();
        for _ in 0..MOST_ARRIVALS {
            let index = self.generator.below(FEW_PLACES);
            let right = (index as u16, word[index]);
            let another = sample::another_symbol(&mut self.generator, shape, right.1);
            let bad_symbol = self.generator.byte_from(shape.field_size, 255);
            let bad_place = too_high[self.generator.below(too_high.len())];
            let choices = [
                right,
                right,
                (right.0, another),
                (right.0, bad_symbol),
                (bad_place, another),
            ];
            let (place, symbol) = choices[self.generator.below(choices.len())];
            arrivals.extend(arrival_bytes(place, symbol, self.round()));
        }
        arrivals
    }

    fn turns(&mut self, shape: Shape) {
        let (q, m, n, k) = (shape.q(), shape.m, shape.n, shape.k);
        let known = usize::from(m) + 1 + self.generator.below(n - usize::from(m));
        let enough = self.broken_word(shape, known);
        let damaged = sample::damaged(&mut self.generator, shape, &enough);
        let too_few = self.broken_word(shape, k - 1);
        for word in [&enough, &damaged, &too_few] {
            self.recover_in_turns(q, m, word, k);
        }
        let mut bad_value = enough.clone();
        bad_value[usize::from(m)] = shape.field_size;
        match m % 3 {
            0 => self.recover_in_turns(q, m, &bad_value, k + 1),
            1 => self.recover_in_turns(q, m, &bad_value[1..], k),
            _ => self.recover_in_turns(q, m, &enough, k - 1),
        }
    }
}
