//! The second numbers at their highest: the last index with refusal 4, and r = k
//! at the highest order with 10.

use super::Builder;
use crate::case_record::Case;
use crate::code::MISSING;
use crate::sample::{self, Shape};

impl Builder {
    pub(super) fn highest_second_numbers(&mut self) {
        for curve in sample::short_curves(self.series) {
            let n = curve.point_count();
            let highest = Shape::of(curve, n as u16 - 1);
            let highest_mended = Shape::of(curve, (n - 1 - curve.genus()) as u16);
            self.last_index(highest);
            self.last_index_in_a_session(highest);
            self.last_index_in_mending(highest_mended);
            self.nothing_arrived(highest);
        }
    }

    /// The values next to the symbols, and the highest that each call refuses.
    fn last_index(&mut self, shape: Shape) {
        let (q, m, n, k) = (shape.q(), shape.m, shape.n, shape.k);
        for (in_broken, in_whole) in [(shape.field_size, shape.field_size), (254, 255)] {
            let mut message = sample::message(&mut self.generator, shape);
            let mut word = shape.word_of(&message);
            message[k - 1] = in_whole;
            self.call(b'e', q, m, &message, n);
            word[n - 1] = in_whole;
            self.call(b'u', q, m, &word, k);
            word[n - 1] = in_broken;
            self.call(b'r', q, m, &word, k);
            self.recover_in_turns(q, m, &word, k);
            self.open_job(q, m, &word);
        }
    }

    fn last_index_in_a_session(&mut self, shape: Shape) {
        let mut word = self.codeword(shape);
        word[shape.n - 1] = 253;
        self.store(shape.q(), shape.m, &word);
        self.arrive(shape.n as u16 - 1, 0, 255);
        self.ask(shape.k);
        self.open_job_from_session();
    }

    fn last_index_in_mending(&mut self, shape: Shape) {
        for value in [shape.field_size, 255] {
            let mut word = self.codeword(shape);
            word[shape.n - 1] = value;
            let lengths = [shape.k, shape.n, shape.n];
            let (q, series, m) = shape.numbers();
            let case = Case::of_mending(q, series, m, &word, lengths);
            self.cases.push(case);
        }
    }

    fn nothing_arrived(&mut self, shape: Shape) {
        let (q, m, k) = (shape.q(), shape.m, shape.k);
        let nothing = vec![MISSING; shape.n];
        self.call(b'r', q, m, &nothing, k);
        self.recover_in_turns(q, m, &nothing, k);
        for rest_length in 0..4 {
            self.call(b'p', q, m, &[0; 3][..rest_length], k);
        }
        self.open(q, m);
        self.ask(k);
        self.open_job_from_session();
        self.carry_on(255, k);
        self.open_job(q, m, &nothing);
        self.carry_on(0, k);
        // A job that is still working.
        let one_symbol = self.broken_word(shape, 1);
        self.open_job(q, m, &one_symbol);
        self.carry_on(0, k);
        self.carry_on(1, k);
    }
}
