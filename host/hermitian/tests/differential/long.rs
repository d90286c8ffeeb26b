//! Long blocks, q = 8: the groups of their calls, and recovery with its work slice.

use hermitian::entries;
use reference::code::{self, MISSING, WORK_LENGTH};
use reference::curve::Curve;
use reference::generator::Generator;
use reference::outcome::Outcome;
use reference::sample::{self, Shape};

use crate::comparison::{compare, compare_with, written, Call, Entry};
use crate::guarded::Guarded;
use crate::inputs::{arbitrary_series, either_series};
use crate::tally::Tally;

/// Memory that work slices are lent from, the longest of twice the right length. It
/// goes on with what earlier calls left in it.
struct WorkMemory {
    bytes: Vec<u8>,
    before_call: Vec<u8>,
}

/// Bytes before the lent part; those behind it are the rest of the memory.
const FRONT: usize = 64;

impl WorkMemory {
    fn new(generator: &mut Generator) -> WorkMemory {
        let bytes = generator.bytes(FRONT + 2 * WORK_LENGTH + FRONT);
        WorkMemory {
            before_call: bytes.clone(),
            bytes,
        }
    }

    fn lent_mut(&mut self, length: usize) -> &mut [u8] {
        &mut self.bytes[FRONT..FRONT + length]
    }

    fn is_unchanged(&self) -> bool {
        self.bytes == self.before_call
    }

    fn guards_are_unchanged(&self, length: usize) -> bool {
        let end = FRONT + length;
        self.bytes[..FRONT] == self.before_call[..FRONT]
            && self.bytes[end..] == self.before_call[end..]
    }

    /// Takes what the last call left as what the next one must keep.
    fn accept(&mut self) {
        self.before_call.copy_from_slice(&self.bytes);
    }
}

/// The arguments of one recovery.
struct Recovery {
    series: u8,
    m: u16,
    word: Vec<u8>,
    message_length: usize,
    work_length: usize,
}

impl Recovery {
    fn fitting(shape: Shape, word: Vec<u8>) -> Recovery {
        Recovery {
            series: shape.series(),
            m: shape.m,
            word,
            message_length: shape.k,
            work_length: WORK_LENGTH,
        }
    }
}

/// Makes recoveries both ways and compares all that they give.
struct Comparison<'a> {
    generator: &'a mut Generator,
    work: WorkMemory,
    tally: Tally,
}

impl Comparison<'_> {
    fn new(generator: &mut Generator) -> Comparison<'_> {
        Comparison {
            work: WorkMemory::new(generator),
            generator,
            tally: Tally::new(),
        }
    }

    /// An entry that names its curve.
    fn call(&mut self, entry: Entry, shape: Shape, input: Vec<u8>) {
        let call = Call::fitting(entry, shape, input);
        compare(&call, self.generator, &mut self.tally);
    }

    /// Unencoding with a known result, which is quicker than asking the reference.
    fn unencode(&mut self, shape: Shape, word: &[u8], expected: Result<&[u8], Outcome>) {
        let call = Call::fitting(Entry::Unencode, shape, word.to_vec());
        let expect = |outputs: &mut [Vec<u8>]| written(&mut outputs[0], expected);
        compare_with(expect, &call, self.generator, &mut self.tally);
    }

    fn recover(&mut self, recovery: &Recovery) {
        let mut message = self.generator.bytes(recovery.message_length);
        let before = message.clone();
        // The reference looks at the work slice's length alone.
        let mut work = vec![0; recovery.work_length];
        let Recovery {
            series, m, word, ..
        } = recovery;
        let outcome = code::recover_long(*series, *m, word, &mut message, &mut work);
        self.expect(recovery, &before, outcome.packed(), &message);
    }

    /// Recovery with a known result, of a word with the right length.
    fn recover_to(&mut self, shape: Shape, word: &[u8], expected: Result<&[u8], Outcome>) {
        let recovery = Recovery::fitting(shape, word.to_vec());
        let before = self.generator.bytes(shape.k);
        let mut message = before.clone();
        let answer = written(&mut message, expected);
        self.expect(&recovery, &before, answer, &message);
    }

    /// Makes the call and demands this answer and this message, and that nothing
    /// else was written: the work slice only where its content is left open.
    fn expect(&mut self, recovery: &Recovery, before: &[u8], expected: u32, message: &[u8]) {
        let word = Guarded::around(self.generator, &recovery.word);
        let mut output = Guarded::around(self.generator, before);
        let work = self.work.lent_mut(recovery.work_length);
        let answer = call_library(recovery, &word, &mut output, work);
        let described = || described(recovery, answer, expected);
        assert!(answer == expected, "{}", described());
        assert!(output.lent() == message, "{}: message", described());
        assert!(word.is_unchanged(), "{}: word written", described());
        assert!(output.guards_are_unchanged(), "{}: beside", described());
        let number = (answer >> 16) as u8;
        if [0, 9, 10].contains(&number) {
            let kept = self.work.guards_are_unchanged(recovery.work_length);
            assert!(kept, "{}: written beside the work slice", described());
            self.work.accept();
        } else {
            let kept = self.work.is_unchanged();
            assert!(kept, "{}: work slice written", described());
        }
        let Recovery { series, m, .. } = *recovery;
        self.tally.count(Entry::RecoverLong, 8, series, m, number);
    }
}

fn call_library(
    recovery: &Recovery,
    word: &Guarded,
    message: &mut Guarded,
    work: &mut [u8],
) -> u32 {
    let (word, message) = (word.lent(), message.lent_mut());
    // Safety: slices are never null and are good for their length, and the three come
    // from different vectors.
    unsafe {
        entries::hermitian_recover_long(
            recovery.series,
            recovery.m,
            word.as_ptr(),
            word.len(),
            message.as_mut_ptr(),
            message.len(),
            work.as_mut_ptr(),
            work.len(),
        )
    }
}

fn described(recovery: &Recovery, answer: u32, expected: u32) -> String {
    format!(
        "long recovery in series {} at m = {}, word {:?}, message length {}, work length {}: \
         the library answers {answer}, expected is {expected}",
        recovery.series, recovery.m, recovery.word, recovery.message_length, recovery.work_length
    )
}

/// At every order of long blocks in both series: the entries that take them, with results that are
/// known from how the words are made, and those that refuse them.
pub fn at_every_order(generator: &mut Generator) -> Tally {
    let mut comparison = Comparison::new(generator);
    let curves = Curve::Q_IS_8.in_both_series();
    for shape in curves.into_iter().flat_map(Shape::every_order) {
        comparison.known_results(shape);
        let word = sample::symbols(comparison.generator, shape, shape.n);
        comparison.call(Entry::Recover, shape, word.clone());
        comparison.call(Entry::Mend, shape, word);
    }
    comparison.tally
}

impl Comparison<'_> {
    /// m + 1 symbols settle a message; a symbol more that is wrong fits no message;
    /// with nothing known all messages fit.
    fn known_results(&mut self, shape: Shape) {
        let message = sample::message(self.generator, shape);
        let word = shape.word_of(&message);
        let none = Err(Outcome::NO_MESSAGE_FITS);
        let sure = usize::from(shape.m) + 1;
        let any = sure + self.generator.below(shape.n + 1 - sure);
        self.call(Entry::Encode, shape, message.clone());
        self.unencode(shape, &word, Ok(&message));
        for known in [shape.n, any, sure] {
            let broken = sample::with_known(self.generator, &word, known);
            self.recover_to(shape, &broken, Ok(&message));
            if known > sure {
                let damaged = sample::damaged(self.generator, shape, &broken);
                self.recover_to(shape, &damaged, none);
            }
        }
        if shape.n > sure {
            let damaged = sample::damaged(self.generator, shape, &word);
            self.unencode(shape, &damaged, none);
        }
        let nothing = vec![MISSING; shape.n];
        let several = Outcome::several_messages_fit(shape.k as u16);
        self.recover_to(shape, &nothing, Err(several));
    }
}

/// About every tenth order in both series in turn, against the reference's elimination:
/// any number of symbols missing, numbers near where the answer turns, whole columns,
/// damaged and arbitrary words.
pub fn missing_symbols(generator: &mut Generator, rounds: usize) -> Tally {
    let mut comparison = Comparison::new(generator);
    let first = comparison.generator.below(10);
    let ends = [0, 1, 7, 8, 9, 16, 54, 55, 56, 300, 510, 511];
    for m in (first..512).step_by(10).chain(ends) {
        let shapes = Curve::Q_IS_8
            .in_both_series()
            .map(|curve| Shape::of(curve, m as u16));
        for shape in shapes.into_iter().cycle().take(rounds) {
            comparison.broken_words(shape);
        }
        let shape = shapes[comparison.generator.below(2)];
        let arbitrary = sample::symbols(comparison.generator, shape, shape.n);
        comparison.call(Entry::Unencode, shape, arbitrary);
    }
    comparison.tally
}

impl Comparison<'_> {
    fn broken_words(&mut self, shape: Shape) {
        let word = sample::codeword(self.generator, shape);
        let sure = usize::from(shape.m) + 1;
        let any = self.generator.below(shape.n + 1);
        let near = shape.k + self.generator.below(sure + 1 - shape.k);
        let columns = self.generator.below(65);
        let sparse = sample::with_known(self.generator, &word, any);
        let words = [
            sample::with_known(self.generator, &word, near),
            sample::damaged(self.generator, shape, &sparse),
            sparse,
            sample::with_known_columns(self.generator, shape, &word, columns),
        ];
        for word in words {
            self.recover(&Recovery::fitting(shape, word));
        }
    }
}

/// One fault or several at once, by the entries that take long blocks: the first
/// check that applies must decide.
pub fn faulty(generator: &mut Generator, rounds: usize) -> Tally {
    let mut comparison = Comparison::new(generator);
    for round in 0..rounds {
        let m = comparison.generator.below(512) as u16;
        let curve = Curve::Q_IS_8.in_both_series()[comparison.generator.below(2)];
        let shape = Shape::of(curve, m);
        match round % 3 {
            0 => comparison.faulty_call(Entry::Encode, shape),
            1 => comparison.faulty_call(Entry::Unencode, shape),
            _ => comparison.faulty_recovery(shape),
        }
    }
    comparison.tally
}

impl Comparison<'_> {
    /// The last fault is there for certain.
    fn faulty_call(&mut self, entry: Entry, shape: Shape) {
        let length = entry.input_length(shape);
        let output_length = entry.output_lengths(shape)[0];
        let call = Call {
            entry,
            q: 8,
            series: self.series(shape),
            columns: None,
            m: self.order(shape),
            input: self.faulty_input(shape, length),
            output_lengths: vec![self.wrong_length(output_length)],
        };
        compare(&call, self.generator, &mut self.tally);
    }

    /// At least the message's slice or the work slice has another length.
    fn faulty_recovery(&mut self, shape: Shape) {
        let is_message_wrong = self.generator.below(2) == 0;
        let recovery = Recovery {
            series: self.series(shape),
            m: self.order(shape),
            word: self.faulty_input(shape, shape.n),
            message_length: if is_message_wrong {
                self.wrong_length(shape.k)
            } else {
                shape.k
            },
            work_length: self.wrong_work_length(),
        };
        self.recover(&recovery);
    }

    /// Mostly the shape's own.
    fn series(&mut self, shape: Shape) -> u8 {
        match self.generator.below(8) {
            0 => arbitrary_series(self.generator),
            _ => shape.series(),
        }
    }

    /// Mostly the shape's own; else one near a limit, or one whose low byte or low
    /// nine bits are a good order.
    fn order(&mut self, shape: Shape) -> u16 {
        let any = self.generator.sixteen_bits();
        let choices = [512, 513, 767, 512 + shape.m, any | 512, u16::MAX, any];
        match self.generator.below(6) {
            0 => choices[self.generator.below(choices.len())],
            _ => shape.m,
        }
    }

    /// Often of the right length and with good values.
    fn faulty_input(&mut self, shape: Shape, length: usize) -> Vec<u8> {
        let mut input = sample::symbols(self.generator, shape, length);
        if self.generator.below(4) == 0 {
            let wrong = self.wrong_length(length);
            input.resize(wrong, 0);
        }
        for _ in 0..self.generator.below(3) {
            let any = self.generator.byte();
            let value = [64, 65, 128, 254, MISSING, any][self.generator.below(6)];
            let index = self.generator.below(input.len());
            if let Some(symbol) = input.get_mut(index) {
                *symbol = value;
            }
        }
        input
    }

    /// Another length, mostly one that is near or right for something else.
    fn wrong_length(&mut self, right: usize) -> usize {
        let any = self.generator.below(2048);
        let choices = [
            0,
            1,
            right - 1,
            right + 1,
            64,
            512,
            right + 256,
            65_536 + right,
            any,
        ];
        match choices[self.generator.below(choices.len())] {
            length if length == right => right + 1,
            length => length,
        }
    }

    fn wrong_work_length(&mut self) -> usize {
        let near = [
            WORK_LENGTH - 1,
            WORK_LENGTH + 1,
            WORK_LENGTH - 512,
            2 * WORK_LENGTH,
        ];
        let small = [0, 1, 512, 4096, 65_536];
        let any = self.generator.below(WORK_LENGTH);
        let choices = [near.as_slice(), &small, &[any]].concat();
        choices[self.generator.below(choices.len())]
    }
}

/// Every order of 16 bits by recovery of long blocks, the series by chance, with slices
/// that are right for some order or for no long block.
pub fn every_order_of_16_bits(generator: &mut Generator) -> Tally {
    let mut comparison = Comparison::new(generator);
    for m in 0..=u16::MAX {
        let own_length = Curve::Q_IS_8.terms(m % 512).len();
        let word_length = [64, 511, 512, 512, 512, 513][comparison.generator.below(6)];
        let value = [0, 63, 64, 254][comparison.generator.below(4)];
        let recovery = Recovery {
            series: either_series(comparison.generator),
            m,
            word: vec![value; word_length],
            message_length: [own_length, own_length + 1, 32][comparison.generator.below(3)],
            work_length: comparison.wrong_work_length(),
        };
        comparison.recover(&recovery);
    }
    comparison.tally
}

/// Every series number by recovery of long blocks, with good and bad orders, and with
/// the lengths right and wrong.
pub fn every_series(generator: &mut Generator) -> Tally {
    let mut comparison = Comparison::new(generator);
    for series in 0..=255 {
        for m in [0, 8, 300, 511, 512, 812, u16::MAX] {
            let shape = Shape::of(Curve::Q_IS_8, m % 512);
            for word_length in [shape.n, shape.n + 1] {
                let recovery = Recovery {
                    series,
                    m,
                    word: vec![MISSING; word_length],
                    message_length: shape.k,
                    work_length: [WORK_LENGTH, 512][comparison.generator.below(2)],
                };
                comparison.recover(&recovery);
            }
        }
    }
    comparison.tally
}
