//! Long blocks at q = 8, m = 300: times of the proved library beside the baseline,
//! after a check that both give the same answers.

use std::hint::black_box;

use hermitian::WORK_LENGTH;
use reference::curve::Curve;
use reference::generator::Generator;
use reference::sample::{self, Shape};

use crate::checking;
use crate::long_baseline::LongBaseline;
use crate::timing::{self, Times};
use crate::{fixed, packed, print_heading, print_row, SERIES};

pub const Q: u8 = 8;
pub const M: u16 = 300;
pub const K: usize = 273;
pub const N: usize = 512;

/// Few, since one elimination of the baseline takes milliseconds.
const INPUTS: usize = 8;
const MISSING_COUNTS: [usize; 5] = [0, 1, 10, 100, 211];
const SEED: u64 = 300;

pub type Message = [u8; K];
pub type Word = [u8; N];

pub fn print_table() {
    let baseline = LongBaseline::new();
    let messages = messages();
    let words = words();
    print_heading();
    print_row("encode, long", &encoding_times(&baseline, &messages));
    print_row("unencode, long", &unencoding_times(&baseline, &words));
    for missing in MISSING_COUNTS {
        let broken = broken_words(&words, missing);
        let name = format!("recover, long, {missing} missing");
        print_row(&name, &recovery_times(&baseline, &broken));
    }
    println!();
    checked_order().print_table(&words, &damaged(&words));
}

fn checked_order() -> checking::Order {
    checking::Order {
        name: ", long",
        q: Q,
        m: M,
        k: K,
    }
}

fn encoding_times(baseline: &LongBaseline, messages: &[Message]) -> Times {
    for message in messages {
        let (mut ours, mut theirs) = ([0; N], [0; N]);
        let answer = packed(hermitian::encode(Q, SERIES, M, message, &mut ours));
        assert_eq!(baseline.encode(message, &mut theirs), answer);
        assert_eq!(ours, theirs);
    }
    let (mut ours, mut theirs) = ([0; N], [0; N]);
    timing::compare(
        messages.len(),
        || {
            for message in messages {
                let _ = black_box(hermitian::encode(
                    Q,
                    SERIES,
                    M,
                    black_box(message),
                    &mut ours,
                ));
                black_box(&ours);
            }
        },
        || {
            for message in messages {
                black_box(baseline.encode(black_box(message), &mut theirs));
                black_box(&theirs);
            }
        },
    )
}

fn unencoding_times(baseline: &LongBaseline, words: &[Word]) -> Times {
    decoding_times(
        words,
        |word, message| packed(hermitian::unencode(Q, SERIES, M, word, message)),
        |word, message| baseline.unencode(word, message),
    )
}

fn recovery_times(baseline: &LongBaseline, words: &[Word]) -> Times {
    let mut work = vec![0; WORK_LENGTH];
    decoding_times(
        words,
        |word, message| packed(hermitian::recover_long(SERIES, M, word, message, &mut work)),
        |word, message| baseline.recover(word, message),
    )
}

/// The two ways must agree on damaged words too.
fn decoding_times(
    words: &[Word],
    library: impl FnMut(&Word, &mut Message) -> u32,
    baseline: impl FnMut(&Word, &mut Message) -> u32,
) -> Times {
    timing::compare_calls(words, &damaged(words), [99; K], library, baseline)
}

fn shape() -> Shape {
    Shape::of(Curve::Q_IS_8, M)
}

pub fn messages() -> Vec<Message> {
    let mut generator = Generator::with_seed(SEED);
    let message = |_| fixed(sample::message(&mut generator, shape()));
    (0..INPUTS).map(message).collect()
}

/// Those of the messages.
pub fn words() -> Vec<Word> {
    let word = |message: &Message| fixed(shape().word_of(message));
    messages().iter().map(word).collect()
}

pub fn broken_words(words: &[Word], missing: usize) -> Vec<Word> {
    let mut generator = Generator::with_seed(SEED + missing as u64);
    let broken = |word: &Word| fixed(sample::with_known(&mut generator, word, N - missing));
    words.iter().map(broken).collect()
}

fn damaged(words: &[Word]) -> Vec<Word> {
    let mut generator = Generator::with_seed(SEED);
    let damaged = |word: &Word| fixed(sample::damaged(&mut generator, shape(), word));
    words.iter().map(damaged).collect()
}
