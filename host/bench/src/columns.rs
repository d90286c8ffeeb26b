//! Blocks of eight chosen columns at q = 4, m = 17: times of the proved library beside
//! the baseline and beside the calls on all columns, after a check that both give the
//! same answers.

use reference::chosen_columns;
use reference::curve::Curve;
use reference::generator::Generator;
use reference::outcome::Outcome;
use reference::sample::columns::Block;
use reference::sample::{self, Shape};

use crate::matrix_code::MatrixCode;
use crate::timing::{self, Times};
use crate::{fixed, packed, print_heading, print_row, MISSING, Q, SEED, SERIES};

/// Those of the C example.
pub const COLUMNS: [u8; 8] = [0, 2, 3, 5, 8, 9, 12, 15];
pub const M: u16 = 17;
pub const K: usize = 12;
pub const N: usize = 32;
/// The length of a word of all columns.
const WHOLE: usize = 64;

const INPUTS: usize = 64;
/// With the last one m + 1 symbols are left.
const MISSING_COUNTS: [usize; 3] = [0, 4, 14];

pub type Message = [u8; K];
pub type Word = [u8; N];
type WholeWord = [u8; WHOLE];
type Baseline = MatrixCode<K, { K + 1 }, N>;

pub fn print_table() {
    print_beside_baseline();
    println!();
    print_beside_plain_calls();
}

fn block() -> Block {
    Block::of(Curve::Q_IS_4, &COLUMNS, M)
}

/// The same order on all columns.
fn whole_shape() -> Shape {
    Shape::of(Curve::Q_IS_4, M)
}

fn print_beside_baseline() {
    let baseline = Baseline::new(std::array::from_fn(term_word));
    print_heading();
    print_row("encode on columns", &encoding_times(&baseline));
    print_row("unencode on columns", &unencoding_times(&baseline));
    for missing in MISSING_COUNTS {
        let name = format!("recover on columns, {missing} missing");
        print_row(&name, &recovery_times(&baseline, missing));
    }
}

/// The values of one term on the columns.
fn term_word(index: usize) -> Word {
    let mut coefficients = [0; K];
    coefficients[index] = 1;
    let mut word = [0; N];
    let outcome = chosen_columns::encode_on(Q, &COLUMNS, M, &coefficients, &mut word);
    assert_eq!(outcome, Outcome::ACCEPTED);
    word
}

fn encoding_times(baseline: &Baseline) -> Times {
    timing::compare_calls(&messages(), &[], [99; N], encode, |message, word| {
        baseline.encode(message, word)
    })
}

fn unencoding_times(baseline: &Baseline) -> Times {
    let words = words();
    let damaged = damaged(&words);
    timing::compare_calls(&words, &damaged, [99; K], unencode, |word, message| {
        baseline.unencode(word, message)
    })
}

fn recovery_times(baseline: &Baseline, missing: usize) -> Times {
    let words = broken_words(missing);
    let damaged = damaged(&words);
    timing::compare_calls(&words, &damaged, [99; K], recover, |word, message| {
        baseline.recover(word, message)
    })
}

pub fn encode(message: &Message, word: &mut Word) -> u32 {
    packed(hermitian::encode_on(Q, &COLUMNS, M, message, word))
}

pub fn unencode(word: &Word, message: &mut Message) -> u32 {
    packed(hermitian::unencode_on(Q, &COLUMNS, M, word, message))
}

pub fn recover(word: &Word, message: &mut Message) -> u32 {
    packed(hermitian::recover_on(Q, &COLUMNS, M, word, message))
}

/// The same messages on all columns, with as many symbols missing; then with the other
/// columns missing too, so that both recover from the same symbols.
fn print_beside_plain_calls() {
    println!("| operation | on eight columns, ns | plain, ns | plain / on eight columns |");
    println!("|---|---|---|---|");
    print_row("encode", &encoding_times_beside_plain());
    let pairs = in_pairs(&words(), &whole_words());
    print_row("unencode", &reading_times(&pairs, unencode, plain_unencode));
    for missing in MISSING_COUNTS {
        let pairs = in_pairs(&broken_words(missing), &broken_whole_words(missing));
        let name = format!("recover, {missing} missing");
        print_row(&name, &reading_times(&pairs, recover, plain_recover));
    }
    for missing in MISSING_COUNTS {
        let words = broken_words(missing);
        let spread: Vec<WholeWord> = words.iter().map(spread).collect();
        let name = format!("recover from the same symbols, {missing} missing");
        let pairs = in_pairs(&words, &spread);
        print_row(&name, &reading_times(&pairs, recover, plain_recover));
    }
}

/// A word on the columns and one on all, of the same message.
struct Pair {
    word: Word,
    whole: WholeWord,
}

fn in_pairs(words: &[Word], whole_words: &[WholeWord]) -> Vec<Pair> {
    let pairs = words.iter().zip(whole_words);
    pairs.map(|(&word, &whole)| Pair { word, whole }).collect()
}

fn encoding_times_beside_plain() -> Times {
    let messages = messages();
    for message in &messages {
        let (mut word, mut whole) = ([99; N], [99; WHOLE]);
        let answers = [
            encode(message, &mut word),
            plain_encode(message, &mut whole),
        ];
        assert_eq!(answers, [0, 0]);
        assert!(places()
            .zip(word)
            .all(|(place, symbol)| whole[place] == symbol));
    }
    let (mut word, mut whole) = ([0; N], [0; WHOLE]);
    timing::compare(
        messages.len(),
        || timing::call_with_all(&messages, &mut word, encode),
        || timing::call_with_all(&messages, &mut whole, plain_encode),
    )
}

fn reading_times(
    pairs: &[Pair],
    on_columns: fn(&Word, &mut Message) -> u32,
    plain: fn(&WholeWord, &mut Message) -> u32,
) -> Times {
    timing::compare_calls(
        pairs,
        &[],
        [99; K],
        |pair, message| on_columns(&pair.word, message),
        |pair, message| plain(&pair.whole, message),
    )
}

fn plain_encode(message: &Message, word: &mut WholeWord) -> u32 {
    packed(hermitian::encode(Q, SERIES, M, message, word))
}

fn plain_unencode(word: &WholeWord, message: &mut Message) -> u32 {
    packed(hermitian::unencode(Q, SERIES, M, word, message))
}

fn plain_recover(word: &WholeWord, message: &mut Message) -> u32 {
    packed(hermitian::recover(Q, SERIES, M, word, message))
}

pub fn messages() -> Vec<Message> {
    let mut generator = Generator::with_seed(SEED);
    let message = |_| fixed(sample::message(&mut generator, block().shape));
    (0..INPUTS).map(message).collect()
}

/// Those of the messages.
pub fn words() -> Vec<Word> {
    let word = |message: &Message| fixed(block().word_of(message));
    messages().iter().map(word).collect()
}

fn whole_words() -> Vec<WholeWord> {
    let word = |message: &Message| fixed(whole_shape().word_of(message));
    messages().iter().map(word).collect()
}

pub fn broken_words(missing: usize) -> Vec<Word> {
    broken(&words(), missing)
}

fn broken_whole_words(missing: usize) -> Vec<WholeWord> {
    broken(&whole_words(), missing)
}

fn broken<const LENGTH: usize>(words: &[[u8; LENGTH]], missing: usize) -> Vec<[u8; LENGTH]> {
    let mut generator = Generator::with_seed(SEED + missing as u64);
    let known = LENGTH - missing;
    let broken = |word: &[u8; LENGTH]| fixed(sample::with_known(&mut generator, word, known));
    words.iter().map(broken).collect()
}

fn damaged(words: &[Word]) -> Vec<Word> {
    let mut generator = Generator::with_seed(SEED);
    let damaged = |word: &Word| fixed(sample::damaged(&mut generator, block().shape, word));
    words.iter().map(damaged).collect()
}

/// In words of all columns, the places of the chosen ones in turn.
fn places() -> impl Iterator<Item = usize> {
    let q = usize::from(Q);
    let column = move |x: u8| (0..q).map(move |i| q * usize::from(x) + i);
    COLUMNS.into_iter().flat_map(column)
}

/// The word of all columns with the others missing.
fn spread(word: &Word) -> WholeWord {
    let mut whole = [MISSING; WHOLE];
    for (place, &symbol) in places().zip(word) {
        whole[place] = symbol;
    }
    whole
}
