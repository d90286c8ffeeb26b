//! Times of the proved library, through C, beside a plain Rust baseline, in
//! one run on the same inputs at q = 4, m = 37 in series 1. Checks first that both
//! give the same answers. The check of words is timed beside the library's own unencoding.
//!
//! With `long` as argument it does the same for long blocks at q = 8, m = 300. With
//! `blocks` it compares programs instead, with `turns` recovery in turns with
//! recovery in one go, with `places` encoding at chosen places with recovery from
//! them at several orders, with `columns` the calls on chosen columns with the baseline
//! and with the calls on all columns; with an operation's name and a number of calls it
//! runs the library alone, for a profiler.

mod baseline;
mod blocks;
mod blocks_baseline;
mod checking;
mod columns;
mod long;
mod long_baseline;
mod matrix_code;
mod places;
mod profile;
mod timing;
mod turns;

use std::hint::black_box;
use std::io;
use std::process::ExitCode;

use baseline::Baseline;
use hermitian::Refusal;
use reference::curve::Curve;
use reference::generator::Generator;
use reference::sample::{self, Shape};
use timing::Times;

const Q: u8 = 4;
const SERIES: u8 = 1;
const M: u16 = 37;
const K: usize = 32;
const N: usize = 64;
const MISSING: u8 = 255;

const INPUTS: usize = 64;
const MISSING_COUNTS: [usize; 7] = [0, 1, 4, 10, 20, 26, 32];
const WRONG_COUNTS: [usize; 5] = [0, 1, 5, 10, 14];
const SEED: u64 = 37;

type Message = [u8; K];
type Word = [u8; N];
type LibraryCall = fn(u8, u8, u16, &[u8], &mut [u8]) -> Result<(), Refusal>;

const BASELINE_MODE: &str = "blocks-baseline";
const USAGE: &str = "arguments, one of these:
  none                times of the library's operations and of the baseline's
  long                the same for long blocks
  blocks [PROGRAM]    speed of the program `blocks` and of the baseline's
  turns               times of recovery in turns, by jobs, and of recovery in one go
  places              times of encoding at chosen places and of recovery from these places
  columns             times of the operations on eight chosen columns, of the baseline's
                      and of those on all columns
  blocks-baseline     the baseline's `blocks`, from standard input to standard output
  OPERATION CALLS     the library alone, for a profiler;
                      the operation is encode, encode-at, unencode, check, convert,
                      recover-COUNT, where COUNT symbols are missing,
                      or mend-COUNT, where COUNT symbols are wrong, of short blocks,
                      each with series-2- before it for the other series;
                      long-encode, long-unencode, long-check or long-recover-COUNT of
                      long ones, and but for the check with columns- in place of long- on
                      eight chosen columns";

fn main() -> ExitCode {
    let arguments: Vec<String> = std::env::args().skip(1).collect();
    let arguments: Vec<&str> = arguments.iter().map(String::as_str).collect();
    match run(&arguments) {
        Ok(()) => ExitCode::SUCCESS,
        Err(message) => {
            eprintln!("{message}");
            ExitCode::FAILURE
        }
    }
}

fn run(arguments: &[&str]) -> Result<(), String> {
    match arguments {
        [] => {
            print_table();
            Ok(())
        }
        ["long"] => {
            long::print_table();
            Ok(())
        }
        ["turns"] => {
            turns::print_table();
            Ok(())
        }
        ["places"] => {
            places::print_table();
            Ok(())
        }
        ["columns"] => {
            columns::print_table();
            Ok(())
        }
        ["blocks"] => blocks::run(blocks::PROGRAM),
        ["blocks", program] => blocks::run(program),
        [BASELINE_MODE] => blocks_baseline::run(io::stdin().lock(), io::stdout().lock())
            .map_err(|error| error.to_string()),
        [operation, calls] => profile::run(operation, calls),
        _ => Err(USAGE.to_string()),
    }
}

fn print_table() {
    let baseline = Baseline::new();
    let messages = messages();
    let words: Vec<Word> = messages.iter().map(word_of).collect();
    print_heading();
    print_row("encode", &encoding_times(&baseline, &messages));
    print_row("unencode", &unencoding_times(&baseline, &words));
    for missing in MISSING_COUNTS {
        let broken = broken_words(&words, missing);
        let name = format!("recover, {missing} missing");
        print_row(&name, &recovery_times(&baseline, &broken));
    }
    for wrong in WRONG_COUNTS {
        let name = format!("mend, {wrong} wrong");
        print_row(&name, &mending_times(&baseline, &words, wrong));
    }
    places::print_rows(&baseline);
    println!();
    checked_order().print_table(&words, &damaged(&words));
    println!();
    places::print_beside_recovery();
}

fn checked_order() -> checking::Order {
    checking::Order {
        name: "",
        q: Q,
        m: M,
        k: K,
    }
}

fn print_heading() {
    println!("| operation | library, ns | baseline, ns | baseline / library |");
    println!("|---|---|---|---|");
}

fn print_row(name: &str, times: &Times) {
    let ratio = times.baseline / times.library;
    println!(
        "| {name} | {:.0} | {:.0} | {ratio:.2} |",
        times.library, times.baseline
    );
}

fn encoding_times(baseline: &Baseline, messages: &[Message]) -> Times {
    for message in messages {
        let (mut ours, mut theirs) = ([0; N], [0; N]);
        let answer = packed(hermitian::encode(Q, SERIES, M, message, &mut ours));
        assert_eq!(baseline.code.encode(message, &mut theirs), answer);
        assert_eq!(ours, theirs);
    }
    let (mut ours, mut theirs) = ([0; N], [0; N]);
    timing::compare(
        messages.len(),
        || {
            for message in messages {
                let _ = black_box(hermitian::encode(
                    Q,
                    SERIES,
                    M,
                    black_box(message),
                    &mut ours,
                ));
                black_box(&ours);
            }
        },
        || {
            for message in messages {
                black_box(baseline.code.encode(black_box(message), &mut theirs));
                black_box(&theirs);
            }
        },
    )
}

fn unencoding_times(baseline: &Baseline, words: &[Word]) -> Times {
    decoding_times(words, hermitian::unencode, |word, message| {
        baseline.code.unencode(word, message)
    })
}

fn recovery_times(baseline: &Baseline, words: &[Word]) -> Times {
    decoding_times(words, hermitian::recover, |word, message| {
        baseline.code.recover(word, message)
    })
}

/// The two ways must agree on whole and on damaged words before they are
/// timed on the former.
fn decoding_times(
    words: &[Word],
    library: LibraryCall,
    baseline: impl Fn(&Word, &mut Message) -> u32,
) -> Times {
    for word in words.iter().chain(&damaged(words)) {
        let (mut ours, mut theirs) = ([99; K], [99; K]);
        let answer = packed(library(Q, SERIES, M, word, &mut ours));
        assert_eq!(baseline(word, &mut theirs), answer);
        assert!(answer != baseline::DONE || ours == theirs);
    }
    let (mut ours, mut theirs) = ([0; K], [0; K]);
    timing::compare(
        words.len(),
        || {
            for word in words {
                let _ = black_box(library(Q, SERIES, M, black_box(word), &mut ours));
                black_box(&ours);
            }
        },
        || {
            for word in words {
                black_box(baseline(black_box(word), &mut theirs));
                black_box(&theirs);
            }
        },
    )
}

/// What mending writes: message, codeword and marks.
type MendOutput = (Message, Word, Word);

fn mending_times(baseline: &Baseline, words: &[Word], wrong: usize) -> Times {
    let words = &wrong_words(words, wrong);
    let library = |word: &Word, (message, mended, marks): &mut MendOutput| {
        packed(hermitian::mend_into(
            Q, SERIES, M, word, message, mended, marks,
        ))
    };
    let baseline = |word: &Word, (message, mended, marks): &mut MendOutput| {
        baseline.mend(word, message, mended, marks)
    };
    let expected = if wrong <= baseline::RADIUS {
        baseline::DONE
    } else {
        baseline::NO_CODEWORD_NEAR
    };
    for word in words {
        assert_eq!(library(word, &mut empty_output()), expected);
    }
    let damaged = damaged(words);
    timing::compare_calls(words, &damaged, empty_output(), library, baseline)
}

fn empty_output() -> MendOutput {
    ([99; K], [99; N], [99; N])
}

fn packed<T>(result: Result<T, Refusal>) -> u32 {
    result.map_or_else(Refusal::answer, |_| 0)
}

fn shape() -> Shape {
    Shape::of(Curve::Q_IS_4, M)
}

fn messages() -> Vec<Message> {
    let mut generator = Generator::with_seed(SEED);
    let message = |_| fixed(sample::message(&mut generator, shape()));
    (0..INPUTS).map(message).collect()
}

fn word_of(message: &Message) -> Word {
    fixed(shape().word_of(message))
}

fn broken_words(words: &[Word], missing: usize) -> Vec<Word> {
    let mut generator = Generator::with_seed(SEED + missing as u64);
    let broken = |word: &Word| fixed(sample::with_known(&mut generator, word, N - missing));
    words.iter().map(broken).collect()
}

fn wrong_words(words: &[Word], wrong: usize) -> Vec<Word> {
    let mut generator = Generator::with_seed(SEED + wrong as u64);
    let wrong = |word: &Word| fixed(sample::with_wrong(&mut generator, shape(), word, wrong));
    words.iter().map(wrong).collect()
}

fn damaged(words: &[Word]) -> Vec<Word> {
    let mut generator = Generator::with_seed(SEED);
    let damaged = |word: &Word| fixed(sample::damaged(&mut generator, shape(), word));
    words.iter().map(damaged).collect()
}

fn fixed<Item, const LENGTH: usize>(items: Vec<Item>) -> [Item; LENGTH] {
    let items = items.try_into().ok();
    items.expect("the lengths of this order")
}
