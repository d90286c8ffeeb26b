//! Runs one operation of the library again and again, for a profiler.

use std::hint::black_box;

use hermitian::WORK_LENGTH;
use reference::curve::{Curve, Series};
use reference::sample::Shape;

use crate::{broken_words, columns, fixed, long, messages, places, wrong_words};
use crate::{Message, Word, K, M, N, Q, SERIES, USAGE};

pub fn run(operation: &str, calls: &str) -> Result<(), String> {
    let Ok(calls) = calls.parse::<usize>() else {
        return Err(USAGE.to_string());
    };
    if let Some(operation) = operation.strip_prefix("long-") {
        return run_long(operation, calls);
    }
    if let Some(operation) = operation.strip_prefix("columns-") {
        return run_on_columns(operation, calls);
    }
    match operation.strip_prefix("series-2-") {
        Some(operation) => run_short(operation, Series::Two, calls),
        None => run_short(operation, Series::One, calls),
    }
}

fn run_short(operation: &str, series: Series, calls: usize) -> Result<(), String> {
    let shape = Shape::of(Curve::Q_IS_4.in_series(series), M);
    let series = series.number();
    let word_of = |message: &Message| fixed(shape.word_of(message));
    let words: Vec<Word> = messages().iter().map(word_of).collect();
    let (mut message, mut word, mut marks) = ([0; K], [0; N], [0; N]);
    if operation == "encode-at" {
        repeat(calls, &places::inputs(shape), |input| {
            hermitian::encode_at(Q, series, M, &input.places, &input.symbols, &mut word)
        });
        return Ok(());
    }
    match named(operation, N) {
        Some(("encode", None)) => repeat(calls, &messages(), |input| {
            hermitian::encode(Q, series, M, input, &mut word)
        }),
        Some(("unencode", None)) => repeat(calls, &words, |input| {
            hermitian::unencode(Q, series, M, input, &mut message)
        }),
        Some(("check", None)) => {
            repeat(calls, &words, |input| hermitian::check(Q, series, M, input))
        }
        Some(("convert", None)) => repeat(calls, &words, |input| {
            hermitian::convert(Q, series, input, &mut word)
        }),
        Some(("recover", Some(missing))) => {
            repeat(calls, &broken_words(&words, missing), |input| {
                hermitian::recover(Q, series, M, input, &mut message)
            })
        }
        Some(("mend", Some(wrong))) => repeat(calls, &wrong_words(&words, wrong), |input| {
            hermitian::mend_into(Q, series, M, input, &mut message, &mut word, &mut marks)
        }),
        _ => return Err(USAGE.to_string()),
    }
    Ok(())
}

fn run_long(operation: &str, calls: usize) -> Result<(), String> {
    let words = long::words();
    let (mut message, mut word) = ([0; long::K], [0; long::N]);
    let mut work = vec![0; WORK_LENGTH];
    match named(operation, long::N) {
        Some(("encode", None)) => repeat(calls, &long::messages(), |input| {
            hermitian::encode(long::Q, SERIES, long::M, input, &mut word)
        }),
        Some(("unencode", None)) => repeat(calls, &words, |input| {
            hermitian::unencode(long::Q, SERIES, long::M, input, &mut message)
        }),
        Some(("check", None)) => repeat(calls, &words, |input| {
            hermitian::check(long::Q, SERIES, long::M, input)
        }),
        Some(("recover", Some(missing))) => {
            repeat(calls, &long::broken_words(&words, missing), |input| {
                hermitian::recover_long(SERIES, long::M, input, &mut message, &mut work)
            })
        }
        _ => return Err(USAGE.to_string()),
    }
    Ok(())
}

fn run_on_columns(operation: &str, calls: usize) -> Result<(), String> {
    let (mut message, mut word) = ([0; columns::K], [0; columns::N]);
    match named(operation, columns::N) {
        Some(("encode", None)) => repeat(calls, &columns::messages(), |input| {
            columns::encode(input, &mut word)
        }),
        Some(("unencode", None)) => repeat(calls, &columns::words(), |input| {
            columns::unencode(input, &mut message)
        }),
        Some(("recover", Some(missing))) => {
            repeat(calls, &columns::broken_words(missing), |input| {
                columns::recover(input, &mut message)
            })
        }
        _ => return Err(USAGE.to_string()),
    }
    Ok(())
}

/// The name before the hyphen and the number after it, at most n.
fn named(operation: &str, n: usize) -> Option<(&str, Option<usize>)> {
    let Some((name, count)) = operation.split_once('-') else {
        return Some((operation, None));
    };
    let count = count.parse().ok().filter(|&count| count <= n)?;
    Some((name, Some(count)))
}

fn repeat<Input, Answer>(
    calls: usize,
    inputs: &[Input],
    mut operation: impl FnMut(&Input) -> Answer,
) {
    for input in inputs.iter().cycle().take(calls) {
        black_box(operation(input));
    }
}
