//! One block of the strap: encoded, checked, partly lost, recovered, and a refusal; one
//! whose payload is read without a decoder; and one of a junior strap, which sends some
//! columns only.

use hermitian::{
    check, encode, encode_at, encode_on, message_length, recover, recover_on, word_length, Refusal,
    MISSING,
};

const Q: u8 = 4;
const SERIES: u8 = 1;
const M: u16 = 37;

fn main() -> Result<(), Refusal> {
    let n = word_length(Q).ok_or(Refusal::UnknownCurve)?;
    let k = message_length(Q, M).ok_or(Refusal::OrderTooHigh)?;
    let message: Vec<u8> = (0..16).cycle().take(k).collect();
    let mut word = vec![0; n];
    encode(Q, SERIES, M, &message, &mut word)?;
    relay(&word)?;

    lose_every(&mut word, 3);
    let mut read = vec![0; k];
    recover(Q, SERIES, M, &word, &mut read)?;
    assert_eq!(read, message);
    println!("recovered with {} of {n} symbols missing", missing(&word));

    lose_every(&mut word, 2);
    match recover(Q, SERIES, M, &word, &mut read) {
        Ok(()) => println!("recovered with {} of {n} symbols missing", missing(&word)),
        Err(refusal) => println!("with {} missing: {refusal}", missing(&word)),
    }
    send_in_clear(&message, &mut word)?;
    send_on_columns(&[0, 2, 3, 5, 8, 9, 12, 15], 17)
}

/// A relay passes codewords on and drops the others, without reading them.
fn relay(word: &[u8]) -> Result<(), Refusal> {
    let mut wrong = word.to_vec();
    wrong[0] ^= 1;
    assert!(check(Q, SERIES, M, word)?);
    assert!(!check(Q, SERIES, M, &wrong)?);
    println!("a relay passes the block on, and drops it with one symbol wrong");
    Ok(())
}

/// The payload stands at the first place of every column, and at the second of even
/// columns, the third of odd ones.
fn send_in_clear(payload: &[u8], word: &mut [u8]) -> Result<(), Refusal> {
    let places: Vec<u16> = (0..16).flat_map(|x| [4 * x, 4 * x + 1 + x % 2]).collect();
    encode_at(Q, SERIES, M, &places, payload, word)?;
    let read = places.iter().map(|&place| &word[usize::from(place)]);
    assert!(read.eq(payload));
    println!("{} symbols read without a decoder", places.len());
    Ok(())
}

/// As many symbols get through as are always enough, m + 1.
fn send_on_columns(columns: &[u8], m: u16) -> Result<(), Refusal> {
    let n = usize::from(Q) * columns.len();
    let k = message_length(Q, m).ok_or(Refusal::OrderTooHigh)?;
    let message: Vec<u8> = (0..16).cycle().take(k).collect();
    let mut word = vec![0; n];
    encode_on(Q, columns, m, &message, &mut word)?;
    word[usize::from(m) + 1..].fill(MISSING);
    let mut read = vec![0; k];
    recover_on(Q, columns, m, &word, &mut read)?;
    assert_eq!(read, message);
    let count = columns.len();
    let missing = missing(&word);
    println!("on {count} columns: recovered with {missing} of {n} symbols missing");
    Ok(())
}

fn lose_every(word: &mut [u8], step: usize) {
    for symbol in word.iter_mut().step_by(step) {
        *symbol = MISSING;
    }
}

fn missing(word: &[u8]) -> usize {
    word.iter().filter(|&&symbol| symbol == MISSING).count()
}
