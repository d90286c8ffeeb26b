//! Short blocks from chosen columns (request T-12): encoding, unencoding and recovery
//! as in module `code`, but on the points of the listed columns only. Places are
//! counted anew from 0, column by column in the order of the list, y ascending.

use crate::checks;
use crate::code::Code;
use crate::outcome::Outcome;

/// Writes the word of a message on the columns.
pub fn encode_on(q: u8, columns: &[u8], m: u16, message: &[u8], word: &mut [u8]) -> Outcome {
    let code = code_on(q, columns, m);
    Outcome::from(code.and_then(|code| code.encode(message, word)))
}

/// Writes the message of a whole word on the columns.
pub fn unencode_on(q: u8, columns: &[u8], m: u16, word: &[u8], message: &mut [u8]) -> Outcome {
    let code = code_on(q, columns, m);
    Outcome::from(code.and_then(|code| code.unencode(word, message)))
}

/// Writes the only message that fits a broken word on the columns.
pub fn recover_on(q: u8, columns: &[u8], m: u16, word: &[u8], message: &mut [u8]) -> Outcome {
    let code = code_on(q, columns, m);
    Outcome::from(code.and_then(|code| code.recover(word, message)))
}

/// Refusals 1, 18 and 2, or else the code.
fn code_on(q: u8, columns: &[u8], m: u16) -> Result<Code, Outcome> {
    let curve = checks::short_curve_columns_and_order(q, columns, m)?;
    Ok(Code::on_columns(curve, columns, m))
}

#[cfg(test)]
mod tests;
