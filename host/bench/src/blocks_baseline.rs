//! The program `blocks` as one would write it plainly in Rust: 64 KiB are read
//! at a time, and their lines are written at once, as the proved one does.

use std::io::{self, Read, Write};

use crate::baseline::{Baseline, DONE};
use crate::{K, N};

const BUFFER_LENGTH: usize = 64 * 1024;
const DIGITS: &[u8; 16] = b"0123456789abcdef";

/// One line for each record, and one for a shorter last part.
pub fn run(mut input: impl Read, mut output: impl Write) -> io::Result<()> {
    let baseline = Baseline::new();
    let mut buffer = vec![0; BUFFER_LENGTH];
    let mut lines = Vec::with_capacity(BUFFER_LENGTH);
    let mut number = 0;
    loop {
        let filled = fill(&mut input, &mut buffer)?;
        lines.clear();
        for part in buffer[..filled].chunks(N) {
            write_line(&baseline, number, part, &mut lines)?;
            number += 1;
        }
        output.write_all(&lines)?;
        if filled < BUFFER_LENGTH {
            return output.flush();
        }
    }
}

/// Reads until the buffer is full or the input ends; gives the length read.
fn fill(input: &mut impl Read, buffer: &mut [u8]) -> io::Result<usize> {
    let mut filled = 0;
    while filled < buffer.len() {
        match input.read(&mut buffer[filled..])? {
            0 => break,
            count => filled += count,
        }
    }
    Ok(filled)
}

fn write_line(
    baseline: &Baseline,
    number: usize,
    part: &[u8],
    lines: &mut Vec<u8>,
) -> io::Result<()> {
    let Ok(word) = part.try_into() else {
        return writeln!(lines, "{number} short {}", part.len());
    };
    let mut message = [0; K];
    let answer = baseline.code.recover(word, &mut message);
    if answer != DONE {
        return writeln!(lines, "{number} no {} {}", answer >> 16, answer % (1 << 16));
    }
    write!(lines, "{number} ok ")?;
    lines.extend(message.map(|symbol| DIGITS[usize::from(symbol) % 16]));
    lines.push(b'\n');
    Ok(())
}

#[cfg(test)]
mod tests {
    use super::*;
    use crate::blocks::records;

    #[test]
    fn the_lines_are_those_of_the_reference() {
        // More than a buffer, so that numbers go on from one to the next.
        let input = records(1100);
        let mut lines = Vec::new();
        run(input.as_slice(), &mut lines).unwrap();
        let text = String::from_utf8(lines).unwrap();
        assert_eq!(text, reference::blocks::blocks(&input));
        for kind in [" ok ", " no 4 ", " no 9 0", "1100 short 41"] {
            assert!(text.contains(kind), "{kind}");
        }
    }
}
