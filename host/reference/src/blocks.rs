//! The text that the program `blocks` prints for an input.

use crate::code;
use crate::outcome::Outcome;

pub(crate) const RECORD_LENGTH: usize = 64;
pub(crate) const CURVE_NUMBER: u8 = 4;
pub(crate) const SERIES: u8 = 1;
pub(crate) const ORDER: u16 = 37;
pub(crate) const MESSAGE_LENGTH: usize = 32;

/// One line for each record of 64 bytes, and one for a shorter last part.
pub fn blocks(input: &[u8]) -> String {
    lines_of_parts(input, |number, record| {
        let (outcome, message) = recovered(record);
        format!("{number} {}\n", result(outcome, &message))
    })
}

/// The lines of each record by its number, and one for a shorter last part.
pub(crate) fn lines_of_parts(input: &[u8], lines: impl Fn(usize, &[u8]) -> String) -> String {
    let parts = input.chunks(RECORD_LENGTH).enumerate();
    parts
        .map(|(number, part)| match part.len() {
            RECORD_LENGTH => lines(number, part),
            length => format!("{number} short {length}\n"),
        })
        .collect()
}

/// `ok` and the message, or `no` and the two numbers of a refusal.
pub(crate) fn result(outcome: Outcome, message: &[u8]) -> String {
    if outcome != Outcome::ACCEPTED {
        return format!("no {} {}", outcome.number, outcome.second);
    }
    // A symbol of this field is below 16, so it is one digit.
    let digits: String = message.iter().map(|symbol| format!("{symbol:x}")).collect();
    format!("ok {digits}")
}

/// A record as a broken word: what recovery says, and the message.
pub(crate) fn recovered(record: &[u8]) -> (Outcome, [u8; MESSAGE_LENGTH]) {
    let mut message = [0; MESSAGE_LENGTH];
    let outcome = code::recover(CURVE_NUMBER, SERIES, ORDER, record, &mut message);
    (outcome, message)
}

#[cfg(test)]
mod tests {
    use super::*;

    #[test]
    fn the_example_of_the_paper() {
        let mut input = vec![0; 64];
        input.extend([255; 64]);
        input.extend([0; 63]);
        input.push(1);
        input.extend([7; 5]);
        let expected = "0 ok 00000000000000000000000000000000\n\
                        1 no 10 32\n\
                        2 no 9 0\n\
                        3 short 5\n";
        assert_eq!(blocks(&input), expected);
    }

    #[test]
    fn empty_input_prints_nothing() {
        assert_eq!(blocks(&[]), "");
    }

    #[test]
    fn any_last_part_of_1_to_63_bytes_is_short() {
        for length in 1..64 {
            assert_eq!(blocks(&vec![200; length]), format!("0 short {length}\n"));
        }
    }

    #[test]
    fn a_bad_value_is_given_by_its_index() {
        for index in 0..64 {
            let mut record = [255; 64];
            record[63] = 254;
            record[index] = 16;
            assert_eq!(blocks(&record), format!("0 no 4 {index}\n"));
        }
    }

    #[test]
    fn each_symbol_of_a_message_is_one_digit() {
        let message: Vec<u8> = (0..32).map(|index| index % 16).collect();
        let mut word = [0; 64];
        let outcome = code::encode(4, 1, 37, &message, &mut word);
        assert_eq!(outcome, Outcome::ACCEPTED);
        let expected = "0 ok 0123456789abcdef0123456789abcdef\n";
        assert_eq!(blocks(&word), expected);
        // 26 missing leave m + 1 = 38 symbols, which are always enough.
        word[5..31].fill(255);
        assert_eq!(blocks(&word), expected);
    }

    #[test]
    fn numbers_count_all_records_in_decimal() {
        let input = vec![0; 64 * 12 + 63];
        let text = blocks(&input);
        let lines: Vec<&str> = text.lines().collect();
        assert_eq!(lines.len(), 13);
        assert_eq!(lines[11], "11 ok 00000000000000000000000000000000");
        assert_eq!(lines[12], "12 short 63");
    }
}
