//! The text that the program `progress` prints for an input: recovery in slices,
//! as request T-05 has it for the display.

use crate::blocks::{self, lines_of_parts, CURVE_NUMBER, MESSAGE_LENGTH, ORDER, SERIES};
use crate::job::{Job, Reply};
use crate::outcome::Outcome;

/// The symbols that a call may bring in before the display redraws.
const BUDGET: u8 = 8;

/// A line after each call for each record of 64 bytes, and one for a shorter last
/// part.
pub fn progress(input: &[u8]) -> String {
    lines_of_parts(input, record_lines)
}

/// A refused opening gives the line that `blocks` has for the record.
fn record_lines(number: usize, record: &[u8]) -> String {
    match Job::open(CURVE_NUMBER, SERIES, ORDER, record) {
        (job, Outcome::ACCEPTED) => call_lines(number, job),
        (_, refusal) => format!("{number} {}\n", blocks::result(refusal, &[])),
    }
}

fn call_lines(number: usize, mut job: Job) -> String {
    let mut lines = String::new();
    let mut message = [0; MESSAGE_LENGTH];
    let (mut symbols, arrived) = (0, job.arrived_count());
    loop {
        let (after, brought, reply) = job.carry_on(BUDGET, &mut message);
        symbols += brought;
        let text = reply_text(reply, &message);
        lines += &format!("{number} {symbols}/{arrived} {text}\n");
        if !matches!(reply, Reply::NoneFits | Reply::Leaves(_)) {
            return lines;
        }
        job = after;
    }
}

fn reply_text(reply: Reply, message: &[u8]) -> String {
    match reply {
        Reply::NoneFits => "none".to_string(),
        Reply::Leaves(r) => format!("left {r}"),
        Reply::Refused | Reply::Finished(_) => blocks::result(reply.outcome(), message),
    }
}

#[cfg(test)]
mod tests {
    use super::*;
    use crate::code;

    fn lines(input: &[u8]) -> Vec<String> {
        progress(input).lines().map(str::to_string).collect()
    }

    /// Paper 01's example for `blocks`. The first 16 zeros are four columns, and
    /// fix a polynomial up to a product with x (x - 1) (x - 2) (x - 3), which has
    /// weight 16: the 16 terms of weight up to 37 - 16 remain.
    #[test]
    fn the_example_of_blocks() {
        let mut input = vec![0; 64];
        input.extend([255; 64]);
        input.extend([0; 63]);
        input.push(1);
        input.extend([7; 5]);
        let text = lines(&input);
        assert_eq!(text.len(), 8 + 1 + 8 + 1);
        assert_eq!(text[0], "0 8/64 left 24");
        assert_eq!(text[1], "0 16/64 left 16");
        assert_eq!(text[4], "0 40/64 left 0");
        assert_eq!(text[6], "0 56/64 left 0");
        assert_eq!(text[7], "0 64/64 ok 00000000000000000000000000000000");
        assert_eq!(text[8], "1 0/0 no 10 32");
        assert_eq!(text[9], "2 8/64 left 24");
        assert_eq!(text[15], "2 56/64 left 0");
        assert_eq!(text[16], "2 64/64 no 9 0");
        assert_eq!(text[17], "3 short 5");
    }

    #[test]
    fn empty_input_prints_nothing() {
        assert_eq!(progress(&[]), "");
    }

    #[test]
    fn a_bad_value_gives_the_line_of_blocks() {
        for value in [16, 128, 254] {
            let mut record = [255; 64];
            record[40] = value;
            assert_eq!(progress(&record), "0 no 4 40\n");
            assert_eq!(progress(&record), blocks::blocks(&record));
        }
    }

    /// 45 zeros and a 1 after them, more than the 38 that are sure to be enough.
    #[test]
    fn none_is_said_before_the_end() {
        let mut record = [0; 64];
        record[45] = 1;
        let text = lines(&record);
        assert_eq!(text[4], "0 40/64 left 0");
        assert_eq!(text[5], "0 48/64 none");
        assert_eq!(text[6], "0 56/64 none");
        assert_eq!(text[7], "0 64/64 no 9 0");
    }

    /// 38 symbols are always enough, so 26 may be missing.
    #[test]
    fn missing_symbols_are_not_brought_in() {
        let message: Vec<u8> = (0..32).map(|index| index % 16).collect();
        let mut word = [0; 64];
        let outcome = code::encode(4, 1, 37, &message, &mut word);
        assert_eq!(outcome, Outcome::ACCEPTED);
        word[5..31].fill(255);
        let text = lines(&word);
        assert_eq!(text.len(), 5);
        assert!(text[3].starts_with("0 32/38 left "));
        assert_eq!(text[4], "0 38/38 ok 0123456789abcdef0123456789abcdef");
        // A last call brings in as many as the budget allows, or fewer.
        word[63] = 255;
        word[31..36].fill(255);
        assert_eq!(lines(&word).len(), 4);
        assert!(lines(&word)[3].starts_with("0 32/32 "));
    }

    #[test]
    fn the_last_line_of_a_record_ends_as_that_of_blocks() {
        let input = crate::record_sample::few_records();
        let last_lines: Vec<(String, String)> = progress(&input)
            .lines()
            .map(without_count)
            .filter(|(_, rest)| !rest.starts_with("left") && rest != "none")
            .collect();
        let blocks_text = blocks::blocks(&input);
        let expected: Vec<(String, String)> = blocks_text.lines().map(without_count).collect();
        assert_eq!(last_lines, expected);
    }

    /// The record's number, and the line's rest after the count of symbols.
    fn without_count(line: &str) -> (String, String) {
        let (number, rest) = line.split_once(' ').expect("two parts");
        let rest = match rest.split_once(' ') {
            Some((count, rest)) if count.contains('/') => rest,
            _ => rest,
        };
        (number.to_string(), rest.to_string())
    }
}
