//! Writes an input for the program `progress` and its expected output.

use reference::file_pair;
use reference::progress::progress;
use reference::record_sample::few_records;
use std::process::ExitCode;

fn main() -> ExitCode {
    let usage = "progress_cases INPUT_FILE EXPECTED_FILE";
    file_pair::write_records(usage, &few_records(), progress)
}

#[cfg(test)]
mod tests {
    use super::*;
    use std::collections::BTreeSet;

    /// The line's words that are no numbers, and the refusal's number after `no`.
    fn kind(line: &str) -> String {
        let parts: Vec<&str> = line.split(' ').skip(1).collect();
        match parts.as_slice() {
            [_, "no", number, _] => format!("counted no {number}"),
            ["no", number, _] => format!("no {number}"),
            [_, "left", "0"] => "left 0".to_string(),
            [_, kind @ ("left" | "none" | "ok"), ..] | [kind, ..] => kind.to_string(),
            [] => String::new(),
        }
    }

    #[test]
    fn every_kind_of_line_occurs() {
        let text = progress(&few_records());
        let kinds: BTreeSet<String> = text.lines().map(kind).collect();
        let expected = [
            "counted no 10",
            "counted no 9",
            "left",
            "left 0",
            "no 4",
            "none",
            "ok",
            "short",
        ];
        assert!(kinds.iter().eq(expected.iter()), "{kinds:?}");
    }
}
