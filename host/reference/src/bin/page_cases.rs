//! Writes an input for the program `page` and its expected output.

use reference::file_pair;
use reference::page::page;
use reference::record_sample::records;
use std::process::ExitCode;

fn main() -> ExitCode {
    let usage = "page_cases INPUT_FILE EXPECTED_FILE";
    file_pair::write_records(usage, &records(), page)
}

#[cfg(test)]
mod tests {
    use super::*;
    use std::collections::BTreeSet;

    #[test]
    fn every_kind_of_last_line_occurs() {
        let text = page(&records());
        let lines: Vec<&str> = text.lines().collect();
        let kinds: BTreeSet<&str> = lines
            .chunks_exact(17)
            .filter_map(|record| record[16].split_whitespace().next())
            .collect();
        assert!(kinds.into_iter().eq(["bad", "none", "ok", "several"]));
    }

    #[test]
    fn a_bad_value_occurs_at_the_first_place_and_at_the_last() {
        let text = page(&records());
        assert!(text.contains("0: 0=? 1="));
        assert!(text
            .lines()
            .any(|line| line.starts_with("f:") && line.ends_with(" 5=?")));
    }
}
