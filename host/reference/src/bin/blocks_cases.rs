//! Writes an input for the program `blocks` and its expected output.

use reference::blocks::blocks;
use reference::file_pair;
use reference::record_sample::records;
use std::process::ExitCode;

fn main() -> ExitCode {
    let usage = "blocks_cases INPUT_FILE EXPECTED_FILE";
    file_pair::write_records(usage, &records(), blocks)
}

#[cfg(test)]
mod tests {
    use super::*;
    use std::collections::BTreeSet;

    #[test]
    fn the_example_comes_first_and_a_short_part_last() {
        let input = records();
        let text = blocks(&input);
        let start = "0 ok 00000000000000000000000000000000\n1 no 10 32\n2 no 9 0\n";
        assert!(text.starts_with(start));
        let count = input.len() / 64;
        assert!(text.ends_with(&format!("\n{count} short 41\n")));
    }

    #[test]
    fn every_kind_of_line_occurs() {
        let text = blocks(&records());
        let kinds: BTreeSet<&str> = text
            .lines()
            .flat_map(|line| line.split_once(' '))
            .map(|(_, rest)| {
                if rest.starts_with("no") {
                    rest.rsplit_once(' ').map_or(rest, |(kind, _)| kind)
                } else {
                    rest.split_once(' ').map_or(rest, |(kind, _)| kind)
                }
            })
            .collect();
        assert!(kinds
            .into_iter()
            .eq(["no 10", "no 4", "no 9", "ok", "short"]));
    }
}
