//! Writes the case file of the check of long blocks and the text that a program which
//! runs it must print. The module `long_case_record` says how both are laid out.

use reference::file_pair;
use reference::long_case_record::LongCase;
use reference::long_sample::long_check_cases;
use std::process::ExitCode;

fn main() -> ExitCode {
    let cases = long_check_cases();
    let records: Vec<u8> = cases.iter().flat_map(LongCase::to_record).collect();
    let expected: String = cases.iter().map(LongCase::line).collect();
    file_pair::write_to_arguments(
        "long_check_cases CASE_FILE EXPECTED_FILE",
        &records,
        &expected,
    )
}
