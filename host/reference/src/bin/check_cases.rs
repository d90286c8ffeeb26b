//! Writes the case file of the check and the text that a program which runs it must
//! print. The module `case_record` says how both are laid out.

use reference::case_record::{Case, Runner};
use reference::dual_sample::dual_cases;
use reference::file_pair;
use std::process::ExitCode;

fn main() -> ExitCode {
    let cases = dual_cases();
    let records: Vec<u8> = cases.iter().flat_map(Case::to_record).collect();
    let mut runner = Runner::default();
    let expected: String = cases.iter().map(|case| runner.run(case)).collect();
    file_pair::write_to_arguments("check_cases CASE_FILE EXPECTED_FILE", &records, &expected)
}
