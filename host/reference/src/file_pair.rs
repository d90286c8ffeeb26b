//! Writing an input file and its expected output, as the case programs do.

use std::env;
use std::fs;
use std::process::ExitCode;

/// Writes the records and what `program` prints for them.
pub fn write_records(usage: &str, records: &[u8], program: fn(&[u8]) -> String) -> ExitCode {
    write_to_arguments(usage, records, &program(records))
}

/// Writes the two contents to the paths given by the two arguments.
pub fn write_to_arguments(usage: &str, input: &[u8], expected: &str) -> ExitCode {
    let paths: Vec<_> = env::args_os().skip(1).collect();
    let [input_path, expected_path] = paths.as_slice() else {
        eprintln!("usage: {usage}");
        return ExitCode::from(2);
    };
    let written = fs::write(input_path, input).and_then(|()| fs::write(expected_path, expected));
    match written {
        Ok(()) => ExitCode::SUCCESS,
        Err(error) => {
            eprintln!("cannot write: {error}");
            ExitCode::FAILURE
        }
    }
}
