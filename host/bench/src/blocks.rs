//! The proved program `blocks` beside `blocks_baseline`, each as a process of
//! its own that reads the same file, in turn. Both must print the same bytes.

use std::fs::{self, File};
use std::path::{Path, PathBuf};
use std::process::{self, Command, Stdio};
use std::time::Instant;

use reference::generator::Generator;
use reference::sample;

use crate::{shape, BASELINE_MODE, N, SEED};

/// Where `run-blocks` puts the program.
pub const PROGRAM: &str = concat!(
    env!("CARGO_MANIFEST_DIR"),
    "/../../crates/blocks/out/blocks"
);

const RECORDS: usize = 50_000;
const SHORT_LENGTH: usize = 41;
const SAMPLES: usize = 7;

/// Prints a table of one row, from the quickest run of each program.
pub fn run(program: &str) -> Result<(), String> {
    if !Path::new(program).is_file() {
        return Err(format!(
            "there is no program at {program}\n\
             `./run-blocks` in the repository's top folder makes it at crates/blocks/out/blocks"
        ));
    }
    let own = std::env::current_exe().map_err(|error| format!("this program's path: {error}"))?;
    let records = records(RECORDS);
    let input = TemporaryFile::with(&records)?;
    let (mut proved, mut baseline) = (f64::INFINITY, f64::INFINITY);
    for _ in 0..SAMPLES {
        let ours = timed(&mut Command::new(program), &input)?;
        let theirs = timed(Command::new(&own).arg(BASELINE_MODE), &input)?;
        if ours.lines != theirs.lines {
            return Err("the two programs print different lines".to_string());
        }
        proved = proved.min(ours.seconds);
        baseline = baseline.min(theirs.seconds);
    }
    println!("| program | proved, MB/s | baseline, MB/s | proved / baseline |");
    println!("|---|---|---|---|");
    let speed = |seconds: f64| records.len() as f64 / 1e6 / seconds;
    let (proved, baseline) = (speed(proved), speed(baseline));
    let ratio = proved / baseline;
    println!("| blocks | {proved:.2} | {baseline:.2} | {ratio:.2} |");
    Ok(())
}

/// Of ten records eight are words with 0 to 30 missing symbols; one is such a
/// word with a value that is no symbol; one has 0 to 25 missing and another
/// symbol at one place, so that no message fits. At the end a short part.
pub fn records(count: usize) -> Vec<u8> {
    let generator = &mut Generator::with_seed(SEED);
    let mut records = Vec::with_capacity(N * count + SHORT_LENGTH);
    for number in 0..count {
        let kind = number % 10;
        let most_missing = if kind == 9 { 25 } else { 30 };
        let known = N - generator.below(most_missing + 1);
        let word = sample::codeword(generator, shape());
        let mut record = sample::with_known(generator, &word, known);
        match kind {
            8 => record[generator.below(N)] = generator.byte_from(16, 254),
            9 => record = sample::damaged(generator, shape(), &record),
            _ => {}
        }
        records.extend(record);
    }
    records.extend(generator.bytes(SHORT_LENGTH));
    records
}

/// From the start of a process to its end.
struct Run {
    seconds: f64,
    lines: Vec<u8>,
}

fn timed(command: &mut Command, input: &TemporaryFile) -> Result<Run, String> {
    let program = command.get_program().to_string_lossy().into_owned();
    let failed = |error| format!("{program}: {error}");
    let file = File::open(&input.path).map_err(failed)?;
    command.stdin(file).stderr(Stdio::inherit());
    let start = Instant::now();
    let output = command.output().map_err(failed)?;
    let seconds = start.elapsed().as_secs_f64();
    if !output.status.success() {
        return Err(format!("{program}: {}", output.status));
    }
    let lines = output.stdout;
    Ok(Run { seconds, lines })
}

/// Removed when dropped.
struct TemporaryFile {
    path: PathBuf,
}

impl TemporaryFile {
    fn with(content: &[u8]) -> Result<TemporaryFile, String> {
        let name = format!("block-records-{}.bin", process::id());
        let path = std::env::temp_dir().join(name);
        fs::write(&path, content).map_err(|error| format!("{}: {error}", path.display()))?;
        Ok(TemporaryFile { path })
    }
}

impl Drop for TemporaryFile {
    fn drop(&mut self) {
        let _ = fs::remove_file(&self.path);
    }
}
