//! Links the calls that only the benchmark makes, the archive that `rt lib` writes in
//! the folder of the crate `bench_job`. The library itself is linked by the wrapper `hermitian`.

use std::path::{Path, PathBuf};
use std::process::exit;

fn main() {
    let folder = archive_folder();
    let archive = folder.join("libbench_job.a");
    println!("cargo:rerun-if-changed={}", archive.display());
    if !archive.is_file() {
        eprintln!("error: the archive crates/bench_job/out/libbench_job.a is missing.");
        eprintln!("Run `rt lib` in crates/bench_job of the repository.");
        exit(1);
    }
    println!("cargo:rustc-link-search=native={}", folder.display());
    println!("cargo:rustc-link-lib=static=bench_job");
}

/// crates/bench_job/out of the repository, whose top is two folders above this crate.
fn archive_folder() -> PathBuf {
    let crate_folder = std::env::var("CARGO_MANIFEST_DIR").expect("cargo sets CARGO_MANIFEST_DIR");
    Path::new(&crate_folder).join("../../crates/bench_job/out")
}
