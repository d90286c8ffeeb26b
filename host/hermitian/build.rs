//! Links the proved library, the archives that `rt lib` writes in the folders of the
//! crates `hermitian` and `hermitian_long`.

use std::path::{Path, PathBuf};
use std::process::exit;

/// The crates whose archives make up the library.
const CRATES: [&str; 2] = ["hermitian", "hermitian_long"];

fn main() {
    for name in CRATES {
        let folder = archive_folder(name);
        println!("cargo:rustc-link-search=native={}", folder.display());
        let archive = folder.join(format!("lib{name}.a"));
        println!("cargo:rerun-if-changed={}", archive.display());
        if !archive.is_file() {
            explain_missing(name);
            exit(1);
        }
        println!("cargo:rustc-link-lib=static={name}");
    }
}

/// crates/NAME/out of the repository, whose top is two folders above this crate.
fn archive_folder(name: &str) -> PathBuf {
    let crate_folder = std::env::var("CARGO_MANIFEST_DIR").expect("cargo sets CARGO_MANIFEST_DIR");
    Path::new(&crate_folder).join(format!("../../crates/{name}/out"))
}

fn explain_missing(name: &str) {
    eprintln!("error: the proved archive crates/{name}/out/lib{name}.a is missing.");
    eprintln!("Build it first: run `rt lib` in crates/{name} of the repository.");
}
