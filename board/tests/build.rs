//! Links the archive that a controller links, which `.ci/archive` writes to target/archive.
//! ARCHIVE_DIR names another folder that has a `libboard.a`.

use std::path::PathBuf;

fn main() {
    println!("cargo:rerun-if-env-changed=ARCHIVE_DIR");
    let folder = match std::env::var_os("ARCHIVE_DIR") {
        Some(folder) => PathBuf::from(folder),
        None => PathBuf::from(env!("CARGO_MANIFEST_DIR")).join("../../target/archive"),
    };
    let archive = folder.join("libboard.a");
    println!("cargo:rerun-if-changed={}", archive.display());
    if !archive.is_file() {
        eprintln!("libboard.a is missing: run .ci/archive at the top of the repository first");
        std::process::exit(1);
    }
    println!("cargo:rustc-link-search=native={}", folder.display());
    println!("cargo:rustc-link-lib=static=board");
}
