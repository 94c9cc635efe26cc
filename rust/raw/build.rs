//! Links `libdesk.a`, the proved library for this machine. Without it nothing above can run, so that its absence is an
//! error here and not a list of missing symbols later.
//!
//! `DESK_ARCHIVE_DIR` names the folder of another archive. `DESK_UNLINKED=1` leaves the archive out: for `cargo clippy`
//! and `cargo check`, which link nothing. A program cannot be built so.

use std::env;
use std::path::PathBuf;
use std::process::exit;

fn main() {
    println!("cargo:rerun-if-env-changed=DESK_ARCHIVE_DIR");
    println!("cargo:rerun-if-env-changed=DESK_UNLINKED");
    if env::var_os("DESK_UNLINKED").is_some_and(|word| word == "1") {
        return;
    }
    let folder = archive_folder();
    let archive = folder.join("libdesk.a");
    println!("cargo:rerun-if-changed={}", archive.display());
    if !archive.is_file() {
        eprintln!(
            "there is no {}.\nRun `tools/native-archive`, which proves the library and writes it, or set DESK_ARCHIVE_DIR to the folder of another libdesk.a.",
            archive.display()
        );
        exit(1);
    }
    println!("cargo:rustc-link-search=native={}", folder.display());
    println!("cargo:rustc-link-lib=static=desk");
}

/// The folder named in the environment, else the repository's own.
fn archive_folder() -> PathBuf {
    match env::var_os("DESK_ARCHIVE_DIR") {
        Some(folder) => PathBuf::from(folder),
        None => PathBuf::from(env::var_os("CARGO_MANIFEST_DIR").expect("set by cargo")).join("../../target/native"),
    }
}
