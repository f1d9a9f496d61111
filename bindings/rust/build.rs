//! Links `libarchive.a`, from the folder that `GOREMBIIN_ARCHIVE` names or from where `tools/archive` puts it.

use std::env;
use std::path::{Path, PathBuf};
use std::process;

fn folder() -> PathBuf {
    match env::var_os("GOREMBIIN_ARCHIVE") {
        Some(named) if !named.is_empty() => PathBuf::from(named),
        _ => Path::new(env!("CARGO_MANIFEST_DIR")).join("../../target/native"),
    }
}

fn main() {
    let folder = folder();
    let archive = folder.join("libarchive.a");
    println!("cargo:rerun-if-env-changed=GOREMBIIN_ARCHIVE");
    println!("cargo:rerun-if-changed={}", archive.display());
    if !archive.is_file() {
        eprintln!(
            "there is no {}: run tools/archive at the root of the repository, which makes it, \
             or set GOREMBIIN_ARCHIVE to the folder of a libarchive.a",
            archive.display()
        );
        process::exit(1);
    }
    println!("cargo:rustc-link-search=native={}", folder.display());
    println!("cargo:rustc-link-lib=static=archive");
}
