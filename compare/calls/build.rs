//! Links the archive from the folder that `GOREMBIIN_ARCHIVE` names.
use std::env;

const FOLDER: &str = "GOREMBIIN_ARCHIVE";

fn main() {
    println!("cargo:rerun-if-env-changed={FOLDER}");
    let folder = env::var(FOLDER).unwrap_or_else(|_| panic!("{FOLDER} must name a folder"));
    println!("cargo:rerun-if-changed={folder}/libarchive.a");
    println!("cargo:rustc-link-search=native={folder}");
    println!("cargo:rustc-link-lib=static=archive");
}
