//! Takes the Rust's three files, as published, from the folder that `GOREMBIIN_RUST` names.
use std::path::{Path, PathBuf};
use std::{env, fs};

const FOLDER: &str = "GOREMBIIN_RUST";

/// Each file, and what is appended to it. The parser ends in a doc comment that documents nothing, which does not
/// compile; an empty module gives it something to document.
const FILES: [(&str, &str); 3] = [
    ("scripting/parsing/lexer.rs", ""),
    ("scripting/parsing/parser.rs", "\nmod end {}\n"),
    ("scripting/nodes/node.rs", ""),
];

/// The file by its own name, by its path in the Rust's repository, or by that path with `--` for `/` and `.txt` behind.
fn find(folder: &Path, path: &str) -> PathBuf {
    let name = path.rsplit('/').next().expect("a path has a last part");
    let flat = format!("src/{path}").replace('/', "--");
    let candidates = [
        name.to_string(),
        format!("src/{path}"),
        format!("{flat}.txt"),
        format!("src--{flat}.txt"),
    ];
    candidates
        .iter()
        .map(|candidate| folder.join(candidate))
        .find(|file| file.is_file())
        .unwrap_or_else(|| panic!("{} has none of {candidates:?}", folder.display()))
}

fn main() {
    println!("cargo:rerun-if-env-changed={FOLDER}");
    let folder = env::var(FOLDER).unwrap_or_else(|_| panic!("{FOLDER} must name a folder"));
    let out = PathBuf::from(env::var("OUT_DIR").expect("cargo sets OUT_DIR"));
    for (path, appended) in FILES {
        let file = find(Path::new(&folder), path);
        println!("cargo:rerun-if-changed={}", file.display());
        let text = fs::read_to_string(&file).expect("the file is text");
        let name = path.rsplit('/').next().expect("a path has a last part");
        fs::write(out.join(name), text + appended).expect("OUT_DIR can be written");
    }
}
