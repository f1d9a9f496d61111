//! Files, read and written whole.

use std::ffi::OsString;
use std::fs::{self, File, OpenOptions, Permissions};
use std::io::{self, Read, Write};
use std::path::{Path, PathBuf};
use std::process;

use crate::failure::Failure;
use crate::options::is_stdin;

/// Bytes, and what to call them.
pub struct Source {
    pub name: String,
    pub bytes: Vec<u8>,
}

impl Source {
    pub fn open(path: &Path) -> Result<Self, Failure> {
        if is_stdin(path) {
            let name = "standard input".to_owned();
            let mut bytes = Vec::new();
            return match io::stdin().lock().read_to_end(&mut bytes) {
                Ok(_) => Ok(Source { name, bytes }),
                Err(error) => Err(Failure::reading(Path::new(&name), &error)),
            };
        }
        let bytes = fs::read(path).map_err(|error| Failure::reading(path, &error))?;
        Ok(Source { name: path.display().to_string(), bytes })
    }
}

/// Puts a file with these bytes in the place of another, at once: whoever opens it finds the old bytes or the new ones,
/// also if the machine stops half way.
pub fn replace(path: &Path, bytes: &[u8]) -> Result<(), Failure> {
    replace_at_once(path, bytes).map_err(|error| Failure::writing(path, &error))
}

fn replace_at_once(path: &Path, bytes: &[u8]) -> io::Result<()> {
    // a link stays a link, to the file that is replaced
    let target = fs::canonicalize(path)?;
    let known = fs::metadata(&target)?;
    if !known.is_file() {
        return Err(io::Error::other("it is not a regular file"));
    }
    // to rename over a file asks for no leave to write it
    OpenOptions::new().write(true).open(&target)?;
    let beside = beside(&target);
    let file = OpenOptions::new().write(true).create_new(true).open(&beside)?;
    let done = fill(file, bytes, known.permissions()).and_then(|()| fs::rename(&beside, &target));
    if done.is_err() {
        // what went wrong first is what is told
        let _ = fs::remove_file(&beside);
    }
    done
}

/// A name in the same folder, and so on the same disk, where a rename is one step.
fn beside(target: &Path) -> PathBuf {
    let mut name = OsString::from(".");
    name.push(target.file_name().unwrap_or_default());
    name.push(format!(".desk-{}", process::id()));
    target.with_file_name(name)
}

fn fill(mut file: File, bytes: &[u8], permissions: Permissions) -> io::Result<()> {
    file.write_all(bytes)?;
    file.set_permissions(permissions)?;
    file.sync_all()
}
