//! What keeps the tool from asking the library, or from handing on its answer.

use std::io;
use std::path::Path;

pub enum Failure {
    /// The command line is none of those that `desk help` prints.
    Usage(String),
    /// A file that cannot be read or written, by its name.
    File(String),
    /// A place that a script does not have.
    Place(String),
    /// Standard output that takes no more.
    Output(io::Error),
}

impl Failure {
    pub fn reading(path: &Path, error: &io::Error) -> Self {
        Failure::File(format!("cannot read {}: {error}", path.display()))
    }

    pub fn writing(path: &Path, error: &io::Error) -> Self {
        Failure::File(format!("cannot write {}: {error}", path.display()))
    }

    /// What to say of it. Nothing, where whoever read the output has seen enough, as `head` has.
    pub fn message(&self) -> Option<String> {
        match self {
            Failure::Usage(message) => Some(format!("{message}; desk help prints the commands")),
            Failure::File(message) | Failure::Place(message) => Some(message.clone()),
            Failure::Output(error) if error.kind() == io::ErrorKind::BrokenPipe => None,
            Failure::Output(error) => Some(format!("cannot write the answer: {error}")),
        }
    }
}

impl From<io::Error> for Failure {
    fn from(error: io::Error) -> Self {
        Failure::Output(error)
    }
}
