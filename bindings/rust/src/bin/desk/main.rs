//! The curator's tool for the scripts of notes. All that it says of a script is the library's answer, but for one thing: a
//! record tells where its text begins, and where it ends is found here, in `spans`.

mod amend;
mod at;
mod check;
mod failure;
mod files;
mod language;
mod options;
mod refused;
mod show;
mod spans;
mod tokens;
mod visible;

use std::env;
use std::io::{self, BufWriter, Write};
use std::process::ExitCode;

use failure::Failure;
use files::Source;
use language::Language;
use options::{Request, Task};

/// Whether the library took what it was given.
#[derive(Clone, Copy, PartialEq, Eq)]
enum Verdict {
    Accepted,
    Refused,
}

fn main() -> ExitCode {
    let mut out = BufWriter::new(io::stdout().lock());
    let verdict = options::parse(env::args_os().skip(1))
        .and_then(|request| run(request, &mut out))
        .and_then(|verdict| Ok(out.flush().map(|()| verdict)?));
    match verdict {
        Ok(Verdict::Accepted) => ExitCode::SUCCESS,
        Ok(Verdict::Refused) => ExitCode::from(1),
        Err(failure) => {
            if let Some(message) = failure.message() {
                eprintln!("desk: {message}");
            }
            ExitCode::from(2)
        }
    }
}

fn run(request: Request, out: &mut impl Write) -> Result<Verdict, Failure> {
    let (task, named) = match request {
        Request::Help => {
            out.write_all(include_bytes!("help.txt"))?;
            return Ok(Verdict::Accepted);
        }
        Request::Work(task, named) => (task, named),
    };
    let language = Language::open(&named)?;
    match task {
        Task::Show(file) => show::show(&Source::open(&file)?, &language, out),
        Task::At(file, asked) => at::at(&Source::open(&file)?, asked, &language, out),
        Task::Check(file) => check::check(&Source::open(&file)?, &language, out),
        Task::Amend(change) => amend::amend(&change, &language, out),
    }
}
