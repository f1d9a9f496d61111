//! The command line.

use std::ffi::{OsStr, OsString};
use std::path::{Path, PathBuf};

use gorembiin::Edition;

use crate::failure::Failure;

pub enum Request {
    Help,
    Work(Task, Named),
}

pub enum Task {
    Show(PathBuf),
    At(PathBuf, Asked),
    Check(PathBuf),
    Amend(Change),
}

/// Statement `statement` of `file` is to be replaced by what is in `text`.
pub struct Change {
    pub file: PathBuf,
    pub statement: u32,
    pub text: PathBuf,
    pub write: bool,
}

/// A place of a script that is asked for.
#[derive(Clone, Copy)]
pub enum Asked {
    Byte(u32),
    /// Line and column.
    Character(u32, u32),
}

/// What scripts are to be read by, as far as it was named: the edition, and the files of lists.
#[derive(Default)]
pub struct Named {
    pub edition: Option<Edition>,
    pub reserved: Option<PathBuf>,
    pub currencies: Option<PathBuf>,
    pub day_counters: Option<PathBuf>,
}

/// Whether a name means standard input.
pub fn is_stdin(path: &Path) -> bool {
    path == Path::new("-")
}

/// The words of a command line: those that are options, and the others in order.
#[derive(Default)]
struct Words {
    plain: Vec<OsString>,
    help: bool,
    write: bool,
    named: Named,
}

pub fn parse(args: impl Iterator<Item = OsString>) -> Result<Request, Failure> {
    let Words { plain, help, write, named } = sort(args)?;
    if help {
        return Ok(Request::Help);
    }
    let words: Vec<&OsStr> = plain.iter().map(OsString::as_os_str).collect();
    let Some((command, rest)) = words.split_first() else {
        return Err(usage("no command is given"));
    };
    let task = match (command.to_str(), rest) {
        (Some("help"), []) => return Ok(Request::Help),
        (Some("show"), [file]) => Task::Show(file.into()),
        (Some("at"), [file, place]) => Task::At(file.into(), asked(place)?),
        (Some("check"), [file]) => Task::Check(file.into()),
        (Some("amend"), [file, number, text]) => Task::Amend(change(file, number, text, write)?),
        (Some("help"), _) => return Err(usage("help takes no other word")),
        (Some(name @ ("show" | "check")), _) => {
            return Err(usage(&format!("{name} takes one file")));
        }
        (Some("at"), _) => return Err(usage("at takes a file and a place")),
        (Some("amend"), _) => {
            return Err(usage("amend takes a file, a statement's number and the file of the new text"));
        }
        _ => return Err(usage(&format!("there is no command {}", command.display()))),
    };
    if write && !matches!(task, Task::Amend(_)) {
        return Err(usage("--write is an option of amend"));
    }
    one_reader_of_stdin(&task, &named)?;
    Ok(Request::Work(task, named))
}

fn sort(mut args: impl Iterator<Item = OsString>) -> Result<Words, Failure> {
    let mut words = Words::default();
    let named = &mut words.named;
    while let Some(word) = args.next() {
        match word.to_str() {
            Some("--") => {
                words.plain.extend(args);
                break;
            }
            Some("--help" | "-h") => words.help = true,
            Some("--write") => words.write = true,
            Some("--edition") => set(&mut named.edition, &word, edition(args.next())?)?,
            Some("--reserved") => set(&mut named.reserved, &word, file(&word, args.next())?)?,
            Some("--currencies") => set(&mut named.currencies, &word, file(&word, args.next())?)?,
            Some("--day-counters") => set(&mut named.day_counters, &word, file(&word, args.next())?)?,
            Some(option) if option.starts_with('-') && option != "-" => {
                return Err(usage(&format!("there is no option {option}")));
            }
            _ => words.plain.push(word),
        }
    }
    Ok(words)
}

/// An option can be given once.
fn set<T>(option: &mut Option<T>, word: &OsStr, value: T) -> Result<(), Failure> {
    match option.replace(value) {
        None => Ok(()),
        Some(_) => Err(usage(&format!("{} is given twice", word.display()))),
    }
}

/// The file behind an option of lists.
fn file(word: &OsStr, file: Option<OsString>) -> Result<PathBuf, Failure> {
    file.map(PathBuf::from).ok_or_else(|| usage(&format!("{} needs a file", word.display())))
}

/// The number behind `--edition`.
fn edition(number: Option<OsString>) -> Result<Edition, Failure> {
    let Some(number) = number else {
        return Err(usage("--edition needs a number"));
    };
    let edition = number.to_str().and_then(|digits| Edition::from_number(digits.parse().ok()?));
    edition.ok_or_else(|| usage(&format!("{} is no edition, which is 1 or 2", number.display())))
}

fn change(file: &OsStr, number: &OsStr, text: &OsStr, write: bool) -> Result<Change, Failure> {
    let statement = number.to_str().and_then(|digits| digits.parse().ok());
    let Some(statement) = statement else {
        return Err(usage(&format!("{} is not a statement's number", number.display())));
    };
    if write && is_stdin(Path::new(file)) {
        return Err(usage("--write needs a file, and - is standard input"));
    }
    Ok(Change { file: file.into(), statement, text: text.into(), write })
}

fn asked(place: &OsStr) -> Result<Asked, Failure> {
    let number = |digits: &str| digits.parse().ok();
    let asked = place.to_str().and_then(|word| match word.split_once(':') {
        None => number(word).map(Asked::Byte),
        Some((line, column)) => Some(Asked::Character(number(line)?, number(column)?)),
    });
    asked.ok_or_else(|| usage(&format!("{} is not a place, which is a byte, or LINE:COLUMN", place.display())))
}

/// Standard input can be read once.
fn one_reader_of_stdin(task: &Task, named: &Named) -> Result<(), Failure> {
    let mut files: Vec<&PathBuf> = match task {
        Task::Show(file) | Task::Check(file) | Task::At(file, _) => vec![file],
        Task::Amend(change) => vec![&change.file, &change.text],
    };
    files.extend(&named.reserved);
    files.extend(&named.currencies);
    files.extend(&named.day_counters);
    if files.iter().filter(|file| is_stdin(file)).count() > 1 {
        return Err(usage("only one file can be -"));
    }
    Ok(())
}

fn usage(message: &str) -> Failure {
    Failure::Usage(message.to_owned())
}
