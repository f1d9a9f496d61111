//! The stored answers of `crates/vectors/data`, replayed through the bindings. The archive that is linked here may have been
//! compiled by another road than the proved programs, so it is held to the same answers. `FORMAT.md` there says what the
//! lines mean.

use std::collections::HashMap;
use std::fs;
use std::path::Path;

use gorembiin::{amend, part, read, Counts, Lists, Record, Refusal, Source, Which};

const DATA: &str = concat!(env!("CARGO_MANIFEST_DIR"), "/../../crates/vectors/data");

/// The three lent slices.
#[derive(Clone, Default, PartialEq)]
struct Memory {
    script: Vec<u8>,
    records: Vec<u32>,
    directory: Vec<u32>,
}

/// A case under way.
#[derive(Default)]
struct Replay {
    defined: HashMap<String, Vec<u8>>,
    lists: [Vec<u8>; 3],
    memory: Memory,
    /// The memory before the last call, where there was one.
    before: Option<Memory>,
    counts: Counts,
    edition: u32,
}

/// How often each call was compared.
#[derive(Debug, Default, PartialEq)]
struct Tally {
    reads: u32,
    amends: u32,
    parts: u32,
}

impl Replay {
    /// Runs one line; what differs is a panic that names it.
    fn line(&mut self, fields: &[&str], tally: &mut Tally) {
        match *fields {
            ["define", name, bytes] => {
                let bytes = self.bytes(bytes);
                self.defined.insert(name.to_owned(), bytes);
            }
            ["case", ..] => (self.memory, self.before, self.edition) = (Memory::default(), None, 1),
            ["edition", edition] => self.edition = number(edition),
            ["lists", a, b, c] => self.lists = [self.bytes(a), self.bytes(b), self.bytes(c)],
            ["script", script] => {
                let script = self.bytes(script);
                settle(&mut self.memory.script, script, self.before.is_some());
            }
            ["records", records] => settle(&mut self.memory.records, words(records), self.before.is_some()),
            ["directory", directory] => settle(&mut self.memory.directory, words(directory), self.before.is_some()),
            ["same"] => assert!(self.before.as_ref() == Some(&self.memory), "memory has changed"),
            ["counts", ref counts @ ..] => self.counts = counts_of(&numbers(counts)),
            ["read", ref answer @ ..] => {
                self.read(&numbers(answer));
                tally.reads += 1;
            }
            ["amend", statement, text, ref answer @ ..] => {
                self.amend(number(statement), text, &numbers(answer));
                tally.amends += 1;
            }
            ["part", record, start, which, source, place, length] => {
                self.part(words(record), number(start), which, (source, number(place), number(length)));
                tally.parts += 1;
            }
            ["step", _] | ["end"] => {}
            _ => panic!("this line is not in the format"),
        }
    }

    fn read(&mut self, expected: &[u32]) {
        self.before = Some(self.memory.clone());
        let lists = lent(&self.lists);
        let Memory { script, records, directory } = &mut self.memory;
        let answer = read(script, self.edition, &lists, records, directory);
        assert_eq!(answer_words(answer, Counts::default()), expected);
        self.counts = answer.unwrap_or_default();
    }

    fn amend(&mut self, statement: u32, text: &str, expected: &[u32]) {
        self.before = Some(self.memory.clone());
        let text = self.bytes(text);
        let lists = lent(&self.lists);
        let Memory { script, records, directory } = &mut self.memory;
        let answer = amend(script, self.counts, statement, &text, &lists, records, directory);
        assert_eq!(answer_words(answer, self.counts), expected);
        self.counts = answer.unwrap_or(self.counts);
    }

    fn part(&self, record: Vec<u32>, start: u32, which: &str, expected: (&str, u32, u32)) {
        let script = &self.memory.script[..self.counts.bytes as usize];
        let record = Record::from_words(record.try_into().unwrap());
        let which = if which == "1" { Which::First } else { Which::Second };
        let found = part(script, &self.lists[1], record, start, which);
        let source = if found.source == Source::Script { "s" } else { "c" };
        assert_eq!((source, found.start as u32, found.bytes.len() as u32), expected);
    }

    /// Runs of hexadecimal bytes, or bytes that were defined.
    fn bytes(&self, field: &str) -> Vec<u8> {
        if let Some(name) = field.strip_prefix('@') {
            return self.defined[name].clone();
        }
        let pair = |run: &str, at: usize| u8::from_str_radix(&run[at..at + 2], 16).unwrap();
        runs(field, |run| (0..run.len()).step_by(2).map(|at| pair(run, at)).collect())
    }
}

fn words(field: &str) -> Vec<u32> {
    runs(field, |run| vec![u32::from_str_radix(run, 16).unwrap()])
}

/// What runs stand for: each is some items, and perhaps how often.
fn runs<T: Copy>(field: &str, items: impl Fn(&str) -> Vec<T>) -> Vec<T> {
    if field == "-" {
        return Vec::new();
    }
    let all = field.split(',').map(|run| match run.split_once('*') {
        Some((run, times)) => items(run).repeat(times.parse().unwrap()),
        None => items(run),
    });
    all.collect::<Vec<_>>().concat()
}

fn number(field: &str) -> u32 {
    field.parse().unwrap()
}

fn numbers(fields: &[&str]) -> Vec<u32> {
    fields.iter().map(|field| number(field)).collect()
}

fn counts_of(numbers: &[u32]) -> Counts {
    let &[bytes, statements, records, tokens, latest, edition] = numbers else { panic!("a state has six numbers") };
    Counts { bytes, statements, records, tokens, latest, edition }
}

/// Before a call a slice is set up; after it, it is compared.
fn settle<T: PartialEq + std::fmt::Debug>(slice: &mut Vec<T>, given: Vec<T>, called: bool) {
    if called {
        assert_eq!(*slice, given);
    } else {
        *slice = given;
    }
}

fn lent(lists: &[Vec<u8>; 3]) -> Lists<'_> {
    let [reserved, currencies, day_counters] = lists;
    Lists { reserved, currencies, day_counters }
}

/// The ten numbers of an answer. A refusal leaves the counts that were held.
fn answer_words(answer: Result<Counts, Refusal>, held: Counts) -> [u32; 10] {
    let [number, byte, line, column] = match answer {
        Ok(_) => [0, 0, 1, 1],
        Err(refusal) => [refusal.ground.number(), refusal.byte, refusal.line, refusal.column],
    };
    let Counts { bytes, statements, records, tokens, latest, edition } = answer.unwrap_or(held);
    [number, byte, line, column, bytes, statements, records, tokens, latest, edition]
}

/// A panic's message does not know the line; this says it when a test fails.
struct At<'a>(&'a Path, usize);

impl Drop for At<'_> {
    fn drop(&mut self) {
        if std::thread::panicking() {
            eprintln!("in {}, line {}", self.0.display(), self.1);
        }
    }
}

fn replay(path: &Path, tally: &mut Tally) {
    let text = fs::read_to_string(path).unwrap();
    let mut replay = Replay::default();
    for (line, number) in text.lines().zip(1..) {
        let _at = At(path, number);
        if !line.is_empty() && !line.starts_with('#') {
            replay.line(&line.split(' ').collect::<Vec<_>>(), tally);
        }
    }
}

#[test]
fn stored_answers_are_given() {
    let mut tally = Tally::default();
    for entry in fs::read_dir(DATA).unwrap() {
        let path = entry.unwrap().path();
        if path.extension().is_some_and(|extension| extension == "vec") {
            replay(&path, &mut tally);
        }
    }
    let counted = fs::read_to_string(format!("{DATA}/../stdout")).unwrap();
    let stored = |what: &str| counted.lines().find_map(|line| line.strip_prefix(what)).map(number);
    let expected = Tally {
        reads: stored("reads: ").unwrap(),
        amends: stored("amends: ").unwrap(),
        parts: stored("parts: ").unwrap(),
    };
    assert_eq!(tally, expected);
}
