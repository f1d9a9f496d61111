//! The statements of a note, and their trees.

use crate::calls::{part, Part, Which};
use crate::date::Date;
use crate::note::Note;
use crate::position::Position;
use crate::record::Record;
use crate::RECORD_WORDS;

/// A top-level statement of a note, as its directory has it.
#[derive(Clone, Copy, Debug)]
pub struct Statement<'a> {
    pub(crate) note: &'a Note<'a>,
    pub(crate) number: u32,
    pub(crate) start: u32,
    pub(crate) end: u32,
    pub(crate) tokens: u32,
    pub(crate) latest: u32,
    pub(crate) words: &'a [u32],
}

/// A record in its tree.
#[derive(Clone, Copy, Debug, PartialEq, Eq)]
pub struct Branch {
    /// How many records it is a part of, one in the other.
    pub depth: usize,
    /// Which of the statement's records it is, in the library's order, from 0.
    pub number: usize,
    /// The record.
    pub record: Record,
}

/// The records of a statement, parents first. A sum of many terms makes a tree as deep as it is long, so what is still to be
/// visited is kept in a list, and nothing recurs.
#[derive(Clone, Debug)]
pub struct Tree<'a> {
    words: &'a [u32],
    /// Which record, and its depth; the next one last.
    waiting: Vec<(usize, usize)>,
}

impl<'a> Statement<'a> {
    /// Its number, from 0.
    pub fn number(&self) -> u32 {
        self.number
    }

    /// Its first byte in the script.
    pub fn start(&self) -> u32 {
        self.start
    }

    /// The byte past its last token.
    pub fn end(&self) -> u32 {
        self.end
    }

    /// How many tokens it has, line breaks aside.
    pub fn tokens(&self) -> u32 {
        self.tokens
    }

    /// The latest date of its records, if they have any: of Spot, Df, RateIndex and Pays, those in its bodies among them. The
    /// strings of a cvg are no dates.
    pub fn latest(&self) -> Option<Date> {
        Date::from_count(self.latest)
    }

    /// Its bytes.
    pub fn text(&self) -> &'a [u8] {
        &self.note.script()[self.start as usize..self.end as usize]
    }

    /// Its records in the library's order, children before parents. The last one is the statement itself.
    pub fn records(&self) -> impl ExactSizeIterator<Item = Record> + 'a {
        let words = self.words;
        (0..words.len() / RECORD_WORDS).map(move |at| record_at(words, at))
    }

    /// Its records, parents before children.
    pub fn tree(&self) -> Tree<'a> {
        Tree { words: self.words, waiting: vec![(self.words.len() / RECORD_WORDS - 1, 0)] }
    }

    /// The name that one of its records holds.
    pub fn text_of(&self, record: Record, which: Which) -> Part<'a> {
        let (script, currencies) = (self.note.script(), self.note.lists().currencies);
        part(script, currencies, record, self.start, which)
    }

    /// Where in the script the text of one of its records begins. A record of other words may have a place outside.
    pub fn position_of(&self, record: Record) -> Option<Position> {
        self.note.position(self.start.checked_add(record.place())?)
    }
}

impl Iterator for Tree<'_> {
    type Item = Branch;

    fn next(&mut self) -> Option<Branch> {
        let (at, depth) = self.waiting.pop()?;
        let record = record_at(self.words, at);
        // The last part ends right before the record, and each other part right before the subtree of the next.
        let mut end = at;
        for _ in 0..record.parts() {
            self.waiting.push((end - 1, depth + 1));
            end -= record_at(self.words, end - 1).nodes() as usize;
        }
        Some(Branch { depth, number: at, record })
    }
}

fn record_at(words: &[u32], at: usize) -> Record {
    let mut record = [0; RECORD_WORDS];
    record.copy_from_slice(&words[at * RECORD_WORDS..][..RECORD_WORDS]);
    Record::from_words(record)
}
