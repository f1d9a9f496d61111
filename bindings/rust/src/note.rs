//! A script with its memory.

use crate::answer::{Counts, Refusal};
use crate::calls;
use crate::date::Date;
use crate::edition::Edition;
use crate::lists::Lists;
use crate::position::{self, Position};
use crate::statement::Statement;
use crate::{BYTES, ENTRY_WORDS, RECORDS, RECORD_WORDS, STATEMENTS};

/// A script that was read, and all that the library keeps of it. Its memory has room for every script, and no one else
/// writes there; and it keeps its edition and its lists, since a note is amended with those that it was read with. So what is
/// proved of amendments holds of each one made here. The script is read from the caller's slice and amended in one of the
/// note's own that begins with the same bytes: it is the same state there, which is proved too (`Linked.re-lent`).
#[derive(Clone, Debug)]
pub struct Note<'l> {
    edition: Edition,
    lists: Lists<'l>,
    script: Vec<u8>,
    records: Vec<u32>,
    directory: Vec<u32>,
    counts: Counts,
}

impl<'l> Note<'l> {
    /// Reads a script, which ends before its first zero byte, in an edition of the language.
    pub fn read(script: &[u8], edition: Edition, lists: Lists<'l>) -> Result<Self, Refusal> {
        let mut records = vec![0; RECORDS * RECORD_WORDS];
        let mut directory = vec![0; STATEMENTS * ENTRY_WORDS];
        let counts = calls::read(script, edition.number(), &lists, &mut records, &mut directory)?;
        let mut script = script[..counts.bytes as usize].to_vec();
        script.resize(BYTES, 0);
        Ok(Note { edition, lists, script, records, directory, counts })
    }

    /// Replaces the bytes of one statement, counted from 0, by those of `text`. The note is then as if the new script had
    /// been read in its edition; refused, it is as it was. Places in a refusal are in `text`.
    pub fn amend(&mut self, statement: u32, text: &[u8]) -> Result<(), Refusal> {
        self.counts = calls::amend(
            &mut self.script,
            self.counts,
            statement,
            text,
            &self.lists,
            &mut self.records,
            &mut self.directory,
        )?;
        Ok(())
    }

    /// The script.
    pub fn script(&self) -> &[u8] {
        &self.script[..self.counts.bytes as usize]
    }

    /// How much of the memory is used.
    pub fn counts(&self) -> Counts {
        self.counts
    }

    /// The latest date of its statements, if they have any.
    pub fn latest(&self) -> Option<Date> {
        Date::from_count(self.counts.latest)
    }

    /// The edition that it was read in.
    pub fn edition(&self) -> Edition {
        self.edition
    }

    /// The lists that it was read with.
    pub fn lists(&self) -> Lists<'l> {
        self.lists
    }

    /// The words of its records that are used, children before parents.
    pub fn record_words(&self) -> &[u32] {
        &self.records[..self.counts.records as usize * RECORD_WORDS]
    }

    /// The words of its directory that are used.
    pub fn directory_words(&self) -> &[u32] {
        &self.directory[..self.counts.statements as usize * ENTRY_WORDS]
    }

    /// The place of a byte of the script, or of the script's end.
    pub fn position(&self, byte: u32) -> Option<Position> {
        position::of_byte(self.script(), byte)
    }

    /// The place of a character of the script, by its line and column, both from 1. The last column of a line is that of
    /// its line feed, or of the script's end.
    pub fn position_at(&self, line: u32, column: u32) -> Option<Position> {
        position::of_character(self.script(), line, column)
    }

    /// Its statements in order.
    pub fn statements(&self) -> impl Iterator<Item = Statement<'_>> {
        let mut left = self.record_words();
        let entries = self.directory_words().chunks_exact(ENTRY_WORDS);
        entries.zip(0..).map(move |(entry, number)| {
            let (words, behind) = left.split_at(entry[2] as usize * RECORD_WORDS);
            left = behind;
            Statement { note: self, number, start: entry[0], end: entry[1], tokens: entry[3], latest: entry[4], words }
        })
    }
}
