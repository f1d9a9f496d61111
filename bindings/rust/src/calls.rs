//! The three calls on scripts, over memory that the caller lends. Each is answered for any bytes, words and lengths.

use crate::answer::{outcome, Counts, Refusal};
use crate::foreign;
use crate::lists::Lists;
use crate::record::Record;

/// Reads a script, which ends before its first zero byte. Its records and its directory become the first words of the lent
/// slices, as many as are counted; the words behind them are not touched, and a refusal touches none. `edition` is the number
/// of an [`Edition`](crate::Edition); any other is refused with [`Ground::NoEdition`](crate::Ground::NoEdition).
pub fn read(
    script: &[u8],
    edition: u32,
    lists: &Lists,
    records: &mut [u32],
    directory: &mut [u32],
) -> Result<Counts, Refusal> {
    outcome(foreign::read(script, edition, lists, records, directory))
}

/// Replaces the bytes of one statement, counted from 0, by those of `text`, which may hold any number of statements.
///
/// `held` are the counts of the lent memory, as the call before answered them, and `script` is the whole room, of which the
/// first bytes are used. The text is read in the edition that is held. Accepted, the memory is what [`read`] of the new script
/// leaves in this edition, provided that a reading with the same lists, or amendments since, left it; room that became free
/// is 0.
pub fn amend(
    script: &mut [u8],
    held: Counts,
    statement: u32,
    text: &[u8],
    lists: &Lists,
    records: &mut [u32],
    directory: &mut [u32],
) -> Result<Counts, Refusal> {
    let Counts { bytes, statements, records: held_records, tokens, latest, edition } = held;
    let mut answer = [0, 0, 0, 0, bytes, statements, held_records, tokens, latest, edition];
    foreign::amend(script, statement, text, lists, records, directory, &mut answer);
    outcome(answer)
}

/// Which name of a record is asked for.
#[derive(Clone, Copy, Debug, PartialEq, Eq)]
pub enum Which {
    /// Its first or only one.
    First,
    /// The second currency of a Spot.
    Second,
}

/// What a part is a part of.
#[derive(Clone, Copy, Debug, PartialEq, Eq)]
pub enum Source {
    /// The script.
    Script,
    /// The list of currencies.
    Currencies,
}

/// A name, as a part of one of the two slices that were lent.
#[derive(Clone, Copy, Debug, PartialEq, Eq)]
pub struct Part<'a> {
    /// The slice that it is a part of.
    pub source: Source,
    /// Its first byte in that slice.
    pub start: usize,
    /// Its bytes.
    pub bytes: &'a [u8],
}

/// The name that a record holds. `script` is cut to the bytes that are used, and `start` is the first byte of the record's
/// statement. A record without such a name has the empty part at the script's start.
pub fn part<'a>(script: &'a [u8], currencies: &'a [u8], record: Record, start: u32, which: Which) -> Part<'a> {
    let second = which == Which::Second;
    let [list, start, length] = foreign::part(script, currencies, &record.words(), start, second);
    let (source, lent) = match list {
        0 => (Source::Script, script),
        _ => (Source::Currencies, currencies),
    };
    let start = start as usize;
    Part { source, start, bytes: &lent[start..][..length as usize] }
}
