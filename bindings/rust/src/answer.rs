//! What a call answers.

use std::error::Error;
use std::fmt;

use crate::foreign;
use crate::ground::Ground;

/// How much of a note's memory is used, the latest date that is there, and the edition that it was read in.
#[derive(Clone, Copy, Debug, Default, PartialEq, Eq)]
pub struct Counts {
    /// Bytes of the script.
    pub bytes: u32,
    /// Top-level statements, each with an entry in the directory.
    pub statements: u32,
    /// Records of all statements.
    pub records: u32,
    /// Tokens, line breaks aside.
    pub tokens: u32,
    /// The greatest day count among the dates of all records, 0 where they have none.
    /// [`Date::from_count`](crate::Date::from_count) says which day it is.
    pub latest: u32,
    /// The number of the edition; 0 where nothing was read. [`Edition::from_number`](crate::Edition::from_number) says which
    /// it is.
    pub edition: u32,
}

/// A call that was refused: the lent memory is as it was.
#[derive(Clone, Copy, Debug, PartialEq, Eq)]
pub struct Refusal {
    /// Why.
    pub ground: Ground,
    /// The place, from 0, in the script that was read or in the new text of an amendment.
    pub byte: u32,
    /// Its line, from 1.
    pub line: u32,
    /// Its column, from 1, in characters: 1 more than the bytes before it in its line that are no UTF-8 continuation bytes
    /// (0x80 to 0xBF).
    pub column: u32,
}

impl fmt::Display for Refusal {
    fn fmt(&self, f: &mut fmt::Formatter<'_>) -> fmt::Result {
        let number = self.ground.number();
        if self.ground.has_place() {
            write!(f, "line {}, column {}: ", self.line, self.column)?;
        }
        write!(f, "{} (ground {number})", self.ground)
    }
}

impl Error for Refusal {}

/// Sorts the words of an answer.
///
/// # Panics
///
/// Where the number is none of the library's. It is proved to answer no other, so this tells that another library was
/// linked than the one these bindings are for.
pub(crate) fn outcome(answer: foreign::Answer) -> Result<Counts, Refusal> {
    let [number, byte, line, column, bytes, statements, records, tokens, latest, edition] = answer;
    if number == 0 {
        return Ok(Counts { bytes, statements, records, tokens, latest, edition });
    }
    let ground =
        Ground::from_number(number).unwrap_or_else(|| panic!("libarchive.a answered {number}, which is no ground"));
    Err(Refusal { ground, byte, line, column })
}
