//! A note's script is read into records, and single statements of it are replaced, with the certainty that the others
//! still mean what they meant. The work is done by a proved library; this crate lends it slices and names what it answers.
//!
//! [`Note`] owns the memory of one script, and is what most callers want. It is read in an [`Edition`] of the script
//! language, and amended in the same. [`read`], [`amend`] and [`part`] are the three calls on scripts as they are, over
//! memory that the caller lends. [`Date`] is a day of the calendar, as records count it.
//!
//! ```
//! use gorembiin::{Edition, Lists, Note};
//!
//! let mut note = Note::read(b"x = 1;\ny = x + 1;\n", Edition::Two, Lists::default()).unwrap();
//! note.amend(1, b"y = x + 2;").unwrap();
//! assert_eq!(note.script(), b"x = 1;\ny = x + 2;\n");
//! ```

mod answer;
mod calls;
mod date;
mod edition;
mod foreign;
mod ground;
mod kind;
mod lists;
mod note;
mod numbered;
mod position;
mod record;
mod statement;

pub use answer::{Counts, Refusal};
pub use calls::{amend, part, read, Part, Source, Which};
pub use date::Date;
pub use edition::Edition;
pub use ground::Ground;
pub use kind::Kind;
pub use lists::Lists;
pub use note::Note;
pub use position::Position;
pub use record::{Fields, Place, Record};
pub use statement::{Branch, Statement, Tree};

/// Most bytes of a script.
pub const BYTES: usize = 16_384;
/// Most tokens of a script, line breaks aside.
pub const TOKENS: usize = 4_096;
/// Most records of a script.
pub const RECORDS: usize = 2_048;
/// Most top-level statements of a script.
pub const STATEMENTS: usize = 512;
/// Words of a record: kind, nodes in its subtree, direct parts, four fields, place.
pub const RECORD_WORDS: usize = 8;
/// Words of a directory entry: first byte, byte past the last token, records, tokens, count of the latest date's day.
pub const ENTRY_WORDS: usize = 5;
