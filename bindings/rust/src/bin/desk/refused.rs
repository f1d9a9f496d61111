//! Refusals in words.

use std::io::{self, Write};

use gorembiin::{Ground, Note, Refusal};

use crate::files::Source;
use crate::language::Language;
use crate::visible::pointed;

/// The note that a source holds; or the refusal is printed.
pub fn read_or_tell<'l>(source: &Source, language: &'l Language, out: &mut impl Write) -> io::Result<Option<Note<'l>>> {
    match Note::read(&source.bytes, language.edition, language.lists()) {
        Ok(note) => Ok(Some(note)),
        Err(refusal) => {
            tell(&source.name, source, refusal, language, out)?;
            Ok(None)
        }
    }
}

/// Prints a refusal of `what`, whose place is in `source`.
pub fn tell(
    what: &str,
    source: &Source,
    refusal: Refusal,
    language: &Language,
    out: &mut impl Write,
) -> io::Result<()> {
    let Refusal { ground, byte, line, column } = refusal;
    writeln!(out, "{what}: refused on ground {}: {ground}", ground.number())?;
    if ground.has_place() {
        let name = &source.name;
        writeln!(out, "{name}: line {line}, column {column}, byte {byte}:")?;
        let shown = pointed(&source.bytes, byte as usize, line);
        out.write_all(shown.as_bytes())?;
    }
    match ground {
        Ground::TooLong => writeln!(out, "{} has {} bytes.", source.name, source.bytes.len()),
        Ground::List => writeln!(out, "Malformed: {}.", language.malformed().join(", ")),
        _ => Ok(()),
    }
}
