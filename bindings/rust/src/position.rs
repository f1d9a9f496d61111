//! Places in a script: by byte, and by line and column.

/// A place in a script. Line and column are counted as in a [`Refusal`](crate::Refusal).
#[derive(Clone, Copy, Debug, PartialEq, Eq)]
pub struct Position {
    /// The byte, from 0.
    pub byte: u32,
    /// Its line, from 1.
    pub line: u32,
    /// Its column, from 1, in characters: 1 more than the bytes before it in its line that are no UTF-8 continuation bytes
    /// (0x80 to 0xBF).
    pub column: u32,
}

/// The place of a byte of a text, or of the text's end.
pub(crate) fn of_byte(text: &[u8], byte: u32) -> Option<Position> {
    let before = text.get(..byte as usize)?;
    let own = before.rsplit(|&byte| byte == b'\n').next().unwrap_or_default();
    let feeds = before.iter().filter(|&&byte| byte == b'\n').count();
    let characters = own.iter().filter(|&&byte| begins_character(byte)).count();
    Some(Position { byte, line: 1 + feeds as u32, column: 1 + characters as u32 })
}

/// The place of a character, by line and column. Behind the characters of a line comes its line feed, or the text's end.
pub(crate) fn of_character(text: &[u8], line: u32, column: u32) -> Option<Position> {
    let lines_before = (line as usize).checked_sub(1)?;
    let characters_before = (column as usize).checked_sub(1)?;
    let own = text.split(|&byte| byte == b'\n').nth(lines_before)?;
    let start: usize = text.split_inclusive(|&byte| byte == b'\n').take(lines_before).map(<[u8]>::len).sum();
    let mut begins = (0..own.len()).filter(|&at| begins_character(own[at])).chain([own.len()]);
    let byte = (start + begins.nth(characters_before)?) as u32;
    Some(Position { byte, line, column })
}

/// Each byte is judged alone, as the library does.
fn begins_character(byte: u8) -> bool {
    !matches!(byte, 0x80..=0xBF)
}
