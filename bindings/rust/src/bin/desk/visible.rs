//! Bytes of a script as a terminal can show them.

use std::iter;

/// How many characters of a line are shown before a place, and from it on.
const BEFORE: usize = 70;
const BEHIND: usize = 40;

/// Text without characters that a terminal would obey: a script could otherwise move the cursor, or turn the order of what
/// is shown. Tabs stay. Bytes that are no UTF-8 are shown as U+FFFD.
pub fn visible(bytes: &[u8]) -> String {
    String::from_utf8_lossy(bytes).chars().map(shown).collect()
}

/// Each line of a text, without its line end, behind a bar. An empty text has no line.
pub fn quoted(bytes: &[u8]) -> String {
    if bytes.is_empty() {
        return String::new();
    }
    let text = bytes.strip_suffix(b"\n").unwrap_or(bytes);
    text.split(|&byte| byte == b'\n').map(|line| format!("  | {}\n", visible(without_return(line)))).collect()
}

/// The line of a text that has the byte `at`, and below it a caret under the character that begins there. `line` is the
/// line's number. Of a long line only what is near the place is shown.
pub fn pointed(text: &[u8], at: usize, line: u32) -> String {
    let start = text[..at].iter().rposition(|&byte| byte == b'\n').map_or(0, |feed| feed + 1);
    let end = text[at..].iter().position(|&byte| byte == b'\n');
    let end = end.map_or(text.len(), |length| at + length);
    let before = cut_before(visible(&text[start..at]));
    let behind = cut_behind(visible(without_return(&text[at..end])));
    let number = line.to_string();
    let blank = " ".repeat(number.len());
    let under: String = before.chars().map(blank_as_wide).collect();
    format!("  {number} | {before}{behind}\n  {blank} | {under}^\n")
}

fn without_return(line: &[u8]) -> &[u8] {
    line.strip_suffix(b"\r").unwrap_or(line)
}

fn cut_before(text: String) -> String {
    let over = text.chars().count().saturating_sub(BEFORE);
    match over {
        0 => text,
        _ => iter::once('…').chain(text.chars().skip(over)).collect(),
    }
}

fn cut_behind(text: String) -> String {
    if text.chars().count() <= BEHIND {
        return text;
    }
    text.chars().take(BEHIND).chain(iter::once('…')).collect()
}

fn shown(c: char) -> char {
    match c {
        '\t' => c,
        // the pictures of these characters
        '\0'..='\x1F' => char::from_u32(0x2400 + c as u32).unwrap_or(char::REPLACEMENT_CHARACTER),
        '\x7F' => '\u{2421}',
        '\u{80}'..='\u{9F}' => char::REPLACEMENT_CHARACTER,
        // marks that turn the order of what is shown
        '\u{61C}' | '\u{200E}' | '\u{200F}' | '\u{202A}'..='\u{202E}' | '\u{2066}'..='\u{2069}' => {
            char::REPLACEMENT_CHARACTER
        }
        _ => c,
    }
}

/// A blank that takes as much room in a line as a character: a tab is its own, marks on the letter before take none, and
/// wide characters take two. Both are told by their blocks, which is right for nearly all of them. A refusal's column knows
/// nothing of this: there each of them is one character.
fn blank_as_wide(c: char) -> &'static str {
    match c {
        '\t' => "\t",
        '\u{300}'..='\u{36F}' | '\u{200B}'..='\u{200D}' | '\u{FE00}'..='\u{FE0F}' => "",
        '\u{1100}'..='\u{115F}'
        | '\u{2E80}'..='\u{A4CF}'
        | '\u{AC00}'..='\u{D7A3}'
        | '\u{F900}'..='\u{FAFF}'
        | '\u{FF00}'..='\u{FF60}'
        | '\u{FFE0}'..='\u{FFE6}'
        | '\u{1F300}'..='\u{1FAFF}'
        | '\u{20000}'..='\u{3FFFD}' => "  ",
        _ => " ",
    }
}
