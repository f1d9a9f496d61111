//! A case that differs made small: parts are taken out while it still differs.
use crate::scan::scan;

/// So many shorter texts are tried at most when ranges are taken out.
const TRIES: usize = 100_000;

/// The text with as much taken out as can be: first runs of characters, then ranges of tokens.
pub fn text(text: &str, differs: impl Fn(&str) -> bool) -> String {
    let mut kept = without_runs(text, &differs);
    let mut tries = TRIES;
    while let Some(shorter) = without_range(&kept, &differs, &mut tries) {
        kept = shorter;
    }
    kept
}

fn without_runs(text: &str, differs: &impl Fn(&str) -> bool) -> String {
    let mut kept: Vec<char> = text.chars().collect();
    let mut length = kept.len().max(1);
    while length > 0 {
        let mut at = 0;
        while at < kept.len() {
            let mut fewer = kept.clone();
            fewer.drain(at..kept.len().min(at + length));
            if differs(&fewer.iter().collect::<String>()) {
                kept = fewer;
            } else {
                at += length;
            }
        }
        length /= 2;
    }
    kept.into_iter().collect()
}

/// A shorter text that differs: a range of tokens is left out, or a name stands in its place. Long ranges go first.
fn without_range(text: &str, differs: &impl Fn(&str) -> bool, tries: &mut usize) -> Option<String> {
    let parts = parts(text);
    for length in (1..=parts.len()).rev() {
        for start in 0..=parts.len() - length {
            for new in ["", "x"] {
                *tries = tries.checked_sub(1)?;
                let shorter = parts[..start].concat() + new + &parts[start + length..].concat();
                if shorter.len() < text.len() && differs(&shorter) {
                    return Some(shorter);
                }
            }
        }
    }
    None
}

/// The tokens of a text and what stands between them; behind a fault, all that is left.
fn parts(text: &str) -> Vec<&str> {
    let mut parts = Vec::new();
    let mut passed = 0;
    for piece in scan(text.as_bytes()).pieces {
        parts.push(&text[passed..piece.start]);
        parts.push(&text[piece.start..piece.end]);
        passed = piece.end;
    }
    parts.push(&text[passed..]);
    parts.retain(|part| !part.is_empty());
    parts
}

/// The items of a list that cannot be taken out.
pub fn list<T: Clone>(items: &[T], differs: impl Fn(&[T]) -> bool) -> Vec<T> {
    let mut kept = items.to_vec();
    let mut at = 0;
    while at < kept.len() {
        let mut fewer = kept.clone();
        fewer.remove(at);
        if differs(&fewer) {
            kept = fewer;
        } else {
            at += 1;
        }
    }
    kept
}
