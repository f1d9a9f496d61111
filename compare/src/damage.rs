//! Damage to scripts.
use crate::generate::{any_token, script, Item};
use crate::random::Random;
use crate::spacing::text;

/// A script in an edition, with damage to some tokens and some characters.
pub fn any(random: &mut Random, edition: u32) -> String {
    let statements = 1 + random.below(4);
    let mut items = script(random, edition, statements);
    for _ in 0..random.below(3) {
        tokens(&mut items, random);
    }
    let mut text = text(&items, random);
    for _ in 0..random.below(3) {
        characters(&mut text, random);
    }
    text
}

/// A token deleted, doubled, swapped with another or replaced.
pub fn tokens(items: &mut Vec<Item>, random: &mut Random) {
    if items.is_empty() {
        return;
    }
    let (k, other) = (random.below(items.len()), random.below(items.len()));
    match random.below(4) {
        0 => {
            items.remove(k);
        }
        1 => items.insert(k, items[k].clone()),
        2 => items.swap(k, other),
        _ => items[k].text = any_token(random).to_string(),
    }
}

/// A character deleted, changed or inserted, or the text cut. What comes in is ASCII, a zero byte among it.
pub fn characters(text: &mut String, random: &mut Random) {
    let places: Vec<usize> = text.char_indices().map(|(k, _)| k).collect();
    if places.is_empty() {
        return;
    }
    let at = places[random.below(places.len())];
    let new = match random.below(3) {
        0 => random.pick(&[
            "\"", "\n", "#", "/", ".", "0", "!", "$", "_", "\u{7f}", "\0",
        ]),
        1 => random.pick(&["(", ")", ";", "=", "*", "{", "}", ",", "9", "a", " "]),
        _ => "",
    };
    match random.below(3) {
        0 => text.truncate(at),
        1 => text.insert_str(at, new),
        _ => {
            text.remove(at);
            text.insert_str(at, new);
        }
    }
}
