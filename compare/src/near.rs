//! Words that are a byte away from a keyword, where a keyword and a name are read differently.
use crate::words::KEYWORDS;

pub fn scripts() -> impl Iterator<Item = String> {
    let words = KEYWORDS.iter().flat_map(|keyword| around(keyword));
    words.flat_map(|word| {
        [
            format!("{word};"),
            format!("x = {word};"),
            format!("x {word} 1;"),
        ]
    })
}

/// The keyword, and every word that has one byte other, more or less than it; it twice, and in capitals.
fn around(keyword: &str) -> Vec<String> {
    let mut words = vec![
        keyword.to_string(),
        keyword.to_uppercase(),
        keyword.repeat(2),
    ];
    for at in 0..=keyword.len() {
        let (front, back) = keyword.split_at(at);
        let behind = back.get(1..);
        words.extend(behind.map(|rest| format!("{front}{rest}")));
        for byte in ('0'..='9').chain('A'..='Z').chain('a'..='z').chain(['_']) {
            words.push(format!("{front}{byte}{back}"));
            words.extend(behind.map(|rest| format!("{front}{byte}{rest}")));
        }
    }
    words
}
