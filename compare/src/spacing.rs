//! What stands between the tokens of a script.
use crate::generate::Item;
use crate::random::Random;

/// How the items of a script are set apart.
#[derive(Clone, Copy, PartialEq)]
enum Spacing {
    Spaces,
    Close,
    Blanks,
    Lines,
}

/// The script of these items, set apart in one of several ways.
pub fn text(items: &[Item], random: &mut Random) -> String {
    let ways = [
        Spacing::Spaces,
        Spacing::Close,
        Spacing::Blanks,
        Spacing::Lines,
    ];
    let spacing = ways[random.below(ways.len())];
    let mut out = String::new();
    for item in items {
        let gap = gap(&out, item, spacing, random);
        out += gap;
        out += &item.text;
    }
    if random.once_in(3) {
        out += random.pick(&["\n", " ", "# end", "\n// end\n", "\r\n"]);
    }
    out
}

fn gap(before: &str, item: &Item, spacing: Spacing, random: &mut Random) -> &'static str {
    match spacing {
        Spacing::Spaces => " ",
        Spacing::Close if !joins(before, &item.text) => "",
        Spacing::Close => " ",
        Spacing::Blanks => random.pick(&[" ", "\t", "\r", "\u{b}", "\u{c}", "  "]),
        Spacing::Lines if item.tight && !random.once_in(40) => " ",
        Spacing::Lines => random.pick(&[
            " ", " ", "\n", "\r\n", " # é \"\n", "// x;\n", "\n\n", "#\n",
        ]),
    }
}

/// Whether the two would become another token if nothing stood between them.
fn joins(before: &str, next: &str) -> bool {
    let (Some(last), Some(first)) = (before.chars().last(), next.chars().next()) else {
        return false;
    };
    let is_word = |c: char| c.is_ascii_alphanumeric() || c == '_';
    let is_sign = |c: char| "+-*/=!<>".contains(c);
    is_word(last) && (is_word(first) || first == '.')
        || last == '.' && first.is_ascii_digit()
        || is_sign(last) && is_sign(first)
}
