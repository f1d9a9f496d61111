//! Scripts of which the depth is known: constructs in one another, each counted.
use crate::random::Random;

/// A construct: what opens it, where in that the opening token stands, and what closes it.
struct Storey {
    open: &'static str,
    token: usize,
    close: &'static str,
}

const fn storey(open: &'static str, token: usize, close: &'static str) -> Storey {
    Storey { open, token, close }
}

const STATEMENTS: [Storey; 4] = [
    storey("if x { ", 0, " }"),
    storey("if x { } else { ", 0, " }"),
    storey("if x == 1 or y { y; ", 0, " } else { y; }"),
    storey("for v in w { ", 0, " }"),
];

/// Only in what a `)` closes, or in the statement itself, can a pays stand: it has no end of its own.
const PAYS: Storey = storey("pays ", 0, "");

const EXPRESSIONS: [Storey; 11] = [
    storey("(", 0, ")"),
    storey("(x + ", 0, ")"),
    storey("ln(", 2, ")"),
    storey("min(1, ", 3, ")"),
    storey("max(", 3, ", 2)"),
    storey("[", 0, "]"),
    storey("[1, ", 0, "].mean()"),
    storey("x[", 1, "]"),
    storey("x.append(", 8, ")"),
    storey("-", 0, ""),
    storey("+", 0, ""),
];

/// In the second edition a sign takes in the `**` behind it, and all that these have on their right sides. A minus before a
/// number is then counted too.
const POWERS: [Storey; 6] = [
    storey("-2 ** ", 0, ""),
    storey("-x ** ", 0, ""),
    storey("2 ** -", 5, ""),
    storey("x ** 2 ** +", 10, ""),
    storey("x ** (", 5, ") ** -2"),
    storey("+x ** 2 ** ", 0, " ** x"),
];

/// A script with so many constructs in one another, as an edition counts them, and the byte of each one's opening token.
pub fn tower(random: &mut Random, edition: u32, storeys: usize) -> (String, Vec<usize>) {
    let powers: &[Storey] = if edition == 1 { &[] } else { &POWERS };
    let expressions: Vec<&Storey> = EXPRESSIONS.iter().chain(powers).collect();
    let mut script = String::new();
    let mut opening = Vec::new();
    let mut closing = Vec::new();
    let statements = random.below(storeys + 1);
    for _ in 0..statements {
        raise(
            &STATEMENTS[random.below(STATEMENTS.len())],
            &mut script,
            &mut opening,
            &mut closing,
        );
    }
    script += "x = ";
    closing.push(";");
    for _ in statements..storeys {
        let around = closing.iter().rev().find(|close| !close.is_empty());
        let may_pay = around.is_some_and(|close| matches!(*close, ")" | ";"));
        let chosen = if may_pay && random.once_in(4) {
            &PAYS
        } else {
            expressions[random.below(expressions.len())]
        };
        raise(chosen, &mut script, &mut opening, &mut closing);
    }
    script += "x";
    closing.iter().rev().for_each(|close| script += close);
    (script, opening)
}

fn raise(
    storey: &Storey,
    script: &mut String,
    opening: &mut Vec<usize>,
    closing: &mut Vec<&'static str>,
) {
    opening.push(script.len() + storey.token);
    *script += storey.open;
    closing.push(storey.close);
}
