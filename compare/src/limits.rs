//! Scripts at the limits: one below, at, and one above each.
use calls::{MOST_BYTES, MOST_RECORDS, MOST_STATEMENTS, MOST_TOKENS};

pub fn scripts() -> Vec<String> {
    let mut out = Vec::new();
    for more in [-1isize, 0, 1] {
        let about = |most: usize| most.saturating_add_signed(more);
        out.push(bytes(about(MOST_BYTES)));
        out.push("x;".repeat(about(MOST_STATEMENTS)));
        out.push(tokens(about(MOST_TOKENS)));
        out.push(records(about(MOST_RECORDS)));
        out.push(powers(about(MOST_RECORDS / 2)));
        out.push(powers(about(2_000)));
        out.push(wide_powers(about(1_021)));
        out.push(format!("x = min({});", "1,".repeat(about(100))));
        out.push(format!("x = {};", 9_007_199_254_740_992i64 + more as i64));
        out.push(format!("x = 0.{};", "0".repeat(about(15))));
        out.push(format!("x = {}1;", "0".repeat(about(4_000))));
    }
    out
}

/// So many bytes, a statement at the end.
fn bytes(count: usize) -> String {
    format!("#{}\nx;", ".".repeat(count - 4))
}

/// So many tokens in few records: statements of eight tokens, and one of the rest.
fn tokens(count: usize) -> String {
    let full = "(((x)));".repeat(MOST_STATEMENTS - 1);
    let rest = count - 8 * (MOST_STATEMENTS - 1);
    let pairs = rest / 2 - 1;
    let (minus, open, close) = ("-".repeat(rest % 2), "(".repeat(pairs), ")".repeat(pairs));
    format!("{full}{minus}{open}x{close};")
}

/// A chain of so many operands with `**` between them. With their nodes they are one record less than twice as many.
fn powers(operands: usize) -> String {
    format!("{}2;", "2**".repeat(operands - 1))
}

/// A chain of so many operands in parentheses, over nearly as many bytes and tokens as there may be.
fn wide_powers(operands: usize) -> String {
    format!("{}2;", "(y)          ** ".repeat(operands - 1))
}

/// So many records in one statement: a pays of so many numbers.
fn records(count: usize) -> String {
    format!("pays {};", "1 ".repeat(count - 1))
}
