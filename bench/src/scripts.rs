//! The scripts that are measured: a note on an index, and what nests most.

const HEAD: &str = "# Autocallable note on an index, coupons in USD
notional = 1000000;
strike = 4250.75;
fx_strike = 1.0825;
barrier = -0.35;
call_level = 0;
floor_rate = 0.0125;
alive = 1;
memory = 0;
worst = 0;
note = 0;
levels = [];
";

const TAIL: &str =
    "total = fif(levels.mean() - barrier, note, note * exp(-levels.std() ** 2), 0.01);";

/// The statements of one observation, a quarter after the one before.
fn observation(i: usize) -> Vec<String> {
    let (year, month) = (2026 + i / 4, 3 * (i % 4) + 1);
    let start = format!("{year}-{month:02}-15");
    let end = format!("{year}-{:02}-15", month + 2);
    let pay = format!("{year}-{:02}-17", month + 2);
    vec![
        format!("\n# Observation {i}, {end}\nfx_{i} = Spot(\"EUR\", \"USD\", \"{end}\");\n"),
        format!("index_{i} = Spot(\"STOXX50E\", \"{end}\");\n"),
        format!("perf_{i} = index_{i} / strike - 1;\n"),
        format!("levels.append(perf_{i});\n"),
        format!("worst = min(worst, perf_{i}, fx_{i} / fx_strike - 1);\n"),
        format!("rate_{i} = RateIndex(\"SOFR\", \"{start}\", \"{end}\") + 0.0025;\n"),
        format!("accrual_{i} = cvg(\"{start}\", \"{end}\", \"Actual360\");\n"),
        format!("coupon_{i} = notional * max(rate_{i}, floor_rate) * accrual_{i};\n"),
        format!(
            "// The coupon is paid while the worst stays above the barrier, else kept\n\
             if worst >= barrier and alive == 1 {{\n    \
             note pays coupon_{i} * alive on \"{pay}\" in \"USD\";\n    memory = 0;\n\
             }} else {{\n    memory += coupon_{i};\n}}\n"
        ),
        format!(
            "if perf_{i} >= call_level and alive == 1 {{\n    \
             note pays (notional + memory) * Df(\"{pay}\", \"USD_OIS\") on \"{pay}\";\n    \
             alive = 0;\n}}\n"
        ),
    ]
}

/// A note of exactly this length: as many statements as fit, and a comment for the rest.
pub fn note(length: usize) -> String {
    let room = length - TAIL.len() - "#\n".len();
    let mut text = HEAD.to_string();
    for statement in (0..).flat_map(observation) {
        if text.len() + statement.len() > room {
            break;
        }
        text += &statement;
    }
    let rest = room - text.len();
    text + "#" + &".".repeat(rest) + "\n" + TAIL
}

/// So many short statements, each with a date behind the one before.
pub fn short_statements(count: usize) -> String {
    let statement = |i| {
        format!(
            "d{i:03} = Df(\"{}-{:02}-15\");\n",
            2026 + i / 12,
            1 + i % 12
        )
    };
    (0..count).map(statement).collect()
}

/// A chain of so many operands with `**` between them.
pub fn powers(operands: usize) -> String {
    format!("{}2;", "2**".repeat(operands - 1))
}

/// What nests in the second edition alone, where a sign takes in the powers behind it, and a chain groups right.
pub fn raised() -> Vec<(&'static str, String)> {
    vec![
        ("powers of minuses, `2**-2**-..`", "2**-".repeat(32) + "a;"),
        ("a chain of 1000 operands with `**`", powers(1000)),
    ]
}

/// Everything that depth counts, 32 in one another.
pub fn deepest() -> Vec<(&'static str, String)> {
    let nest = |open: &str, inner: &str, close: &str| {
        format!("{}{inner}{}", open.repeat(32), close.repeat(32))
    };
    vec![
        (
            "methods, `x.append(x.append(..))`",
            nest("x.append(", "x", ")") + ";",
        ),
        (
            "calls, `min(1, min(1, ..))`",
            format!("x = {};", nest("min(1, ", "1", ")")),
        ),
        (
            "calls, `ln(ln(..))`",
            format!("x = {};", nest("ln(", "1", ")")),
        ),
        (
            "index, `a[a[..]]`",
            format!("x = {};", nest("a[", "1", "]")),
        ),
        (
            "index of lists, `[1][[1][..]]`",
            format!("x = {};", nest("[1][", "1", "]")),
        ),
        ("lists", format!("x = {};", nest("[", "1", "]"))),
        ("pays", nest("pays ", "1", " on \"2026-01-15\"") + ";"),
        ("parentheses", format!("x = {};", nest("(", "1", ")"))),
        ("minuses", format!("x = {};", nest("-", "a", ""))),
        ("ifs", nest("if a == 1 { ", "x = 1;", " }")),
        ("ifs in else", nest("if a == 1 { } else { ", "x = 1;", " }")),
        ("fors", nest("for v in w { ", "x = 1;", " }")),
        (
            "methods, a sign of each level before",
            nest("x.append(1 or 1 == 1 + 1 * 1 ** ", "x", ")") + ";",
        ),
    ]
}
