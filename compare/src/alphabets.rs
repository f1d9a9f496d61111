//! What sequences are made of. Together the alphabets reach every rule.

pub struct Alphabet {
    pub name: &'static str,
    /// What stands between two letters.
    pub between: &'static str,
    pub letters: &'static [&'static str],
    /// Up to this length every sequence is compared. Beyond it, none that begins with one that is refused before its
    /// end: what follows plays no part in such a refusal, since reading goes from left to right and no letter is faulty
    /// in itself.
    pub whole: usize,
}

/// Those over which the editions differ.
pub const OF_EDITIONS: [&Alphabet; 3] = [&ALPHABETS[2], &ALPHABETS[3], &POWERS];

/// Powers with signs, and line breaks behind names.
const POWERS: Alphabet = Alphabet {
    name: "powers",
    between: " ",
    letters: &["x", "2", "-", "+", "**", "*", "or", "=", "\n", ";"],
    whole: 4,
};

pub const ALPHABETS: [Alphabet; 6] = [
    Alphabet {
        name: "bytes",
        between: "",
        letters: &[
            "a", "1", ".", "\"", "#", "/", "\n", " ", "=", "*", "!", "<", "+", ";", "(", "$", "_",
            "é", "\0",
        ],
        whole: usize::MAX,
    },
    Alphabet {
        name: "all tokens",
        between: " ",
        letters: &[
            "x", "1", "true", "\"USD\"", "\"2020-02-29\"", "+", "-", "*", "/", "**", "=", "+=",
            "-=", "*=", "/=", "==", "!=", ">", ">=", "<", "<=", "(", ")", "{", "}", "[", "]", ",",
            ".", ";", "\n", "if", "then", "else", "end", "and", "or", "not", "for", "false",
            "pays", "on", "in", "ln", "exp", "pow", "min", "max", "cvg", "fif", "range", "Spot",
            "Df", "RateIndex", "append", "mean", "std",
        ],
        whole: 3,
    },
    Alphabet {
        name: "statements",
        between: " ",
        letters: &[
            "x", "1", "=", "+=", ";", "if", "{", "}", "else", "for", "in", "pays",
            "on \"2020-02-29\"", "in \"USD\"", "\n",
        ],
        whole: 4,
    },
    Alphabet {
        name: "expressions",
        between: " ",
        letters: &[
            "x", "1", "-", "+", "*", "**", "(", ")", "[", "]", ",", "and", "or", "==", ";",
        ],
        whole: 4,
    },
    Alphabet {
        name: "calls",
        between: " ",
        letters: &[
            "x", "1", ",", ")", ";", "ln (", "min (", "fif (", "range (", ". append (", ". mean (",
            ". k (", "[", "]",
        ],
        whole: 4,
    },
    Alphabet {
        name: "names",
        between: " ",
        letters: &[
            "Spot (", "Df (", "RateIndex (", "cvg (", ",", ")", ";", "\"USD\"", "\"2020-02-29\"",
            "\"2021-02-29\"", "\"A\"", "x", "pays", "on", "in",
        ],
        whole: 4,
    },
];
