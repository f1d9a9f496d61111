//! Where the tokens of a script stand: the rules for tokens, written down once more.
//! The Rust's tokens have no places; `compare` needs them, and checks that these are the Rust's tokens.

#[derive(Debug, Clone, Copy, PartialEq)]
pub enum Kind {
    Name,
    Number,
    Text,
    Sign,
    Newline,
}

#[derive(Debug, Clone, Copy)]
pub struct Piece {
    pub kind: Kind,
    pub start: usize,
    pub end: usize,
}

/// A refusal: its ground and its byte.
#[derive(Debug, Clone, Copy, PartialEq)]
pub struct Fault {
    pub ground: u32,
    pub byte: usize,
}

pub struct Scan {
    pub pieces: Vec<Piece>,
    /// The first of 3 to 6 from the left. The pieces are those before it.
    pub fault: Option<Fault>,
}

const PAIRS: [&[u8]; 9] = [
    b"+=", b"-=", b"**", b"*=", b"/=", b"==", b"!=", b">=", b"<=",
];

const MOST_DIGITS: u128 = 9_007_199_254_740_992;
const MOST_DECIMALS: usize = 15;

/// The script's bytes before its first zero byte.
pub fn cut(script: &[u8]) -> &[u8] {
    script.split(|byte| *byte == 0).next().unwrap_or(script)
}

/// The tokens of a text without zero bytes.
pub fn scan(text: &[u8]) -> Scan {
    let mut pieces = Vec::new();
    let mut at = 0;
    while at < text.len() {
        match piece(text, at) {
            Ok(Some(piece)) => {
                at = piece.end;
                pieces.push(piece);
            }
            Ok(None) => at = blank_end(text, at),
            Err(ground) => {
                let fault = Some(Fault { ground, byte: at });
                return Scan { pieces, fault };
            }
        }
    }
    Scan {
        pieces,
        fault: None,
    }
}

fn run(text: &[u8], at: usize, belongs: impl Fn(u8) -> bool) -> usize {
    at + text[at..].iter().take_while(|byte| belongs(**byte)).count()
}

fn begins_comment(text: &[u8], at: usize) -> bool {
    text[at] == b'#' || text[at..].starts_with(b"//")
}

/// The end of the blank or comment that stands at `at`.
fn blank_end(text: &[u8], at: usize) -> usize {
    if begins_comment(text, at) {
        run(text, at, |byte| byte != b'\n')
    } else {
        at + 1
    }
}

/// The token at a place; none where a blank or a comment stands there; or the ground.
fn piece(text: &[u8], start: usize) -> Result<Option<Piece>, u32> {
    let first = text[start];
    if matches!(first, 9 | 11..=13 | b' ') || begins_comment(text, start) {
        return Ok(None);
    }
    let (kind, end) = match first {
        b'\n' => (Kind::Newline, start + 1),
        b'"' => (Kind::Text, string_end(text, start)?),
        b'0'..=b'9' => (Kind::Number, number_end(text, start)?),
        b'a'..=b'z' | b'A'..=b'Z' => (
            Kind::Name,
            run(text, start, |byte| {
                byte.is_ascii_alphanumeric() || byte == b'_'
            }),
        ),
        _ => (Kind::Sign, sign_end(text, start)?),
    };
    Ok(Some(Piece { kind, start, end }))
}

fn string_end(text: &[u8], start: usize) -> Result<usize, u32> {
    let close = run(text, start + 1, |byte| byte != b'"');
    if close < text.len() {
        Ok(close + 1)
    } else {
        Err(4)
    }
}

fn number_end(text: &[u8], start: usize) -> Result<usize, u32> {
    let end = run(text, start, |byte| byte.is_ascii_digit() || byte == b'.');
    let mut parts = text[start..end].split(|byte| *byte == b'.');
    let whole = parts.next().unwrap_or_default();
    let decimals = parts.next().unwrap_or_default();
    if parts.next().is_some() {
        return Err(5);
    }
    let digits = whole.iter().chain(decimals).fold(0u128, |sum, digit| {
        (sum * 10 + u128::from(digit - b'0')).min(MOST_DIGITS + 1)
    });
    if digits > MOST_DIGITS || decimals.len() > MOST_DECIMALS {
        return Err(6);
    }
    Ok(end)
}

fn sign_end(text: &[u8], start: usize) -> Result<usize, u32> {
    if PAIRS.iter().any(|pair| text[start..].starts_with(pair)) {
        return Ok(start + 2);
    }
    if b"+-*/=><(){}[],.;".contains(&text[start]) {
        Ok(start + 1)
    } else {
        Err(3)
    }
}
