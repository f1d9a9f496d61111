//! What the Rust makes of a script: its trees, or ground and byte, told from its error's text and position.
use crate::from_rust;
use crate::places;
use crate::scan::{scan, Fault, Piece};
use crate::tokens::same_tokens;
use crate::tree::Tree;
use oracle::{Date, Parser, QSError, Token, Tokenize};

#[derive(Debug)]
pub enum Verdict {
    Accepted(Vec<Tree>),
    /// By the lexer, which tells line and column.
    Unlexed(Fault, [u32; 2]),
    /// By the parser.
    Refused(Fault),
}

/// The pieces are where the script's tokens stand; they are needed only if the Rust's lexer accepts.
pub fn verdict(script: &str, pieces: &[Piece]) -> Result<Verdict, String> {
    let tokens = match script.tokenize() {
        Ok(tokens) => tokens,
        Err(error) => return lexical(script, &error),
    };
    same_tokens(script, pieces, &tokens)?;
    match Parser::new(tokens.clone()).parse() {
        Ok(root) => {
            let mut trees = from_rust::statements(&root);
            places::lay(&mut trees, &tokens, pieces)?;
            Ok(Verdict::Accepted(trees))
        }
        Err(error) => {
            let place = Position::of(&error, &tokens)?;
            let byte = place.byte(script, pieces)?;
            let ground = place.ground;
            Ok(Verdict::Refused(Fault { ground, byte }))
        }
    }
}

/// The statements of a script that the Rust accepts.
pub fn accepted(script: &str) -> Result<Vec<Tree>, String> {
    match verdict(script, &scan(script.as_bytes()).pieces)? {
        Verdict::Accepted(trees) => Ok(trees),
        other => Err(format!("the Rust refuses {script:?}: {other:?}")),
    }
}

/// The lexer's line and column count characters.
fn lexical(script: &str, error: &QSError) -> Result<Verdict, String> {
    let QSError::ParsingErr(text) = error else {
        return Err(format!("an error of another kind: {error:?}"));
    };
    let ground = match text {
        text if text.starts_with("Invalid character") => 3,
        text if text.starts_with("Unterminated string") => 4,
        text if text.starts_with("Invalid numeric literal") => 5,
        _ => return Err(format!("a message that is not known: {text}")),
    };
    let at = text.rfind("at line ").ok_or("a message without a line")?;
    let (line, column) = line_and_column(&text[at..])?;
    let before: usize = script
        .split_inclusive('\n')
        .take(line - 1)
        .map(str::len)
        .sum();
    let inside: usize = script[before..]
        .chars()
        .take(column - 1)
        .map(char::len_utf8)
        .sum();
    let byte = before + inside;
    let place = [line as u32, column as u32];
    Ok(Verdict::Unlexed(Fault { ground, byte }, place))
}

/// The two numbers in `at line 1, column 2`.
fn line_and_column(text: &str) -> Result<(usize, usize), String> {
    let number = |behind: &str| {
        let rest = &text[text.find(behind)? + behind.len()..];
        let end = rest
            .find(|c: char| !c.is_ascii_digit())
            .unwrap_or(rest.len());
        rest[..end].parse().ok()
    };
    match (number("at line "), number(", column ")) {
        (Some(line), Some(column)) => Ok((line, column)),
        _ => Err(format!("a message without a position: {text}")),
    }
}

/// Where the Rust's parser stood when it gave up, and the ground that its message gives.
struct Position<'a> {
    ground: u32,
    index: usize,
    tokens: &'a [Token],
}

impl<'a> Position<'a> {
    fn of(error: &QSError, tokens: &'a [Token]) -> Result<Self, String> {
        let (ground, text) = match error {
            QSError::ParsingErr(text) => (syntax_ground(text)?, text),
            QSError::Context { context, .. } => (context_ground(context)?, context),
            other => return Err(format!("an error of another kind: {other:?}")),
        };
        let index = index_of(tokens, line_and_column(text)?)?;
        Ok(Self {
            ground,
            index,
            tokens,
        })
    }

    /// 8 and 9 are met at their token; 10, 13 and 14 behind the call's `)`; 11 and 12 behind the string, or the `)`.
    fn byte(&self, script: &str, pieces: &[Piece]) -> Result<usize, String> {
        let index = match self.ground {
            8 | 9 => self.index,
            10 | 13 | 14 => self.name_of_call(self.before(self.index)?)?,
            _ => self.string(self.before(self.index)?, script, pieces)?,
        };
        Ok(pieces.get(index).map_or(script.len(), |piece| piece.start))
    }

    /// The token before, Newlines passed.
    fn before(&self, index: usize) -> Result<usize, String> {
        (0..index)
            .rev()
            .find(|k| self.tokens[*k] != Token::Newline)
            .ok_or_else(|| "no token stands before".to_string())
    }

    /// The token before the `(` that the `)` at `close` closes.
    fn name_of_call(&self, close: usize) -> Result<usize, String> {
        let mut open = 0;
        for k in (0..=close).rev() {
            match self.tokens[k] {
                Token::CloseParen => open += 1,
                Token::OpenParen => open -= 1,
                _ => {}
            }
            if open == 0 {
                return self.before(k);
            }
        }
        Err("a `)` without its `(`".to_string())
    }

    /// The string that was judged last. `RateIndex` judges both its dates behind its `)`, and `cvg` answers at its name.
    fn string(&self, last: usize, script: &str, pieces: &[Piece]) -> Result<usize, String> {
        if self.tokens[last] != Token::CloseParen {
            return Ok(last);
        }
        let name = self.name_of_call(last)?;
        if &script[pieces[name].start..pieces[name].end] == "cvg" {
            return Ok(name);
        }
        let end = self.before(last)?;
        let start = self.before(self.before(end)?)?;
        match &self.tokens[start] {
            Token::String(date) if Date::from_str(date, "%Y-%m-%d").is_err() => Ok(start),
            _ => Ok(end),
        }
    }
}

fn syntax_ground(text: &str) -> Result<u32, String> {
    let message = text.split_once(": ").map_or("", |(_, message)| message);
    let of_eight = ["Expected ", "Unexpected end", "Invalid string"];
    match message {
        "Reserved keyword" => Ok(9),
        "Invalid number of arguments" | "Unknown method" => Ok(10),
        "append expects one argument" => Ok(10),
        "mean expects no arguments" | "std expects no arguments" => Ok(10),
        "Invalid argument, expected string" => Ok(14),
        _ if of_eight.iter().any(|begin| message.starts_with(begin)) => Ok(8),
        _ => Err(format!("a message that is not known: {text}")),
    }
}

fn context_ground(context: &str) -> Result<u32, String> {
    let grounds = [
        ("parsing date ", 11),
        ("parsing currency ", 12),
        ("parsing day counter ", 13),
    ];
    grounds
        .iter()
        .find(|(begin, _)| context.starts_with(begin))
        .map(|(_, ground)| *ground)
        .ok_or_else(|| format!("a context that is not known: {context}"))
}

/// The parser counts a line for each Newline that it passes, and in the column the printed length of each token that it
/// comes to. So its position tells the token.
fn index_of(tokens: &[Token], position: (usize, usize)) -> Result<usize, String> {
    let (mut line, mut column) = (1, 1);
    for index in 0..=tokens.len() {
        if (line, column) == position {
            return Ok(index);
        }
        match tokens.get(index + 1).unwrap_or(&Token::EOF) {
            Token::Newline => (line, column) = (line + 1, 1),
            token => column += format!("{token:?}").len(),
        }
    }
    Err(format!("no token has the position {position:?}"))
}
