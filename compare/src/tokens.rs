//! The Rust's tokens beside the pieces that say where they stand.
use crate::scan::{Kind, Piece};
use oracle::Token;

/// Whether the pieces are the Rust's tokens, one by one and by content.
pub fn same_tokens(script: &str, pieces: &[Piece], tokens: &[Token]) -> Result<(), String> {
    if pieces.len() != tokens.len() {
        return Err(format!(
            "{} tokens of the Rust, {} pieces",
            tokens.len(),
            pieces.len()
        ));
    }
    let differing = pieces
        .iter()
        .zip(tokens)
        .find(|(piece, token)| !is_token(&script[piece.start..piece.end], piece.kind, token));
    match differing {
        Some((piece, token)) => Err(format!("{token:?} of the Rust is the piece {piece:?}")),
        None => Ok(()),
    }
}

fn is_token(text: &str, kind: Kind, token: &Token) -> bool {
    match (kind, token) {
        (Kind::Newline, Token::Newline) => true,
        (Kind::Number, Token::Value(Some(value), None)) => text.parse() == Ok(*value),
        (Kind::Text, Token::String(content)) => text[1..text.len() - 1] == **content,
        (Kind::Name, Token::Identifier(name)) => text == name,
        (Kind::Name | Kind::Sign, fixed) => text == spelling(fixed),
        _ => false,
    }
}

/// How a keyword or sign is written; of the others, nothing.
fn spelling(token: &Token) -> &'static str {
    match token {
        Token::Value(None, Some(true)) => "true",
        Token::Value(None, Some(false)) => "false",
        Token::If => "if",
        Token::Then => "then",
        Token::Else => "else",
        Token::End => "end",
        Token::And => "and",
        Token::Or => "or",
        Token::Not => "not",
        Token::For => "for",
        Token::Pays => "pays",
        Token::On => "on",
        Token::In => "in",
        _ => sign(token),
    }
}

fn sign(token: &Token) -> &'static str {
    match token {
        Token::Plus => "+",
        Token::PlusAssign => "+=",
        Token::Minus => "-",
        Token::MinusAssign => "-=",
        Token::Multiply => "*",
        Token::MultiplyAssign => "*=",
        Token::Divide => "/",
        Token::DivideAssign => "/=",
        Token::Power => "**",
        Token::Assign => "=",
        Token::Equal => "==",
        Token::NotEqual => "!=",
        Token::Superior => ">",
        Token::Inferior => "<",
        Token::SuperiorOrEqual => ">=",
        Token::InferiorOrEqual => "<=",
        Token::OpenParen => "(",
        Token::CloseParen => ")",
        Token::OpenCurlyParen => "{",
        Token::CloseCurlyParen => "}",
        Token::OpenBracket => "[",
        Token::CloseBracket => "]",
        Token::Comma => ",",
        Token::Dot => ".",
        Token::Semicolon => ";",
        _ => "",
    }
}
