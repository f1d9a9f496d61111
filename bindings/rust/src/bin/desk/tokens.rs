//! Where the tokens of a statement stand. The library says where nodes begin, and accepts no other statements; where their
//! text ends is told by the tokens.

/// A token, as bytes of the statement that has it.
pub struct Token {
    pub start: usize,
    pub end: usize,
    /// Of an opening bracket, which token closes it.
    pub closed_by: Option<usize>,
}

/// The tokens of an accepted statement, line breaks aside.
pub fn tokens(text: &[u8]) -> Vec<Token> {
    let mut tokens: Vec<Token> = Vec::new();
    let mut open = Vec::new();
    let mut start = 0;
    while start < text.len() {
        if let Some(end) = blank_end(text, start) {
            start = end;
            continue;
        }
        match text[start] {
            b'(' | b'[' | b'{' => open.push(tokens.len()),
            b')' | b']' | b'}' => close(&mut tokens, open.pop()),
            _ => {}
        }
        let end = token_end(text, start);
        tokens.push(Token { start, end, closed_by: None });
        start = end;
    }
    tokens
}

/// The token that comes next closes the one at `open`.
fn close(tokens: &mut [Token], open: Option<usize>) {
    let next = tokens.len();
    if let Some(open) = open {
        tokens[open].closed_by = Some(next);
    }
}

/// The end of the blank or comment that stands at `start`, if one does.
fn blank_end(text: &[u8], start: usize) -> Option<usize> {
    let is_comment = text[start] == b'#' || text[start..].starts_with(b"//");
    match text[start] {
        _ if is_comment => Some(run(text, start, |byte| byte != b'\n')),
        b'\t'..=b'\r' | b' ' => Some(start + 1),
        _ => None,
    }
}

fn token_end(text: &[u8], start: usize) -> usize {
    let pairs = [b"+=", b"-=", b"**", b"*=", b"/=", b"==", b"!=", b">=", b"<="];
    match text[start] {
        b'"' => run(text, start + 1, |byte| byte != b'"') + 1,
        b'0'..=b'9' => run(text, start, |byte| byte.is_ascii_digit() || byte == b'.'),
        b'a'..=b'z' | b'A'..=b'Z' => run(text, start, |byte| byte.is_ascii_alphanumeric() || byte == b'_'),
        _ if pairs.iter().any(|pair| text[start..].starts_with(*pair)) => start + 2,
        _ => start + 1,
    }
}

/// The end of the bytes from `start` on that belong together.
fn run(text: &[u8], start: usize, belongs: impl Fn(u8) -> bool) -> usize {
    start + text[start..].iter().take_while(|&&byte| belongs(byte)).count()
}

#[cfg(test)]
mod tests {
    use super::tokens;
    use gorembiin::{Edition, Lists, Note};

    fn cut(text: &str) -> Vec<&str> {
        tokens(text.as_bytes()).iter().map(|token| &text[token.start..token.end]).collect()
    }

    #[test]
    fn a_text_is_cut_into_its_tokens() {
        assert_eq!(cut("x1_ += 1.5**-2;"), ["x1_", "+=", "1.5", "**", "-", "2", ";"]);
        assert_eq!(cut("a # b\r\n\t// \"c\n/ \"# d\n//\";"), ["a", "/", "\"# d\n//\"", ";"]);
        assert_eq!(cut("a<=b!=c>=d==e"), ["a", "<=", "b", "!=", "c", ">=", "d", "==", "e"]);
        assert_eq!(cut("x*=y/=z-=1.;"), ["x", "*=", "y", "/=", "z", "-=", "1.", ";"]);
    }

    #[test]
    fn brackets_find_each_other() {
        let tokens = tokens(b"([x]){}\")\"");
        let closed: Vec<Option<usize>> = tokens.iter().map(|token| token.closed_by).collect();
        assert_eq!(closed, [Some(4), Some(3), None, None, None, Some(6), None, None]);
    }

    #[test]
    fn there_are_as_many_as_the_library_counts() {
        let script = "x=1;\"é # \"//c\n;#\ny ** 2;z//\n;\
                      if a!=b{x-=[1,2.5,][0]**2;}else{pays x>=1 on\"2026-06-30\"in\"EUR\";}";
        let note = Note::read(script.as_bytes(), Edition::One, Lists::default()).unwrap();
        for statement in note.statements() {
            assert_eq!(tokens(statement.text()).len(), statement.tokens() as usize, "{script}");
        }
    }
}
