//! A second parser, for both editions, written from the rules and in another way than the archive and the Rust read: in place
//! of a reader for each level of signs it has one loop, which climbs by how tightly each sign binds. What an edition changes
//! are two entries of that table, what a sign takes in, what a minus looks at, and what a name looks at that begins a
//! statement.
use crate::nodes::{Node, Statement};
use crate::reading::DEPTH;
use crate::scan::{Fault, Kind, Piece};
use crate::words::KEYWORDS;
use calls::Lists;

/// A token that is no Newline.
#[derive(Clone, Copy)]
pub struct Token<'a> {
    pub kind: Kind,
    pub text: &'a [u8],
    pub start: usize,
    /// Whether a Newline stands directly before it.
    behind_break: bool,
}

impl<'a> Token<'a> {
    pub fn is_name(&self) -> bool {
        self.kind == Kind::Name && !KEYWORDS.iter().any(|word| word.as_bytes() == self.text)
    }

    /// What a string has between its quotes.
    pub fn content(&self) -> &'a [u8] {
        &self.text[1..self.text.len() - 1]
    }
}

pub type Found<T> = Result<T, Fault>;

/// The statements of a script of these tokens, or the first of 8 to 15 that is met.
pub fn parse(text: &[u8], pieces: &[Piece], edition: u32, lists: &Lists) -> Found<Vec<Statement>> {
    let mut climber = Climber {
        tokens: tokens(text, pieces),
        passed: 0,
        text,
        edition,
        lists,
        depth: 0,
        start: 0,
        latest: 0,
    };
    let mut statements = Vec::new();
    while climber.next().is_some() {
        statements.push(climber.top()?);
    }
    Ok(statements)
}

fn tokens<'a>(text: &'a [u8], pieces: &[Piece]) -> Vec<Token<'a>> {
    let mut behind_break = false;
    let mut tokens = Vec::new();
    for piece in pieces {
        let is_break = piece.kind == Kind::Newline;
        if !is_break {
            tokens.push(Token {
                kind: piece.kind,
                text: &text[piece.start..piece.end],
                start: piece.start,
                behind_break,
            });
        }
        behind_break = is_break;
    }
    tokens
}

pub struct Climber<'a> {
    tokens: Vec<Token<'a>>,
    passed: usize,
    pub text: &'a [u8],
    pub edition: u32,
    pub lists: &'a Lists<'a>,
    /// How many constructs are open.
    depth: usize,
    /// The first byte of the statement that is read, and the latest date in it so far.
    pub start: usize,
    pub latest: u32,
}

/// How a sign between operands goes on with others that bind as tightly.
#[derive(Clone, Copy, PartialEq)]
enum Groups {
    Left,
    Right,
    Never,
}

/// How tightly signs bind.
const OR: u32 = 1;
const AND: u32 = 2;
const COMPARISON: u32 = 3;
const SUM: u32 = 4;
const PRODUCT: u32 = 5;
pub const POWER: u32 = 6;

/// The kind that a sign between operands makes, how tightly it binds, and how it groups.
fn sign(text: &[u8], edition: u32) -> Option<(u32, u32, Groups)> {
    let is_first = edition == 1;
    Some(match text {
        b"or" => (20, OR, Groups::Left),
        b"and" => (19, if is_first { OR } else { AND }, Groups::Left),
        b"==" => (13, COMPARISON, Groups::Never),
        b"!=" => (14, COMPARISON, Groups::Never),
        b">" => (15, COMPARISON, Groups::Never),
        b"<" => (16, COMPARISON, Groups::Never),
        b">=" => (17, COMPARISON, Groups::Never),
        b"<=" => (18, COMPARISON, Groups::Never),
        b"+" => (8, SUM, Groups::Left),
        b"-" => (9, SUM, Groups::Left),
        b"*" => (10, PRODUCT, Groups::Left),
        b"/" => (11, PRODUCT, Groups::Left),
        b"**" if is_first => (12, POWER, Groups::Left),
        b"**" => (12, POWER, Groups::Right),
        _ => return None,
    })
}

impl<'a> Climber<'a> {
    /// The token that is so many behind the next.
    pub fn ahead(&self, count: usize) -> Option<Token<'a>> {
        self.tokens.get(self.passed + count).copied()
    }

    pub fn next(&self) -> Option<Token<'a>> {
        self.ahead(0)
    }

    pub fn next_is(&self, text: &[u8]) -> bool {
        self.next().is_some_and(|token| token.text == text)
    }

    /// The first byte of the next token, or the text's end.
    pub fn byte(&self) -> usize {
        self.next().map_or(self.text.len(), |token| token.start)
    }

    pub fn pass(&mut self, tokens: usize) {
        self.passed += tokens;
    }

    /// Passes the next token if it is this one, and says whether it was.
    pub fn pass_any(&mut self, text: &[u8]) -> bool {
        let is_next = self.next_is(text);
        self.pass(usize::from(is_next));
        is_next
    }

    /// A refusal at the next token.
    pub fn fault(&self, ground: u32) -> Fault {
        let byte = self.byte();
        Fault { ground, byte }
    }

    /// Passes the next token, which must be this one.
    pub fn expect(&mut self, text: &[u8]) -> Found<()> {
        if self.pass_any(text) {
            Ok(())
        } else {
            Err(self.fault(8))
        }
    }

    /// Passes the next token, which must be such a one.
    pub fn expect_any(&mut self, fits: impl Fn(&Token<'a>) -> bool) -> Found<Token<'a>> {
        let token = self.next().filter(fits).ok_or_else(|| self.fault(8))?;
        self.pass(1);
        Ok(token)
    }

    pub fn node(&self, kind: u32, fields: [u32; 4], byte: usize, parts: Vec<Node>) -> Node {
        Node {
            kind,
            fields,
            place: byte - self.start,
            parts,
        }
    }

    /// What stands in a construct whose opening token is the next; it is one deeper than what encloses it.
    pub fn deeper<T>(&mut self, inner: impl FnOnce(&mut Self) -> Found<T>) -> Found<T> {
        if self.depth == DEPTH {
            return Err(self.fault(15));
        }
        self.depth += 1;
        let found = inner(self)?;
        self.depth -= 1;
        Ok(found)
    }

    pub fn expression(&mut self) -> Found<Node> {
        self.climb(OR)
    }

    /// An operand, and all signs behind it that bind at least so tightly, with their right sides. Every node that they make
    /// begins with the first token of the first operand.
    pub fn climb(&mut self, least: u32) -> Found<Node> {
        let first = self.byte();
        let mut left = self.operand()?;
        let mut most = POWER;
        while let Some((kind, binds, groups)) =
            self.next().and_then(|token| sign(token.text, self.edition))
        {
            if !(least..=most).contains(&binds) {
                break;
            }
            self.pass(1);
            let right = self.climb(binds + u32::from(groups != Groups::Right))?;
            // behind a comparison only what binds less can follow
            most = binds - u32::from(groups == Groups::Never);
            left = self.node(kind, [0; 4], first, vec![left, right]);
        }
        Ok(left)
    }

    fn top(&mut self) -> Found<Statement> {
        let first = self.passed;
        self.start = self.byte();
        self.latest = 0;
        let node = self.statement()?;
        let last = self.tokens[self.passed - 1];
        Ok(Statement {
            start: self.start,
            end: last.start + last.text.len(),
            tokens: self.passed - first,
            latest: self.latest,
            node,
        })
    }

    fn statement(&mut self) -> Found<Node> {
        let token = self.next().ok_or_else(|| self.fault(8))?;
        match token.text {
            b"if" => self.conditional(token.start),
            b"for" => self.repetition(token.start),
            b"pays" => self.paid(),
            _ if token.is_name() => self.behind_name(token),
            _ => self.ended(),
        }
    }

    /// An expression and its `;`.
    fn ended(&mut self) -> Found<Node> {
        let node = self.expression()?;
        self.expect(b";")?;
        Ok(node)
    }

    /// A pays, and its `;` if it has one.
    fn paid(&mut self) -> Found<Node> {
        let node = self.pays()?;
        self.pass_any(b";");
        Ok(node)
    }

    /// A statement that begins with a name: the next token decides, in the first edition only if no Newline is between.
    fn behind_name(&mut self, name: Token) -> Found<Node> {
        let next = self
            .ahead(1)
            .filter(|next| self.edition == 2 || !next.behind_break);
        let kind = match next.map_or(&b""[..], |next| next.text) {
            b"=" => None,
            b"+=" | b"pays" => Some(8),
            b"-=" => Some(9),
            b"*=" => Some(10),
            b"/=" => Some(11),
            _ => return self.ended(),
        };
        let variable = self.variable(name)?;
        self.pass(1);
        let value = if self.next_is(b"pays") {
            self.paid()?
        } else {
            self.pass(1);
            self.ended()?
        };
        let value = match kind {
            None => value,
            Some(kind) => {
                let again = self.variable(name)?;
                self.node(kind, [0; 4], name.start, vec![again, value])
            }
        };
        Ok(self.node(37, [0; 4], name.start, vec![variable, value]))
    }

    fn conditional(&mut self, word: usize) -> Found<Node> {
        self.deeper(|inner| {
            inner.pass(1);
            let mut parts = vec![inner.expression()?];
            inner.block(&mut parts)?;
            let mut first_else = 0;
            if inner.pass_any(b"else") {
                first_else = parts.len() as u32;
                inner.block(&mut parts)?;
            }
            Ok(inner.node(38, [first_else, 0, 0, 0], word, parts))
        })
    }

    fn repetition(&mut self, word: usize) -> Found<Node> {
        self.deeper(|inner| {
            inner.pass(1);
            let name = inner.expect_any(Token::is_name)?;
            let fields = inner.variable(name)?.fields;
            inner.expect(b"in")?;
            let mut parts = vec![inner.expression()?];
            inner.block(&mut parts)?;
            Ok(inner.node(39, fields, word, parts))
        })
    }

    /// Statements between braces, behind the parts that are there.
    fn block(&mut self, parts: &mut Vec<Node>) -> Found<()> {
        self.expect(b"{")?;
        while !self.pass_any(b"}") {
            parts.push(self.statement()?);
        }
        Ok(())
    }
}
