//! Where the text of every node begins. The Rust's nodes do not say it, and its tokens have no places; so its tokens are
//! walked once more, beside the pieces that say where they stand, and every node is marked as its text is passed. The marks
//! must be the nodes of the Rust's trees, one by one.
use crate::scan::Piece;
use crate::tree::Tree;
use oracle::{Currency, Token};

/// A node in the order of records: its parts come first.
struct Mark {
    kind: u32,
    parts: usize,
    place: usize,
}

/// Gives the nodes of a script's trees their places, each from the first byte of its statement.
pub fn lay(trees: &mut [Tree], tokens: &[Token], pieces: &[Piece]) -> Result<(), String> {
    let mut walk = Walk {
        tokens: tokens
            .iter()
            .zip(pieces.iter().map(|piece| piece.start))
            .filter(|(token, _)| **token != Token::Newline)
            .collect(),
        passed: 0,
        start: 0,
        marks: Vec::new(),
    };
    while *walk.token() != Token::EOF {
        walk.start = walk.byte();
        walk.statement();
    }
    let mut marks = walk.marks.into_iter();
    trees
        .iter_mut()
        .try_for_each(|tree| mark(tree, &mut marks))?;
    match marks.next() {
        None => Ok(()),
        Some(more) => Err(format!(
            "the tokens have one more node, of kind {}",
            more.kind
        )),
    }
}

/// Hands a tree the marks that are its own, which come next.
fn mark(tree: &mut Tree, marks: &mut impl Iterator<Item = Mark>) -> Result<(), String> {
    for part in &mut tree.parts {
        mark(part, marks)?;
    }
    let Some(Mark { kind, parts, place }) = marks.next() else {
        return Err(format!("the tokens have no node for {tree:?}"));
    };
    if (kind, parts) != (tree.kind, tree.parts.len()) {
        return Err(format!("the tokens have the kind {kind} for {tree:?}"));
    }
    tree.place = place;
    Ok(())
}

/// A walk over the tokens of an accepted script, Newlines left out.
struct Walk<'a> {
    tokens: Vec<(&'a Token, usize)>,
    passed: usize,
    /// The first byte of the statement that is walked.
    start: usize,
    marks: Vec<Mark>,
}

impl<'a> Walk<'a> {
    fn at(&self, index: usize) -> &'a Token {
        self.tokens
            .get(index)
            .map_or(&Token::EOF, |(token, _)| token)
    }

    fn token(&self) -> &'a Token {
        self.at(self.passed)
    }

    fn next_token(&self) -> &'a Token {
        self.at(self.passed + 1)
    }

    /// The first byte of the next token.
    fn byte(&self) -> usize {
        self.tokens[self.passed].1
    }

    fn pass(&mut self, tokens: usize) {
        self.passed += tokens;
    }

    fn pass_any(&mut self, token: Token) {
        self.pass(usize::from(*self.token() == token));
    }

    /// A node whose parts are marked, and whose text begins at this byte.
    fn mark(&mut self, kind: u32, parts: usize, byte: usize) {
        let place = byte - self.start;
        self.marks.push(Mark { kind, parts, place });
    }

    fn statement(&mut self) {
        match (self.token(), self.next_token()) {
            (Token::If, _) => self.conditional(),
            (Token::For, _) => self.repetition(),
            // as a statement of its own it is no operand: a sign behind it begins the next statement
            (Token::Pays, _) => {
                self.pays();
                self.pass_any(Token::Semicolon);
            }
            (Token::Identifier(_), Token::Assign) => self.assignment(None),
            (Token::Identifier(_), Token::PlusAssign) => self.assignment(Some(8)),
            (Token::Identifier(_), Token::MinusAssign) => self.assignment(Some(9)),
            (Token::Identifier(_), Token::MultiplyAssign) => self.assignment(Some(10)),
            (Token::Identifier(_), Token::DivideAssign) => self.assignment(Some(11)),
            (Token::Identifier(_), Token::Pays) => self.paid_assignment(),
            _ => {
                self.expression();
                self.pass_any(Token::Semicolon);
            }
        }
    }

    /// `x = e;`, or, with a kind, a compound form: its variable stands for two, and its node begins there too.
    fn assignment(&mut self, compound: Option<u32>) {
        let name = self.byte();
        self.pass(2);
        self.mark(1, 0, name);
        if let Some(kind) = compound {
            self.mark(1, 0, name);
            self.expression();
            self.mark(kind, 2, name);
        } else {
            self.expression();
        }
        self.pass_any(Token::Semicolon);
        self.mark(37, 2, name);
    }

    /// `x pays ..`, which is an assignment of the sum of the variable and the pays.
    fn paid_assignment(&mut self) {
        let name = self.byte();
        self.pass(1);
        self.mark(1, 0, name);
        self.mark(1, 0, name);
        self.pays();
        self.pass_any(Token::Semicolon);
        self.mark(8, 2, name);
        self.mark(37, 2, name);
    }

    fn pays(&mut self) {
        let word = self.byte();
        self.pass(1);
        let mut parts = 0;
        while !matches!(
            self.token(),
            Token::EOF | Token::Semicolon | Token::CloseParen | Token::On | Token::In
        ) {
            self.expression();
            parts += 1;
        }
        for before_string in [Token::On, Token::In] {
            self.pass(2 * usize::from(*self.token() == before_string));
        }
        self.mark(36, parts, word);
    }

    fn conditional(&mut self) {
        let word = self.byte();
        self.pass(1);
        self.expression();
        let mut statements = self.block();
        if *self.token() == Token::Else {
            self.pass(1);
            statements += self.block();
        }
        self.mark(38, 1 + statements, word);
    }

    fn repetition(&mut self) {
        let word = self.byte();
        // the word, the variable and `in`
        self.pass(3);
        self.expression();
        let statements = self.block();
        self.mark(39, 1 + statements, word);
    }

    /// How many statements stand between the braces.
    fn block(&mut self) -> usize {
        self.pass(1);
        let mut statements = 0;
        while *self.token() != Token::CloseCurlyParen {
            self.statement();
            statements += 1;
        }
        self.pass(1);
        statements
    }

    fn expression(&mut self) {
        self.chain(0);
    }

    /// Operands with signs of one level between them. Every node that such a sign makes begins with the first token of the
    /// first operand, be it a parenthesis or a plus.
    fn chain(&mut self, level: usize) {
        if level == LEVELS {
            return self.primary();
        }
        let first = self.byte();
        self.chain(level + 1);
        while let Some(kind) = sign(self.token(), level) {
            self.pass(1);
            self.chain(level + 1);
            self.mark(kind, 2, first);
        }
    }

    fn primary(&mut self) {
        let first = self.byte();
        match (self.token(), self.next_token()) {
            // not the text of what they stand round or before, which begins behind them
            (Token::OpenParen, _) => {
                self.pass(1);
                self.expression();
                self.pass(1);
            }
            (Token::Plus, _) => {
                self.pass(1);
                self.primary();
            }
            (Token::Minus, Token::Value(Some(_), None)) => self.leaf(2, 2),
            (Token::Minus, _) => {
                self.pass(1);
                self.primary();
                self.mark(7, 1, first);
            }
            (Token::OpenBracket, _) => {
                let items = self.items();
                self.mark(6, items, first);
                self.postfixes(first);
            }
            (Token::Value(Some(_), None), _) => self.leaf(2, 1),
            (Token::Value(None, Some(true)), _) => self.leaf(3, 1),
            (Token::Value(None, Some(false)), _) => self.leaf(4, 1),
            (Token::String(_), _) => self.leaf(5, 1),
            (Token::Pays, _) => self.pays(),
            (Token::Identifier(name), _) => self.name(name),
            (other, _) => panic!("the Rust accepts {other:?} as an operand"),
        }
    }

    /// A node of so many tokens and without parts.
    fn leaf(&mut self, kind: u32, tokens: usize) {
        self.mark(kind, 0, self.byte());
        self.pass(tokens);
    }

    fn name(&mut self, name: &str) {
        let first = self.byte();
        match call(name) {
            _ if matches!(name, "Spot" | "Df" | "RateIndex") => self.market(name),
            Some(kind) => {
                self.pass(1);
                let items = self.items();
                self.mark(kind, items, first);
            }
            None => {
                self.leaf(1, 1);
                self.postfixes(first);
            }
        }
    }

    /// A call that has strings alone, which are no nodes. A Spot is of currencies or of an equity by its first string.
    fn market(&mut self, name: &str) {
        let kind = match (name, self.at(self.passed + 2)) {
            ("Df", _) => 34,
            ("RateIndex", _) => 35,
            (_, Token::String(first)) if Currency::try_from(first.clone()).is_ok() => 32,
            _ => 33,
        };
        let close = self.tokens[self.passed..]
            .iter()
            .position(|(token, _)| **token == Token::CloseParen)
            .expect("a call that the Rust accepts is closed");
        self.leaf(kind, close + 1);
    }

    /// Each begins where the name or list begins that it stands behind.
    fn postfixes(&mut self, first: usize) {
        loop {
            match (self.token(), self.next_token()) {
                (Token::OpenBracket, _) => {
                    self.items();
                    self.mark(28, 2, first);
                }
                (Token::Dot, Token::Identifier(method)) => {
                    self.pass(2);
                    let items = self.items();
                    self.mark(kind_of_method(method), 1 + items, first);
                }
                _ => break,
            }
        }
    }

    /// How many expressions stand between brackets; behind the last one a comma may stand.
    fn items(&mut self) -> usize {
        self.pass(1);
        let mut items = 0;
        while !matches!(self.token(), Token::CloseParen | Token::CloseBracket) {
            self.expression();
            self.pass_any(Token::Comma);
            items += 1;
        }
        self.pass(1);
        items
    }
}

/// The levels of signs between operands, of which the first binds least.
const LEVELS: usize = 5;

/// The kind of the node that a sign makes, where it is one of this level.
fn sign(token: &Token, level: usize) -> Option<u32> {
    let (own, kind) = match token {
        Token::And => (0, 19),
        Token::Or => (0, 20),
        Token::Equal => (1, 13),
        Token::NotEqual => (1, 14),
        Token::Superior => (1, 15),
        Token::Inferior => (1, 16),
        Token::SuperiorOrEqual => (1, 17),
        Token::InferiorOrEqual => (1, 18),
        Token::Plus => (2, 8),
        Token::Minus => (2, 9),
        Token::Multiply => (3, 10),
        Token::Divide => (3, 11),
        Token::Power => (4, 12),
        _ => return None,
    };
    (own == level).then_some(kind)
}

fn call(name: &str) -> Option<u32> {
    match name {
        "pow" => Some(12),
        "ln" => Some(21),
        "exp" => Some(22),
        "min" => Some(23),
        "max" => Some(24),
        "cvg" => Some(25),
        "fif" => Some(26),
        "range" => Some(27),
        _ => None,
    }
}

fn kind_of_method(name: &str) -> u32 {
    match name {
        "append" => 29,
        "mean" => 30,
        _ => 31,
    }
}
