//! The operands of the second parser: all that stands between signs.
use crate::climbing::{Climber, Found, Token, POWER};
use crate::days;
use crate::nodes::Node;
use crate::scan::{Fault, Kind};
use std::ops::RangeInclusive;

/// Calls by their names: kind, fewest and most arguments.
const CALLS: [(&[u8], u32, usize, usize); 8] = [
    (b"ln", 21, 1, 1),
    (b"exp", 22, 1, 1),
    (b"pow", 12, 2, 2),
    (b"min", 23, 2, 100),
    (b"max", 24, 2, 100),
    (b"cvg", 25, 3, 3),
    (b"fif", 26, 4, 4),
    (b"range", 27, 2, 2),
];

/// The names of a list, in order.
fn names(list: &[u8]) -> impl Iterator<Item = &[u8]> {
    list.split_inclusive(|byte| *byte == b'\n')
        .map(|name| &name[..name.len() - 1])
}

fn is_string(token: &Token) -> bool {
    token.kind == Kind::Text
}

impl Climber<'_> {
    pub fn operand(&mut self) -> Found<Node> {
        let token = self.next().ok_or_else(|| self.fault(8))?;
        match (token.kind, token.text) {
            (_, b"(") => self.parenthesis(),
            (_, b"+") => self.signed(),
            (_, b"-") => self.minus(token),
            (_, b"[") => {
                let items = self.items(b"]")?;
                let list = self.node(6, [0; 4], token.start, items);
                self.postfixes(list)
            }
            (_, b"pays") => self.pays(),
            (_, b"true") => Ok(self.leaf(3, [0; 4])),
            (_, b"false") => Ok(self.leaf(4, [0; 4])),
            (Kind::Number, _) => Ok(self.constant(token, 1.0, token.start)),
            (Kind::Text, _) => {
                let [start, length] = self.named_by(token);
                Ok(self.leaf(5, [start, length, 0, 0]))
            }
            _ if token.is_name() => self.named(token),
            _ => Err(self.fault(8)),
        }
    }

    /// A node of the next token alone.
    fn leaf(&mut self, kind: u32, fields: [u32; 4]) -> Node {
        let node = self.node(kind, fields, self.byte(), Vec::new());
        self.pass(1);
        node
    }

    /// The number at hand, times a sign that stands at a byte.
    fn constant(&mut self, number: Token, sign: f64, byte: usize) -> Node {
        let text = std::str::from_utf8(number.text).expect("a number is of digits and a dot");
        let value: f64 = text.parse().expect("a number has one dot at most");
        let bits = (sign * value).to_bits();
        let literal = [number.start - self.start, text.len()].map(|word| word as u32);
        let fields = [(bits >> 32) as u32, bits as u32, literal[0], literal[1]];
        self.pass(1);
        self.node(2, fields, byte, Vec::new())
    }

    /// An expression in parentheses, which leave no node.
    fn parenthesis(&mut self) -> Found<Node> {
        self.deeper(|inner| {
            inner.pass(1);
            let node = inner.expression()?;
            inner.expect(b")")?;
            Ok(node)
        })
    }

    /// What a sign, which is next, takes in: in the first edition an operand alone, in the second all `**` behind it too.
    fn signed(&mut self) -> Found<Node> {
        let least = if self.edition == 1 { POWER + 1 } else { POWER };
        self.deeper(|inner| {
            inner.pass(1);
            inner.climb(least)
        })
    }

    fn minus(&mut self, minus: Token) -> Found<Node> {
        let is_raised = self.edition == 2 && self.ahead(2).is_some_and(|token| token.text == b"**");
        match self.ahead(1).filter(|next| next.kind == Kind::Number) {
            Some(number) if !is_raised => {
                self.pass(1);
                Ok(self.constant(number, -1.0, minus.start))
            }
            _ => {
                let part = self.signed()?;
                Ok(self.node(7, [0; 4], minus.start, vec![part]))
            }
        }
    }

    /// Expressions between brackets, of which the opening one is next, with commas; one may trail.
    fn items(&mut self, close: &[u8]) -> Found<Vec<Node>> {
        self.deeper(|inner| {
            inner.pass(1);
            let mut items = Vec::new();
            while !inner.pass_any(close) {
                items.push(inner.expression()?);
                if !inner.pass_any(b",") && !inner.next_is(close) {
                    return Err(inner.fault(8));
                }
            }
            Ok(items)
        })
    }

    fn arguments(&mut self) -> Found<Vec<Node>> {
        if self.next_is(b"(") {
            self.items(b")")
        } else {
            Err(self.fault(8))
        }
    }

    /// A variable's node, of a name that is not reserved. It passes no token.
    pub fn variable(&self, name: Token) -> Found<Node> {
        if names(self.lists.reserved).any(|reserved| reserved == name.text) {
            let byte = name.start;
            return Err(Fault { ground: 9, byte });
        }
        let fields = [name.start - self.start, name.text.len(), 0, 0].map(|word| word as u32);
        Ok(self.node(1, fields, name.start, Vec::new()))
    }

    fn named(&mut self, name: Token) -> Found<Node> {
        self.pass(1);
        if let Some(call) = CALLS.iter().find(|call| call.0 == name.text) {
            return self.call(name, call.1, call.2..=call.3);
        }
        if matches!(name.text, b"Spot" | b"Df" | b"RateIndex") {
            return self.market(name);
        }
        let variable = self.variable(name)?;
        self.postfixes(variable)
    }

    /// A call, behind its name.
    fn call(&mut self, name: Token, kind: u32, counts: RangeInclusive<usize>) -> Found<Node> {
        let byte = name.start;
        let arguments = self.arguments()?;
        if !counts.contains(&arguments.len()) {
            return Err(Fault { ground: 10, byte });
        }
        if kind == 25 {
            self.coverage(&arguments)
                .map_err(|ground| Fault { ground, byte })?;
        }
        Ok(self.node(kind, [0; 4], byte, arguments))
    }

    /// Two dates and a day counter, as strings; or the ground.
    fn coverage(&self, arguments: &[Node]) -> Result<(), u32> {
        let mut texts = Vec::new();
        for argument in arguments {
            let [start, length, ..] = argument.fields.map(|word| word as usize);
            if argument.kind != 5 {
                return Err(14);
            }
            texts.push(&self.text[self.start + start..][..length]);
        }
        if texts[..2].iter().any(|text| days::count_of(text) == 0) {
            return Err(11);
        }
        match names(self.lists.day_counters).any(|name| name == texts[2]) {
            true => Ok(()),
            false => Err(13),
        }
    }

    /// What stands behind a variable or a list, which it begins with.
    fn postfixes(&mut self, mut node: Node) -> Found<Node> {
        let byte = self.start + node.place;
        loop {
            let (kind, mut more) = match self.next().map_or(&b""[..], |token| token.text) {
                b"[" => (28, vec![self.index()?]),
                b"." => self.method()?,
                _ => return Ok(node),
            };
            more.insert(0, node);
            node = self.node(kind, [0; 4], byte, more);
        }
    }

    fn index(&mut self) -> Found<Node> {
        self.deeper(|inner| {
            inner.pass(1);
            let index = inner.expression()?;
            inner.expect(b"]")?;
            Ok(index)
        })
    }

    /// The kind of a method, and its arguments.
    fn method(&mut self) -> Found<(u32, Vec<Node>)> {
        self.pass(1);
        let name = self.expect_any(Token::is_name)?;
        let arguments = self.arguments()?;
        match (name.text, arguments.len()) {
            (b"append", 1) => Ok((29, arguments)),
            (b"mean", 0) => Ok((30, arguments)),
            (b"std", 0) => Ok((31, arguments)),
            _ => Err(Fault {
                ground: 10,
                byte: name.start,
            }),
        }
    }

    pub fn pays(&mut self) -> Found<Node> {
        let word = self.byte();
        let parts = self.deeper(|inner| {
            inner.pass(1);
            let mut parts = Vec::new();
            while inner
                .next()
                .is_some_and(|token| !matches!(token.text, b";" | b")" | b"on" | b"in"))
            {
                parts.push(inner.expression()?);
            }
            Ok(parts)
        })?;
        let date = if self.pass_any(b"on") {
            self.date()?
        } else {
            0
        };
        let currency = if self.pass_any(b"in") {
            self.currency()?
        } else {
            0
        };
        Ok(self.node(36, [date, currency, 0, 0], word, parts))
    }

    /// The place of a currency in its list, from 1; 0 where it is not there.
    fn place_of(&self, currency: Token) -> u32 {
        let place = names(self.lists.currencies).position(|name| name == currency.content());
        place.map_or(0, |place| place as u32 + 1)
    }

    fn currency(&mut self) -> Found<u32> {
        let currency = self.expect_any(is_string)?;
        let byte = currency.start;
        match self.place_of(currency) {
            0 => Err(Fault { ground: 12, byte }),
            place => Ok(place),
        }
    }

    fn date(&mut self) -> Found<u32> {
        let date = self.expect_any(is_string)?;
        self.date_of(date)
    }

    /// The count of a date, which is one of the statement's.
    fn date_of(&mut self, date: Token) -> Found<u32> {
        let (count, byte) = (days::count_of(date.content()), date.start);
        self.latest = self.latest.max(count);
        match count {
            0 => Err(Fault { ground: 11, byte }),
            _ => Ok(count),
        }
    }

    /// A date behind a comma, if there is one.
    fn any_date(&mut self) -> Found<u32> {
        if self.pass_any(b",") {
            self.date()
        } else {
            Ok(0)
        }
    }

    /// Where the content of a string stands, and its length.
    fn named_by(&self, string: Token) -> [u32; 2] {
        [string.start + 1 - self.start, string.text.len() - 2].map(|word| word as u32)
    }

    /// A call that has strings alone, behind its name. Depth does not count its parentheses.
    fn market(&mut self, name: Token) -> Found<Node> {
        self.expect(b"(")?;
        let (kind, fields) = match name.text {
            b"Spot" => self.spot()?,
            b"Df" => (34, self.discount()?),
            _ => (35, self.rate()?),
        };
        Ok(self.node(kind, fields, name.start, Vec::new()))
    }

    /// Of two currencies or, if the first string is none, of an equity.
    fn spot(&mut self) -> Found<(u32, [u32; 4])> {
        let first = self.expect_any(is_string)?;
        let found = match self.place_of(first) {
            0 => {
                let [start, length] = self.named_by(first);
                (33, [start, length, self.any_date()?, 0])
            }
            place if self.pass_any(b",") => {
                let second = self.currency()?;
                (32, [place, second, self.any_date()?, 0])
            }
            place => (32, [place, 1, 0, 0]),
        };
        self.expect(b")")?;
        Ok(found)
    }

    fn discount(&mut self) -> Found<[u32; 4]> {
        let date = self.date()?;
        let [start, length] = if self.pass_any(b",") {
            let curve = self.expect_any(is_string)?;
            self.named_by(curve)
        } else {
            [0, 0]
        };
        self.expect(b")")?;
        Ok([date, start, length, 0])
    }

    /// Its dates are judged behind its `)`.
    fn rate(&mut self) -> Found<[u32; 4]> {
        let name = self.expect_any(is_string)?;
        self.expect(b",")?;
        let from = self.expect_any(is_string)?;
        self.expect(b",")?;
        let to = self.expect_any(is_string)?;
        self.expect(b")")?;
        let [start, length] = self.named_by(name);
        Ok([start, length, self.date_of(from)?, self.date_of(to)?])
    }
}
