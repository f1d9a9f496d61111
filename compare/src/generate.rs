//! Random scripts by the grammar: every construct, nested; most are accepted.
use crate::random::Random;
use crate::spacing::text;
use crate::words::*;

/// A token. Before a tight one no Newline may stand, or the statement becomes another; in the second edition none is.
#[derive(Debug, Clone)]
pub struct Item {
    pub text: String,
    pub tight: bool,
}

pub fn any_token(random: &mut Random) -> &'static str {
    random.pick(&TOKENS)
}

/// A script of a few statements in an edition.
pub fn any(random: &mut Random, edition: u32) -> String {
    let statements = random.below(7);
    let items = script(random, edition, statements);
    text(&items, random)
}

/// The items of a script with so many statements.
pub fn script(random: &mut Random, edition: u32, statements: usize) -> Vec<Item> {
    let mut writer = Writer {
        random,
        edition,
        items: Vec::new(),
    };
    for _ in 0..statements {
        writer.statement(3);
    }
    writer.items
}

struct Writer<'a> {
    random: &'a mut Random,
    edition: u32,
    items: Vec<Item>,
}

impl Writer<'_> {
    fn put(&mut self, text: &str) {
        let text = text.to_string();
        self.items.push(Item { text, tight: false });
    }

    fn put_tight(&mut self, text: &str) {
        let text = text.to_string();
        let tight = self.edition == 1;
        self.items.push(Item { text, tight });
    }

    fn name(&mut self) {
        let names: &[&str] = if self.random.once_in(300) {
            &RESERVED
        } else {
            &NAMES
        };
        let name = self.random.pick(names);
        self.put(name);
    }

    /// One of the good, seldom one of the others.
    fn of(&mut self, good: &[&str], others: &[&str]) {
        let from = if self.random.once_in(60) {
            others
        } else {
            good
        };
        let text = self.random.pick(from);
        self.put(text);
    }

    fn date(&mut self) {
        if self.random.once_in(60) {
            self.of(&NO_DATES, &STRINGS);
            return;
        }
        let year = 1 + self.random.below(9999);
        let month = 1 + self.random.below(12);
        let days = if self.random.once_in(20) { 31 } else { 28 };
        let day = 1 + self.random.below(days);
        self.put(&format!("\"{year:04}-{month:02}-{day:02}\""));
    }

    fn number(&mut self) {
        if self.random.once_in(2) {
            self.of(&NUMBERS, &ODD_NUMBERS);
            return;
        }
        let whole = self.random.below(100_000);
        let decimals = self.random.below(1_000_000);
        self.put(&format!("{whole}.{decimals}"));
    }

    fn statement(&mut self, depth: usize) {
        let choices = if depth == 0 { 6 } else { 8 };
        match self.random.below(choices) {
            0 | 1 => self.assignment(depth, "="),
            2 => {
                let sign = self.random.pick(&["+=", "-=", "*=", "/="]);
                self.assignment(depth, sign);
            }
            3 => {
                self.name();
                self.put_tight("pays");
                self.pays_behind(depth);
            }
            4 => self.pays_statement(depth),
            5 => {
                self.expression(depth);
                self.put(";");
            }
            6 => self.conditional(depth - 1),
            _ => self.repetition(depth - 1),
        }
    }

    fn assignment(&mut self, depth: usize, sign: &str) {
        self.name();
        self.put_tight(sign);
        self.expression(depth);
        self.put(";");
    }

    fn pays_statement(&mut self, depth: usize) {
        self.put("pays");
        self.pays_behind(depth);
    }

    /// What stands behind `pays`. Its `;` may be left out behind a string.
    fn pays_behind(&mut self, depth: usize) {
        let closed = self.pays_rest(depth);
        if !closed || self.random.once_in(2) {
            self.put(";");
        }
    }

    /// True where date or currency end it.
    fn pays_rest(&mut self, depth: usize) -> bool {
        for _ in 0..self.random.below(3) {
            self.expression(depth.saturating_sub(1));
        }
        let dated = self.random.once_in(2);
        if dated {
            self.put("on");
            self.date();
        }
        let named = self.random.once_in(2);
        if named {
            self.put("in");
            self.of(&CURRENCIES, &NO_CURRENCIES);
        }
        dated || named
    }

    fn block(&mut self, depth: usize) {
        self.put("{");
        for _ in 0..self.random.below(4) {
            self.statement(depth);
        }
        self.put("}");
    }

    fn conditional(&mut self, depth: usize) {
        self.put("if");
        self.expression(depth);
        self.block(depth);
        if self.random.once_in(2) {
            self.put("else");
            self.block(depth);
        }
    }

    fn repetition(&mut self, depth: usize) {
        self.put("for");
        self.name();
        self.put("in");
        self.expression(depth);
        self.block(depth);
    }

    fn expression(&mut self, depth: usize) {
        self.comparison(depth);
        while self.random.once_in(5) {
            let word = self.random.pick(&["and", "or"]);
            self.put(word);
            self.comparison(depth);
        }
    }

    fn comparison(&mut self, depth: usize) {
        self.sum(depth);
        if self.random.once_in(6) {
            let sign = self.random.pick(&["==", "!=", ">", ">=", "<", "<="]);
            self.put(sign);
            self.sum(depth);
        }
    }

    fn sum(&mut self, depth: usize) {
        self.power(depth);
        while self.random.once_in(4) {
            let sign = self.random.pick(&["+", "-", "*", "/"]);
            self.put(sign);
            self.power(depth);
        }
    }

    /// Operands with `**` between them: mostly one, seldom many, and before some of them signs.
    fn power(&mut self, depth: usize) {
        self.signed(depth);
        while self.random.once_in(4) {
            self.put("**");
            self.signed(depth);
        }
    }

    fn signed(&mut self, depth: usize) {
        while self.random.once_in(8) {
            let sign = self.random.pick(&["-", "-", "+"]);
            self.put(sign);
        }
        self.primary(depth);
    }

    fn primary(&mut self, depth: usize) {
        let choices = if depth == 0 { 6 } else { 14 };
        match self.random.below(choices) {
            0 | 1 => self.name(),
            2 | 3 => self.number(),
            4 => {
                let text = self.random.pick(&STRINGS);
                self.put(text);
            }
            5 => self.of(&["true", "false"], &["not", "then", "end"]),
            6 => {
                let sign = self.random.pick(&["+", "-"]);
                self.put(sign);
                self.primary(depth - 1);
            }
            7 => self.bracketed("(", ")", depth - 1),
            8 => {
                self.list(depth - 1);
                self.postfixes(depth - 1);
            }
            9 => {
                self.name();
                self.postfixes(depth - 1);
            }
            10 | 11 => self.call(depth - 1),
            12 => self.market(),
            _ => self.bracketed_pays(depth - 1),
        }
    }

    fn bracketed(&mut self, open: &str, close: &str, depth: usize) {
        self.put(open);
        self.expression(depth);
        self.put(close);
    }

    fn bracketed_pays(&mut self, depth: usize) {
        self.put("(");
        self.put("pays");
        self.pays_rest(depth);
        self.put(")");
    }

    fn items(&mut self, count: usize, depth: usize) {
        for k in 0..count {
            self.expression(depth);
            if k + 1 < count || self.random.once_in(8) {
                self.put(",");
            }
        }
    }

    fn list(&mut self, depth: usize) {
        self.put("[");
        let count = self.random.below(4);
        self.items(count, depth);
        self.put("]");
    }

    fn postfixes(&mut self, depth: usize) {
        while self.random.once_in(2) {
            if self.random.once_in(3) {
                self.bracketed("[", "]", depth);
                continue;
            }
            self.put(".");
            let methods = [("append", 1), ("mean", 0), ("std", 0), ("size", 0)];
            let known = if self.random.once_in(20) { 4 } else { 3 };
            let (name, count) = methods[self.random.below(known)];
            self.arguments(name, count, depth);
        }
    }

    fn arguments(&mut self, name: &str, count: usize, depth: usize) {
        let count = if self.random.once_in(60) {
            self.random.below(6)
        } else {
            count
        };
        self.put(name);
        self.put("(");
        self.items(count, depth);
        self.put(")");
    }

    fn call(&mut self, depth: usize) {
        if self.random.once_in(6) {
            self.coverage();
            return;
        }
        let many = 2 + self.random.below(4);
        let calls = [
            ("ln", 1),
            ("exp", 1),
            ("pow", 2),
            ("min", many),
            ("max", many),
            ("fif", 4),
            ("range", 2),
        ];
        let (name, count) = calls[self.random.below(calls.len())];
        self.arguments(name, count, depth);
    }

    fn coverage(&mut self) {
        self.put("cvg");
        self.put("(");
        self.date();
        self.put(",");
        self.date();
        self.put(",");
        if self.random.once_in(40) {
            self.name();
        } else {
            self.of(&COUNTERS, &NO_COUNTERS);
        }
        self.put(")");
    }

    fn market(&mut self) {
        match self.random.below(4) {
            0 => self.spot(),
            1 => self.strings("Spot", &["\"AAPL\""], 1),
            2 => {
                let curve = self.random.pick(&STRINGS);
                self.put("Df");
                self.put("(");
                self.date();
                if self.random.once_in(2) {
                    self.put(",");
                    self.put(curve);
                }
                self.put(")");
            }
            _ => self.strings("RateIndex", &["\"SOFR\"", "\"\""], 2),
        }
    }

    fn spot(&mut self) {
        self.put("Spot");
        self.put("(");
        self.of(&CURRENCIES, &STRINGS);
        if self.random.once_in(2) {
            self.put(",");
            self.of(&CURRENCIES, &NO_CURRENCIES);
            if self.random.once_in(2) {
                self.put(",");
                self.date();
            }
        }
        self.put(")");
    }

    fn strings(&mut self, name: &str, first: &[&str], dates: usize) {
        self.put(name);
        self.put("(");
        let text = self.random.pick(first);
        self.put(text);
        for _ in 0..dates {
            self.put(",");
            self.date();
        }
        self.put(")");
    }
}
