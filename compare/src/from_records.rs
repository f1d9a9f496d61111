//! The archive's records in the common form, and what must hold of their words.
use crate::lookups;
use crate::scan::{Kind, Piece};
use crate::tree::{Fact, Tree};
use calls::{part, ENTRY, LATEST, PLACE, RECORD};

/// What a call left, cut to what is used.
pub struct Held<'a> {
    pub script: &'a [u8],
    pub currencies: &'a [u8],
    pub records: &'a [u32],
    pub directory: &'a [u32],
    pub pieces: &'a [Piece],
}

/// A record, and the first byte of its statement.
struct Record<'a> {
    words: &'a [u32; RECORD],
    start: usize,
}

/// What an entry says, with its tree.
pub struct Statement {
    pub start: usize,
    pub end: usize,
    pub latest: u32,
    pub tree: Tree,
}

pub fn statements(held: &Held) -> Result<Vec<Statement>, String> {
    let mut records = held.records;
    let mut tokens = held
        .pieces
        .iter()
        .filter(|piece| piece.kind != Kind::Newline);
    let mut statements = Vec::new();
    for entry in held.directory.chunks_exact(ENTRY) {
        let (start, end) = span(entry, &mut tokens)?;
        let (own, behind) = records
            .split_at_checked(entry[2] as usize * RECORD)
            .ok_or_else(|| format!("entry {entry:?} has too many records"))?;
        let latest = latest(own);
        if entry[LATEST] != latest {
            return Err(format!("the records of entry {entry:?} end on {latest}"));
        }
        let tree = tree(held, own, start)?;
        statements.push(Statement {
            start,
            end,
            latest,
            tree,
        });
        records = behind;
    }
    match (records, tokens.next()) {
        ([], None) => Ok(statements),
        left => Err(format!("left behind the last entry: {left:?}")),
    }
}

/// Start and end of an entry, which must be those of its tokens, the next ones.
fn span<'a>(
    entry: &[u32],
    tokens: &mut impl Iterator<Item = &'a Piece>,
) -> Result<(usize, usize), String> {
    let first = tokens.next().ok_or("an entry behind the last token")?;
    let last = match entry[3] {
        0 => return Err("an entry without tokens".to_string()),
        1 => first,
        n => tokens
            .nth(n as usize - 2)
            .ok_or("an entry with too many tokens")?,
    };
    let span = (entry[0] as usize, entry[1] as usize);
    if span == (first.start, last.end) {
        Ok(span)
    } else {
        Err(format!(
            "entry {entry:?} has tokens from {} to {}",
            first.start, last.end
        ))
    }
}

/// The latest date of some records, which the words of five kinds have; 0 where there is none.
fn latest(records: &[u32]) -> u32 {
    let dates = records.chunks_exact(RECORD).flat_map(|words| {
        let [kind, _, _, f1, _, f3, f4, _] = *words else {
            unreachable!("a chunk has its length")
        };
        match kind {
            32 | 33 => [f3, 0],
            34 | 36 => [f1, 0],
            35 => [f3, f4],
            _ => [0, 0],
        }
    });
    dates.max().unwrap_or(0)
}

/// The tree of one statement's records: children stand before parents.
fn tree(held: &Held, words: &[u32], start: usize) -> Result<Tree, String> {
    let mut trees: Vec<(Tree, usize)> = Vec::new();
    let mut passed = 0;
    for words in words.chunks_exact(RECORD) {
        let words: &[u32; RECORD] = words.try_into().expect("a chunk has its length");
        let record = Record { words, start };
        let [kind, nodes, parts, ..] = *words;
        let rest = trees
            .len()
            .checked_sub(parts as usize)
            .ok_or("too few parts")?;
        let below = trees.split_off(rest);
        if nodes as usize != 1 + below.iter().map(|(_, nodes)| nodes).sum::<usize>() {
            return Err(format!("{words:?} has another number of nodes"));
        }
        record.check_place(held, &mut passed)?;
        let parts = below.into_iter().map(|(tree, _)| tree).collect();
        let tree = Tree::new(kind, record.facts(held)?, parts).at(words[PLACE] as usize);
        trees.push((tree, nodes as usize));
    }
    match (trees.pop(), trees.pop()) {
        (Some((tree, _)), None) => Ok(tree),
        _ => Err("an entry whose records are not one tree".to_string()),
    }
}

impl Record<'_> {
    fn facts(&self, held: &Held) -> Result<Vec<Fact>, String> {
        let [kind, _, _, f1, f2, f3, f4, _] = *self.words;
        let first = self.name(held, false)?;
        let second = self.name(held, true)?;
        let (used, facts) = match kind {
            1 | 5 | 39 => (2, vec![Fact::Name(first)]),
            2 => (4, vec![Fact::Bits(u64::from(f1) << 32 | u64::from(f2))]),
            32 => (
                3,
                vec![
                    Fact::Maybe(Some(first)),
                    Fact::Maybe(Some(second)),
                    Fact::Date(f3),
                ],
            ),
            33 => (3, vec![Fact::Name(first), Fact::Date(f3)]),
            34 => (
                3,
                vec![Fact::Date(f1), Fact::Maybe((f2 != 0).then_some(first))],
            ),
            35 => (4, vec![Fact::Name(first), Fact::Date(f3), Fact::Date(f4)]),
            36 => (
                2,
                vec![Fact::Date(f1), Fact::Maybe((f2 != 0).then_some(first))],
            ),
            38 => (1, vec![Fact::FirstElse(f1)]),
            _ => (0, Vec::new()),
        };
        if self.words[3 + used..PLACE].iter().any(|word| *word != 0) {
            return Err(format!(
                "{:?} has words that its kind does not use",
                self.words
            ));
        }
        Ok(facts)
    }

    /// The name that the lookup hands back, which must be the one that the record's words say.
    fn name(&self, held: &Held, second: bool) -> Result<String, String> {
        let start = self.start as u32;
        let got = part(held.script, held.currencies, self.words, start, second);
        if got != lookups::rule(held.script, held.currencies, self.words, start, second) {
            return Err(format!("the lookup of {:?} hands back {got:?}", self.words));
        }
        let source = if got.in_list {
            held.currencies
        } else {
            held.script
        };
        let bytes = source
            .get(got.first..got.first + got.length)
            .ok_or("a name outside")?;
        String::from_utf8(bytes.to_vec()).map_err(|error| error.to_string())
    }

    /// Whether this is the literal of a constant, its sign aside.
    fn is_value(&self, literal: &[u8]) -> bool {
        let bits = u64::from(self.words[3]) << 32 | u64::from(self.words[4]);
        std::str::from_utf8(literal)
            .ok()
            .and_then(|text| text.parse::<f64>().ok())
            .is_some_and(|value| value.to_bits() == f64::from_bits(bits).abs().to_bits())
    }

    /// Names and literals stand at their tokens, and in the order of the script; a compound assignment has its name twice.
    fn check_place(&self, held: &Held, passed: &mut usize) -> Result<(), String> {
        let [kind, _, _, f1, f2, f3, f4, _] = *self.words;
        let (token, quote, first, length) = match kind {
            1 | 39 => (Kind::Name, 0, f1, f2),
            2 => (Kind::Number, 0, f3, f4),
            5 | 33 | 35 => (Kind::Text, 1, f1, f2),
            34 if f2 != 0 => (Kind::Text, 1, f2, f3),
            _ => return Ok(()),
        };
        let start = (self.start + first as usize).wrapping_sub(quote);
        let end = start.wrapping_add(length as usize + 2 * quote);
        let stands = held
            .pieces
            .binary_search_by_key(&start, |piece| piece.start)
            .is_ok_and(|k| held.pieces[k].kind == token && held.pieces[k].end == end);
        // A loop's record stands behind those of its body.
        let ascends = match kind {
            39 => true,
            1 => start + 1 >= *passed,
            _ => start >= *passed,
        };
        if kind != 39 {
            *passed = start + 1;
        }
        if stands && ascends && (kind != 2 || self.is_value(&held.script[start..end])) {
            Ok(())
        } else {
            Err(format!("{:?} has another place than its token", self.words))
        }
    }
}
