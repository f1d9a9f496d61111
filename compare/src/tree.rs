//! What a script is read as, by content: the form in which both sides are compared.

/// A fact of a node beside its parts.
#[derive(Debug, Clone, PartialEq)]
pub enum Fact {
    Name(String),
    Bits(u64),
    Date(u32),
    /// A currency or curve, where there is one.
    Maybe(Option<String>),
    FirstElse(u32),
}

#[derive(Clone, PartialEq)]
pub struct Tree {
    pub kind: u32,
    pub facts: Vec<Fact>,
    /// The first byte of its text, counted from that of its statement.
    pub place: usize,
    pub parts: Vec<Tree>,
}

const KINDS: [&str; 40] = [
    "none", "Variable", "Constant", "True", "False", "String", "List", "UnaryMinus", "Add",
    "Subtract", "Multiply", "Divide", "Pow", "Equal", "NotEqual", "Superior", "Inferior",
    "SuperiorOrEqual", "InferiorOrEqual", "And", "Or", "Ln", "Exp", "Min", "Max", "Cvg", "Fif",
    "Range", "Index", "Append", "Mean", "Std", "Spot", "EquitySpot", "Df", "RateIndex", "Pays",
    "Assign", "If", "ForEach",
];

impl Tree {
    /// A tree whose place is not known yet.
    pub fn new(kind: u32, facts: Vec<Fact>, parts: Vec<Tree>) -> Self {
        Self {
            kind,
            facts,
            place: usize::MAX,
            parts,
        }
    }

    pub fn at(self, place: usize) -> Self {
        Self { place, ..self }
    }

    pub fn nodes(&self) -> usize {
        1 + self.parts.iter().map(Self::nodes).sum::<usize>()
    }

    /// The latest of all dates, of whatever kind the node is that has one; 0 where there is none.
    pub fn latest(&self) -> u32 {
        let own = self.facts.iter().map(|fact| match fact {
            Fact::Date(count) => *count,
            _ => 0,
        });
        let below = self.parts.iter().map(Self::latest);
        own.chain(below).max().unwrap_or(0)
    }
}

impl std::fmt::Debug for Tree {
    fn fmt(&self, out: &mut std::fmt::Formatter<'_>) -> std::fmt::Result {
        let name = KINDS.get(self.kind as usize).unwrap_or(&"unknown");
        write!(out, "{name}")?;
        if self.place != usize::MAX {
            write!(out, "@{}", self.place)?;
        }
        for fact in &self.facts {
            write!(out, " {fact:?}")?;
        }
        if !self.parts.is_empty() {
            write!(out, "{:?}", self.parts)?;
        }
        Ok(())
    }
}
