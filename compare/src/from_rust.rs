//! The Rust's tree in the common form.
use crate::days;
use crate::tree::{Fact, Tree};
use oracle::node::{PaysData, SpotData, SpotUnderlying};
use oracle::{Currency, Date, Node};

/// The statements of a script's root.
pub fn statements(root: &Node) -> Vec<Tree> {
    match root {
        Node::Base(base) => trees(&base.children),
        other => panic!("the root is no Base: {other:?}"),
    }
}

fn trees(nodes: &[Node]) -> Vec<Tree> {
    nodes.iter().map(tree).collect()
}

fn tree(node: &Node) -> Tree {
    let (kind, children) = match node {
        Node::List(d) => (6, &d.children),
        Node::UnaryMinus(d) => (7, &d.children),
        Node::Add(d) => (8, &d.children),
        Node::Subtract(d) => (9, &d.children),
        Node::Multiply(d) => (10, &d.children),
        Node::Divide(d) => (11, &d.children),
        Node::Pow(d) => (12, &d.children),
        Node::Equal(d) => (13, &d.children),
        Node::NotEqual(d) => (14, &d.children),
        Node::Superior(d) => (15, &d.children),
        Node::Inferior(d) => (16, &d.children),
        Node::SuperiorOrEqual(d) => (17, &d.children),
        Node::InferiorOrEqual(d) => (18, &d.children),
        Node::And(d) => (19, &d.children),
        Node::Or(d) => (20, &d.children),
        Node::Ln(d) => (21, &d.children),
        Node::Exp(d) => (22, &d.children),
        Node::Min(d) => (23, &d.children),
        Node::Max(d) => (24, &d.children),
        Node::Cvg(d) => (25, &d.children),
        Node::Fif(d) => (26, &d.children),
        Node::Range(d) => (27, &d.children),
        Node::Append(d) => (29, &d.children),
        Node::Mean(d) => (30, &d.children),
        Node::Std(d) => (31, &d.children),
        Node::Assign(d) => (37, &d.children),
        _ => return tree_with_facts(node),
    };
    Tree::new(kind, Vec::new(), trees(children))
}

fn tree_with_facts(node: &Node) -> Tree {
    let leaf = |kind, facts| Tree::new(kind, facts, Vec::new());
    match node {
        Node::Variable(d) => leaf(1, vec![Fact::Name(d.name.clone())]),
        Node::Constant(d) => leaf(2, vec![Fact::Bits(d.const_value.to_bits())]),
        Node::True => leaf(3, Vec::new()),
        Node::False => leaf(4, Vec::new()),
        Node::String(text) => leaf(5, vec![Fact::Name(text.clone())]),
        Node::Spot(d) => spot(d),
        Node::Df(d) => leaf(34, vec![date(Some(d.date)), Fact::Maybe(d.curve.clone())]),
        Node::RateIndex(d) => {
            let name = Fact::Name(d.name.clone());
            leaf(35, vec![name, date(Some(d.start)), date(Some(d.end))])
        }
        Node::Pays(d) => pays(d),
        Node::Index(d) => {
            let mut parts = trees(&d.children);
            parts.push(tree(&d.index));
            Tree::new(28, Vec::new(), parts)
        }
        Node::If(d) => {
            let first_else = d.first_else.unwrap_or(0) as u32;
            Tree::new(38, vec![Fact::FirstElse(first_else)], trees(&d.children))
        }
        Node::ForEach(d) => {
            let mut parts = vec![tree(&d.node)];
            parts.extend(trees(&d.children));
            Tree::new(39, vec![Fact::Name(d.var.clone())], parts)
        }
        other => panic!("no script is read as this: {other:?}"),
    }
}

fn spot(data: &SpotData) -> Tree {
    let (kind, mut facts) = match &data.underlying {
        SpotUnderlying::Fx { first, second } => {
            (32, vec![currency(Some(*first)), currency(Some(*second))])
        }
        SpotUnderlying::Equity(name) => (33, vec![Fact::Name(name.clone())]),
    };
    facts.push(date(data.date));
    Tree::new(kind, facts, Vec::new())
}

fn pays(data: &PaysData) -> Tree {
    let facts = vec![date(data.date), currency(data.currency)];
    Tree::new(36, facts, trees(&data.children))
}

fn date(date: Option<Date>) -> Fact {
    Fact::Date(date.map_or(0, |date| days::count(date.year, date.month, date.day)))
}

fn currency(currency: Option<Currency>) -> Fact {
    Fact::Maybe(currency.map(|currency| currency.name().to_string()))
}
