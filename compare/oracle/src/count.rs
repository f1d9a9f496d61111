//! How many nodes a tree has.
use crate::Node;

/// The nodes of a tree, itself included.
pub fn nodes(node: &Node) -> usize {
    let all = |children: &[Node]| children.iter().map(nodes).sum::<usize>();
    1 + match node {
        Node::Equal(d) | Node::NotEqual(d) | Node::Superior(d) => all(&d.children),
        Node::SuperiorOrEqual(d) | Node::Inferior(d) | Node::InferiorOrEqual(d) => all(&d.children),
        Node::And(d) | Node::Or(d) | Node::Not(d) => all(&d.children),
        Node::Index(d) => all(&d.children) + nodes(&d.index),
        Node::Pays(d) => all(&d.children),
        Node::If(d) => all(&d.children),
        Node::ForEach(d) => all(&d.children) + nodes(&d.node),
        Node::Variable(_) | Node::Constant(_) | Node::String(_) | Node::True | Node::False => 0,
        Node::Spot(_) | Node::Df(_) | Node::RateIndex(_) => 0,
        plain => all(plain.children()),
    }
}
