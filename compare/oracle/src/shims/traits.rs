//! The visitor traits that the nodes implement. Nothing here visits, so nothing calls them.
#![allow(dead_code)]
use crate::Node;

pub trait NodeVisitor {
    fn visit(&self, node: &mut Node);
}

pub trait NodeConstVisitor {
    fn const_visit(&self, node: &Node);
}

pub trait Visitable {
    type Output;
    fn accept(&mut self, visitor: &impl NodeVisitor) -> Self::Output;
}

pub trait ConstVisitable {
    type Output;
    fn const_accept(&self, visitor: &impl NodeConstVisitor) -> Self::Output;
}
