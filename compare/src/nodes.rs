//! What the second parser makes of a script, and the words that it is in memory.
use calls::{ENTRY, RECORD};

/// A node: its fields are those of its record, and its place is counted from its statement's first byte.
#[derive(Debug)]
pub struct Node {
    pub kind: u32,
    pub fields: [u32; 4],
    pub place: usize,
    pub parts: Vec<Node>,
}

/// A statement of the script: its bytes, its tokens, the latest date in it and its tree.
#[derive(Debug)]
pub struct Statement {
    pub start: usize,
    pub end: usize,
    pub tokens: usize,
    pub latest: u32,
    pub node: Node,
}

/// Records and directory of a script.
#[derive(Default)]
pub struct Words {
    pub records: Vec<u32>,
    pub directory: Vec<u32>,
}

impl Words {
    pub fn of(statements: &[Statement]) -> Self {
        let mut words = Self::default();
        for statement in statements {
            let nodes = write(&statement.node, &mut words.records);
            words.directory.extend([
                statement.start as u32, statement.end as u32, nodes, statement.tokens as u32,
                statement.latest,
            ]);
        }
        words
    }

    pub fn statements(&self) -> usize {
        self.directory.len() / ENTRY
    }

    pub fn nodes(&self) -> usize {
        self.records.len() / RECORD
    }
}

/// Writes the records of a tree, parts before their node, and says how many they are.
fn write(node: &Node, records: &mut Vec<u32>) -> u32 {
    let below: u32 = node.parts.iter().map(|part| write(part, records)).sum();
    let nodes = below + 1;
    records.extend([node.kind, nodes, node.parts.len() as u32]);
    records.extend(node.fields);
    records.push(node.place as u32);
    nodes
}
