//! The unchanged Rust: its lexer, parser and nodes, over shims for the files of its library that they lean on.
//!
//! Dates, currencies and day counters are judged by the shims, so that the lists lent to the archive can be the same.

mod count;
mod shims;

pub use count::nodes;
pub use currencies::currency::Currency;
pub use scripting::nodes::node;
pub use scripting::nodes::node::Node;
pub use scripting::parsing::lexer::{Token, Tokenize};
pub use scripting::parsing::parser::Parser;
pub use time::date::Date;
pub use utils::errors::QSError;

/// The words that the Rust reserves, as a lent list.
pub const RESERVED: &str = "if\nelse\nand\nor\ntrue\nfalse\nSpot\nRateIndex\nDf\npays\nexp\nln\npow\nmin\nmax\ncvg\nfif\nin\nrange\n";

/// The shims' names, as lent lists.
pub use currencies::currency::LIST as CURRENCIES;
pub use time::daycounter::LIST as DAY_COUNTERS;

/// The tree of a script, or the Rust's error.
pub fn read(script: &str) -> Result<Node, QSError> {
    Parser::new(script.tokenize()?).parse()
}

// The paths that the Rust's files name.
mod utils {
    pub use crate::shims::errors;
}

mod currencies {
    pub use crate::shims::currency;
}

mod time {
    pub use crate::shims::{date, daycounter};
}

#[allow(warnings, clippy::all)]
mod scripting {
    pub mod nodes {
        pub use crate::shims::traits;
        pub mod node {
            include!(concat!(env!("OUT_DIR"), "/node.rs"));
        }
    }
    pub mod parsing {
        pub mod lexer {
            include!(concat!(env!("OUT_DIR"), "/lexer.rs"));
        }
        pub mod parser {
            include!(concat!(env!("OUT_DIR"), "/parser.rs"));
        }
    }
}
