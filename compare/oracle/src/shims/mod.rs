//! Stand-ins for the files that the Rust's lexer, parser and nodes use and that are not built here.
pub mod currency;
pub mod date;
pub mod daycounter;
pub mod errors;
pub mod traits;
