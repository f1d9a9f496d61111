//! The errors that lexer, parser and shims make.

#[derive(Debug)]
pub enum QSError {
    ParsingErr(String),
    InvalidValueErr(String),
    Context { context: String, source: Box<Self> },
}

impl QSError {
    pub fn context(self, context: impl Into<String>) -> Self {
        Self::Context {
            context: context.into(),
            source: Box::new(self),
        }
    }
}

pub type Result<T> = std::result::Result<T, QSError>;
