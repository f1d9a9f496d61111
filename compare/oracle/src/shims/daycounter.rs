//! Day counters: the names of a list, which is also lent to the archive.
use super::errors::{QSError, Result};

pub struct DayCounter;

pub const LIST: &str = "Actual360\nActual365\nThirty360\nBusiness252\nA\nThirty 360\n";

impl TryFrom<String> for DayCounter {
    type Error = QSError;
    fn try_from(name: String) -> Result<Self> {
        if LIST.lines().any(|known| known == name) {
            Ok(Self)
        } else {
            Err(QSError::InvalidValueErr(format!("no day counter: {name}")))
        }
    }
}
