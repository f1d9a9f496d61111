//! Currencies: the names of a list, which is also lent to the archive.
use super::errors::{QSError, Result};

macro_rules! currencies {
    ($($name:ident),*) => {
        #[derive(Debug, Clone, Copy, PartialEq)]
        pub enum Currency { $($name),* }

        impl Currency {
            pub fn name(self) -> &'static str {
                match self {
                    $(Self::$name => stringify!($name),)*
                }
            }
        }

        impl TryFrom<String> for Currency {
            type Error = QSError;
            fn try_from(name: String) -> Result<Self> {
                match name.as_str() {
                    $(stringify!($name) => Ok(Self::$name),)*
                    _ => Err(QSError::InvalidValueErr(format!("no currency: {name}"))),
                }
            }
        }

        pub const LIST: &str = concat!($(stringify!($name), "\n"),*);
    };
}

currencies!(USD, EUR, JPY, GBP, CHF, CLP, BRL, COP, MXN, PEN, CAD, AUD);
