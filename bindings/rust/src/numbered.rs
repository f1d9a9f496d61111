//! Enums whose cases have the numbers and words of a table.

/// One table says a case's name, number and words, so that none of the three can be out of step.
macro_rules! numbered {
    ($(#[$about:meta])* $name:ident { $($case:ident = $number:literal, $words:literal;)* }) => {
        $(#[$about])*
        #[derive(Clone, Copy, Debug, PartialEq, Eq, Hash)]
        pub enum $name {
            $(#[doc = $words] $case = $number,)*
        }

        impl $name {
            /// The case with this number.
            pub fn from_number(number: u32) -> Option<Self> {
                match number {
                    $($number => Some(Self::$case),)*
                    _ => None,
                }
            }

            /// The number that the library gives this case.
            pub fn number(self) -> u32 {
                self as u32
            }
        }

        impl std::fmt::Display for $name {
            fn fmt(&self, f: &mut std::fmt::Formatter<'_>) -> std::fmt::Result {
                f.pad(match self {
                    $(Self::$case => $words,)*
                })
            }
        }
    };
}

pub(crate) use numbered;
