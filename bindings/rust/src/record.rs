//! One node of a statement's tree.

use crate::date::Date;
use crate::kind::Kind;
use crate::RECORD_WORDS;

/// A record, as the eight words that the library wrote.
#[derive(Clone, Copy, Debug, PartialEq, Eq)]
pub struct Record([u32; RECORD_WORDS]);

/// Bytes of a script, counted from the first byte of their statement.
#[derive(Clone, Copy, Debug, PartialEq, Eq)]
pub struct Place {
    /// The first of them.
    pub start: u32,
    /// How many they are.
    pub length: u32,
}

/// What a record says beside its kind and its parts. A currency is its place in the list, from 0. A date is absent where its
/// word is 0, or no day's count, which the library does not write.
#[derive(Clone, Copy, Debug, PartialEq)]
pub enum Fields {
    /// Of a kind that has no fields.
    Nothing,
    /// Of Variable and String: the name, or what is between the quotes.
    Name(Place),
    /// Of Constant.
    Constant {
        /// With its sign.
        value: f64,
        /// Its digits and dot, without sign.
        literal: Place,
    },
    /// Of Spot: the price of one currency in another.
    Spot {
        /// The currency that has the price.
        first: Option<u32>,
        /// The currency of the price; USD where the script names none.
        second: Option<u32>,
        /// The day, if named.
        date: Option<Date>,
    },
    /// Of an equity spot.
    EquitySpot {
        /// Of the equity.
        name: Place,
        /// The day, if named.
        date: Option<Date>,
    },
    /// Of Df.
    Df {
        /// The day.
        date: Option<Date>,
        /// The name of the curve, if there is one.
        curve: Option<Place>,
    },
    /// Of RateIndex.
    RateIndex {
        /// Of the index.
        name: Place,
        /// The first date.
        from: Option<Date>,
        /// The second date.
        to: Option<Date>,
    },
    /// Of Pays.
    Pays {
        /// What stands behind `on`.
        date: Option<Date>,
        /// What stands behind `in`.
        currency: Option<u32>,
    },
    /// Of If. Part 0 is the condition.
    If {
        /// The part with which the else begins. An else that is empty begins behind the last part.
        first_else: Option<u32>,
    },
    /// Of ForEach. Part 0 is what it runs over.
    ForEach {
        /// The name of the loop variable.
        variable: Place,
    },
}

impl Record {
    /// A record of these words; they need not be the library's.
    pub fn from_words(words: [u32; RECORD_WORDS]) -> Self {
        Record(words)
    }

    /// Its words: kind, nodes, parts, four fields, place.
    pub fn words(self) -> [u32; RECORD_WORDS] {
        self.0
    }

    /// Its kind. The library writes none but those that [`Kind`] has.
    pub fn kind(self) -> Option<Kind> {
        Kind::from_number(self.0[0])
    }

    /// How many records its subtree has, itself among them. They end with it.
    pub fn nodes(self) -> u32 {
        self.0[1]
    }

    /// How many of them are its direct parts.
    pub fn parts(self) -> u32 {
        self.0[2]
    }

    /// Its place: the byte, from the first byte of its statement, at which the text that it was read from begins.
    ///
    /// Parentheses round a node and a plus before it are not its text. But a node with a left part begins where that
    /// part's text begins, these included: in `(a + b) * c` the Multiply is at the parenthesis, and the Add at `a`. In
    /// `x += e` and `x pays e` all nodes but those of `e` and the Pays are at `x`.
    /// [`Statement::position_of`](crate::Statement::position_of) says where that is in the script.
    pub fn place(self) -> u32 {
        self.0[7]
    }

    /// Its fields by name.
    pub fn fields(self) -> Fields {
        let [_, _, _, f1, f2, f3, f4, _] = self.0;
        match self.kind() {
            Some(Kind::Variable | Kind::String) => Fields::Name(place(f1, f2)),
            Some(Kind::Constant) => {
                Fields::Constant { value: f64::from_bits(u64::from(f1) << 32 | u64::from(f2)), literal: place(f3, f4) }
            }
            Some(Kind::Spot) => Fields::Spot { first: currency(f1), second: currency(f2), date: Date::from_count(f3) },
            Some(Kind::EquitySpot) => Fields::EquitySpot { name: place(f1, f2), date: Date::from_count(f3) },
            Some(Kind::Df) => Fields::Df { date: Date::from_count(f1), curve: (f2 != 0).then(|| place(f2, f3)) },
            Some(Kind::RateIndex) => {
                Fields::RateIndex { name: place(f1, f2), from: Date::from_count(f3), to: Date::from_count(f4) }
            }
            Some(Kind::Pays) => Fields::Pays { date: Date::from_count(f1), currency: currency(f2) },
            Some(Kind::If) => Fields::If { first_else: (f1 != 0).then_some(f1) },
            Some(Kind::ForEach) => Fields::ForEach { variable: place(f1, f2) },
            _ => Fields::Nothing,
        }
    }
}

fn place(start: u32, length: u32) -> Place {
    Place { start, length }
}

/// From its place plus 1; 0 is absent.
fn currency(word: u32) -> Option<u32> {
    word.checked_sub(1)
}
