//! Lists of 256 names each, the Rust's and its shims' first.
use calls::Lists;

const NAMES: usize = 256;

pub struct FullLists {
    reserved: String,
    currencies: String,
    day_counters: String,
}

impl FullLists {
    pub fn new() -> Self {
        let letter = |k: usize| char::from(b'A' + (k % 26) as u8);
        Self {
            reserved: filled(oracle::RESERVED, |k| format!("reserved_{k:0>23}\n")),
            currencies: filled(oracle::CURRENCIES, |k| {
                format!("{}{}Q\n", letter(k / 26), letter(k))
            }),
            day_counters: filled(oracle::DAY_COUNTERS, |k| format!("counter_{k:0>24}\n")),
        }
    }

    pub fn lists(&self) -> Lists<'_> {
        Lists {
            reserved: self.reserved.as_bytes(),
            currencies: self.currencies.as_bytes(),
            day_counters: self.day_counters.as_bytes(),
        }
    }
}

fn filled(first: &str, name: impl Fn(usize) -> String) -> String {
    let names = first.lines().count()..NAMES;
    first.to_string() + &names.map(name).collect::<String>()
}
