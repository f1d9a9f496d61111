//! The words that scripts are made of.

pub const KEYWORDS: [&str; 13] = [
    "if", "then", "else", "end", "and", "or", "not", "for", "true", "false", "pays", "on", "in",
];
pub const NAMES: [&str; 16] = [
    "x", "y", "z1", "E5", "a_b", "iff", "ons", "append", "mean", "std", "USD", "level", "payson",
    "long_name_2", "in_", "Spots",
];
pub const RESERVED: [&str; 8] = [
    "ln", "min", "Spot", "Df", "RateIndex", "cvg", "range", "exp",
];
pub const STRINGS: [&str; 10] = [
    "\"\"", "\"AAPL\"", "\"a\nb\"", "\"é\"", "\"日本\n語\"", "\"# no comment\"", "\"// none\"",
    "\"A\"", "\"USD\"", "\"2020-02-29\"",
];
pub const CURRENCIES: [&str; 6] = [
    "\"USD\"", "\"EUR\"", "\"JPY\"", "\"AUD\"", "\"GBP\"", "\"CLP\"",
];
pub const NO_CURRENCIES: [&str; 5] = ["\"usd\"", "\"USD \"", "\"US\"", "\"XXX\"", "\"\""];
pub const COUNTERS: [&str; 4] = [
    "\"Actual360\"", "\"A\"", "\"Thirty 360\"", "\"Business252\"",
];
pub const NO_COUNTERS: [&str; 3] = ["\"a\"", "\"Thirty\"", "\"\""];
pub const NO_DATES: [&str; 8] = [
    "\"2021-02-29\"", "\"1900-02-29\"", "\"0000-01-01\"", "\"2020-13-01\"", "\"2020-1-1\"",
    "\"2020-01-00\"", "\"2020-01-32\"", "\"+020-01-01\"",
];
pub const NUMBERS: [&str; 12] = [
    "0", "1", "2", "1.", "0.5", "007.50", "100", "9007199254740992", "0.1", "900719925474099.2",
    "1.000000000000001", "123456.789",
];
pub const ODD_NUMBERS: [&str; 6] = [
    "9007199254740993",
    "0.0000000000000000",
    "90071992547409.921",
    "1.2.3",
    "1..",
    "99999999999999999999.9.9",
];
/// Every token that stands alone, for damage.
pub const TOKENS: [&str; 52] = [
    "if", "then", "else", "end", "and", "or", "not", "for", "true", "false", "pays", "on", "in",
    "x", "ln", "min", "pow", "fif", "cvg", "range", "Spot", "Df", "RateIndex", "append", "mean",
    "+", "+=", "-", "-=", "*", "**", "*=", "/", "/=", "=", "==", "!=", ">", ">=", "<", "<=", "(",
    ")", "{", "}", "[", "]", ",", ".", ";", "1", "\"USD\"",
];
