//! The names that a reading is given.

/// Three lists of names, lent to each call. Each name ends in a line feed, the last one too. A list that is malformed is
/// not an error here: the call that is lent it is refused with [`Ground::List`](crate::Ground::List).
#[derive(Clone, Copy, Debug, PartialEq, Eq)]
pub struct Lists<'a> {
    /// Names that no variable may have.
    pub reserved: &'a [u8],
    /// Names of three capital letters, USD first.
    pub currencies: &'a [u8],
    /// Names that the third argument of cvg may be.
    pub day_counters: &'a [u8],
}

/// No reserved words, USD and EUR, no day counters: the lists of the program `listing`, so that both read alike.
impl Default for Lists<'_> {
    fn default() -> Self {
        Lists { reserved: b"", currencies: b"USD\nEUR\n", day_counters: b"" }
    }
}
