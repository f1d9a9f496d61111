//! The editions of the script language.

use crate::numbered::numbered;

numbered! {
    /// An edition of the script language. A note is read in one, keeps it, and is amended in it.
    ///
    /// In the second, `**` groups right and binds tighter than a sign before it, so that `-2**2` is UnaryMinus(Pow(2, 2)),
    /// where the first reads Pow(-2, 2); `and` binds tighter than `or`, where in the first they are one level; and a line
    /// break behind the name that begins a statement means nothing. In all else they are the same.
    Edition {
        One = 1, "edition 1";
        Two = 2, "edition 2";
    }
}

#[cfg(test)]
mod tests {
    use super::Edition;

    #[test]
    fn there_are_two() {
        assert_eq!([0, 1, 2, 3].map(Edition::from_number), [None, Some(Edition::One), Some(Edition::Two), None]);
        assert_eq!([Edition::One, Edition::Two].map(Edition::number), [1, 2]);
    }
}
