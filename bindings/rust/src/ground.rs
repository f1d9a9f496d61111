//! Why a call is refused.

use crate::numbered::numbered;

numbered! {
    /// The ground of a refusal. It prints as a sentence.
    Ground {
        TooLong = 1, "The text is longer than the 16,384 bytes that a script may have.";
        List = 2, "A list of names is malformed.";
        Character = 3, "No token begins with this character.";
        OpenString = 4, "This string is not closed.";
        NumberMalformed = 5, "This number has more than one dot.";
        NumberTooLong = 6, "This number is too long: its digits may be at most 9007199254740992, and at most 15 of them may follow the dot.";
        TooManyTokens = 7, "There are more than 4,096 tokens up to here.";
        Token = 8, "This token is not allowed here, or the text ends too early.";
        Reserved = 9, "This name is a reserved word.";
        Arguments = 10, "This call has the wrong number of arguments, or there is no such method.";
        Date = 11, "This is not a date: a day of the calendar, written yyyy-mm-dd.";
        Currency = 12, "This currency is not in the list.";
        DayCounter = 13, "This day counter is not in the list.";
        CvgArgument = 14, "An argument of this cvg is not a string.";
        TooDeep = 15, "This is the 33rd construct within another; at most 32 are allowed.";
        NoRoom = 16, "There is no room: a script has at most 16,384 bytes, 4,096 tokens, 2,048 records and 512 statements, and no more than the lent memory holds.";
        NoStatement = 17, "There is no statement with this number.";
        BadEnd = 18, "The new text ends badly: its last token must be ; or }, and nothing may follow it but whole lines.";
        ZeroByte = 19, "The new text has a zero byte.";
        Directory = 20, "The directory is not in order: no reading left this memory.";
        NoEdition = 26, "There is no such edition of the script language; there are 1 and 2.";
    }
}

impl Ground {
    /// Whether a refusal on this ground points at a place. The others are about a text as a whole, a list, a statement's
    /// number, the memory or the edition, and answer byte 0.
    pub fn has_place(self) -> bool {
        use Ground::{Directory, List, NoEdition, NoStatement, TooLong, ZeroByte};
        !matches!(self, TooLong | List | NoStatement | ZeroByte | Directory | NoEdition)
    }
}

#[cfg(test)]
mod tests {
    use super::Ground;

    fn numbers() -> impl Iterator<Item = u32> {
        (1..=20).chain([26])
    }

    #[test]
    fn numbers_are_those_from_1_to_20_and_26() {
        for number in numbers() {
            assert_eq!(Ground::from_number(number).unwrap().number(), number);
        }
        for number in [0, 21, 22, 23, 24, 25, 27, u32::MAX] {
            assert_eq!(Ground::from_number(number), None);
        }
    }

    #[test]
    fn each_ground_has_a_sentence_of_its_own() {
        let mut sentences: Vec<String> = numbers().map(|n| Ground::from_number(n).unwrap().to_string()).collect();
        sentences.sort();
        sentences.dedup();
        assert_eq!(sentences.len(), numbers().count());
    }
}
