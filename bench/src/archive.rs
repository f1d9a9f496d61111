//! The archive with memory of its own.
use calls::{
    Answer, Change, Lists, ANSWER, ENTRY, MOST_BYTES, MOST_RECORDS, MOST_STATEMENTS, RECORD,
};

/// The lists whose names the Rust and its shims have.
pub const LISTS: Lists<'static> = Lists {
    reserved: oracle::RESERVED.as_bytes(),
    currencies: oracle::CURRENCIES.as_bytes(),
    day_counters: oracle::DAY_COUNTERS.as_bytes(),
};

/// The edition that the Rust reads.
pub const FIRST: u32 = 1;

/// What is lent, in one block from a whole page on: where memory lies changes times by more than a build does, so it lies
/// alike in every build.
#[derive(Clone, PartialEq)]
#[repr(C, align(4096))]
struct Rooms {
    script: [u8; MOST_BYTES],
    directory: [u32; MOST_STATEMENTS * ENTRY],
    records: [u32; MOST_RECORDS * RECORD],
}

#[derive(Clone, PartialEq)]
pub struct Archive {
    edition: u32,
    rooms: Box<Rooms>,
    pub answer: Answer,
}

impl Archive {
    /// Full room, and the script in its slice.
    pub fn new(edition: u32, script: &str) -> Self {
        let mut rooms = Box::new(Rooms {
            script: [0; MOST_BYTES],
            directory: [0; MOST_STATEMENTS * ENTRY],
            records: [0; MOST_RECORDS * RECORD],
        });
        rooms.script[..script.len()].copy_from_slice(script.as_bytes());
        Self {
            edition,
            rooms,
            answer: [0; ANSWER],
        }
    }

    /// Full room with this script read.
    pub fn holding(edition: u32, script: &str, lists: &Lists) -> Self {
        let mut archive = Self::new(edition, script);
        archive.read(lists);
        assert_eq!(archive.answer[0], 0, "the archive accepts the script");
        archive
    }

    pub fn read(&mut self, lists: &Lists) {
        calls::read(
            &self.rooms.script,
            self.edition,
            lists,
            &mut self.rooms.records,
            &mut self.rooms.directory,
            &mut self.answer,
        );
    }

    pub fn amend(&mut self, statement: u32, text: &str, lists: &Lists) {
        let text = text.as_bytes();
        calls::amend(
            &mut self.rooms.script,
            Change { statement, text },
            lists,
            &mut self.rooms.records,
            &mut self.rooms.directory,
            &mut self.answer,
        );
    }

    /// The bytes of a statement.
    pub fn statement(&self, statement: usize) -> String {
        let entry = &self.rooms.directory[statement * ENTRY..];
        let bytes = &self.rooms.script[entry[0] as usize..entry[1] as usize];
        String::from_utf8(bytes.to_vec()).expect("a statement is text")
    }

    /// The whole script.
    pub fn text(&self) -> String {
        let bytes = &self.rooms.script[..self.answer[4] as usize];
        String::from_utf8(bytes.to_vec()).expect("a script is text")
    }
}
