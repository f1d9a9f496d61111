//! Lent memory with guards around each slice, and the calls on it.
use calls::{Answer, Change, Lists, Totals, ANSWER, ENTRY, RECORD, TOTALS};

/// Guards before and behind each slice.
const GUARDS: usize = 4;

/// A slice with guards around it.
#[derive(Clone)]
struct Guarded<T> {
    cells: Vec<T>,
    guard: T,
}

impl<T: Copy + PartialEq> Guarded<T> {
    fn new(slice: &[T], guard: T) -> Self {
        let mut cells = vec![guard; GUARDS];
        cells.extend_from_slice(slice);
        cells.extend([guard; GUARDS]);
        Self { cells, guard }
    }

    fn slice(&self) -> &[T] {
        &self.cells[GUARDS..self.cells.len() - GUARDS]
    }

    fn slice_mut(&mut self) -> &mut [T] {
        let end = self.cells.len() - GUARDS;
        &mut self.cells[GUARDS..end]
    }

    fn is_intact(&self) -> bool {
        let end = self.cells.len() - GUARDS;
        let guards = self.cells[..GUARDS].iter().chain(&self.cells[end..]);
        guards.into_iter().all(|cell| *cell == self.guard)
    }

    /// Whether slice and guards are these.
    fn holds(&self, slice: &[T]) -> bool {
        self.is_intact() && self.slice() == slice
    }
}

const BYTE: u8 = 0xa7;
const WORD: u32 = 0xa7a7_1234;

/// Words that stand in records and directory before the first call.
pub const OLD_RECORD: u32 = 0xa5a5_a5a5;
pub const OLD_ENTRY: u32 = 0x5a5a_5a5a;

/// How many words are lent for records and directory.
#[derive(Debug, Clone, Copy)]
pub struct Room {
    pub records: usize,
    pub directory: usize,
}

impl Room {
    pub const FULL: Self = Self {
        records: calls::MOST_RECORDS * RECORD,
        directory: calls::MOST_STATEMENTS * ENTRY,
    };

    /// Room for whatever a text of this length can be read as, within the capacities: a token makes two records at most.
    pub fn ample(length: usize) -> Self {
        Self::of(
            calls::MOST_RECORDS.min(2 * length + 1),
            calls::MOST_STATEMENTS.min(length),
        )
    }

    /// Room for so many records and statements at most.
    pub const fn of(records: usize, statements: usize) -> Self {
        Self {
            records: records * RECORD,
            directory: statements * ENTRY,
        }
    }
}

/// The three lent slices that calls write.
#[derive(Debug, Clone, PartialEq)]
pub struct Contents {
    pub script: Vec<u8>,
    pub records: Vec<u32>,
    pub directory: Vec<u32>,
}

pub struct Memory<'a> {
    script: Guarded<u8>,
    records: Guarded<u32>,
    directory: Guarded<u32>,
    lists: Lists<'a>,
    lent: [Guarded<u8>; 3],
}

impl<'a> Memory<'a> {
    pub fn new(script: &[u8], room: Room, lists: &Lists<'a>) -> Self {
        Self::holding(
            &Contents {
                script: script.to_vec(),
                records: vec![OLD_RECORD; room.records],
                directory: vec![OLD_ENTRY; room.directory],
            },
            lists,
        )
    }

    pub fn holding(contents: &Contents, lists: &Lists<'a>) -> Self {
        Self {
            script: Guarded::new(&contents.script, BYTE),
            records: Guarded::new(&contents.records, WORD),
            directory: Guarded::new(&contents.directory, WORD),
            lists: *lists,
            lent: [lists.reserved, lists.currencies, lists.day_counters]
                .map(|list| Guarded::new(list, BYTE)),
        }
    }

    pub fn script(&self) -> &[u8] {
        self.script.slice()
    }

    pub fn records(&self) -> &[u32] {
        self.records.slice()
    }

    pub fn directory(&self) -> &[u32] {
        self.directory.slice()
    }

    pub fn contents(&self) -> Contents {
        Contents {
            script: self.script().to_vec(),
            records: self.records().to_vec(),
            directory: self.directory().to_vec(),
        }
    }

    /// Reads the script slice in an edition. Script, lists and guards must be as before.
    pub fn read(&mut self, edition: u32) -> Result<Answer, String> {
        let before = self.script.clone();
        let mut answer = Guarded::new(&[WORD; ANSWER], WORD);
        let lists = lists_of(&self.lent);
        calls::read(
            self.script.slice(),
            edition,
            &lists,
            self.records.slice_mut(),
            self.directory.slice_mut(),
            words_of(&mut answer),
        );
        if !self.script.holds(before.slice()) {
            return Err("the read has changed its script".to_string());
        }
        self.checked(answer)
    }

    /// Amends what the slices hold, with these totals. Text, lists and guards must be as before.
    pub fn amend(&mut self, change: Change, totals: &Totals) -> Result<Answer, String> {
        let text = Guarded::new(change.text, BYTE);
        let mut answer = Guarded::new(&[WORD; ANSWER], WORD);
        answer.slice_mut()[ANSWER - TOTALS..].copy_from_slice(totals);
        let lent = Change {
            statement: change.statement,
            text: text.slice(),
        };
        let lists = lists_of(&self.lent);
        calls::amend(
            self.script.slice_mut(),
            lent,
            &lists,
            self.records.slice_mut(),
            self.directory.slice_mut(),
            words_of(&mut answer),
        );
        if !text.holds(change.text) {
            return Err("the amendment has changed its text".to_string());
        }
        self.checked(answer)
    }

    fn checked(&self, answer: Guarded<u32>) -> Result<Answer, String> {
        let lists = [
            self.lists.reserved, self.lists.currencies, self.lists.day_counters,
        ];
        if !self
            .lent
            .iter()
            .zip(lists)
            .all(|(lent, list)| lent.holds(list))
        {
            return Err("the call has changed a list".to_string());
        }
        let words = self.records.is_intact() && self.directory.is_intact();
        if !(words && self.script.is_intact() && answer.is_intact()) {
            return Err("the call has written outside its slices".to_string());
        }
        Ok(answer.slice().try_into().expect("an answer has its length"))
    }
}

fn lists_of(lent: &[Guarded<u8>; 3]) -> Lists<'_> {
    Lists {
        reserved: lent[0].slice(),
        currencies: lent[1].slice(),
        day_counters: lent[2].slice(),
    }
}

fn words_of(answer: &mut Guarded<u32>) -> &mut Answer {
    answer
        .slice_mut()
        .try_into()
        .expect("an answer has its length")
}
