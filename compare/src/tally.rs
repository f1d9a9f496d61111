//! What was compared, in numbers.
use crate::memory::Room;
use crate::reading::{self, Same};
use crate::reduce;

/// More than the greatest ground.
pub const GROUNDS: usize = 27;

/// What a call can answer.
fn grounds() -> impl Iterator<Item = usize> {
    (0..=20).chain([26])
}

/// Differences that are printed of each section; the others are counted.
const SHOWN: u64 = 3;

/// One row of the table.
pub struct Section {
    pub name: String,
    pub remark: String,
    pub by_rust: [u64; GROUNDS],
    pub by_second: [u64; GROUNDS],
    pub by_rule: [u64; GROUNDS],
    pub amended: [u64; GROUNDS],
    pub looked_up: u64,
    pub outside: u64,
    pub differ: u64,
}

impl Section {
    /// A row of an edition. The first goes without saying.
    pub fn in_edition(name: &str, edition: u32) -> Self {
        match edition {
            1 => Self::new(name),
            _ => Self::new(&format!("{name}, edition {edition}")),
        }
    }

    pub fn new(name: &str) -> Self {
        Self {
            name: name.to_string(),
            remark: String::new(),
            by_rust: [0; GROUNDS],
            by_second: [0; GROUNDS],
            by_rule: [0; GROUNDS],
            amended: [0; GROUNDS],
            looked_up: 0,
            outside: 0,
            differ: 0,
        }
    }

    /// Reads a script in an edition on both sides and counts it; reduces and shows it where the sides differ.
    pub fn compare(&mut self, edition: u32, script: &str, room: Room) -> Option<Same> {
        match reading::compare(edition, script, room) {
            Ok(same) => {
                self.count(same);
                Some(same)
            }
            Err(_) => {
                if self.differs() {
                    show(&self.name, edition, script, room);
                }
                None
            }
        }
    }

    pub fn count(&mut self, same: Same) {
        match same {
            Same::AsRust(answer) => self.by_rust[answer[0] as usize] += 1,
            Same::AsSecond(answer) => self.by_second[answer[0] as usize] += 1,
            Same::ByRule(answer) => self.by_rule[answer[0] as usize] += 1,
            Same::Outside => self.outside += 1,
        }
    }

    /// Counts a difference, and says whether it is to be shown.
    pub fn differs(&mut self) -> bool {
        self.differ += 1;
        self.differ <= SHOWN
    }

    fn compared(&self) -> u64 {
        let all = self
            .by_rust
            .iter()
            .chain(&self.by_second)
            .chain(&self.by_rule)
            .chain(&self.amended);
        all.sum::<u64>() + self.looked_up + self.differ
    }
}

#[derive(Default)]
pub struct Tally {
    sections: Vec<Section>,
}

impl Tally {
    pub fn add(&mut self, section: Section) {
        self.sections.push(section);
    }

    pub fn differ(&self) -> u64 {
        self.sections.iter().map(|section| section.differ).sum()
    }

    pub fn print(&self) {
        println!("| what | compared | accepted | refused | skipped | differ | |");
        println!("|---|---|---|---|---|---|---|");
        for section in &self.sections {
            let accepted =
                section.by_rust[0] + section.by_second[0] + section.by_rule[0] + section.amended[0];
            println!(
                "| {} | {} | {accepted} | {} | {} | {} | {} |",
                section.name,
                section.compared(),
                section.compared() - accepted - section.looked_up - section.differ,
                section.outside,
                section.differ,
                section.remark
            );
        }
        self.print_grounds();
    }

    fn print_grounds(&self) {
        println!(
            "\n| ground | reads, as the Rust | as the second parser | by the rule | amendments |"
        );
        println!("|---|---|---|---|---|");
        for ground in grounds() {
            let sum = |of: fn(&Section) -> &[u64; GROUNDS]| {
                self.sections
                    .iter()
                    .map(|section| of(section)[ground])
                    .sum::<u64>()
            };
            println!(
                "| {ground} | {} | {} | {} | {} |",
                sum(|s| &s.by_rust),
                sum(|s| &s.by_second),
                sum(|s| &s.by_rule),
                sum(|s| &s.amended)
            );
        }
    }
}

/// Reduces a script that differs and prints it.
fn show(section: &str, edition: u32, script: &str, room: Room) {
    let compare = |text: &str| reading::compare(edition, text, room);
    let reduced = reduce::text(script, |text| compare(text).is_err());
    println!("DIFFERS in {section}: {reduced:?}, edition {edition}, {room:?}");
    println!("  from {script:?}");
    println!("  {}", compare(&reduced).err().unwrap_or_default());
}
