//! Random runs of amendments.
use crate::amending::{self, Harm, Run, Step};
use crate::damage;
use crate::generate::{self, Item};
use crate::memory::Room;
use crate::random::Random;
use crate::reading::DEPTH;
use crate::reduce;
use crate::rules::LISTS;
use crate::second;
use crate::spacing;
use crate::tally::Section;
use crate::towers::tower;
use calls::{EDITION, ENTRY, LATEST, MOST_BYTES, RECORD, TOTALS};

/// One run in an edition. Each of its amendments counts.
pub fn compare(random: &mut Random, edition: u32, section: &mut Section) {
    let run = run(random, edition);
    match amending::compare(&run) {
        Ok(trace) => trace[1..].iter().for_each(|(answer, _)| {
            section.amended[answer[0] as usize] += 1;
        }),
        Err(_) => {
            if section.differs() {
                show(&run);
            }
        }
    }
}

/// A script that is read, and up to six amendments of it.
pub fn run(random: &mut Random, edition: u32) -> Run {
    let (script, statements) = base(random, edition);
    let spare = [0, 8, 64, 400, 400][random.below(5)];
    let room = match random.below(12) {
        0 => Room {
            records: random.below(60 * RECORD),
            directory: random.below(10 * ENTRY),
        },
        _ if script.len() < 4_096 => Room::of(400, 64),
        _ => Room::FULL,
    };
    let steps = (0..1 + random.below(6))
        .map(|_| step(random, edition, statements))
        .collect();
    let harm = random.once_in(8).then(|| harm(random));
    Run {
        edition,
        script,
        spare,
        room,
        harm,
        steps,
    }
}

/// A script and how many of its statements are amended. Mostly it has a few statements and is accepted; seldom it has none,
/// or fills one of the capacities.
fn base(random: &mut Random, edition: u32) -> (String, usize) {
    if random.once_in(40) {
        return (full(random), 3);
    }
    if random.once_in(40) {
        return ("# none\n".to_string(), 0);
    }
    loop {
        let statements = 1 + random.below(5);
        let items = generate::script(random, edition, statements);
        let script = spacing::text(&items, random);
        let read = second::read(script.as_bytes(), edition, Room::FULL, &LISTS);
        if read.answer[0] == 0 || random.once_in(40) {
            return (script, statements);
        }
    }
}

fn full(random: &mut Random) -> String {
    match random.below(4) {
        0 => "x;".repeat(508 + random.below(5)),
        1 => format!("x;y;z=1;{}", "pays 1 1 1 1 1 1;".repeat(290)),
        2 => format!("x;y;z=1;{}", "x=(((1)));".repeat(408 - random.below(2))),
        _ => format!("x;y;z=1;#{}", ".".repeat(MOST_BYTES - 9 - random.below(20))),
    }
}

fn step(random: &mut Random, edition: u32, statements: usize) -> Step {
    let statement = match random.below(40) {
        0 => u32::MAX,
        1 => (statements + random.below(4)) as u32,
        _ => random.below(statements.max(1)) as u32,
    };
    let text = text(random, edition).into_bytes();
    Step { statement, text }
}

/// A new text: mostly statements that end well.
fn text(random: &mut Random, edition: u32) -> String {
    if random.once_in(200) {
        return [
            " ".repeat(MOST_BYTES + 1),
            ";".repeat(4_097),
            "x;".repeat(513),
        ][random.below(3)]
        .clone();
    }
    if random.once_in(40) {
        let storeys = DEPTH - 1 + random.below(4);
        return tower(random, edition, storeys).0;
    }
    let beginnings = ["", "", "\n", " ", "# c\n", "\r\n"];
    let good = ["", "\n", "# c\n", "\r\n"];
    let bad = [" ", "# c", "\t", "pays 1", ";", "x", "\0"];
    let statements = [0, 1, 1, 1, 1, 1, 2, 3][random.below(8)];
    let mut items = generate::script(random, edition, statements);
    if random.once_in(8) {
        damage::tokens(&mut items, random);
    }
    let mut text = random.pick(&beginnings).to_string() + &joined(&items, random);
    if random.once_in(12) {
        damage::characters(&mut text, random);
    }
    let endings: &[&str] = if random.once_in(4) { &bad } else { &good };
    text + random.pick(endings)
}

/// The items with blanks between them, or sometimes with line breaks where none is tight.
fn joined(items: &[Item], random: &mut Random) -> String {
    let breaks = random.once_in(4);
    let mut text = String::new();
    for item in items {
        if !text.is_empty() {
            text += if breaks && !item.tight { "\n" } else { " " };
        }
        text += &item.text;
    }
    text
}

/// Words around the limits, and no counts at all.
const WORDS: [u32; 16] = [
    0,
    1,
    2,
    3,
    4,
    7,
    16,
    512,
    513,
    2_048,
    2_049,
    4_097,
    16_384,
    16_385,
    1 << 31,
    u32::MAX,
];

/// No date, days that scripts have and others, and no day's count.
const DATES: [u32; 8] = [
    0, 1, 737_484, 737_485, 3_652_058, 3_652_059, 3_652_060, 0xffff_ffff,
];

fn harm(random: &mut Random) -> Harm {
    let word = WORDS[random.below(WORDS.len())];
    let mut date = || DATES[random.below(DATES.len())];
    let dates = [(); 6].map(|()| date());
    match random.below(5) {
        0 => Harm::Total(random.below(TOTALS), word),
        1 => Harm::Entry(random.below(6 * ENTRY), word),
        2 => Harm::Total(LATEST, dates[0]),
        3 => Harm::Total(EDITION, WORDS[random.below(5)]),
        _ => Harm::Dates(dates),
    }
}

/// Reduces a run that differs and prints it.
fn show(run: &Run) {
    let small = reduced(run);
    let Run {
        edition,
        script,
        spare,
        room,
        harm,
        steps,
    } = &small;
    println!("DIFFERS in amendments, edition {edition}: {script:?}, {spare} bytes behind it, {room:?}, {harm:?}");
    for step in steps {
        let text = String::from_utf8_lossy(&step.text);
        println!("  statement {} by {text:?}", step.statement);
    }
    println!("  {}", amending::compare(&small).err().unwrap_or_default());
}

/// Fewer steps first, then a shorter script, then shorter texts.
fn reduced(run: &Run) -> Run {
    let differs = |run: Run| amending::compare(&run).is_err();
    let mut small = run.clone();
    small.steps = reduce::list(&run.steps, |steps| {
        let steps = steps.to_vec();
        differs(Run {
            steps,
            ..run.clone()
        })
    });
    small.script = reduce::text(&run.script, |script| {
        let script = script.to_string();
        differs(Run {
            script,
            ..small.clone()
        })
    });
    for k in 0..small.steps.len() {
        let with = |text: &str| {
            let mut other = small.clone();
            other.steps[k].text = text.as_bytes().to_vec();
            other
        };
        if let Ok(text) = std::str::from_utf8(&small.steps[k].text) {
            small = with(&reduce::text(text, |text| differs(with(text))));
        }
    }
    small
}
