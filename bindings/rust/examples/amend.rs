//! Reads a note, replaces a statement, and lists what each variable is called and where it stands:
//! `cargo run --example amend`.

use gorembiin::{Edition, Kind, Lists, Note, Record, Refusal, Statement, Which};

fn main() -> Result<(), Refusal> {
    let lists = Lists { currencies: b"USD\nEUR\nCHF\n", ..Lists::default() };
    let script = b"rate = 0.05;\nfloor = 0.01;\npays rate in \"CHF\";\n";
    let mut note = Note::read(script, Edition::Two, lists)?;

    note.amend(1, b"floor = max(0, rate - 0.02);")?;
    println!("{}", String::from_utf8_lossy(note.script()));

    for statement in note.statements() {
        let variables = statement.records().filter(|record| record.kind() == Some(Kind::Variable));
        let names: Vec<String> = variables.map(|record| name_and_place(&statement, record)).collect();
        println!("statement {} names {}", statement.number(), names.join(", "));
    }

    // A refusal says why and where, and leaves the note as it was.
    if let Err(refusal) = note.amend(0, b"rate = 5%;") {
        println!("refused: {refusal}");
    }
    Ok(())
}

fn name_and_place(statement: &Statement, record: Record) -> String {
    let name = String::from_utf8_lossy(statement.text_of(record, Which::First).bytes);
    let place = statement.position_of(record).map_or(String::new(), |at| format!(" at {}:{}", at.line, at.column));
    format!("{name}{place}")
}
