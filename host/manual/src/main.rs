//! Compares the tables of docs/MANUAL.md with the library, its header and the service program's sources.
//!
//! `manual ROOT` prints a line for each difference, and last how much was compared; its status is then 1 or 0.
//! `manual ROOT --faults` alters one number of a table, or one kind of answer of the library, at a time, and sees that there is a difference.

mod block;
mod card;
mod check;
mod effects;
mod image;
mod images;
mod manual;
mod operations;
mod reach;
mod sources;
mod steps;
mod words;

use card::{Card, Fault};
use check::{Check, Context, Facts, Findings, Sources};
use manual::{Manual, Table};
use std::path::Path;
use std::process::ExitCode;

/// The tables that are compared.
const CHECKS: [Check; 24] = [
    check("1.4", "Bit | Name | 0 | 1", &[], words::status),
    check("2.3", "Operand | Words | Operations | Bits | Least | Most", &[], words::operands),
    check("2.6", "No. | Condition | Holds if", &[], words::conditions),
    check("3.1", "No. | Mnemonic | 32-bit operands | 16-bit operands | Reads | Writes | Flags | Conditional | Where | Slot | Nops | Ends with | Worked word",
        &[], words::operations),
    check("4.2", "Source | Name | Vector | Priority number", &[], block::interrupts),
    check("4.9", "Code | When", &[], steps::exceptions),
    check("4.10", "Stop | Name | When", &[], steps::stops),
    check("5.1", "Offset | Name | Bits | At reset | A store keeps | Note", &["Note"], block::registers),
    check("7.2", "Count before the tick | CONT | Count after it | Reaches the maximum", &[], steps::ticks),
    check("8.1", "Offset | Bytes | Field | Least | Most | Refusal", &[], images::layout),
    check("8.2", "Field | Offset | Rule | Refusal", &[], images::rules),
    check("9.1", "Call | Library | C | Questions in order", &[], images::calls),
    check("9.2", "Refusal | Asked by | When", &[], images::refusals),
    check("10.2", "Hypothesis | Field | Offset | Condition", &[], images::hypotheses),
    check("10.3", "Part | After a transition of the segment", &[], images::integrity),
    check("10.4", "Equal at the start | May differ at the start", &[], images::confidentiality),
    check("11.1", "Column | Characters | Part", &[], words::line),
    check("12.1", "Question | Refusal | When", &[], words::questions),
    check("13.1", "Operations | Next word | Target | Words on | Slots", &[], reach::flows),
    check("14.1", "Parameter | Count | Unit | Written | What", &["What"], sources::parameters),
    check("14.2", "Constant | Value | What", &["What"], sources::constants),
    check("15.3", "Command | Options | Words | Least | Most | Prints", &["Prints"], sources::service),
    check("15.4", "Status | When", &["When"], sources::statuses),
    // What a step is given may be otherwise, and the rest of its row still right.
    check("16.1", "Word | Instruction | R1 | R2 | Outcome | After it", &["R1", "R2"], steps::worked),
];

/// The tables that are not: words alone, and examples that the gate proves or runs.
const NOT_COMPARED: [&str; 2] = ["16.2", "Glossary"];

/// The table that may have fewer rows.
const EXAMPLES: &str = "16.1";

/// Faults of the library's answers, and a table that must notice each.
const FAULTS: [(Fault, &str); 12] = [
    (Fault::Reset(image::CONTROL + 4 * 0x11), "5.1"),
    (Fault::Left(image::PC), "4.2"),
    (Fault::Left(image::SET_1 + 12), "16.1"),
    (Fault::Left(image::CONTROL + 4 * 0x23), "7.2"),
    (Fault::Ending, "4.10"),
    (Fault::Refusal, "9.2"),
    (Fault::Refusal, "12.1"),
    (Fault::Encode(22), "2.3"),
    (Fault::Encode(3), "3.1"),
    (Fault::Listing(20), "2.6"),
    (Fault::Listing(34), "11.1"),
    (Fault::Map(20), "13.1"),
];

/// Texts beside the library, the lines in them whose numbers are altered, and a table that must notice.
type Text = fn(&mut Sources) -> &mut String;
const NUMBERS: [(Text, &str, &str); 4] = [
    (|sources| &mut sources.header, "#define COFFEE_", "14.2"),
    (|sources| &mut sources.header, "_bytes", "14.1"),
    (|sources| &mut sources.limits, "MOST_WORDS = ", "15.3"),
    (|sources| &mut sources.statuses, " = ", "15.4"),
];

const fn check(
    section: &'static str,
    header: &'static str,
    free: &'static [&'static str],
    run: fn(&Context, &Table, &mut Findings),
) -> Check {
    Check { section, header, free, run }
}

fn main() -> ExitCode {
    let arguments: Vec<String> = std::env::args().skip(1).collect();
    let (root, faults) = match &arguments[..] {
        [root] => (Path::new(root), false),
        [root, option] if option == "--faults" => (Path::new(root), true),
        _ => {
            eprintln!("usage: manual ROOT [--faults]");
            return ExitCode::FAILURE;
        }
    };
    match compare(root, faults) {
        Ok(true) => ExitCode::SUCCESS,
        Ok(false) => ExitCode::FAILURE,
        Err(error) => {
            eprintln!("{error}");
            ExitCode::FAILURE
        }
    }
}

fn compare(root: &Path, faults: bool) -> Result<bool, String> {
    let read = |file: &str| {
        let path = root.join(file);
        std::fs::read_to_string(&path).map_err(|error| format!("{}: {error}", path.display()))
    };
    let manual = Manual::read(&read("docs/MANUAL.md")?);
    let sources = Sources {
        header: read("include/coffee.h")?,
        names: read("host/service/names.c")?,
        commands: read("host/service/main.c")?,
        limits: read("host/service/commands.h")?,
        statuses: read("host/service/report.h")?,
        definitions: definitions(&root.join("crates")).map_err(|error| format!("crates: {error}"))?,
    };
    let facts = facts(&Card::default(), &sources);
    let context = Context { card: Card::default(), manual: &manual, facts: &facts, sources: &sources };
    let right = everything(&context);
    for line in &right {
        println!("{line}");
    }
    Ok(right.is_empty() && if faults { alter(&context) } else { tell(&manual) })
}

/// The definitions of all crates, one after another.
fn definitions(crates: &Path) -> std::io::Result<String> {
    let mut text = String::new();
    for folder in std::fs::read_dir(crates)? {
        let specs = folder?.path().join("specs");
        if specs.is_dir() {
            for file in std::fs::read_dir(specs)? {
                let path = file?.path();
                if path.is_file() {
                    text.push_str(&std::fs::read_to_string(path)?);
                }
            }
        }
    }
    Ok(text)
}

/// Says how much is compared.
fn tell(manual: &Manual) -> bool {
    let compared = |table: &&Table| CHECKS.iter().any(|check| check.section == table.section);
    let rows: usize = manual.tables.iter().filter(compared).map(|table| table.rows.len()).sum();
    let free = |check: &Check| check.free.iter().map(|column| format!("{column} of {}", check.section)).collect::<Vec<_>>();
    let columns: Vec<String> = CHECKS.iter().filter(|check| check.section != EXAMPLES).flat_map(free).collect();
    println!("not compared: the tables of {}; the columns {}", NOT_COMPARED.join(", "), columns.join(", "));
    println!("manual: {} tables with {rows} rows compared, no difference", CHECKS.len());
    true
}

/// Sees that each number that is another, on either side, makes a difference.
fn alter(right: &Context) -> bool {
    let (mut altered, mut missed) = (0, 0);
    let mut see = |context: &Context, check: &Check, what: &str| {
        altered += 1;
        if one(context, check).is_empty() {
            missed += 1;
            println!("not noticed: {what}");
        }
    };
    for check in &CHECKS {
        for (what, wrong) in alterations(right.manual, check) {
            see(&Context { manual: &wrong, ..*right }, check, &what);
        }
    }
    for (fault, section) in FAULTS {
        let card = Card { fault: Some(fault) };
        let facts = facts(&card, right.sources);
        for check in CHECKS.iter().filter(|check| check.section == section) {
            see(&Context { card, facts: &facts, ..*right }, check, &format!("{fault:?} by Manual {section}"));
        }
    }
    for (text, mark, section) in NUMBERS {
        let mut sources = right.sources.clone();
        let source = text(&mut sources).clone();
        for line in source.lines().filter(|line| line.contains(mark)) {
            for other in numbers_altered(line) {
                *text(&mut sources) = source.replace(line, &other);
                for check in CHECKS.iter().filter(|check| check.section == section) {
                    see(&Context { sources: &sources, ..*right }, check, &other);
                }
            }
        }
    }
    println!("manual: {altered} faults in {} tables and on the library's side, {missed} not noticed", CHECKS.len());
    missed == 0
}

fn facts(card: &Card, sources: &Sources) -> Facts {
    Facts { operations: operations::all(card), registers: block::all(card, sources) }
}

/// Compares every table, and sees that each is known here.
fn everything(context: &Context) -> Vec<String> {
    let mut lines: Vec<String> = CHECKS.iter().flat_map(|check| one(context, check)).collect();
    for table in &context.manual.tables {
        let compared = CHECKS.iter().any(|check| check.section == table.section);
        if !compared && !NOT_COMPARED.contains(&table.section.as_str()) {
            lines.push(format!("Manual {}: the table is not compared", table.section));
        }
    }
    lines
}

/// Compares one table.
fn one(context: &Context, check: &Check) -> Vec<String> {
    let mut findings = Findings::default();
    let tables: Vec<&Table> = context.manual.tables.iter().filter(|t| t.section == check.section).collect();
    match tables[..] {
        [table] if table.header.join(" | ") != check.header => findings.table(table, format!("the columns must be {}", check.header)),
        [table] => match table.rows.iter().find(|row| row.cells.len() != table.header.len()) {
            Some(row) => findings.row(table, row, "not as many cells as columns"),
            None => (check.run)(context, table, &mut findings),
        },
        _ => findings.lines.push(format!("Manual {}: {} tables, and there must be one", check.section, tables.len())),
    }
    findings.lines
}

/// Copies of the manual with one number of a table another, or without one of its rows.
fn alterations(manual: &Manual, check: &Check) -> Vec<(String, Manual)> {
    let Some(place) = manual.tables.iter().position(|t| t.section == check.section) else {
        return Vec::new();
    };
    let table = &manual.tables[place];
    let mut all = Vec::new();
    for (index, row) in table.rows.iter().enumerate() {
        if check.section != EXAMPLES {
            let mut without = manual.clone();
            without.tables[place].rows.remove(index);
            all.push((format!("Manual {} without line {}", check.section, row.line), without));
        }
        for (column, cell) in row.cells.iter().enumerate() {
            if check.free.contains(&table.header[column].as_str()) {
                continue;
            }
            for other in numbers_altered(cell) {
                let mut wrong = manual.clone();
                wrong.tables[place].rows[index].cells[column] = other.clone();
                all.push((format!("Manual {}, line {}: {cell} as {other}", check.section, row.line), wrong));
            }
        }
    }
    all
}

/// The text with the last digit of one number another, for each number; references to sections stay.
fn numbers_altered(cell: &str) -> Vec<String> {
    let letters: Vec<char> = cell.chars().collect();
    let hexadecimal = |i: usize| letters[i].is_ascii_digit() || ('A'..='F').contains(&letters[i]);
    let at = |i: usize| letters.get(i).copied().unwrap_or(' ');
    let mut all = Vec::new();
    let mut i = 0;
    while i < letters.len() {
        let run = (i..letters.len()).take_while(|&k| hexadecimal(k)).count();
        let fresh = i == 0 || !letters[i - 1].is_alphanumeric();
        let decimal = (i..letters.len()).take_while(|&k| letters[k].is_ascii_digit()).count();
        let length = if fresh && run > 0 && at(i + run) == 'h' { run } else { decimal };
        if length == 0 {
            i += 1;
            continue;
        }
        let digit = |k: usize| k < letters.len() && letters[k].is_ascii_digit();
        let before = i > 1 && letters[i - 1] == '.' && digit(i - 2);
        let behind = at(i + length) == '.' && digit(i + length + 1);
        if !before && !behind {
            let mut other = letters.clone();
            let last = i + length - 1;
            other[last] = match other[last] {
                '9' | 'F' => '0',
                c => char::from_u32(c as u32 + 1).unwrap_or('0'),
            };
            all.push(other.into_iter().collect());
        }
        i += length;
    }
    all
}
