//! Section 13.1: where a word leads.

use crate::card::Card;
use crate::check::{Context, Findings};
use crate::manual::{number, numbers, Row, Table};
use crate::operations::program;

/// The place of the word that is looked at, and of the target that its immediate says.
const AT: usize = 4;
const TARGET: usize = 9;

/// The words that a word at AT reaches, itself not counted. Those behind it lead nowhere, or each is a jmp with a target of its own, which is
/// reached where the word is reached in full.
fn reached(card: &Card, wide: bool, word: u32, leading: bool) -> Vec<usize> {
    let shift = if wide { 26 } else { 10 };
    let length = if wide { 4 } else { 2 };
    let mut words = [55 << shift; 24];
    words[AT] = word;
    if leading {
        for k in 1..=3 {
            let from = (AT + k + 1) * length;
            words[AT + k] = 36 << shift | ((own(k) * length - from) / 2) as u32;
        }
    }
    let code = program(wide, &words);
    let (_, map) = card.reach(&code, wide, (AT * length) as u32, code.len());
    let places = map.iter().enumerate().filter(|(_, &byte)| byte == 1).map(|(k, _)| k);
    places.filter(|&k| k % length == 0).map(|k| k / length).filter(|&k| k != AT).collect()
}

/// The target of the word k on.
fn own(k: usize) -> usize {
    TARGET + 4 * k
}

/// 13.1: what each operation reaches, with and without a condition and with both widths of swm.
pub fn flows(ctx: &Context, table: &Table, findings: &mut Findings) {
    for operation in 0..64 {
        let about = |row: &&Row| numbers(table.cell(row, "Operations")).is_some_and(|l| l.contains(&operation));
        let rows: Vec<&Row> = table.rows.iter().filter(about).collect();
        let [row] = rows[..] else {
            findings.table(table, format!("{} rows are about operation {operation}", rows.len()));
            continue;
        };
        for wide in [false, true] {
            for low in 0..4 {
                flow(ctx, table, row, findings, (operation, wide, low & 1 == 1, low >> 1));
            }
        }
    }
    for row in &table.rows {
        if numbers(table.cell(row, "Operations")).is_none_or(|l| l.iter().any(|&o| o > 63)) {
            findings.row(table, row, "names no operations");
        }
    }
}

fn flow(ctx: &Context, table: &Table, row: &Row, findings: &mut Findings, (operation, wide, conditional, low): (u32, bool, bool, u32)) {
    let immediate = (TARGET - AT - 1) as u32 * if wide { 2 } else { 1 };
    let jump = (36..=37).contains(&operation) || (40..=47).contains(&operation);
    let word = match (wide, jump) {
        (true, true) => operation << 26 | immediate,
        (true, false) => operation << 26 | u32::from(conditional) << 25 | low,
        (false, true) => operation << 10 | immediate,
        (false, false) => operation << 10 | low,
    };
    let mut full: Vec<usize> = Vec::new();
    match table.cell(row, "Next word") {
        "always" => full.push(AT + 1),
        "with a condition" if wide && conditional => full.push(AT + 1),
        "with a condition" | "never" => {}
        _ => return findings.row(table, row, "no next word that the test knows"),
    }
    match table.cell(row, "Target") {
        "yes" => full.push(TARGET),
        "no" => {}
        _ => return findings.row(table, row, "no target that the test knows"),
    }
    let (Some(on), Some(slots)) = (number(table.cell(row, "Words on")), number(table.cell(row, "Slots"))) else {
        return findings.row(table, row, "no number where one must be");
    };
    let (on, slots) = (on as usize, slots as usize);
    // What is reached in full is said once, and no slot besides.
    let twice = full.contains(&(AT + on)) || slots > 0 && !conditional && full.contains(&(AT + slots));
    if on > 0 && (operation != 54 || low & 1 == u32::from(wide)) {
        full.push(AT + on);
    }
    if twice || slots > 0 && !conditional && full.contains(&(AT + slots)) {
        return findings.row(table, row, "a word is said to be reached twice");
    }
    for leading in [false, true] {
        let mut right: Vec<usize> = (1..=slots).map(|k| AT + k).chain(full.iter().copied()).collect();
        for k in (1..=3).filter(|k| leading && full.contains(&(AT + k))) {
            right.extend([own(k), AT + k + 1]);
        }
        right.sort_unstable();
        right.dedup();
        let found = reached(&ctx.card, wide, word, leading);
        if found != right {
            return findings.row(table, row, format!("operation {operation} ({word:X}h) at word {AT} reaches {found:?}"));
        }
    }
}
