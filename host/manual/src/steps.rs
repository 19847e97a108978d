//! Sections 4.9, 4.10, 7.2 and 16.1: exceptions, stops, ticks and worked steps.

use crate::card::{Card, Given};
use crate::check::{Context, Findings};
use crate::image::*;
use crate::manual::{number, Row, Table};
use crate::operations::{end_of, plain, program, text, End};
use std::collections::BTreeSet;

fn encode(operation: u32, operands: [i32; 4]) -> u32 {
    Card::default().encode(operation, true, None, operands).expect("a word of the test")
}

/// A machine at the first of some words.
fn at(words: &[u32]) -> Given {
    let mut given = plain(true);
    given.program = program(true, words);
    given
}

/// The same in user mode, with these program bytes and data addresses protected.
fn user(words: &[u32], code: (u32, u32), data: (u32, u32)) -> Given {
    let mut given = at(words);
    let image = &mut given.image;
    image.set(PSR, 9).set_control(IMEM_LO, code.0).set_control(IMEM_HI, code.1);
    image.set_control(DMEM_LO, data.0).set_control(DMEM_HI, data.1);
    given
}

const NONE: (u32, u32) = (1, 0);

fn with(mut given: Given, offset: usize, value: u32) -> Given {
    given.image.set(offset, value);
    given
}

/// 4.9: each exception, by a step that is as the row says.
pub fn exceptions(ctx: &Context, table: &Table, findings: &mut Findings) {
    let ld = encode(27, [1, 2, 0, 0]);
    let narrow = |operation: u32| {
        let mut given = plain(false);
        given.program = program(false, &[operation << 10, 0]);
        given
    };
    let max = |given: Given| with(given, SET_1 + 8, u32::MAX);
    let cases: Vec<(&str, Vec<Given>)> = vec![
        (
            "user mode: a byte of the word (4.3), or of a nop that must follow it (4.6), is protected",
            vec![user(&[0, 0], (3, 3), NONE), user(&[48 << 26, 0], (7, 7), NONE)],
        ),
        ("operation not available in this width or mode (4.4)", vec![narrow(34), user(&[51 << 26], NONE, NONE)]),
        ("target of a taken jump misaligned (4.8)", vec![at(&[encode(36, [1, 0, 0, 0]), 0])]),
        ("target of a taken jump outside 32 bits (4.8)", vec![at(&[encode(36, [-3, 0, 0, 0]), 0])]),
        ("PC misaligned (4.3)", vec![with(at(&[0, 0]), PC, 2)]),
        (
            "add, addi or sub leaves the signed 32-bit range (3.2)",
            vec![
                with(at(&[encode(18, [1, 2, 1, 0])]), SET_1 + 8, 0x7FFF_FFFF),
                with(at(&[encode(1, [1, 2, 2, 0])]), SET_1 + 8, 0x7FFF_FFFF),
                with(at(&[encode(3, [1, 3, 2, 0])]), SET_1 + 8, 0x8000_0000),
            ],
        ),
        ("user mode: data address protected (4.7)", vec![user(&[ld], NONE, (0, 0))]),
        ("data address outside 32 bits (4.7)", vec![max(at(&[encode(27, [1, 2, 1, 0])])), at(&[encode(28, [1, 2, -1, 0])])]),
        (
            "user mode: a byte at the target of a taken jump is protected (4.8)",
            vec![user(&[encode(36, [2, 0, 0, 0]), 0, 0], (11, 11), NONE)],
        ),
    ];
    if !findings.rows(table, cases.len() + 1) {
        return;
    }
    let mut codes = BTreeSet::new();
    for (row, (when, steps)) in table.rows.iter().zip(cases) {
        findings.cell(table, row, "When", when);
        for given in steps {
            match end_of(&ctx.card, &given) {
                Some(End::Exception(code)) => {
                    codes.insert(code);
                    findings.cell(table, row, "Code", format!("{code:02X}h"));
                }
                other => findings.row(table, row, format!("such a step ends with {other:?}")),
            }
        }
    }
    let trap = |n: i32| end_of(&ctx.card, &at(&[encode(55, [n, 0, 0, 0])]));
    let most = ctx.facts.operations[55].operands[1].as_ref().and_then(|o| o.first()).map_or(0, |o| o.most as i32);
    let row = table.rows.last().expect("counted");
    findings.cell(table, row, "When", format!("trap 0 to trap {most}"));
    if let (Some(End::Exception(first)), Some(End::Exception(last))) = (trap(0), trap(most)) {
        findings.cell(table, row, "Code", format!("{first:02X}h to {last:02X}h"));
        codes.extend(first..=last);
    }
    for end in ctx.facts.operations.iter().flat_map(|o| &o.ends) {
        if matches!(end, End::Exception(code) if !codes.contains(code)) {
            findings.table(table, format!("{end:X?} occurs, too"));
        }
    }
}

/// The stops' numbers, each by a step that comes to it.
fn stops_of(card: &Card) -> Vec<(&'static str, &'static str, Vec<Option<End>>)> {
    let end = |given: &Given| end_of(card, given);
    let slot = |operation: u32| end(&with(with(at(&[operation << 26, 0, 0, 0]), SLOT, 1), TARGET, 4));
    vec![
        (
            "absent word",
            "a byte of the word (4.3), or of a nop that must follow it (4.6), is not in program memory",
            vec![end(&with(at(&[0]), PC, 4)), end(&at(&[48 << 26])), end(&at(&[54 << 26, 0]))],
        ),
        (
            "absent cell",
            "a data address leads neither to the control block nor to a cell (4.7)",
            vec![end(&at(&[encode(27, [1, 2, 32, 0])])), end(&with(at(&[encode(28, [1, 2, 0, 0])]), SET_1 + 8, u32::MAX))],
        ),
        ("transfer in a slot", "operation 36 to 50 or 54 while the slot flag is 1 (4.4)", (36..=50).chain([54]).map(slot).collect()),
        ("no product", "mulhi with no product held (3.2)", vec![end(&at(&[31 << 26]))]),
        ("empty stack", "reti with an empty interrupt stack (3.2)", vec![end(&at(&[50 << 26, 0, 0, 0]))]),
        (
            "missing nop",
            "a word that must be a nop has another operation (4.6)",
            vec![end(&at(&[54 << 26, 0, 52 << 26])), end(&at(&[48 << 26, 52 << 26]))],
        ),
    ]
}

/// 4.10: each stop, by steps that are as the row says.
pub fn stops(ctx: &Context, table: &Table, findings: &mut Findings) {
    let cases = stops_of(&ctx.card);
    if !findings.rows(table, cases.len()) {
        return;
    }
    for (row, (name, when, ends)) in table.rows.iter().zip(cases) {
        findings.cell(table, row, "Name", name);
        findings.cell(table, row, "When", when);
        for end in ends {
            match end {
                Some(End::Stop(stop)) => findings.cell(table, row, "Stop", stop.to_string()),
                other => findings.row(table, row, format!("such a step ends with {other:?}")),
            }
        }
    }
    let transfers: Vec<u32> = ctx.facts.operations.iter().filter(|o| o.ends.contains(&End::Stop(13))).map(|o| o.number).collect();
    if transfers != (36..=50).chain([54]).collect::<Vec<_>>() {
        findings.table(table, format!("in a slot stop 13 is of {transfers:?}"));
    }
}

/// 7.2: a tick of both timers, with counts at the edges.
pub fn ticks(ctx: &Context, table: &Table, findings: &mut Findings) {
    if !findings.rows(table, 3) {
        return;
    }
    for row in &table.rows {
        for timer in 0..2 {
            for (count, max) in [(0, 0), (0, 1), (4, 5), (5, 5), (7, 5), (u32::MAX, 0), (u32::MAX, 3), (u32::MAX, u32::MAX), (9, 0)] {
                for cont in 0..2 {
                    tick(ctx, table, row, findings, timer, (count, max, cont));
                }
            }
        }
    }
}

fn tick(ctx: &Context, table: &Table, row: &Row, findings: &mut Findings, timer: usize, (count, max, cont): (u32, u32, u32)) {
    let before = match table.cell(row, "Count before the tick") {
        "not the maximum" => count != max,
        "the maximum" => count == max,
        _ => return findings.row(table, row, "no count that the test knows"),
    };
    let conts = table.cell(row, "CONT");
    if !["0", "1", "0 or 1"].contains(&conts) {
        return findings.row(table, row, "no CONT that the test knows");
    }
    if !before || !conts.contains(&cont.to_string()) {
        return;
    }
    // EN and GINT, DIV 0, INTN 2 + timer.
    let mut given = at(&[0, 0]);
    let half = 1 << 15 | cont << 14 | 1 << 13 | (2 + timer as u32) << 8;
    given.image.set_control(0x27, half << (16 * timer));
    given.image.set_control(0x23 + 2 * timer, count).set_control(0x24 + 2 * timer, max);
    let left = ctx.card.run(&given).image;
    let after = match table.cell(row, "Count after it") {
        "one more, modulo 2^32" => count.wrapping_add(1),
        "0" => 0,
        "unchanged" => count,
        _ => return findings.row(table, row, "no count that the test knows"),
    };
    let reached = match table.cell(row, "Reaches the maximum") {
        "yes if it is now the maximum" => after == max,
        "yes if the maximum is 0" => max == 0,
        "no" => false,
        _ => return findings.row(table, row, "no maximum that the test knows"),
    };
    let requests = u32::from(reached) << (6 + timer);
    if left.control(0x23 + 2 * timer) != after || left.control(INT_PEND) != requests {
        findings.row(
            table,
            row,
            format!("timer {timer} with count {count}, maximum {max}, CONT {cont} goes to {}", left.control(0x23 + 2 * timer)),
        );
    }
}

/// 16.1: each worked step.
pub fn worked(ctx: &Context, table: &Table, findings: &mut Findings) {
    for row in &table.rows {
        let cell = table.cell(row, "Word").trim_end_matches('h');
        let (wide, Ok(word)) = (cell.len() == 8, u32::from_str_radix(cell, 16)) else {
            findings.row(table, row, "no word");
            continue;
        };
        let instruction = table.cell(row, "Instruction");
        let mut given = plain(wide);
        given.program = program(wide, &[word, 0, 0]);
        let nops = instruction.ends_with(", two nops behind it");
        if !nops {
            given.program.truncate(if wide { 4 } else { 2 });
        }
        given.cells = vec![77; 32];
        let image = &mut given.image;
        image.set(PSR, 9).set(CONDITIONS, 5).set_control(DMEM_LO, 0x10).set_control(DMEM_HI, 0x13);
        for (column, offset) in [("R1", SET_1 + 4), ("R2", SET_1 + 8)] {
            match number(table.cell(row, column)) {
                Some(value) => {
                    image.set(offset, value);
                }
                None => findings.row(table, row, format!("{column} is no number")),
            }
        }
        let line = ctx.card.line(wide, word);
        let listed = [&line[25..33], &line[34..47]].map(text).join(" ").trim().to_string();
        let besides = instruction.strip_prefix(&listed);
        match besides {
            Some("" | ", two nops behind it") => {}
            Some(", with PSR 01h, R25 3, R26 10") => {
                image.set(PSR, 1).set(SET_1 + 100, 3).set(SET_1 + 104, 10);
            }
            _ => findings.row(table, row, format!("the word is listed as '{listed}'")),
        }
        let outcome = ctx.card.run(&given);
        let end = match end_of(&ctx.card, &given) {
            None => "step".to_string(),
            Some(End::Exception(code)) => format!("exception {code:02X}h"),
            Some(End::Stop(stop)) => format!("stop {stop}"),
        };
        findings.cell(table, row, "Outcome", end);
        let left = &outcome.image;
        let parts: Vec<String> = table
            .cell(row, "After it")
            .split(", ")
            .map(|part| {
                let (name, value) = part.rsplit_once(' ').unwrap_or((part, ""));
                let found = match name {
                    "R3" => left.get(SET_1 + 12),
                    "R25" => left.get(SET_1 + 100),
                    "C0" => left.get(CONDITIONS),
                    "PC" => left.get(PC),
                    "slot flag" => left.get(SLOT),
                    "target" => left.get(TARGET),
                    "product high half" => left.get(HIGH),
                    "EXCEPTION_PSR" => left.control(EXCEPTION_PSR),
                    _ => return "a place that the test knows".to_string(),
                };
                match value.strip_suffix('h') {
                    Some(hex) => format!("{name} {found:0w$X}h", w = hex.len()),
                    None => format!("{name} {found}"),
                }
            })
            .collect();
        findings.cell(table, row, "After it", parts.join(", "));
    }
}
