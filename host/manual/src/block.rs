//! Sections 4.2 and 5.1: the control block and the interrupt sources.

use crate::card::Card;
use crate::check::{Context, Findings, Sources};
use crate::image::*;
use crate::manual::Table;
use crate::operations::{plain, program};

pub const REGISTERS: usize = 45;

/// A control register, as the library has it.
pub struct Register {
    pub reset: u32,
    pub bits: u32,
    pub keeps: String,
}

pub fn all(card: &Card, sources: &Sources) -> Vec<Register> {
    let reset = card.reset();
    (0..REGISTERS).map(|k| Register { reset: reset.control(k), bits: bits(card, sources, k), keeps: keeps(card, k) }).collect()
}

/// The most bits of a number that question 3 lets pass; of a register that is always the same, what its definition says.
fn bits(card: &Card, sources: &Sources, register: usize) -> u32 {
    let passes = |value: u32| {
        let mut given = plain(true);
        given.limit = 0;
        given.image.set_control(register, if register == 0 { value & !0xFF } else { value });
        card.run(&given).refusal != 3
    };
    let most = (0..=32).rev().find(|&bits| passes((1u64 << bits).wrapping_sub(1) as u32)).unwrap_or(0);
    if most > 1 {
        return most;
    }
    let mark = format!("{register:02X}h ");
    let line = sources.definitions.lines().find(|line| line.contains(&mark) && line.contains(" constant "));
    let bits = line.and_then(|line| line.split(" constant ").nth(1)?.split(' ').next()?.parse().ok());
    bits.unwrap_or(0)
}

/// The bits of a stored value that the register then has, as "31..8"; with an entry on the interrupt stack.
fn keeps(card: &Card, register: usize) -> String {
    let stored = |entries: &[[u32; 4]], value: u32| {
        let mut given = plain(true);
        let store = Card::default().encode(28, true, None, [1, 2, register as i32, 0]).expect("st");
        given.program = program(true, &[store, 0]);
        let base = given.image.control(0);
        given.image = given.image.stacked(entries, [0, 0]);
        given.image.set(SET_1 + 4, value).set(SET_1 + 8, base);
        let before = given.image.control(register);
        (before, card.run(&given).image.control(register))
    };
    let one = [[3, 0, 0, 0]];
    let kept = |entries: &[[u32; 4]], bit: u32| {
        let (on, off) = (stored(entries, 1 << bit).1, stored(entries, 0).1);
        on >> bit & 1 == 1 && off >> bit & 1 == 0
    };
    let all: Vec<u32> = (0..32).filter(|&bit| kept(&one, bit)).collect();
    let empty: Vec<u32> = (0..32).filter(|&bit| kept(&[], bit)).collect();
    let (Some(low), Some(high)) = (all.first(), all.last()) else {
        let stays = [0, 1, u32::MAX, 0x1234_5678].iter().all(|&v| stored(&one, v).0 == stored(&one, v).1);
        return if stays { "nothing" } else { "something" }.to_string();
    };
    let whole = all.len() as u32 == high - low + 1;
    match (whole, empty.is_empty()) {
        (false, _) => "bits apart".to_string(),
        (true, false) => format!("{high}..{low}"),
        (true, true) => format!("{high}..{low} of the top entry"),
    }
}

/// The names of the service program's list that begins with a mark, in their order.
pub fn names(sources: &Sources, mark: &str) -> Vec<String> {
    let list = sources.names.split(mark).nth(1).and_then(|rest| rest.split("};").next()).unwrap_or("");
    list.split('"').skip(1).step_by(2).map(str::to_string).collect()
}

pub fn register_names(sources: &Sources) -> Vec<String> {
    names(sources, "control_registers[CONTROL_REGISTERS] = {")
}

/// 5.1: offset, name, bits, value at reset and what a store keeps of each.
pub fn registers(ctx: &Context, table: &Table, findings: &mut Findings) {
    let names = register_names(ctx.sources);
    if names.len() != REGISTERS {
        return findings.table(table, format!("names.c has {} names", names.len()));
    }
    // Neighbours of one row: vectors of the sources.
    let groups = vectors(&ctx.card);
    let mut expected: Vec<(usize, usize)> = Vec::new();
    for k in 0..REGISTERS {
        match expected.last_mut() {
            Some((first, last)) if groups.iter().any(|g| g.contains(first) && g.contains(&k)) => *last = k,
            _ => expected.push((k, k)),
        }
    }
    if !findings.rows(table, expected.len()) {
        return;
    }
    let joined = |a: String, b: String| if a == b { a } else { format!("{a} to {b}") };
    for (row, (first, last)) in table.rows.iter().zip(expected) {
        findings.cell(table, row, "Offset", joined(format!("{first:02X}h"), format!("{last:02X}h")));
        findings.cell(table, row, "Name", joined(names[first].clone(), names[last].clone()));
        for register in &ctx.facts.registers[first..=last] {
            let digits = register.bits.div_ceil(4) as usize;
            findings.cell(table, row, "Bits", register.bits.to_string());
            findings.cell(table, row, "At reset", format!("{:0digits$X}h", register.reset));
            findings.cell(table, row, "A store keeps", &register.keeps);
        }
        if first != last {
            let sources: Vec<usize> = (0..12).filter(|&s| (first..=last).contains(&vector(&ctx.card, s))).collect();
            let (a, b) = (sources.first(), sources.last());
            findings.cell(table, row, "Note", format!("vectors of sources {} to {}", a.unwrap_or(&99), b.unwrap_or(&99)));
        }
    }
}

/// A machine that may accept requests of all sources, with no vector twice.
fn open(requests: u32) -> crate::card::Given {
    let mut given = plain(true);
    given.image.set(PSR, 0x18).set_control(INT_MASK, 0xFFF);
    for k in (1..0x10).chain([0x1F, 0x20]) {
        given.image.set_control(k, 0x1000 + 4 * k as u32);
    }
    given.requests = vec![requests];
    given
}

/// The offset of the register that PC takes when a source is accepted.
fn vector(card: &Card, source: usize) -> usize {
    let left = card.run(&open(1 << source)).image;
    let entry = left.get(516) == source as u32 && left.control(INT_SERV) == 1 << source;
    let by = left.get(PC).wrapping_sub(0x1000);
    if entry && by.is_multiple_of(4) {
        (by / 4) as usize
    } else {
        99
    }
}

/// The register and the bit where a source's priority number begins: with it alone 0, the source is accepted before all others.
fn priority(card: &Card, source: usize) -> Option<(usize, u32)> {
    let all = [0x15, 0x16].into_iter().flat_map(|r| (0..8).map(move |k| (r, 4 * k)));
    let mut found = all.filter(|&(register, bit)| {
        let mut given = open(0xFFF);
        given.image.set_control(0x15, 0x7777_7777).set_control(0x16, 0x7777);
        let old = given.image.control(register);
        if old >> bit & 0xF != 7 {
            return false;
        }
        // All four bits count: 0 wins over 7, and 7 + 8 loses to 7.
        given.image.set_control(register, old & !(0xF << bit));
        let wins = card.run(&given).image.get(516) == source as u32;
        given.image.set_control(register, old | 8 << bit);
        given.requests = vec![1 << source | if source == 11 { 1 } else { 1 << 11 }];
        wins && card.run(&given).image.get(516) != source as u32
    });
    let one = found.next();
    if found.next().is_some() {
        None
    } else {
        one
    }
}

/// The registers of vectors, by the register that has their sources' priority numbers.
fn vectors(card: &Card) -> Vec<Vec<usize>> {
    let mut groups: Vec<(usize, Vec<usize>)> = Vec::new();
    for source in 0..12 {
        let register = priority(card, source).map_or(0, |p| p.0);
        match groups.last_mut() {
            Some((r, group)) if *r == register => group.push(vector(card, source)),
            _ => groups.push((register, vec![vector(card, source)])),
        }
    }
    groups.into_iter().map(|g| g.1).collect()
}

/// 4.2: the sources, their vectors and where their priority numbers stand.
pub fn interrupts(ctx: &Context, table: &Table, findings: &mut Findings) {
    let names = names(ctx.sources, "source_names[SOURCES] = {");
    let registers = register_names(ctx.sources);
    let groups = vectors(&ctx.card);
    if names.len() != 12 || !findings.rows(table, groups.len()) {
        return findings.table(table, format!("{} names, {} groups", names.len(), groups.len()));
    }
    let mut first = 0;
    for (row, group) in table.rows.iter().zip(groups) {
        let last = first + group.len() - 1;
        findings.cell(table, row, "Source", format!("{first} to {last}"));
        findings.cell(table, row, "Name", format!("{} to {}", names[first], names[last]));
        for (source, offset) in (first..).zip(group) {
            findings.cell(table, row, "Vector", format!("register at offset {:02X}h + source", offset.wrapping_sub(source)));
            let Some((register, bit)) = priority(&ctx.card, source) else {
                findings.row(table, row, format!("source {source} has no priority number of its own"));
                continue;
            };
            let number = if first == 0 { "source".to_string() } else { format!("(source - {first})") };
            let step = if source == first { 4 } else { bit / (source - first) as u32 };
            let right = if source == first && bit != 0 {
                "another bit".to_string()
            } else {
                format!("{}, four bits from bit {step} × {number} up", registers[register])
            };
            findings.cell(table, row, "Priority number", right);
        }
        first = last + 1;
    }
}
