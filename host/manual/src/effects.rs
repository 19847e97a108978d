//! What an operation reads and writes, in the words of 3.1: a random machine is run as it is and with one of its numbers another.

use crate::card::{Card, Given, Outcome};
use crate::image::*;
use crate::operations::{plain, program, Random, NO_CODE};
use std::collections::BTreeSet;

/// Sources come from set 2, and results go to set 1: PR31 and SPSR are told from registers of the word.
const MODES: u32 = 8 | 2;

/// The registers that the word names as dreg, sreg1 and sreg2, and its condition register.
const NAMED: [(usize, &str); 3] = [(5, "dreg"), (6, "sreg1"), (7, "sreg2")];
const CREG: usize = 5;

const SYSTEM_ADDR: usize = 0x1F;
const EXCEP_ADDR: usize = 0x20;

#[derive(Default)]
pub struct Effects {
    pub reads: BTreeSet<String>,
    pub writes: BTreeSet<String>,
}

/// The parts of a cell of 3.1, without what stands in brackets.
pub fn parts(cell: &str) -> BTreeSet<String> {
    let mut text = cell.to_string();
    while let Some((before, rest)) = text.split_once(" (") {
        text = format!("{before}{}", rest.split_once(')').map_or("", |(_, behind)| behind));
    }
    text.split(", ").filter(|part| *part != "nothing").map(str::to_string).collect()
}

pub fn of(card: &Card, number: u32) -> Effects {
    let mut random = Random::new(u64::from(number) + 500);
    let mut effects = Effects::default();
    for _ in 0..100 {
        let given = machine(number, &mut random);
        let left = card.run(&given);
        let exception = left.image.control(EXCEPTION_CS) != NO_CODE;
        if left.refusal == 0 && left.ending == 0 && exception == (number == 55) {
            effects.writes.extend(written(&given, &left, exception));
            effects.reads.extend(read(card, &given, &left, number));
        }
    }
    for all in [&mut effects.reads, &mut effects.writes] {
        let whole: Vec<String> = (0..8).map(|k| format!("C{k}")).collect();
        if whole.iter().all(|c| all.contains(c) || c == "C5" && all.contains("creg")) {
            all.retain(|part| !whole.contains(part) && part != "creg");
            all.insert("C0 to C7".to_string());
        }
    }
    effects
}

/// A random machine at a word of the operation that names the registers above.
fn machine(number: u32, random: &mut Random) -> Given {
    let fields = match number {
        34 | 35 => 5 << 16 | 0x1234,
        36 | 37 => 2,
        40..=47 => (CREG as u32) << 22 | 2,
        54 => 0,
        63 => 8 << 19 | 5 << 10 | 6 << 5 | 7,
        32 | 33 => (CREG as u32) << 22 | 6 << 5 | 7,
        _ => 5 << 10 | 6 << 5 | 7,
    };
    let mut given = plain(true);
    given.program = program(true, &[number << 26 | fields, 0, 0, 0]);
    for cell in &mut given.cells {
        *cell = random.next();
    }
    let image = &mut given.image;
    for set in [SET_1, SET_2] {
        for k in [5, 6, 7, 31] {
            let small = 4 * random.below(6);
            let value = random.next() >> random.below(32);
            image.set(set + 4 * k, if random.below(2) == 0 { small } else { value });
        }
    }
    for k in 0..8 {
        image.set(CONDITIONS + 4 * k, random.below(8));
    }
    image.set(SPSR, random.next()).set(PRODUCT, 1).set(HIGH, random.next()).set(LOW, random.next());
    image.set_control(SYSTEM_ADDR, random.next()).set_control(EXCEP_ADDR, random.next());
    image.set(PSR, MODES | random.below(2) << 4);
    given.image = image.stacked(&[[3, random.next(), random.of(&[8, 9, 14, 24]), random.below(8)]], [0, 0]);
    given
}

/// The parts that a step has changed.
fn written(given: &Given, left: &Outcome, exception: bool) -> Vec<String> {
    if exception {
        return vec!["as an exception".to_string()];
    }
    let (before, after) = (&given.image, &left.image);
    let changed = |offset: usize| before.get(offset) != after.get(offset);
    let mut all = Vec::new();
    let mut add = |is: bool, name: &str| all.extend(is.then(|| name.to_string()));
    for (k, name) in NAMED {
        add(changed(SET_1 + 4 * k), name);
    }
    for k in 0..8 {
        add(changed(CONDITIONS + 4 * k), &condition(k));
    }
    add(changed(SET_1 + 124), "register 31");
    add(changed(SET_2 + 124), "PR31");
    add(changed(PSR), "PSR");
    add(changed(SPSR), "SPSR");
    add(after.get(PRODUCT) == 1, "product");
    add(after.get(SLOT) == 1, "slot");
    add(after.get(TARGET) != 0, "target");
    add(after.get(PC) != before.get(PC) + 4, "PC");
    add(changed(ENTRIES), "top entry");
    add(given.cells != left.cells, "cell or register of the block");
    all
}

/// The name of a condition register: of the one that the word names, creg.
fn condition(k: usize) -> String {
    if k == CREG {
        "creg".to_string()
    } else {
        format!("C{k}")
    }
}

/// The parts without which the step would have left something else.
fn read(card: &Card, given: &Given, left: &Outcome, number: u32) -> Vec<String> {
    let mut places: Vec<(Vec<usize>, u32, String)> = Vec::new();
    for set in [SET_1, SET_2] {
        places.extend(NAMED.map(|(k, name)| (vec![set + 4 * k], 0x8181_8184, name.to_string())));
    }
    places.extend((0..8).map(|k| (vec![CONDITIONS + 4 * k], 7, condition(k))));
    places.push((vec![SET_1 + 124], 4, "register 31".into()));
    places.push((vec![SET_2 + 124], 4, "PR31".into()));
    places.push((vec![SPSR], 16, "SPSR".into()));
    places.push((vec![HIGH], 1, "product".into()));
    places.push((vec![ENTRIES + 8, CONTROL + 4 * RETI_ADDR], 4, "top entry".into()));
    places.push((vec![CONTROL + 4 * SYSTEM_ADDR], 4, "SYSTEM_ADDR".into()));
    places.push((vec![CONTROL + 4 * EXCEP_ADDR], 4, "EXCEP_ADDR".into()));
    places.push((vec![PSR], 16, "PSR".into()));
    if [52, 53].contains(&number) {
        places.push((vec![PSR], 2, "PSR".into()));
    }
    let mut all = Vec::new();
    for (offsets, bits, name) in places {
        let mut other = given.clone();
        for &offset in &offsets {
            other.image.set(offset, given.image.get(offset) ^ bits);
        }
        let outcome = card.run(&other);
        let kept = |image: &Image, from: &Image, offset: usize| image.get(offset) == from.get(offset);
        let differs = (0..left.image.bytes().len()).step_by(4).any(|offset| {
            let carried =
                offsets.contains(&offset) && kept(&left.image, &given.image, offset) && kept(&outcome.image, &other.image, offset);
            !carried && left.image.get(offset) != outcome.image.get(offset)
        });
        if differs || outcome.ending != left.ending || outcome.cells != left.cells {
            all.push(name);
        }
    }
    let mut other = given.clone();
    for cell in &mut other.cells {
        *cell ^= 1;
    }
    if card.run(&other).image != left.image {
        all.push("cell or register of the block".to_string());
    }
    all
}
