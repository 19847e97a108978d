//! What the library says of each operation: its name, its operands and their bits, and what its steps end with.

use crate::card::{bytes_of, Card, Given, ROOM};
use crate::effects::{self, Effects};
use crate::image::*;
use std::collections::BTreeSet;

/// An operand as it is listed, and the places of its bits in the word, the lowest bit first.
#[derive(Clone, PartialEq)]
pub struct Operand {
    /// R or C, or a blank before a number.
    pub letter: char,
    pub places: Vec<u32>,
    pub least: i64,
    pub most: i64,
}

impl Operand {
    /// As "18..15 above 4..0".
    pub fn bits(&self) -> String {
        let mut pieces: Vec<(u32, u32)> = Vec::new();
        for &place in self.places.iter().rev() {
            match pieces.last_mut() {
                Some((_, low)) if *low == place + 1 => *low = place,
                _ => pieces.push((place, place)),
            }
        }
        let pieces: Vec<String> = pieces.iter().map(|(high, low)| format!("{high}..{low}")).collect();
        pieces.join(" above ")
    }
}

pub struct Operation {
    pub number: u32,
    pub mnemonic: String,
    /// Of 16-bit words and of 32-bit words; nothing where there is no form.
    pub operands: [Option<Vec<Operand>>; 2],
    pub conditional: bool,
    /// Where 02h keeps it from: 16-bit words, user mode.
    pub not_narrow: bool,
    pub not_user: bool,
    pub slot: bool,
    pub nops: u32,
    pub effects: Effects,
    pub ends: BTreeSet<End>,
}

/// What a step ends with besides going on.
#[derive(Clone, Copy, PartialEq, Eq, PartialOrd, Ord, Debug)]
pub enum End {
    Exception(u32),
    Stop(u32),
}

/// No exception has this code: it stands in EXCEPTION_CS before a step, to see whether the step enters one.
pub const NO_CODE: u32 = 0x55;

/// How a step of a machine with NO_CODE ended.
pub fn end_of(card: &Card, given: &Given) -> Option<End> {
    let outcome = card.run(given);
    assert_eq!(outcome.refusal, 0, "a machine of the test's own is refused");
    match (outcome.ending, outcome.image.control(EXCEPTION_CS)) {
        (0, NO_CODE) => None,
        (0, code) => Some(End::Exception(code)),
        (stop, _) => Some(End::Stop(stop)),
    }
}

/// One step in super user mode of 32-bit or 16-bit words, nothing protected, NO_CODE.
pub fn plain(wide: bool) -> Given {
    let mut image = Card::default().reset();
    image.set(PSR, if wide { 8 } else { 0 }).set_control(EXCEPTION_CS, NO_CODE);
    for (low, high) in [(DMEM_LO, DMEM_HI), (IMEM_LO, IMEM_HI)] {
        image.set_control(low, 1).set_control(high, 0);
    }
    Given { program: vec![0; 64], cells: vec![0; 32], image, requests: vec![], limit: 1, room: ROOM }
}

/// A word at the front of a program, and others behind it.
pub fn program(wide: bool, words: &[u32]) -> Vec<u8> {
    words.iter().flat_map(|&word| bytes_of(wide, word)).collect()
}

/// Numbers that are the same in each run.
pub struct Random(u64);

impl Random {
    pub fn new(seed: u64) -> Random {
        Random(seed)
    }

    pub fn next(&mut self) -> u32 {
        self.0 = self.0.wrapping_mul(6364136223846793005).wrapping_add(1442695040888963407);
        (self.0 >> 33) as u32 ^ (self.0 >> 13) as u32
    }

    pub fn below(&mut self, limit: u32) -> u32 {
        ((u64::from(self.next()) * u64::from(limit)) >> 32) as u32
    }

    pub fn of<T: Copy>(&mut self, all: &[T]) -> T {
        all[self.below(all.len() as u32) as usize]
    }
}

pub fn all(card: &Card) -> Vec<Operation> {
    (0..64).map(|number| operation(card, number)).collect()
}

fn operation(card: &Card, number: u32) -> Operation {
    let operands = [false, true].map(|wide| operands(card, number, wide));
    let line = card.line(true, number << 26);
    let refused = |wide: bool, user: bool| {
        let mut given = plain(wide);
        given.program = program(wide, &[number << if wide { 26 } else { 10 }, 0, 0, 0]);
        let psr = given.image.get(PSR) | u32::from(user);
        given.image.set(PSR, psr);
        end_of(card, &given) == Some(End::Exception(2))
    };
    Operation {
        number,
        mnemonic: text(&line[25..33]),
        conditional: base(card, number, true, Some((5, 6))).is_some(),
        not_narrow: refused(false, false) && refused(false, true),
        not_user: refused(false, true) && refused(true, true),
        slot: leaves_slot(card, number),
        nops: nops(card, number),
        effects: effects::of(card, number),
        ends: ends(card, number),
        operands,
    }
}

pub fn text(bytes: &[u8]) -> String {
    String::from_utf8_lossy(bytes).trim_end().to_string()
}

/// Operands with which the operation is written, 0 or 24 each.
fn base(card: &Card, number: u32, wide: bool, condition: Option<(u32, u32)>) -> Option<([i32; 4], u32)> {
    (0..16).find_map(|choice: u32| {
        let operands = [0, 1, 2, 3].map(|k| if choice >> k & 1 == 1 { 24 } else { 0 });
        card.encode(number, wide, condition, operands).ok().map(|word| (operands, word))
    })
}

fn operands(card: &Card, number: u32, wide: bool) -> Option<Vec<Operand>> {
    let (base, word) = base(card, number, wide, None)?;
    let with = |k: usize, value: i64| {
        let mut operands = base;
        operands[k] = i32::try_from(value).ok()?;
        card.encode(number, wide, None, operands).ok()
    };
    let line = card.line(wide, word);
    let shown = text(&line[34..47]);
    let letters: Vec<char> = shown.split(' ').map(|s| s.chars().next().unwrap_or(' ')).collect();
    let mut all = Vec::new();
    for (k, &from) in base.iter().enumerate() {
        let from = i64::from(from);
        let most = furthest(|by| with(k, from + by).is_some()) + from;
        let least = from - furthest(|by| with(k, from - by).is_some());
        if most == least {
            break;
        }
        // With one bit of the operand, the word has one bit besides the operation's number.
        let width = 64 - (most - least).leading_zeros();
        let mut places = Vec::new();
        for bit in 0..width {
            let value = if least < 0 && bit == width - 1 { least } else { least.max(0) + (1 << bit) };
            let differ = with(k, value)? ^ number << if wide { 26 } else { 10 };
            if differ.count_ones() == 1 {
                places.push(differ.trailing_zeros());
            }
        }
        let letter = letters.get(k).copied().filter(|c| c.is_ascii_uppercase()).unwrap_or(' ');
        all.push(Operand { letter, places, least, most });
    }
    Some(all)
}

/// How far all steps of 1 are right, found by doubling and halving.
fn furthest(right: impl Fn(i64) -> bool) -> i64 {
    let (mut good, mut bad) = (0, 1i64 << 33);
    while bad - good > 1 {
        let middle = (good + bad) / 2;
        if right(middle) {
            good = middle;
        } else {
            bad = middle;
        }
    }
    good
}

/// Whether a word of the operation, in some state of the conditions, leaves a slot.
fn leaves_slot(card: &Card, number: u32) -> bool {
    [0, 7].iter().any(|&flags| {
        let mut given = plain(true);
        given.program = program(true, &[number << 26, 0, 0, 0, 0]);
        for k in 0..8 {
            given.image.set(CONDITIONS + 4 * k, flags);
        }
        given.image = given.image.stacked(&[[3, 4, 8, 0]], [0, 0]);
        card.run(&given).image.get(SLOT) == 1
    })
}

/// How many nops keep it from stop 20, in both widths.
fn nops(card: &Card, number: u32) -> u32 {
    let needed = |wide: bool| {
        let shift = if wide { 26 } else { 10 };
        let with = |nops: usize| {
            let mut words = vec![number << shift];
            words.extend(vec![0; nops]);
            words.extend([52 << shift; 5]);
            let mut given = plain(wide);
            given.program = program(wide, &words);
            given.image = given.image.stacked(&[[3, 4, 8, 0]], [0, 0]);
            end_of(card, &given)
        };
        (0..5).find(|&nops| with(nops) != Some(End::Stop(20))).unwrap_or(5) as u32
    };
    assert_eq!(needed(false), needed(true), "nops of operation {number}");
    needed(true)
}

/// Random machines at a word that is fetched, so that what it ends with is not the fetch's.
fn ends(card: &Card, number: u32) -> BTreeSet<End> {
    let mut random = Random::new(u64::from(number) + 1);
    let mut found = BTreeSet::new();
    for turn in 0..3000 {
        let wide = turn % 2 == 0;
        let n = if wide { 4 } else { 2 };
        let shift = if wide { 26 } else { 10 };
        let field = match random.below(3) {
            0 => 0,
            1 => random.below(64),
            _ => random.next(),
        };
        let mut words = vec![0; 8];
        words.push(number << shift | field & ((1 << shift) - 1));
        for _ in 0..3 {
            words.push(if random.below(8) == 0 { random.below(64) << shift } else { 0 });
        }
        let mut given = plain(wide);
        let pc = 8 * n;
        given.program = program(wide, &words);
        given.program.truncate((pc + n + random.below(4 * n)) as usize);
        let image = &mut given.image;
        let pool = [0, 1, 2, 4, 8, 31, 32, 100, 0x7FFF_FFFF, 0x8000_0000, u32::MAX, 0xFFFF_FFFC, 0x1_0000, 0x1_0018];
        for k in 0..32 {
            image.set(SET_1 + 4 * k, random.of(&pool));
        }
        for k in (0..32).filter(|k| *k != 29) {
            image.set(SET_2 + 4 * k, random.of(&pool));
        }
        for k in 0..8 {
            image.set(CONDITIONS + 4 * k, random.below(8));
        }
        let modes = if random.below(2) == 0 { 1 } else { random.below(4) << 1 };
        image.set(PSR, modes | if wide { 8 } else { 0 });
        let (lo, hi) = random.of(&[(1, 0), (0, 15), (0, u32::MAX), (100, u32::MAX)]);
        image.set_control(DMEM_LO, lo).set_control(DMEM_HI, hi);
        let (lo, hi) = random.of(&[(1, 0), (0, pc - 1), (pc + n, u32::MAX), (pc + 2 * n, u32::MAX)]);
        image.set_control(IMEM_LO, lo).set_control(IMEM_HI, hi);
        image.set(PC, pc);
        if random.below(4) == 0 {
            image.set(SLOT, 1);
        }
        if random.below(2) == 0 {
            image.set(PRODUCT, 1).set(HIGH, random.next());
        }
        if random.below(2) == 0 {
            given.image = given.image.stacked(&[[3, 4, 8, 0]], [0, 0]);
        }
        found.extend(end_of(card, &given));
    }
    found
}
