//! Programs to list, and texts to list them to.

use super::{Input, LINE};
use crate::call::{fill_bytes, MEMORY_LIMIT};
use crate::random::Random;
use crate::words::{self, *};

/// How the length of a text was chosen.
#[derive(Clone, Copy, Debug, Default, PartialEq, Eq)]
pub enum Text {
    /// 48 bytes per word.
    #[default]
    Exact,
    /// More.
    Longer,
    /// One byte less than 48 per word.
    OneShort,
    /// 47 bytes per word.
    NoNewlines,
    /// Any number of bytes less than 48 per word.
    Shorter,
    /// None.
    Empty,
}

/// Half of all 16-bit words, the first or the second, in an order that the seed gives.
pub fn every_short_word(seed: u64, half: u64, random: &mut Random, input: &mut Input) {
    input.program.clear();
    for number in 0..0x8000 {
        let word = short_word(seed, half as u32 * 0x8000 + number);
        input.program.extend_from_slice(&word.to_be_bytes());
    }
    input.wide = 0;
    lend(random, input, Text::Exact);
}

/// The 16-bit word with this number, below 65,536, in an order that the seed gives.
pub fn short_word(seed: u64, number: u32) -> u16 {
    // Multiplied by an odd number, the numbers of 16 bits change their order.
    let mut order = Random::of_case(seed, 0);
    let factor = order.word() | 1;
    let first = order.word();
    number.wrapping_mul(factor).wrapping_add(first) as u16
}

/// A program of 32-bit words that is as long as can be.
pub fn longest(random: &mut Random, input: &mut Input) {
    input.wide = 1;
    fill_program(random, input, MEMORY_LIMIT);
    lend(random, input, Text::Exact);
}

/// A random program, of which one in some is too long or no whole number of words, and a
/// text, which often is too short.
pub fn random_listing(random: &mut Random, input: &mut Input) {
    input.wide = match random.below(20) {
        0..=6 => 0,
        7..=11 => 1,
        12 | 13 => 2,
        14 | 15 => u32::MAX,
        16 | 17 => 1 << random.below(32),
        _ => random.word().max(1),
    };
    let word_bytes = words::bytes(input.is_wide());
    let length = match random.below(100) {
        0..=4 => 0,
        5..=34 => word_bytes * random.range(1, 4),
        35..=83 => word_bytes * random.range(1, 200),
        84..=90 => word_bytes * random.range(200, 1000),
        // As long as can be, or a little less.
        91 => MEMORY_LIMIT as u32 - random.below(2 * word_bytes),
        _ => MEMORY_LIMIT as u32 + too_much(random, word_bytes),
    };
    let left_over = if length < MEMORY_LIMIT as u32 / 2 && random.percent(12) {
        random.range(1, word_bytes - 1)
    } else {
        0
    };
    fill_program(random, input, (length + left_over) as usize);
    let kind = match random.below(20) {
        0..=6 => Text::Exact,
        7..=13 => Text::Longer,
        14 | 15 => Text::OneShort,
        16 => Text::NoNewlines,
        17 | 18 => Text::Shorter,
        _ => Text::Empty,
    };
    lend(random, input, kind);
}

/// The bytes by which a program is too long: as often as not a whole number of words.
pub fn too_much(random: &mut Random, word_bytes: u32) -> u32 {
    match random.below(4) {
        0 => 1,
        1 => word_bytes,
        2 => random.range(1, 8),
        _ => random.range(1, 2000) * (word_bytes / 2),
    }
}

/// Fills the program with this many bytes of words, the last of which may be cut off.
fn fill_program(random: &mut Random, input: &mut Input, length: usize) {
    let wide = input.is_wide();
    input.program.clear();
    while input.program.len() < length {
        let word = if wide {
            wide_word(random)
        } else {
            random.word() & 0xFFFF
        };
        words::append(&mut input.program, word, wide);
    }
    input.program.truncate(length);
}

/// Gives the program a text of a kind, with random bytes, and says what the answer is.
fn lend(random: &mut Random, input: &mut Input, kind: Text) {
    let exact = input.words() * LINE;
    let length = match kind {
        Text::Exact => exact,
        Text::Longer => {
            exact
                + match random.below(4) {
                    0 => 1,
                    1 => LINE - 1,
                    2 => LINE,
                    _ => random.range(1, 300) as usize,
                }
        }
        Text::OneShort => exact.saturating_sub(1),
        Text::NoNewlines => input.words() * (LINE - 1),
        Text::Shorter => random.below(exact.max(1) as u32) as usize,
        Text::Empty => 0,
    };
    fill_bytes(random, &mut input.text, length);
    input.kind = kind;
    let left_over = input.program.len() % words::bytes(input.is_wide()) as usize;
    input.refusal = if input.program.len() > MEMORY_LIMIT {
        1
    } else if left_over > 0 {
        16
    } else if length < exact {
        17
    } else {
        0
    };
}

/// A 32-bit word: every operation as often, any bits, and often an immediate at one of its
/// ends or where its number of digits changes.
pub fn wide_word(random: &mut Random) -> u32 {
    let operation = random.below(64);
    let word = operation << 26 | random.word() >> 6;
    let places = immediate_places(operation);
    if places.is_empty() || random.percent(60) {
        return word;
    }
    let width: u32 = places.iter().map(|&(_, width)| width).sum();
    // Shifts and such use the low bits of their nine only.
    let width = used_width(operation).min(width);
    let top = 1 << (width - 1);
    let number = match random.below(8) {
        0 => 0,
        1 => u32::MAX,
        2 => top,
        3 => top - 1,
        4 => 1,
        5 => 10_u32.pow(random.below(8)).wrapping_sub(random.below(2)),
        6 => 10_u32
            .pow(random.below(8))
            .wrapping_sub(random.below(2))
            .wrapping_neg(),
        _ => (1 << random.below(25_u32)) - random.below(2),
    };
    let mut word = word;
    let mut rest = number;
    for &(low, width) in places {
        let mask = (1 << width) - 1;
        word = word & !(mask << low) | (rest & mask) << low;
        rest >>= width;
    }
    // The bits that are not used come as they are.
    if has_immediate(operation) && width < 9 {
        word = word & !(15 << 15) | (random.word() & 15) << 15;
        if width < 5 {
            let mask = 31 & !((1 << width) - 1);
            word = word & !mask | random.word() & mask;
        }
    }
    word
}

/// The places of a 32-bit word's immediate, each with its lowest bit and its width; the
/// lowest part of the number first.
fn immediate_places(operation: u32) -> &'static [(u32, u32)] {
    match operation {
        LD | ST => &[(0, 5), (15, 4)],
        LLI | LUI => &[(0, 16)],
        JMP | JAL => &[(0, 25)],
        BRANCH..=LAST_BRANCH => &[(0, 22)],
        CHRS | SWM | TRAP => &[(0, 5)],
        EXBFI => &[(0, 5), (19, 6)],
        _ if has_immediate(operation) => &[(0, 5), (15, 4)],
        _ => &[],
    }
}

/// The number of bits that a 32-bit word's immediate uses, 0 where there is none.
pub fn used_width(operation: u32) -> u32 {
    match operation {
        SLLI..=SEXTI => 5,
        EXB => 2,
        EXH | SWM => 1,
        CHRS => 2,
        _ => immediate_places(operation)
            .iter()
            .map(|&(_, width)| width)
            .sum(),
    }
}

/// The immediate of a 32-bit word, by the bits that are used, without a sign.
pub fn used_immediate(operation: u32, word: u32) -> u32 {
    let mut number = 0;
    let mut height = 0;
    for &(low, width) in immediate_places(operation) {
        number |= (word >> low & ((1 << width) - 1)) << height;
        height += width;
    }
    number & ((1_u32 << used_width(operation)) - 1)
}

#[cfg(test)]
mod tests {
    use super::*;

    /// Places of immediates (Manual 2.3).
    #[test]
    fn immediates() {
        assert_eq!(used_immediate(18, 0x4807_883F), 0x1FF);
        assert_eq!(used_immediate(LLI, 0x8801_0005), 5);
        assert_eq!(used_immediate(EXBFI, 0xFDF8_7FFF), 0x7FF);
        assert_eq!(used_immediate(EXB, wide_immediate(EXB, 31, 31, 0x1FE)), 2);
        assert_eq!(used_immediate(23, wide_immediate(23, 31, 31, 0x1FE)), 30);
        assert_eq!(used_width(LAST_BRANCH), 22);
        assert_eq!(used_width(NOP), 0);
    }

    /// The two halves hold every 16-bit word.
    #[test]
    fn all_short_words() {
        for seed in [0, 1, 2026] {
            let mut met = vec![false; 0x1_0000];
            for half in 0..2 {
                let mut input = Input::default();
                let mut random = Random::of_case(seed, half);
                every_short_word(seed, half, &mut random, &mut input);
                for word in input.program.chunks_exact(2) {
                    met[usize::from(u16::from_be_bytes([word[0], word[1]]))] = true;
                }
            }
            assert!(met.iter().all(|&met| met));
        }
    }
}
