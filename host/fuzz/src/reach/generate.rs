//! Programs of which reachable words are mapped, with their starts and maps.

use super::flow::has_target;
use super::Input;
use crate::call::{fill_bytes, MEMORY_LIMIT};
use crate::listing::too_much;
use crate::random::Random;
use crate::words::{self, *};

/// The operations that do not merely lead to the next word, jmp and jal more often than others.
const FLOW: [u32; 19] = [
    JMP, JMP, JAL, JAL, JMPR, JALR, 40, 41, 42, 43, 44, 45, 46, 47, SCALL, RETU, RETI, SWM, TRAP,
];

/// A random program, mostly a short one, with a start that mostly is one of its words and a map
/// that mostly is long enough.
pub fn program(random: &mut Random, input: &mut Input) {
    input.wide = if random.percent(45) { 0 } else { random.yes() };
    let wide = input.is_wide();
    let width = words::bytes(wide);
    let limit = MEMORY_LIMIT as u32;
    let length = match random.below(5000) {
        // As long as can be, or a little less.
        0 => limit - random.below(2) * random.below(2 * width),
        1..=10 => limit + too_much(random, width),
        11..=14 => width * random.range(100, 1000),
        15..=500 => width * random.range(1, 5),
        501..=3500 => width * random.range(4, 20),
        3501..=4950 => width * random.range(15, 70),
        _ => 0,
    };
    let left_over = if length < limit / 2 && random.percent(15) {
        random.range(1, width - 1)
    } else {
        0
    };
    let length = (length + left_over) as usize;
    if length > MEMORY_LIMIT {
        fill_bytes(random, &mut input.program, length);
    } else {
        fill(random, &mut input.program, length, wide);
    }
    input.start = start(random, length, wide);
    lend(random, input);
}

/// Replaces a program by this many bytes of words, the last of which may be cut off.
fn fill(random: &mut Random, program: &mut Vec<u8>, length: usize, wide: bool) {
    let width = words::bytes(wide);
    let straight = random.pick(&[10, 35, 55, 75, 95]);
    program.clear();
    while program.len() < length {
        let operation = if random.percent(straight) {
            straight_operation(random)
        } else {
            random.pick(&FLOW)
        };
        // Any bits below the operation.
        let mut word = operation << (8 * width - 6) | random.word() >> (38 - 8 * width);
        if has_target(operation) {
            let at = program.len() as u32;
            let target = target(random, i64::from(at), length, i64::from(width));
            let immediate = (target - i64::from(at + width)) / 2;
            let mask = jump_mask(operation, wide);
            word = word & !mask | immediate as u32 & mask;
        }
        words::append(program, word, wide);
    }
    program.truncate(length);
}

/// An operation that merely leads to the next word.
fn straight_operation(random: &mut Random) -> u32 {
    match random.below(47) {
        number @ JMP..=38 => number - JMP + CHRS,
        number @ 39.. => number - 39 + SCON,
        number => number,
    }
}

/// A target for a jump at the address `at`, mostly a word of the program.
fn target(random: &mut Random, at: i64, length: usize, width: i64) -> i64 {
    let any = word_of(random, length, width);
    // Where the first word that is not there would be.
    let end = length as i64 / width * width;
    match random.below(64) {
        0 => 0,
        1 => end - width,
        2 => end,
        3 => end + width * i64::from(random.range(1, 4)),
        4 => -width,
        5 => -2 * i64::from(random.range(1, 40)),
        6 => at,
        7 => at + width,
        8 => at + 2 * width,
        // Misaligned in words of 32 bits.
        9 => any + 2,
        10 => length as i64 - 2,
        // A word but for bits that an address in the program does not have.
        11 => any + ((MEMORY_LIMIT as i64) << random.below(9)),
        12 => any - ((MEMORY_LIMIT as i64) << random.below(9)),
        13 => 2 * (i64::from(random.word() as i32) >> random.range(6, 16)),
        14..=31 => at + width * (i64::from(random.below(12)) - 4),
        _ => any,
    }
}

/// A start, mostly a word of the program.
fn start(random: &mut Random, length: usize, wide: bool) -> u32 {
    let width = words::bytes(wide);
    let any = word_of(random, length, i64::from(width)) as u32;
    let end = length as u32 / width * width;
    match random.below(64) {
        0..=23 => 0,
        24..=26 => end.saturating_sub(width),
        27 | 28 => end,
        29 => any + random.range(1, width - 1),
        30 => (length as u32).saturating_sub(random.range(1, width - 1)),
        31 => any | 1 << random.range(16, 31),
        32 if random.percent(50) => u32::MAX - random.below(2 * width),
        32 => random.number(),
        _ => any,
    }
}

/// The address of a word of a program, where there is one; else 0.
fn word_of(random: &mut Random, length: usize, width: i64) -> i64 {
    let count = length as i64 / width;
    width * i64::from(random.below(count.max(1) as u32))
}

/// Gives the program a map, with bytes of which some are what a map would have.
fn lend(random: &mut Random, input: &mut Input) {
    let exact = input.program.len();
    let length = match random.below(64) {
        0..=35 => exact,
        36..=55 => exact + random.range(1, 40) as usize,
        56 | 57 => exact + random.range(1, 400) as usize,
        58..=60 => exact.saturating_sub(1),
        61 | 62 => random.below(exact.max(1) as u32) as usize,
        _ => 0,
    };
    let map = &mut input.map;
    match random.below(8) {
        0 => {
            map.clear();
            map.resize(length, random.pick(&[0, 1, 2, 0xFF]));
        }
        // Zeros and ones.
        1..=3 => {
            fill_bytes(random, map, length);
            for byte in map {
                *byte &= 1;
            }
        }
        _ => fill_bytes(random, map, length),
    }
}

#[cfg(test)]
mod tests {
    use super::*;

    /// Straight operations and the others are all operations.
    #[test]
    fn operations() {
        let mut random = Random::of_case(1, 1);
        let mut straight = [false; 64];
        for _ in 0..10_000 {
            straight[straight_operation(&mut random) as usize] = true;
        }
        for (operation, straight) in straight.into_iter().enumerate() {
            assert_eq!(straight, !FLOW.contains(&(operation as u32)));
        }
    }
}
