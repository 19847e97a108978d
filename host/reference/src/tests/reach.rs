//! Which code can be reached (Manual 13): where each operation leads in both widths, what of a
//! program is reached, the refusals, and random programs.

use super::bench::*;
use super::listing::{bytes_16, bytes_32};
use super::random::Random;
use crate::machine::{offset, IL};
use crate::reach;
use std::collections::BTreeSet;

/// A byte that no map gets.
const KEPT: u8 = 0xA5;

/// A word as it is in 32-bit words and in 16-bit words.
type Word = (u32, u16);

/// An operation with other bits.
const fn word(operation: u32, bits: u32) -> Word {
    (operation << 26 | bits, (operation << 10 | bits) as u16)
}

/// An operation that leads to the next word only.
const NEXT: Word = word(0, 0);
/// An operation that leads nowhere.
const TRAP: Word = word(55, 0);

/// jmp, jal or a branch to the word so many words later, counted from its own. The slot is one
/// word later, and a word is an immediate of 2 in 32-bit words and of 1 in 16-bit words.
fn to(operation: u32, words_later: i32) -> Word {
    let words = words_later - 1;
    let wide = match operation {
        36 | 37 => jump(operation, 2 * words),
        _ => branch(operation - 40, 0, 2 * words),
    };
    (wide, h_jump(operation as u16, words as i16))
}

/// The number of bytes of a word.
fn word_bytes(wide: bool) -> u32 {
    if wide {
        4
    } else {
        2
    }
}

/// The bytes of a program in a width.
fn bytes(words: &[Word], wide: bool) -> Vec<u8> {
    if wide {
        bytes_32(&words.iter().map(|word| word.0).collect::<Vec<_>>())
    } else {
        bytes_16(&words.iter().map(|word| word.1).collect::<Vec<_>>())
    }
}

/// The addresses of the words that are reached, by a call that must not refuse.
fn reached(program: &[u8], wide: bool, start: u32) -> Vec<u32> {
    let mut map = vec![KEPT; program.len()];
    assert_eq!(reach(program, wide, start, &mut map), 0);
    assert!(map.iter().all(|&byte| byte <= 1));
    (0..)
        .zip(map)
        .filter_map(|(address, byte)| (byte == 1).then_some(address))
        .collect()
}

/// In both widths these words are reached; they and the start are given by their places in the
/// program, counted from 0.
fn reaches(words: &[Word], start: u32, expected: &[u32]) {
    for wide in [false, true] {
        let size = word_bytes(wide);
        let expected: Vec<u32> = expected.iter().map(|place| place * size).collect();
        let program = bytes(words, wide);
        assert_eq!(reached(&program, wide, start * size), expected, "{wide}");
    }
}

// Where an operation leads

/// Where the instruction stands among traps.
const PLACE: i32 = 5;
/// The number of words.
const PLACES: i32 = 16;

/// How many words later those are that the instruction leads to, first in full, then as slots
/// only. A word is reached in full when a jmp in its place leads to the last word.
fn leads(instruction: Word, wide: bool) -> [Vec<i32>; 2] {
    let mut words = [TRAP; PLACES as usize];
    words[PLACE as usize] = instruction;
    let places = |words: &[Word]| {
        let size = word_bytes(wide);
        let start = PLACE as u32 * size;
        let addresses = reached(&bytes(words, wide), wide, start);
        let places = addresses.iter().map(|&address| {
            assert_eq!(address % size, 0);
            (address / size) as i32
        });
        places.collect::<Vec<i32>>()
    };
    let reached = places(&words);
    assert!(reached.contains(&PLACE));
    let mut leads = [Vec::new(), Vec::new()];
    for place in reached.into_iter().filter(|&place| place != PLACE) {
        let mut probed = words;
        probed[place as usize] = to(36, PLACES - 1 - place);
        let in_full = places(&probed).contains(&(PLACES - 1));
        leads[usize::from(!in_full)].push(place - PLACE);
    }
    leads
}

/// A 32-bit word leads to these words in full, and to these as slots only.
fn leads_32(word: u32, in_full: &[i32], as_slot: &[i32]) {
    assert_eq!(leads((word, 0), true), [in_full, as_slot], "{word:08X}");
}

/// A 16-bit word leads to these words in full, and to these as slots only.
fn leads_16(word: u16, in_full: &[i32], as_slot: &[i32]) {
    assert_eq!(leads((0, word), false), [in_full, as_slot], "{word:04X}");
}

/// Without a condition an operation leads to these words in both widths, whatever bits it has
/// besides its immediate.
fn both_lead(operation: u32, in_full: &[i32], as_slot: &[i32]) {
    for bits in [0, 0x1FF_FFFF, 0x155_5555, 0xAA_AAAA, 0x123_4567, 0xDC_BA98] {
        leads_32(operation << 26 | bits, in_full, as_slot);
        let h_bits = bits as u16 & 0x3FF;
        leads_16((operation as u16) << 10 | h_bits, in_full, as_slot);
    }
}

/// With bit 25 of a 32-bit word at 1 an operation leads to these words, on every condition.
fn with_bit_25(operation: u32, in_full: &[i32], as_slot: &[i32]) {
    for condition in 0..8 {
        for register in 0..8 {
            let word = when(condition, register, operation << 26);
            leads_32(word, in_full, as_slot);
            leads_32(word | 0x3_FFFF, in_full, as_slot);
        }
    }
}

/// The operations that lead to the next word alone.
fn ordinary() -> impl Iterator<Item = u32> {
    (0..36).chain(51..54).chain(56..64)
}

/// To the next word, on a condition or not. That an operation has no form in 16-bit words is
/// no exception.
#[test]
fn the_next_word() {
    for operation in ordinary() {
        both_lead(operation, &[1], &[]);
        with_bit_25(operation, &[1], &[]);
    }
}

/// jmp and jal: to their slot as a slot and to their target, jal to the word after the slot
/// too. Bit 25 is ignored.
#[test]
fn jumps_by_immediate() {
    for bit_25 in [0, 1 << 25] {
        for distance in [-5, -4, -1, 3, 4, 8] {
            let (wide, narrow) = to(36, distance);
            leads_32(wide | bit_25, &[distance], &[1]);
            leads_16(narrow, &[distance], &[1]);
            let (wide, narrow) = to(37, distance);
            let mut in_full = [distance, 2];
            in_full.sort();
            leads_32(wide | bit_25, &in_full, &[1]);
            leads_16(narrow, &in_full, &[1]);
        }
        // The slot, reached in full too, and the word after it.
        leads_32(to(36, 1).0 | bit_25, &[1], &[]);
        leads_16(to(36, 1).1, &[1], &[]);
        leads_32(to(36, 2).0 | bit_25, &[2], &[1]);
        leads_16(to(36, 2).1, &[2], &[1]);
        leads_32(to(37, 1).0 | bit_25, &[1, 2], &[]);
        leads_16(to(37, 1).1, &[1, 2], &[]);
        leads_32(to(37, 2).0 | bit_25, &[2], &[1]);
        leads_16(to(37, 2).1, &[2], &[1]);
    }
}

/// jmpr and jalr: as these, but for the target, which is in a register and not followed; with
/// a condition to the next word too.
#[test]
fn jumps_by_register() {
    both_lead(38, &[], &[1]);
    with_bit_25(38, &[1], &[]);
    both_lead(39, &[2], &[1]);
    with_bit_25(39, &[1, 2], &[]);
}

/// Branches lead to the next word and to their target, whatever their condition register; bit
/// 25 is ignored.
#[test]
fn branches() {
    for operation in 40..48 {
        for distance in [-5, -4, -1, 2, 3, 8] {
            let mut in_full = [1, distance];
            in_full.sort();
            let (wide, narrow) = to(operation, distance);
            for register in 0..8 {
                for bit_25 in [0, 1 << 25] {
                    leads_32(wide | register << 22 | bit_25, &in_full, &[]);
                }
            }
            leads_16(narrow, &in_full, &[]);
        }
        leads_32(to(operation, 1).0, &[1], &[]);
        leads_16(to(operation, 1).1, &[1], &[]);
    }
}

/// scall: to its nop as a slot and to the word after it; with a condition to the next word
/// too.
#[test]
fn system_calls() {
    both_lead(48, &[2], &[1]);
    with_bit_25(48, &[1, 2], &[]);
}

/// retu and reti: to the next word, to the next three, as slots.
#[test]
fn returns() {
    both_lead(49, &[], &[1]);
    with_bit_25(49, &[], &[1]);
    both_lead(50, &[], &[1, 2, 3]);
    with_bit_25(50, &[], &[1, 2, 3]);
}

/// swm: to the next two words as slots, and to the word three later if it keeps the width. Bit
/// 0 of the immediate decides, not the numbers 16 and 32 of the core's manual, and its other
/// bits are ignored.
#[test]
fn changes_of_width() {
    for bits in 0..0x400_u16 {
        let wide = 54 << 26 | u32::from(bits) | u32::from(bits) << 16;
        let narrow = 54 << 10 | bits;
        if bits & 1 == 1 {
            leads_32(wide, &[3], &[1, 2]);
            leads_16(narrow, &[], &[1, 2]);
        } else {
            leads_32(wide, &[], &[1, 2]);
            leads_16(narrow, &[3], &[1, 2]);
        }
    }
}

/// trap: nowhere.
#[test]
fn traps() {
    both_lead(55, &[], &[]);
    with_bit_25(55, &[], &[]);
}

// Whole programs

/// A program of 32-bit words, all worked by hand.
#[test]
fn a_program_of_32_bit_words() {
    let program = bytes_32(&[
        0x8801_0005, // 00h: lli R1 5
        0x9000_0006, // 04h: jmp 6, to 08h + 0Ch = 14h
        0x0000_0000, // 08h: its slot
        0xDC00_0001, // 0Ch: trap 1, by the branch
        0x0000_0000, // 10h: not reached
        0x9400_0006, // 14h: jal 6, to 18h + 0Ch = 24h
        0x0000_0000, // 18h: its slot
        0xAC3F_FFF6, // 1Ch: beq C0 -10, to 20h - 14h = 0Ch
        0xC800_0000, // 20h: reti
        0xD800_0001, // 24h: swm 1, to 30h; a slot of reti too
        0x0000_0000, // 28h: a slot of both
        0x0000_0000, // 2Ch: a slot of both
        0x9A00_0020, // 30h: jmpr R1 on a condition
        0xC400_0000, // 34h: retu
        0x0000_0000, // 38h: its slot
        0x0000_0000, // 3Ch: not reached
    ]);
    let not_reached = [0x10, 0x3C];
    let expected: Vec<u32> = (0..0x40)
        .step_by(4)
        .filter(|address| !not_reached.contains(address))
        .collect();
    assert_eq!(reached(&program, true, 0), expected);
    // From inside: what lies before is reached only where it is led to.
    let expected = [0x0C, 0x1C, 0x20, 0x24, 0x28, 0x2C];
    assert_eq!(reached(&program, true, 0x1C), expected);
    assert_eq!(reached(&program, true, 0x38), [0x38, 0x3C]);
}

/// A program of 16-bit words, all worked by hand.
#[test]
fn a_program_of_16_bit_words() {
    let program = bytes_16(&[
        0x4808, // 00h: addi R24 1
        0x9003, // 02h: jmp 3, to 04h + 06h = 0Ah
        0x0000, // 04h: its slot
        0xDC01, // 06h: trap 1, by the branch
        0x0000, // 08h: not reached
        0x9403, // 0Ah: jal 3, to 0Ch + 06h = 12h
        0x0000, // 0Ch: its slot
        0xAFFB, // 0Eh: beq -5, to 10h - 0Ah = 06h
        0xC800, // 10h: reti
        0xD800, // 12h: swm 0, to 18h; a slot of reti too
        0x0000, // 14h: a slot of both
        0x0000, // 16h: a slot of both
        0x9A08, // 18h: jmpr R25; bit 9 is no condition
        0x0000, // 1Ah: its slot
        0xC400, // 1Ch: not reached
        0x0000, // 1Eh: not reached
    ]);
    let not_reached = [0x08, 0x1C, 0x1E];
    let expected: Vec<u32> = (0..0x20)
        .step_by(2)
        .filter(|address| !not_reached.contains(address))
        .collect();
    assert_eq!(reached(&program, false, 0), expected);
    let expected = [0x06, 0x0E, 0x10, 0x12, 0x14, 0x16];
    assert_eq!(reached(&program, false, 0x0E), expected);
    assert_eq!(reached(&program, false, 0x1C), [0x1C, 0x1E]);
}

/// The same bytes in the other width. 9000h is jmp 0, to its slot; 0004h and 0000h are nops.
/// 90000004h is jmp 4, to 04h + 08h = 0Ch.
#[test]
fn one_width() {
    let program = bytes_32(&[0x9000_0004, 0, 0, 0xDC00_0000]);
    assert_eq!(reached(&program, true, 0), [0, 4, 12]);
    assert_eq!(reached(&program, false, 0), [0, 2, 4, 6, 8, 10, 12]);
}

/// Nothing before the start, everything after it.
#[test]
fn a_straight_program() {
    for start in 0..9 {
        let expected: Vec<u32> = (start..9).collect();
        reaches(&[NEXT; 9], start, &expected);
    }
}

/// A word that is reached only as a slot leads nowhere: every operation in a slot.
#[test]
fn slots_lead_nowhere() {
    for operation in 0..64 {
        for bits in [0, 1] {
            let slot = match operation {
                36 | 37 | 40..=47 => to(operation, 4),
                _ => word(operation, bits),
            };
            let program = |first: Word| {
                let mut words = [TRAP; 12];
                words[0] = first;
                words[1..4].fill(slot);
                words
            };
            // jmp and jmpr
            reaches(&program(to(36, 9)), 0, &[0, 1, 9]);
            reaches(&program(word(38, 0)), 0, &[0, 1]);
            // retu, reti
            reaches(&program(word(49, 0)), 0, &[0, 1]);
            reaches(&program(word(50, 0)), 0, &[0, 1, 2, 3]);
            // swm, to the other width
            let (to_16, to_32) = (54 << 26, 54 << 10 | 1);
            reaches(&program((to_16, to_32)), 0, &[0, 1, 2]);
            // jal, jalr and scall, whose word 2 is a trap here, and a swm that keeps the width
            for (first, expected) in [
                (to(37, 9), &[0, 1, 2, 9][..]),
                (word(39, 0), &[0, 1, 2]),
                (word(48, 0), &[0, 1, 2]),
            ] {
                let mut words = program(first);
                words[2] = TRAP;
                reaches(&words, 0, expected);
            }
            let mut words = program((54 << 26 | 1, 54 << 10));
            words[3] = TRAP;
            reaches(&words, 0, &[0, 1, 2, 3]);
        }
    }
}

/// A word that is reached in both ways leads on, whichever is found first.
#[test]
fn slots_reached_in_full() {
    // Word 2 is the slot of word 1, and the target of word 4.
    let mut words = [
        to(43, 4),  // 0: beq to 4
        to(36, 5),  // 1: jmp to 6
        NEXT,       // 2
        TRAP,       // 3
        to(36, -2), // 4: jmp to 2
        NEXT,       // 5: its slot
        TRAP,       // 6
        TRAP,       // 7
    ];
    reaches(&words, 0, &[0, 1, 2, 3, 4, 5, 6]);
    words[4] = TRAP;
    reaches(&words, 0, &[0, 1, 2, 4, 6]);
    // The target of word 0.
    words[0] = to(43, 2);
    reaches(&words, 0, &[0, 1, 2, 3, 6]);
    // The start, which a later word makes a slot too.
    let words = [
        TRAP,
        to(36, 3),  // 1: jmp to 4
        NEXT,       // 2
        to(43, -2), // 3: beq to 1
        TRAP,       // 4
        TRAP,
    ];
    reaches(&words, 2, &[1, 2, 3, 4]);
    reaches(&words, 1, &[1, 2, 4]);
    // The slots of reti, words 2 to 4, each of them a target: then word 5 is next.
    for slot in 2..=4 {
        let mut words = [
            to(43, 6), // 0: beq to 6
            word(50, 0),
            NEXT,
            NEXT,
            NEXT,
            TRAP,             // 5
            to(36, slot - 6), // 6: jmp to the slot
            NEXT,             // 7: its own slot
            TRAP,
        ];
        reaches(&words, 0, &[0, 1, 2, 3, 4, 5, 6, 7]);
        words[6] = TRAP;
        reaches(&words, 0, &[0, 1, 2, 3, 4, 6]);
    }
}

/// Words that lead to themselves or to their slot.
#[test]
fn small_loops() {
    reaches(&[to(36, 0), NEXT, TRAP], 0, &[0, 1]);
    reaches(&[to(37, 0), NEXT, TRAP, TRAP], 0, &[0, 1, 2]);
    reaches(&[to(40, 0), TRAP, TRAP], 0, &[0, 1]);
    reaches(&[to(36, 1), NEXT, TRAP, TRAP], 0, &[0, 1, 2]);
    reaches(&[TRAP, NEXT, to(36, -1), NEXT, TRAP], 2, &[1, 2, 3]);
    reaches(&[TRAP, NEXT, to(36, -1), NEXT, TRAP], 1, &[1, 2, 3]);
    // A jump in a slot leads on only from the start.
    let words = [TRAP, to(36, 3), to(36, -2), TRAP, TRAP];
    reaches(&words, 1, &[1, 2, 4]);
    reaches(&words, 2, &[0, 2, 3]);
}

/// Jumps that go up and down by turns, so that each is found after the one before it only.
#[test]
fn long_ways() {
    let count = 100_u32;
    let mut words = vec![TRAP; 2 * count as usize];
    let mut ways: Vec<u32> = Vec::new();
    for number in 0..count / 2 {
        ways.extend([number, count - 1 - number]);
    }
    for pair in ways.windows(2) {
        let distance = 2 * (pair[1] as i32 - pair[0] as i32);
        words[2 * pair[0] as usize] = to(36, distance);
    }
    // All jumps, all slots but that of the trap in the middle.
    let middle = count + 1;
    let expected: Vec<u32> = (0..2 * count).filter(|&place| place != middle).collect();
    reaches(&words, 0, &expected);
    // From half way.
    let start = ways[count as usize / 2];
    let rest = &ways[count as usize / 2..];
    let mut expected: Vec<u32> = rest
        .iter()
        .flat_map(|place| [2 * place, 2 * place + 1])
        .filter(|&place| place != middle)
        .collect();
    expected.sort();
    reaches(&words, 2 * start, &expected);
    // Downwards from the last, each to the one before.
    let mut words = vec![to(36, -2); 2 * count as usize];
    words[0] = TRAP;
    let expected: Vec<u32> = (0..2 * count).filter(|&place| place != 1).collect();
    reaches(&words, 2 * count - 2, &expected);
}

// Targets and the ends of the program

/// These addresses and the target, if there is one, in order.
fn and(addresses: &[u32], target: Option<u32>) -> Vec<u32> {
    let all: BTreeSet<u32> = addresses.iter().copied().chain(target).collect();
    all.into_iter().collect()
}

/// Targets of 32-bit words: the instruction is at 8 among six traps, its slot at 12. Only
/// aligned words wholly in the program are reached.
#[test]
fn targets_of_32_bit_words() {
    let check = |word: u32, others: &[u32], target: Option<u32>| {
        let mut words = [TRAP.0; 6];
        words[2] = word;
        let reached = reached(&bytes_32(&words), true, 8);
        assert_eq!(reached, and(others, target), "{word:08X}");
    };
    let jumps = |immediate: i32, target: Option<u32>| {
        check(jump(36, immediate), &[8, 12], target);
        check(jump(37, immediate), &[8, 12, 16], target);
    };
    let branches = |immediate: i32, target: Option<u32>| {
        for register in [0, 3, 7] {
            check(branch(2, register, immediate), &[8, 12], target);
        }
    };
    for (immediate, target) in [
        (0, Some(12)),
        (2, Some(16)),
        // The last word, and one past it.
        (4, Some(20)),
        (6, None),
        (8, None),
        (-2, Some(8)),
        (-4, Some(4)),
        // The first word, and below it.
        (-6, Some(0)),
        (-8, None),
        (-10, None),
        // Misaligned.
        (1, None),
        (3, None),
        (5, None),
        (7, None),
        (-1, None),
        (-3, None),
        (-5, None),
        (-7, None),
        // Far outside.
        (1_000, None),
        (-1_000, None),
        (32_762, None),
        (2_097_150, None),
        (2_097_151, None),
        (-2_097_151, None),
        (-2_097_152, None),
    ] {
        jumps(immediate, target);
        branches(immediate, target);
    }
    for immediate in [4_194_302, 16_777_214, 16_777_215, -16_777_215, -16_777_216] {
        jumps(immediate, None);
    }
}

/// Targets of 16-bit words: the instruction is at 4 among six traps, its slot at 6. None is
/// misaligned.
#[test]
fn targets_of_16_bit_words() {
    for (immediate, target) in [
        (0, Some(6)),
        (1, Some(8)),
        (2, Some(10)),
        (3, None),
        (4, None),
        (-1, Some(4)),
        (-2, Some(2)),
        (-3, Some(0)),
        (-4, None),
        (-5, None),
        (510, None),
        (511, None),
        (-511, None),
        (-512, None),
    ] {
        for (operation, others) in [(36, &[4, 6][..]), (37, &[4, 6, 8]), (45, &[4, 6])] {
            let mut words = [TRAP.1; 6];
            words[2] = h_jump(operation, immediate);
            let reached = reached(&bytes_16(&words), false, 4);
            assert_eq!(reached, and(others, target), "{operation} {immediate}");
        }
    }
}

/// The farthest targets inside a program. 16-bit words: 1024 bytes before the slot and 1022
/// after it.
#[test]
fn far_targets() {
    // 2 × 32,764 from 4 is the last word; one more word is outside.
    let mut program = vec![0; 65_536];
    let trap = TRAP.0.to_be_bytes();
    program[65_532..].copy_from_slice(&trap);
    program[..4].copy_from_slice(&jump(36, 32_764).to_be_bytes());
    assert_eq!(reached(&program, true, 0), [0, 4, 65_532]);
    program[..4].copy_from_slice(&jump(36, 32_766).to_be_bytes());
    assert_eq!(reached(&program, true, 0), [0, 4]);
    // The slot of the last word is absent, at 65,536; 2 × 32,768 before it is 0.
    program[..4].copy_from_slice(&trap);
    for word in [jump(36, -32_768), jump(37, -32_768), branch(5, 6, -32_768)] {
        program[65_532..].copy_from_slice(&word.to_be_bytes());
        assert_eq!(reached(&program, true, 65_532), [0, 65_532]);
    }
    for immediate in [-32_770, -32_767, -32_769, 0, 2, -1] {
        program[65_532..].copy_from_slice(&jump(36, immediate).to_be_bytes());
        assert_eq!(reached(&program, true, 65_532), [65_532]);
    }

    let mut program = [TRAP.1; 1200];
    program[600] = h_jump(36, 511);
    assert_eq!(
        reached(&bytes_16(&program), false, 1200),
        [1200, 1202, 2224]
    );
    program[600] = h_jump(37, -512);
    assert_eq!(
        reached(&bytes_16(&program), false, 1200),
        [178, 1200, 1202, 1204]
    );
}

/// Of the words that an instruction leads to, those that are there are reached. Jumps and
/// branches lead to the word before, also where their slot is absent. Bytes left over at the
/// end are no word, though with more of them they would be a nop.
#[test]
fn at_the_end_of_the_program() {
    // Each instruction with the words later that it leads to, in either way.
    let cases: [(Word, &[i32]); 13] = [
        (NEXT, &[1]),
        (to(36, -1), &[-1, 1]),
        (to(37, -1), &[-1, 1, 2]),
        (word(38, 0), &[1]),
        (word(39, 0), &[1, 2]),
        (to(46, -1), &[-1, 1]),
        (word(48, 0), &[1, 2]),
        (word(49, 0), &[1]),
        (word(50, 0), &[1, 2, 3]),
        // swm that keeps the width, and that does not
        ((54 << 26 | 1, 54 << 10), &[1, 2, 3]),
        ((54 << 26, 54 << 10 | 1), &[1, 2]),
        (TRAP, &[]),
        // scall on a condition in 32-bit words, and without one in 16-bit words
        ((when(3, 1, 48 << 26), 48 << 10), &[1, 2]),
    ];
    for (instruction, leads) in cases {
        for following in 0..5 {
            let mut words = vec![TRAP, instruction];
            words.resize(2 + following, TRAP);
            for wide in [false, true] {
                let size = word_bytes(wide);
                for left_over in 0..size {
                    let mut program = bytes(&words, wide);
                    program.resize(program.len() + left_over as usize, 0);
                    let places = leads.iter().map(|later| 1 + later).chain([1]);
                    let mut expected: Vec<u32> = places
                        .map(|place| place as u32)
                        .filter(|&place| place < words.len() as u32)
                        .map(|place| place * size)
                        .collect();
                    expected.sort();
                    let case = format!("{instruction:X?} {wide} {following} {left_over}");
                    assert_eq!(reached(&program, wide, size), expected, "{case}");
                }
            }
        }
    }
}

/// A target whose word is there in part only.
#[test]
fn a_part_of_a_word() {
    // jmp 4 at 0, to 12.
    let mut program = bytes_32(&[jump(36, 4), TRAP.0, TRAP.0, TRAP.0]);
    assert_eq!(reached(&program, true, 0), [0, 4, 12]);
    for _ in 0..4 {
        program.pop();
        assert_eq!(reached(&program, true, 0), [0, 4]);
    }
    // jmp 2 at 0, to 6.
    let mut program = bytes_16(&[h_jump(36, 2), TRAP.1, TRAP.1, TRAP.1]);
    assert_eq!(reached(&program, false, 0), [0, 2, 6]);
    for _ in 0..2 {
        program.pop();
        assert_eq!(reached(&program, false, 0), [0, 2]);
    }
    // The slot.
    let mut program = bytes_32(&[jump(36, -2), TRAP.0]);
    assert_eq!(reached(&program, true, 0), [0, 4]);
    for _ in 0..4 {
        program.pop();
        assert_eq!(reached(&program, true, 0), [0]);
    }
}

/// The longest program, whole and from its last word.
#[test]
fn the_longest_program() {
    let program = vec![0; 65_536];
    for wide in [false, true] {
        let size = word_bytes(wide);
        let expected: Vec<u32> = (0..65_536).step_by(size as usize).collect();
        assert_eq!(reached(&program, wide, 0), expected);
        let last = 65_536 - size;
        assert_eq!(reached(&program, wide, last), [last]);
        // One byte less: the last word is not wholly there.
        let expected = &expected[..expected.len() - 1];
        assert_eq!(reached(&program[..65_535], wide, 0), expected);
    }
}

// Maps and refusals

/// The map is 0 elsewhere over the program's length, whatever it holds before, and its later
/// bytes keep their values.
#[test]
fn maps() {
    let mut program = bytes_32(&[jump(36, 4), NOP, NOP, NOP, TRAP.0]);
    program.extend([0, 0, 0]);
    let mut expected = [0_u8; 23];
    for address in [0, 4, 12, 16] {
        expected[address] = 1;
    }
    for fill in [0, 1, 2, KEPT, 0xFF] {
        for more in [0, 1, 2, 3, 4, 100] {
            let mut map = vec![fill; 23 + more];
            assert_eq!(reach(&program, true, 0, &mut map), 0);
            assert_eq!(map[..23], expected);
            assert!(map[23..].iter().all(|&byte| byte == fill));
        }
    }
    // A second call takes back what the first has marked.
    let mut map = [KEPT; 24];
    assert_eq!(reach(&program, true, 0, &mut map), 0);
    assert_eq!(reach(&program, true, 16, &mut map), 0);
    let mut expected = [0_u8; 24];
    expected[16] = 1;
    expected[23] = KEPT;
    assert_eq!(map, expected);
}

/// A call on a program of nops that is refused, and that it changes nothing.
fn refused(length: usize, wide: bool, start: u32, map_length: usize, refusal: u32) {
    let program = vec![0; length];
    let mut map = vec![KEPT; map_length];
    assert_eq!(reach(&program, wide, start, &mut map), refusal);
    assert!(map.iter().all(|&byte| byte == KEPT));
}

/// 27: the start misaligned or its word absent.
#[test]
fn refused_starts() {
    let huge = [
        0x1_0000,
        0x1_0004,
        0x7FFF_FFFC,
        0x8000_0000,
        0xFFFF_0000,
        0xFFFF_FFF8,
        0xFFFF_FFFC,
        0xFFFF_FFFD,
        0xFFFF_FFFE,
        0xFFFF_FFFF,
    ];
    for wide in [false, true] {
        let size = word_bytes(wide);
        for length in 0..20_usize {
            for start in 0..24 {
                let there = start as usize + size as usize <= length;
                if start % size == 0 && there {
                    assert_eq!(reached(&vec![0; length], wide, start).first(), Some(&start));
                } else {
                    refused(length, wide, start, length, 27);
                    refused(length, wide, start, length + 5, 27);
                }
            }
            for start in huge {
                refused(length, wide, start, length, 27);
            }
        }
        for start in huge {
            refused(65_536, wide, start, 65_536, 27);
        }
        for start in [1, 3, 65_533, 65_535] {
            refused(65_536, wide, start, 65_536, 27);
        }
    }
    // Aligned for 16-bit words only.
    for start in [2, 6, 65_534] {
        refused(65_536, true, start, 65_536, 27);
        assert_eq!(reached(&vec![0; 65_536], false, start)[0], start);
    }
}

/// No word of an empty program is there.
#[test]
fn empty_program() {
    for wide in [false, true] {
        for start in [0, 1, 2, 4, 0xFFFF_FFFC, 0xFFFF_FFFF] {
            for map_length in [0, 1, 4, 100] {
                refused(0, wide, start, map_length, 27);
            }
        }
    }
}

/// 28: the map shorter than the program, bytes that make no word included.
#[test]
fn short_maps() {
    for wide in [false, true] {
        for length in [4, 5, 6, 7, 8, 9, 65_535, 65_536] {
            refused(length, wide, 0, length - 1, 28);
            refused(length, wide, 0, length / 2, 28);
            refused(length, wide, 0, 0, 28);
            let mut map = vec![KEPT; length];
            assert_eq!(reach(&vec![0; length], wide, 0, &mut map), 0);
        }
    }
}

/// 1 before 28 before 27.
#[test]
fn order_of_refusals() {
    for wide in [false, true] {
        // 1: more than 65,536 bytes.
        for length in [65_537, 65_538, 65_540, 100_000] {
            for start in [0, 1, 65_536, 0xFFFF_FFFF] {
                for map_length in [0, 65_536, length - 1, length, length + 1] {
                    refused(length, wide, start, map_length, 1);
                }
            }
        }
        for start in [1, 3, 8, 0xFFFF_FFFC, 0xFFFF_FFFF] {
            refused(8, wide, start, 7, 28);
            refused(8, wide, start, 0, 28);
            refused(8, wide, start, 8, 27);
            refused(1, wide, start, 0, 28);
            refused(65_536, wide, start | 0x1_0000, 65_535, 28);
        }
    }
}

// Random programs

/// Random words of one width, with many jumps and branches, most of them to near targets, and
/// most of the swm followed by nops. The last word may be there in part only.
fn random_program(random: &mut Random, wide: bool) -> Vec<u8> {
    let length = random.below(60 * word_bytes(wide)) as usize;
    let mut words: Vec<Word> = Vec::new();
    while words.len() < 60 {
        let operation = match random.below(6) {
            0 => random.below(64),
            1 | 2 => 36 + random.below(20),
            3 => 40 + random.below(8),
            _ => random.below(36),
        };
        let immediate = match random.below(8) {
            0 => random.next() as i32,
            1 => random.below(80) as i32 - 40,
            _ => 2 * (random.below(40) as i32 - 20),
        };
        let bits = random.next() & 0x3FF_FFFF;
        words.push(match operation {
            36 | 37 => (
                jump(operation, immediate),
                h_jump(operation as u16, immediate as i16),
            ),
            40..=47 => (
                branch(operation - 40, random.below(8), immediate),
                h_jump(operation as u16, immediate as i16),
            ),
            _ => (
                operation << 26 | bits,
                (operation as u16) << 10 | bits as u16 & 0x3FF,
            ),
        });
        if operation == 54 && random.below(4) != 0 {
            words.extend([NEXT, NEXT]);
        }
    }
    let mut program = bytes(&words, wide);
    program.truncate(length);
    program
}

/// What is reached, by recursion, and from the bits of the words (Manual 2).
struct Search<'a> {
    program: &'a [u8],
    wide: bool,
    in_full: BTreeSet<i64>,
    as_slot: BTreeSet<i64>,
}

impl Search<'_> {
    /// The word at an address, in the high bits of the result; nothing where there is none.
    fn word(&self, address: i64) -> Option<u32> {
        let size = word_bytes(self.wide) as usize;
        let first = usize::try_from(address).ok()?;
        let bytes = self.program.get(first..first + size)?;
        match *bytes {
            [b3, b2, b1, b0] if first % 4 == 0 => Some(u32::from_be_bytes([b3, b2, b1, b0])),
            [b1, b0] if first % 2 == 0 => Some(u32::from_be_bytes([b1, b0, 0, 0])),
            _ => None,
        }
    }

    /// Reaches a word as a slot.
    fn slot(&mut self, address: i64) {
        if self.word(address).is_some() {
            self.as_slot.insert(address);
        }
    }

    /// Reaches a word in full, and all that it leads to.
    fn visit(&mut self, address: i64) {
        let Some(word) = self.word(address) else {
            return;
        };
        if !self.in_full.insert(address) {
            return;
        }
        let size = i64::from(word_bytes(self.wide));
        let [one, two, three] = [1, 2, 3].map(|count| address + count * size);
        let operation = word >> 26;
        let conditional = self.wide && word & 1 << 25 != 0;
        // The sign is the highest bit that is left after a shift to the left.
        let immediate = match (self.wide, operation) {
            (false, _) => (word << 6) as i32 >> 22,
            (true, 36 | 37) => (word << 7) as i32 >> 7,
            (true, _) => (word << 10) as i32 >> 10,
        };
        let target = one + 2 * i64::from(immediate);
        let il = match self.wide {
            true => word & 1,
            false => word >> 16 & 1,
        };
        match operation {
            36 => {
                self.slot(one);
                self.visit(target);
            }
            37 => {
                self.visit(two);
                self.slot(one);
                self.visit(target);
            }
            38 | 39 | 48 => {
                if operation != 38 {
                    self.visit(two);
                }
                if conditional {
                    self.visit(one);
                }
                self.slot(one);
            }
            40..=47 => {
                self.visit(target);
                self.visit(one);
            }
            49 => self.slot(one),
            50 => [one, two, three].into_iter().for_each(|at| self.slot(at)),
            54 => {
                self.slot(one);
                self.slot(two);
                if il == u32::from(self.wide) {
                    self.visit(three);
                }
            }
            55 => {}
            _ => self.visit(one),
        }
    }
}

/// Random programs, from every word: the same words as a depth-first search finds.
#[test]
fn random_programs() {
    let mut random = Random(0x2545_F491_4F6C_DD1D);
    // How often each operation is reached in full, in 16-bit and in 32-bit words, how often a
    // word is reached as a slot only, and how often in both ways.
    let mut operations = [[0_u32; 64]; 2];
    let (mut slots, mut both) = (0, 0);
    for _ in 0..400 {
        let wide = random.below(2) == 1;
        let program = random_program(&mut random, wide);
        let size = word_bytes(wide);
        for start in (0..program.len() as u32 / size).map(|place| place * size) {
            let mut search = Search {
                program: &program,
                wide,
                in_full: BTreeSet::new(),
                as_slot: BTreeSet::new(),
            };
            search.visit(i64::from(start));
            let Search {
                in_full, as_slot, ..
            } = search;
            let expected: Vec<u32> = in_full.union(&as_slot).map(|&at| at as u32).collect();
            assert_eq!(reached(&program, wide, start), expected, "{program:X?}");
            for &address in &in_full {
                let operation = program[address as usize] >> 2;
                operations[usize::from(wide)][usize::from(operation)] += 1;
            }
            slots += as_slot.difference(&in_full).count();
            both += as_slot.intersection(&in_full).count();
        }
    }
    // The test means something only if much is reached.
    for (number, count) in operations.concat().into_iter().enumerate() {
        assert!(count > 50, "{number}: {count}");
    }
    assert!(slots > 5_000 && both > 1_000, "{slots} {both}");
}

/// What the machine runs is reached, until a register, an exception, a store to the control
/// block or another width decides where it goes on.
#[test]
fn what_the_machine_runs() {
    // An address that no word has.
    let nowhere = 0xFFFF_FFF1;
    let mut random = Random(0x9E37_79B9_7F4A_7C15);
    let mut steps = [0_u32; 64];
    for _ in 0..3_000 {
        let wide = random.below(2) == 1;
        let bench = match wide {
            true => Bench::new(&[]),
            false => Bench::new_16(&[]),
        };
        let program = random_program(&mut random, wide);
        let size = word_bytes(wide);
        let words = program.len() as u32 / size;
        if words == 0 {
            continue;
        }
        let start = random.below(words) * size;
        let reached = reached(&program, wide, start);
        let mut bench = bench
            .at(start)
            .control(offset::EXCEP_ADDR, nowhere)
            .control(offset::SYSTEM_ADDR, nowhere);
        bench.program = program;
        for register in (0..29).chain([31]) {
            bench.machine.set2[register] = random.below(10);
        }
        for register in &mut bench.machine.conditions {
            *register = random.below(8);
        }
        let mut last = false;
        for _ in 0..100 {
            let address = bench.pc();
            if address % size != 0 || address / size >= words {
                break;
            }
            assert!(reached.contains(&address), "{address:X}");
            let operation = bench.program[address as usize] >> 2;
            // The slot of a jump by register is the last word that the map knows of.
            if last || matches!(operation, 49 | 50) {
                break;
            }
            let before = bench.machine.control;
            let same_width = bench.psr() & IL;
            if bench.run(1).ending != 0 {
                break;
            }
            if bench.machine.control != before || bench.psr() & IL != same_width {
                break;
            }
            steps[usize::from(operation)] += 1;
            last = matches!(operation, 38 | 39) && bench.machine.position.slot.is_some();
        }
    }
    // The test means something only if all that leads elsewhere is run.
    for operation in (36..48).chain([54]) {
        assert!(steps[operation] > 20, "{operation}: {steps:?}");
    }
}
