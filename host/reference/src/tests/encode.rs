//! Writing words (Manual 12): the words of both widths, the refusals, and what is read again.

use super::bench::*;
use super::listing::{bytes_16, bytes_32, list, parts, used_16, used_32};
use super::random::Random;
use crate::encode::{word, Choice};
use crate::{cleared, encode, reading};
use std::collections::HashMap;

/// A 32-bit word's choice, without a condition.
fn wide(operation: u32, operands: [i32; 4]) -> Choice {
    Choice {
        operation,
        wide: 1,
        operands,
        ..Choice::default()
    }
}

/// A 16-bit word's choice.
fn short(operation: u32, operands: [i32; 4]) -> Choice {
    Choice {
        wide: 0,
        ..wide(operation, operands)
    }
}

/// The same choice with a condition.
fn on(condition: u32, creg: u32, choice: Choice) -> Choice {
    Choice {
        conditional: 1,
        creg,
        condition,
        ..choice
    }
}

/// The choice gives this word, and the word is read as the choice.
fn writes(choice: Choice, expected: u32) {
    assert_eq!(word(&choice), Ok(expected), "{choice:?}");
    assert_eq!(encode(&choice), u64::from(expected));
    assert_eq!(reading(expected, choice.wide), Some(choice));
}

/// The choice gives this 16-bit word.
fn h_writes(choice: Choice, expected: u16) {
    writes(choice, u32::from(expected));
}

/// The choice is refused with this number.
fn refused(choice: Choice, refusal: u32) {
    assert_eq!(word(&choice), Err(refusal), "{choice:?}");
    assert_eq!(encode(&choice), 0x1_0000_0000 + u64::from(refusal));
}

/// The operations that may be conditional in 32-bit words.
fn may_be_conditional(operation: u32) -> bool {
    matches!(operation, 1..=31 | 38 | 39 | 48 | 58..=62)
}

/// The least and the greatest of each operand in 32-bit words, by the bits used.
fn ranges_32(operation: u32) -> Vec<(i32, i32)> {
    let register = (0, 31);
    let creg = (0, 7);
    match operation {
        1..=17 | 58 | 59 | 62 => vec![register, register, register],
        // Nine bits, signed.
        18 | 22 | 27 | 28 => vec![register, register, (-256, 255)],
        33 => vec![creg, register, (-256, 255)],
        // Nine bits, unsigned.
        19..=21 => vec![register, register, (0, 511)],
        // The five lowest bits.
        23..=26 => vec![register, register, (0, 31)],
        29 | 30 => vec![register, register],
        31 | 38 | 39 | 56 | 57 => vec![register],
        32 => vec![creg, register, register],
        // lli and lui: bits 15..0.
        34 | 35 => vec![register, (0, 65_535)],
        // jmp and jal: bits 24..0, signed.
        36 | 37 => vec![(-16_777_216, 16_777_215)],
        // Branches: the register in bits 24..22, the immediate in bits 21..0, signed.
        40..=47 => vec![creg, (-2_097_152, 2_097_151)],
        // chrs has bits 1..0, swm bit 0, trap bits 4..0.
        51 => vec![(0, 3)],
        54 => vec![(0, 1)],
        55 => vec![(0, 31)],
        // exb has bits 1..0, exh bit 0.
        60 => vec![register, register, (0, 3)],
        61 => vec![register, register, (0, 1)],
        // The length in bits 24..19, the position in bits 4..0.
        63 => vec![register, register, (0, 63), (0, 31)],
        _ => vec![],
    }
}

/// The same in 16-bit words; nothing where the operation has no form.
fn ranges_16(operation: u32) -> Option<Vec<(i32, i32)>> {
    // Registers of 16-bit words are given as 24 to 31.
    let register = (24, 31);
    let ranges = match operation {
        34 | 35 | 63 => return None,
        1..=17 | 29 | 30 | 32 | 58 | 59 | 62 => vec![register, register],
        // Bits 9..3.
        18 | 22 | 33 => vec![register, (-64, 63)],
        19..=21 => vec![register, (0, 127)],
        23..=26 => vec![register, (0, 31)],
        // ld and st: bits 9..6.
        27 | 28 => vec![register, register, (-8, 7)],
        31 | 38 | 39 | 56 | 57 => vec![register],
        // Jumps and branches: bits 9..0.
        36 | 37 | 40..=47 => vec![(-512, 511)],
        51 => vec![(0, 3)],
        54 => vec![(0, 1)],
        55 => vec![(0, 31)],
        60 => vec![register, (0, 3)],
        61 => vec![register, (0, 1)],
        _ => vec![],
    };
    Some(ranges)
}

/// Every operation in both widths with the ranges of its operands, where it has a form.
fn forms() -> impl Iterator<Item = (Choice, Vec<(i32, i32)>)> {
    (0..64).flat_map(|operation| {
        let wide = (wide(operation, [0; 4]), ranges_32(operation));
        let short = ranges_16(operation).map(|ranges| (short(operation, [0; 4]), ranges));
        std::iter::once(wide).chain(short)
    })
}

/// Words worked by hand.
#[test]
fn words_worked_by_hand() {
    writes(wide(34, [1, 5, 0, 0]), 0x8801_0005);
    writes(wide(18, [2, 1, -1, 0]), 0x4807_883F);
    writes(wide(55, [3, 0, 0, 0]), 0xDC00_0003);
    writes(wide(54, [0, 0, 0, 0]), 0xD800_0000);
    // sub R25 R26: R25 becomes R26 − R25.
    h_writes(short(3, [25, 26, 0, 0]), 0x0C11);
    // `egt C7`
    writes(on(1, 7, wide(1, [31, 31, 31, 0])), 0x07C8_7FFF);
}

/// Every operation with its operands in the order of a listing, in both widths.
#[test]
fn operations() {
    for operation in 0..64 {
        let three = rrr(operation, 3, 1, 2);
        let (operands, expected) = match operation {
            1..=17 | 58 | 62 => ([3, 1, 2, 0], three),
            // conh has its second source before the first.
            59 => ([3, 2, 1, 0], three),
            18..=28 => ([3, 1, 2, 0], rri(operation, 3, 1, 2)),
            29 | 30 => ([3, 1, 0, 0], rrr(operation, 3, 1, 0)),
            31 | 56 => ([3, 0, 0, 0], rrr(operation, 3, 0, 0)),
            32 => ([5, 1, 2, 0], cmp(5, 1, 2)),
            33 => ([5, 1, -2, 0], cmpi(5, 1, -2)),
            34 => ([3, 0xBEEF, 0, 0], lli(3, 0xBEEF)),
            35 => ([3, 0xBEEF, 0, 0], lui(3, 0xBEEF)),
            36 | 37 => ([-3, 0, 0, 0], jump(operation, -3)),
            38 | 39 | 57 => ([1, 0, 0, 0], rrr(operation, 0, 1, 0)),
            40..=47 => ([6, -3, 0, 0], branch(operation - 40, 6, -3)),
            51 => ([2, 0, 0, 0], plain(51, 2)),
            54 => ([1, 0, 0, 0], plain(54, 1)),
            55 => ([21, 0, 0, 0], plain(55, 21)),
            60 => ([3, 1, 2, 0], rri(60, 3, 1, 2)),
            61 => ([3, 1, 1, 0], rri(61, 3, 1, 1)),
            63 => ([3, 1, 33, 4], exbfi(3, 1, 33, 4)),
            _ => ([0; 4], plain(operation, 0)),
        };
        writes(wide(operation, operands), expected);
        if may_be_conditional(operation) {
            let choice = on(4, 6, wide(operation, operands));
            writes(choice, when(4, 6, expected));
        }

        // sr 2 is R26, dr 1 is R25.
        let number = operation as u16;
        let (operands, expected) = match operation {
            1..=17 | 29 | 30 | 58 | 59 | 62 => ([25, 26, 0, 0], h_rr(number, 2, 1)),
            // cmp: the first source is sr.
            32 => ([26, 25, 0, 0], h_rr(number, 2, 1)),
            18 | 22 | 33 => ([25, -5, 0, 0], h_ri(number, 1, -5)),
            19..=21 | 23..=26 => ([25, 5, 0, 0], h_ri(number, 1, 5)),
            60 => ([25, 2, 0, 0], h_ri(number, 1, 2)),
            61 => ([25, 1, 0, 0], h_ri(number, 1, 1)),
            27 | 28 => ([25, 26, -5, 0], h_memory(number, 2, 1, -5)),
            31 | 56 => ([25, 0, 0, 0], h_rr(number, 0, 1)),
            38 | 39 | 57 => ([26, 0, 0, 0], h_rr(number, 2, 0)),
            36 | 37 | 40..=47 => ([-5, 0, 0, 0], h_jump(number, -5)),
            51 => ([2, 0, 0, 0], h_plain(51, 2)),
            54 => ([1, 0, 0, 0], h_plain(54, 1)),
            55 => ([21, 0, 0, 0], h_plain(55, 21)),
            34 | 35 | 63 => {
                refused(short(operation, [0; 4]), 18);
                continue;
            }
            _ => ([0; 4], h_plain(number, 0)),
        };
        h_writes(short(operation, operands), expected);
    }
}

/// Every operand of every operation in both widths: all ends fit, one past an end and the
/// ends of 32 bits do not.
#[test]
fn ends_of_operands() {
    for (choice, ranges) in forms() {
        let mut middle = choice;
        for (operand, &(least, greatest)) in middle.operands.iter_mut().zip(&ranges) {
            *operand = (least + greatest) / 2;
        }
        for (index, &(least, greatest)) in ranges.iter().enumerate() {
            let with = |number: i32| {
                let mut choice = middle;
                choice.operands[index] = number;
                choice
            };
            for number in [least, least + 1, greatest - 1, greatest] {
                let choice = with(number);
                let word = word(&choice).expect("it fits");
                assert_eq!(reading(word, choice.wide), Some(choice));
            }
            for number in [
                least - 1,
                greatest + 1,
                i32::MIN,
                i32::MIN + 1,
                i32::MAX - 1,
                i32::MAX,
            ] {
                refused(with(number), 19);
            }
            // What has the right low bits and other bits above them does not fit either.
            for bit in 25..32 {
                refused(with(least.max(0) ^ 1 << bit), 19);
            }
        }
    }
}

/// Small operands: every number from one before the least to one past the greatest.
#[test]
fn all_numbers_of_small_operands() {
    for (choice, ranges) in forms() {
        let mut least_of_all = choice;
        for (operand, &(least, _)) in least_of_all.operands.iter_mut().zip(&ranges) {
            *operand = least;
        }
        for (index, &(least, greatest)) in ranges.iter().enumerate() {
            if greatest - least > 600 {
                continue;
            }
            for number in least - 40..=greatest + 40 {
                let mut choice = least_of_all;
                choice.operands[index] = number;
                let fits = (least..=greatest).contains(&number);
                assert_eq!(word(&choice).is_ok(), fits, "{choice:?}");
                assert_eq!(word(&choice).err(), (!fits).then_some(19));
            }
        }
    }
}

/// Places of the ends: registers, and immediates with and without a sign.
#[test]
fn words_at_the_ends() {
    writes(wide(1, [31, 0, 0, 0]), rrr(1, 31, 0, 0));
    writes(wide(1, [0, 31, 0, 0]), rrr(1, 0, 31, 0));
    writes(wide(1, [0, 0, 31, 0]), rrr(1, 0, 0, 31));
    for immediate in [-256, -255, -33, -32, -1, 31, 32, 255] {
        let expected = rri(27, 31, 0, immediate);
        writes(wide(27, [31, 0, immediate, 0]), expected);
    }
    for immediate in [0, 31, 32, 255, 256, 511] {
        let expected = rri(21, 0, 31, immediate);
        writes(wide(21, [0, 31, immediate, 0]), expected);
    }
    writes(wide(34, [31, 0, 0, 0]), 0x881F_0000);
    writes(wide(35, [0, 65_535, 0, 0]), 0x8C00_FFFF);
    writes(wide(36, [-16_777_216, 0, 0, 0]), 0x9100_0000);
    writes(wide(37, [16_777_215, 0, 0, 0]), 0x94FF_FFFF);
    writes(wide(40, [0, -2_097_152, 0, 0]), 0xA020_0000);
    writes(wide(47, [7, 2_097_151, 0, 0]), 0xBDDF_FFFF);
    writes(wide(63, [31, 31, 63, 31]), 0xFDF8_7FFF);
    writes(wide(63, [0, 0, 63, 0]), 0xFDF8_0000);
    for register in 24..32 {
        let number = register as u16 - 24;
        h_writes(short(29, [register, 24, 0, 0]), h_rr(29, 0, number));
        h_writes(short(29, [24, register, 0, 0]), h_rr(29, number, 0));
    }
    for immediate in [-64, -1, 0, 63] {
        let expected = h_ri(33, 7, immediate as i16);
        h_writes(short(33, [31, immediate, 0, 0]), expected);
    }
    h_writes(short(19, [24, 127, 0, 0]), h_ri(19, 0, 127));
    h_writes(short(26, [24, 31, 0, 0]), h_ri(26, 0, 31));
    h_writes(short(28, [31, 24, -8, 0]), h_memory(28, 0, 7, -8));
    h_writes(short(28, [24, 31, 7, 0]), h_memory(28, 7, 0, 7));
    h_writes(short(36, [-512, 0, 0, 0]), h_jump(36, -512));
    h_writes(short(47, [511, 0, 0, 0]), h_jump(47, 511));
}

/// What the core's manual permits, or another notation has, and the bits do not hold.
#[test]
fn numbers_of_other_notations() {
    // A shift by 32; swm 16 and 32; a negative lli; addi beyond nine bits.
    refused(wide(23, [1, 1, 32, 0]), 19);
    refused(wide(54, [16, 0, 0, 0]), 19);
    refused(wide(54, [32, 0, 0, 0]), 19);
    refused(wide(34, [1, -1, 0, 0]), 19);
    refused(wide(18, [1, 1, 256, 0]), 19);
    // A trap by its code, registers of 16-bit words from 0 on.
    refused(wide(55, [224, 0, 0, 0]), 19);
    refused(short(1, [1, 2, 0, 0]), 19);
    refused(short(1, [24, 0, 0, 0]), 19);
    // Odd jumps and lengths over 32 do fit.
    writes(wide(36, [1, 0, 0, 0]), jump(36, 1));
    writes(wide(63, [0, 0, 33, 0]), exbfi(0, 0, 33, 0));
}

/// An operand that the operation does not have has to be 0: each of them.
#[test]
fn operands_without_bits() {
    for (choice, ranges) in forms() {
        let mut choice = choice;
        for (operand, &(least, _)) in choice.operands.iter_mut().zip(&ranges) {
            *operand = least;
        }
        assert!(word(&choice).is_ok());
        for index in ranges.len()..4 {
            for number in [1, -1, 24, 31, i32::MIN, i32::MAX] {
                let mut choice = choice;
                choice.operands[index] = number;
                refused(choice, 19);
            }
        }
    }
}

/// Every condition of every register; its parts fit three bits each.
#[test]
fn conditions() {
    for condition in 0..8 {
        for creg in 0..8 {
            let choice = on(condition, creg, wide(1, [3, 1, 2, 0]));
            writes(choice, when(condition, creg, rrr(1, 3, 1, 2)));
            let choice = on(condition, creg, wide(48, [0; 4]));
            writes(choice, when(condition, creg, plain(48, 0)));
        }
    }
    for large in [8, 9, 16, 0x100, 0x8000_0000, u32::MAX] {
        refused(on(large, 0, wide(1, [3, 1, 2, 0])), 19);
        refused(on(0, large, wide(1, [3, 1, 2, 0])), 19);
        refused(on(large, large, wide(1, [3, 1, 2, 0])), 19);
        refused(on(large, 0, wide(48, [0; 4])), 19);
    }
}

/// Without a condition its parts are not looked at.
#[test]
fn parts_of_no_condition() {
    for (creg, condition) in [(7, 7), (8, 0), (0, 8), (u32::MAX, u32::MAX)] {
        for (choice, expected) in [
            (wide(1, [3, 1, 2, 0]), rrr(1, 3, 1, 2)),
            (wide(32, [5, 1, 2, 0]), cmp(5, 1, 2)),
            (wide(0, [0; 4]), NOP),
            (short(3, [25, 26, 0, 0]), 0x0C11),
        ] {
            let choice = Choice {
                creg,
                condition,
                ..choice
            };
            assert_eq!(word(&choice), Ok(expected));
        }
    }
}

/// A condition where there is no conditional form: the never conditional ones in 32-bit words,
/// and all 16-bit words.
#[test]
fn no_conditional_form() {
    for (choice, ranges) in forms() {
        let mut choice = choice;
        for (operand, &(least, _)) in choice.operands.iter_mut().zip(&ranges) {
            *operand = least;
        }
        for (condition, creg) in [(0, 0), (7, 7)] {
            let choice = on(condition, creg, choice);
            if choice.wide == 1 && may_be_conditional(choice.operation) {
                let word = word(&choice).expect("it may be conditional");
                assert_eq!(reading(word, 1), Some(choice));
            } else {
                refused(choice, 18);
            }
        }
    }
}

/// No form in that width: three in 16-bit words, and every number that no operation has.
#[test]
fn no_form() {
    for operation in [34, 35, 63] {
        refused(short(operation, [0; 4]), 18);
        refused(short(operation, [24, 5, 0, 0]), 18);
        assert!(word(&wide(operation, [0; 4])).is_ok());
    }
    for operation in [64, 65, 70, 127, 128, 0x100, 0x8000_0000, u32::MAX] {
        refused(wide(operation, [0; 4]), 18);
        refused(short(operation, [0; 4]), 18);
        refused(on(0, 0, wide(operation, [0; 4])), 18);
    }
    // Those whose low six bits are an operation's.
    refused(wide(64 + 1, [3, 1, 2, 0]), 18);
    refused(short(64 + 1, [25, 26, 0, 0]), 18);
}

/// 18 is asked first: both reasons together.
#[test]
fn order_of_refusals() {
    // No form, and operands or a condition that do not fit.
    refused(short(34, [99, -1, 7, 7]), 18);
    refused(short(63, [24, 24, 64, 0]), 18);
    refused(wide(64, [99, 99, 99, 99]), 18);
    refused(on(9, 9, short(34, [99, 0, 0, 0])), 18);
    // No conditional form, and parts that do not fit.
    refused(on(8, 0, wide(0, [0; 4])), 18);
    refused(on(0, 8, wide(32, [5, 1, 2, 0])), 18);
    refused(on(0, 0, wide(32, [8, 1, 2, 0])), 18);
    refused(on(0, 0, wide(0, [0, 0, 0, 1])), 18);
    refused(on(0, 0, short(1, [0, 0, 0, 0])), 18);
    refused(on(u32::MAX, u32::MAX, short(1, [25, 26, 0, 0])), 18);
    // Without the condition, or in the other width, it is 19.
    refused(wide(32, [8, 1, 2, 0]), 19);
    refused(short(1, [0, 0, 0, 0]), 19);
    refused(wide(34, [99, -1, 7, 7]), 19);
    refused(on(8, 0, wide(1, [3, 1, 2, 0])), 19);
}

/// Any `wide` but 0 means 32-bit words, any `conditional` but 0 a condition.
#[test]
fn numbers_that_say_yes() {
    for yes in [1, 2, 3, 32, 256, 0x1_0000, 0x8000_0000, u32::MAX] {
        let choice = Choice {
            wide: yes,
            ..wide(1, [3, 1, 2, 0])
        };
        writes(choice, rrr(1, 3, 1, 2));
        let choice = Choice {
            conditional: yes,
            ..on(5, 6, choice)
        };
        assert_eq!(word(&choice), Ok(when(5, 6, rrr(1, 3, 1, 2))));
        let choice = Choice {
            conditional: yes,
            ..short(3, [25, 26, 0, 0])
        };
        refused(choice, 18);
    }
}

/// What holds of a word that came in: nothing where it has no form; otherwise it is written
/// with its ignored bits at 0, reading that word finds the same, and a second writing alters
/// nothing.
fn comes_back(came_in: u32, wide: u32, used: u32) -> Option<Choice> {
    let Some(choice) = reading(came_in, wide) else {
        assert_eq!(cleared(came_in, wide), None);
        return None;
    };
    let written = word(&choice).expect("a word can be written again");
    assert_eq!(written, came_in & used, "{came_in:X} {choice:?}");
    assert_eq!(cleared(came_in, wide), Some(written));
    assert_eq!(cleared(written, wide), Some(written));
    assert_eq!(reading(written, wide), Some(choice));
    assert_eq!(word(&choice), Ok(written));
    Some(choice)
}

/// All 16-bit words. Each choice has one written word, and each word one choice.
#[test]
fn all_16_bit_words_come_back() {
    let mut words = HashMap::new();
    let mut without_form = 0;
    for came_in in 0..0x1_0000 {
        let operation = came_in >> 10;
        let used = 63 << 10 | used_16(operation);
        let Some(choice) = comes_back(came_in, 0, used) else {
            assert!(matches!(operation, 34 | 35 | 63));
            without_form += 1;
            continue;
        };
        assert_eq!(choice.operation, operation);
        assert_eq!(choice.conditional, 0);
        let choice = (choice.operation, choice.operands);
        let first = *words.entry(choice).or_insert(came_in & used);
        assert_eq!(first, came_in & used);
    }
    assert_eq!(without_form, 3 * 0x400);
    // As many choices as words with ignored bits at 0.
    let written: usize = (0..64)
        .filter(|operation| !matches!(operation, 34 | 35 | 63))
        .map(|operation| 1 << used_16(operation).count_ones())
        .sum();
    assert_eq!(words.len(), written);
}

/// Many 32-bit words of every operation, their bits random, all 0, all 1 or a single one.
#[test]
fn random_32_bit_words_come_back() {
    let mut random = Random(0x2545_F491_4F6C_DD1D);
    for operation in 0..64 {
        for round in 0..5000 {
            let below = match round {
                0 => 0,
                1 => u32::MAX,
                2..=27 => 1 << (round - 2),
                28..=53 => !(1 << (round - 28)),
                _ => random.next(),
            };
            let came_in = operation << 26 | below & 0x3FF_FFFF;
            let conditional = may_be_conditional(operation) && came_in >> 25 & 1 == 1;
            let mut used = 63 << 26 | used_32(operation);
            if conditional {
                used |= 0x3F8_0000;
            }
            let choice = comes_back(came_in, 1, used).expect("all have a form");
            assert_eq!(choice.operation, operation);
            assert_eq!(choice.conditional, u32::from(conditional));
        }
    }
}

/// The choice that a listing's line shows.
fn shown(line: &str, operation: u32, wide: u32) -> Choice {
    let names = ["c", "egt", "elt", "eq", "gt", "lt", "ne", "nc"];
    let [condition, _, operands] = parts(line);
    let mut choice = Choice {
        operation,
        wide,
        ..Choice::default()
    };
    if let Some((name, creg)) = condition.split_once(" C") {
        choice.conditional = 1;
        choice.creg = creg.parse().expect("a number");
        let number = names.iter().position(|&other| other == name);
        choice.condition = number.expect("a condition") as u32;
    }
    for (number, operand) in choice.operands.iter_mut().zip(operands.split_whitespace()) {
        let digits = operand.trim_start_matches(['R', 'C']);
        *number = digits.parse().expect("a number");
    }
    choice
}

/// A word is read as a listing shows it.
#[test]
fn reading_is_what_a_listing_shows() {
    for first in [0, 0x8000] {
        let words: Vec<u16> = (first..=first + 0x7FFF).collect();
        let text = list(&bytes_16(&words), 0);
        for (number, &word) in words.iter().enumerate() {
            let line = &text[48 * number..48 * number + 48];
            let choice = shown(line, u32::from(word >> 10), 0);
            let has_form = parts(line)[1] != "?";
            assert_eq!(reading(u32::from(word), 0), has_form.then_some(choice));
        }
    }
    let mut random = Random(0x9E37_79B9_7F4A_7C15);
    let words: Vec<u32> = (0..16_384)
        .map(|number| number << 26 | random.next() & 0x3FF_FFFF)
        .collect();
    let text = list(&bytes_32(&words), 1);
    for (number, &word) in words.iter().enumerate() {
        let line = &text[48 * number..48 * number + 48];
        assert_eq!(reading(word, 1), Some(shown(line, word >> 26, 1)));
    }
}

/// Random choices: each one that is not refused is what its word is read as, and each one is
/// refused exactly where one of its numbers is out of its range.
#[test]
fn random_choices() {
    let mut random = Random(0xD1B5_4A32_D192_ED03);
    let all: Vec<_> = forms().collect();
    let mut answers = [0; 3];
    for _ in 0..300_000 {
        let (mut choice, ranges) = all[random.below(all.len() as u32) as usize].clone();
        for (index, operand) in choice.operands.iter_mut().enumerate() {
            let (least, greatest) = ranges.get(index).copied().unwrap_or((0, 0));
            let count = (greatest - least) as u32 + 1;
            *operand = match random.below(20) {
                0 => random.next() as i32,
                1 => least - 1,
                2 => greatest + 1,
                _ => least + random.below(count) as i32,
            };
        }
        if random.below(3) == 0 {
            choice = on(random.below(8), random.below(8), choice);
            if random.below(8) == 0 {
                choice.creg += 8;
            }
        }
        let given = choice.conditional == 1;
        let in_range = |(index, operand): (usize, &i32)| match ranges.get(index) {
            Some(&(least, greatest)) => (least..=greatest).contains(operand),
            None => *operand == 0,
        };
        let expected = if given && !(choice.wide == 1 && may_be_conditional(choice.operation)) {
            Some(18)
        } else if given && choice.creg > 7 || !choice.operands.iter().enumerate().all(in_range) {
            Some(19)
        } else {
            None
        };
        match word(&choice) {
            Ok(word) => {
                assert_eq!(expected, None, "{choice:?}");
                assert_eq!(reading(word, choice.wide), Some(choice));
                assert_eq!(cleared(word, choice.wide), Some(word));
                answers[0] += 1;
            }
            Err(refusal) => {
                assert_eq!(expected, Some(refusal), "{choice:?}");
                answers[refusal as usize - 17] += 1;
            }
        }
    }
    assert!(answers.iter().all(|&count| count > 10_000), "{answers:?}");
}
