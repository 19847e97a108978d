//! Byte and field operations (Manual 3.2).

use super::bench::*;
use super::operations::{compute, compute_immediate};

/// A word whose bytes are all different.
const SOURCE: u32 = 0x89AB_CDEF;

/// The field of a value, bit by bit: its bits past bit 31 are zero; a length over 32 counts as
/// 32.
fn field(value: u32, length: u32, position: u32) -> u32 {
    let mut result = 0;
    for bit in 0..length.min(32) {
        if bit + position <= 31 && value >> (bit + position) & 1 == 1 {
            result |= 1 << bit;
        }
    }
    result
}

/// A word of each of the six, with target 3 and sources 1 and 2.
fn all_six() -> [u32; 6] {
    [
        rrr(58, 3, 1, 2),
        rrr(59, 3, 1, 2),
        rri(60, 3, 1, 2),
        rri(61, 3, 1, 1),
        rrr(62, 3, 1, 2),
        exbfi(3, 1, 12, 4),
    ]
}

/// The second source of `all_six`: for exbf, length 12 and position 4.
const SECOND: u32 = 0xFFFF_F000 | 12 << 5 | 4;

/// The results of `all_six` on SOURCE and SECOND.
const RESULTS: [u32; 6] = [0xEF84, 0xCDEF_F184, 0xAB, 0x89AB, 0xCDE, 0xCDE];

/// conb (58): the low byte of the first above that of the second.
#[test]
fn concatenated_bytes() {
    assert_eq!(compute(58, 0x12, 0x34), (0x1234, 0));
    assert_eq!(compute(58, 0, 0), (0, 0));
    assert_eq!(compute(58, 0xFF, 0), (0xFF00, 0));
    assert_eq!(compute(58, 0, 0xFF), (0x00FF, 0));
    // The upper three bytes are not used, and there is no sign.
    assert_eq!(compute(58, SOURCE, 0x1234_5678), (0xEF78, 0));
    assert_eq!(compute(58, 0xFFFF_FFFF, 0xFFFF_FFFF), (0xFFFF, 0));
    assert_eq!(compute(58, 0xFFFF_FF00, 0xFFFF_FF00), (0, 0));
}

/// conh (59): the low halfword of the first above that of the second, unlike in the core's
/// manual.
#[test]
fn concatenated_halfwords() {
    assert_eq!(compute(59, 0x1234, 0x5678), (0x1234_5678, 0));
    assert_eq!(compute(59, 0, 0), (0, 0));
    assert_eq!(compute(59, 0xFFFF, 0), (0xFFFF_0000, 0));
    assert_eq!(compute(59, 0, 0xFFFF), (0x0000_FFFF, 0));
    assert_eq!(compute(59, SOURCE, 0x1234_5678), (0xCDEF_5678, 0));
    assert_eq!(compute(59, 0xFFFF_FFFF, 0xFFFF_FFFF), (0xFFFF_FFFF, 0));
    assert_eq!(compute(59, 0xFFFF_0000, 0xFFFF_0000), (0, 0));
}

/// exb (60): the byte of the source with the number in bits 1..0 of the immediate, 0 the
/// lowest.
#[test]
fn extracted_bytes() {
    let bytes = [0xEF, 0xCD, 0xAB, 0x89];
    for immediate in 0..0x200 {
        let expected = bytes[immediate as usize & 3];
        let mut wide = Bench::new(&[rri(60, 3, 1, immediate)])
            .pr(1, SOURCE)
            .pr(3, 0xFFFF_FFFF);
        wide.steps(1);
        assert_eq!(wide.machine.set2[3], expected);
        assert_eq!(wide.machine.set2[1], SOURCE);
    }
    // 16-bit: dr is source and target, the immediate is in 9..3.
    for immediate in 0..0x80 {
        let expected = bytes[immediate as usize & 3];
        for dr in [0, 1, 2, 3, 4] {
            let mut short = Bench::new_16(&[h_ri(60, dr, immediate)]);
            for register in 24..=28 {
                short.machine.set2[register] = 0x5555_5555;
            }
            short.machine.set2[24 + dr as usize] = SOURCE;
            let mut set2 = short.machine.set2;
            set2[24 + dr as usize] = expected;
            short.steps(1);
            assert_eq!(short.machine.set2, set2);
        }
    }
    assert_eq!(compute_immediate(60, 0, 3), (0, 0));
    assert_eq!(compute_immediate(60, 0xFFFF_FFFF, 3), (0xFF, 0));
    assert_eq!(compute_immediate(60, 0x00FF_FFFF, 3), (0, 0));
}

/// exh (61): the halfword with the number in bit 0, the other bits of the immediate being
/// ignored.
#[test]
fn extracted_halfwords() {
    let halfwords = [0xCDEF, 0x89AB];
    for immediate in 0..0x200 {
        let mut wide = Bench::new(&[rri(61, 3, 1, immediate)])
            .pr(1, SOURCE)
            .pr(3, 0xFFFF_FFFF);
        wide.steps(1);
        assert_eq!(wide.machine.set2[3], halfwords[immediate as usize & 1]);
        assert_eq!(wide.machine.set2[1], SOURCE);
    }
    for immediate in 0..0x80 {
        let mut short = Bench::new_16(&[h_ri(61, 1, immediate)]).pr(25, SOURCE);
        short.steps(1);
        assert_eq!(short.machine.set2[25], halfwords[immediate as usize & 1]);
    }
    assert_eq!(compute_immediate(61, 0xFFFF_FFFF, 1), (0xFFFF, 0));
    assert_eq!(compute_immediate(61, 0xFFFF_FFFF, 0), (0xFFFF, 0));
    assert_eq!(compute_immediate(61, 0xFFFF_FFFF, 2), (0xFFFF, 0));
    assert_eq!(compute_immediate(61, 0x0000_FFFF, 1), (0, 0));
}

/// exbf (62): length in bits 10..5 of the second source, position in bits 4..0, its other bits
/// being ignored.
#[test]
fn fields_by_a_register() {
    for value in [SOURCE, 0xFFFF_FFFF, 0x8000_0001] {
        for length in 0..64 {
            for position in 0..32 {
                let expected = (field(value, length, position), 0);
                let second = length << 5 | position;
                assert_eq!(compute(62, value, second), expected);
                assert_eq!(compute(62, value, second | 0xFFFF_F800), expected);
            }
        }
    }
}

/// exbfi (63): length in bits 24..19, position in bits 4..0.
#[test]
fn fields_by_immediates() {
    for value in [SOURCE, 0xFFFF_FFFF, 0x8000_0001] {
        for length in 0..64 {
            for position in 0..32 {
                let mut bench = Bench::new(&[exbfi(3, 1, length, position)])
                    .pr(1, value)
                    .pr(3, 0x5555_5555);
                bench.machine.conditions = [1, 2, 3, 4, 5, 6, 7, 0];
                let mut expected = bench.machine.clone();
                expected.set2[3] = field(value, length, position);
                expected.position.pc = 4;
                bench.steps(1);
                assert_eq!(bench.machine, expected);
            }
        }
    }
}

/// A field's bits past bit 31 are zero; a length over 32 counts as 32.
#[test]
fn fields_at_the_ends() {
    // (length, position, field of SOURCE)
    for (length, position, expected) in [
        (0, 0, 0),
        (0, 31, 0),
        (1, 0, 1),
        (1, 31, 1),
        (31, 0, 0x09AB_CDEF),
        (31, 1, 0x44D5_E6F7),
        (31, 2, 0x226A_F37B),
        (31, 31, 1),
        (32, 0, SOURCE),
        (32, 1, 0x44D5_E6F7),
        (32, 31, 1),
        (33, 0, SOURCE),
        (33, 4, 0x089A_BCDE),
        (33, 31, 1),
        (63, 0, SOURCE),
        (63, 16, 0x89AB),
        (63, 31, 1),
    ] {
        assert_eq!(compute(62, SOURCE, length << 5 | position), (expected, 0));
        let mut bench = Bench::new(&[exbfi(3, 1, length, position)]).pr(1, SOURCE);
        bench.steps(1);
        assert_eq!(bench.machine.set2[3], expected);
    }
}

/// 16-bit words of two registers: sr is the first source, dr the second and the target.
#[test]
fn short_words() {
    // (operation, sr, dr, result)
    for (operation, first, second, expected) in [
        (58, SOURCE, 0x1234_5678, 0xEF78),
        (59, SOURCE, 0x1234_5678, 0xCDEF_5678),
        (62, SOURCE, 8 << 5 | 12, 0xBC),
    ] {
        // Bits 9..6 are ignored.
        for ignored in 0..16 {
            let mut bench = Bench::new_16(&[h_rr(operation, 2, 1) | ignored << 6])
                .pr(26, first)
                .pr(25, second);
            let mut machine = bench.machine.clone();
            machine.set2[25] = expected;
            machine.position.pc = 2;
            bench.steps(1);
            assert_eq!(bench.machine, machine);
        }
    }
    // One register as both sources: the field of length 6 at position 5 of itself.
    let mut bench = Bench::new_16(&[h_rr(62, 1, 1)]).pr(25, 6 << 5 | 5);
    bench.steps(1);
    assert_eq!(bench.machine.set2[25], 6);
}

/// Bits that an operation does not use are ignored: 24..15 of conb, conh and exbf and 24..19
/// of exb and exh with bit 25 at 0, 18..15 and 25 of exbfi.
#[test]
fn unused_bits_of_the_six() {
    for (word, expected) in all_six().into_iter().zip(RESULTS) {
        let unused = match word >> 26 {
            60 | 61 => 0x01F8_0000,
            63 => 0x0207_8000,
            _ => 0x01FF_8000,
        };
        for bits in [unused, unused & 0x5555_5555, unused & 0xAAAA_AAAA] {
            let mut bench = Bench::new(&[word | bits]).pr(1, SOURCE).pr(2, SECOND);
            let mut machine = bench.machine.clone();
            machine.set2[3] = expected;
            machine.position.pc = 4;
            bench.steps(1);
            assert_eq!(bench.machine, machine);
        }
    }
}

/// conb, conh, exb, exh and exbf may be conditional.
#[test]
fn conditional_ones() {
    for (word, result) in all_six().into_iter().zip(RESULTS).take(5) {
        for condition in 0..8 {
            // nc, ne, gt and egt are true of 0, the other four of 7.
            let of_0 = [1, 4, 6, 7].contains(&condition);
            for (value, is_true) in [(0, of_0), (7, !of_0)] {
                let mut bench = Bench::new(&[when(condition, 5, word)])
                    .pr(1, SOURCE)
                    .pr(2, SECOND)
                    .c(5, value);
                if is_true {
                    bench.steps(1);
                    assert_eq!(bench.machine.set2[3], result);
                } else {
                    bench.moves_only_pc(4);
                }
            }
        }
    }
}

/// exbfi is never conditional: with bit 25 at 1 it happens whatever the conditions.
#[test]
fn exbfi_is_unconditional() {
    for length in 0..64 {
        for value in 0..8 {
            let mut bench = Bench::new(&[exbfi(3, 1, length, 0) | 1 << 25])
                .pr(1, 0xFFFF_FFFF)
                .pr(3, 0x5555_5555);
            bench.machine.conditions = [value; 8];
            bench.steps(1);
            assert_eq!(bench.machine.set2[3], field(0xFFFF_FFFF, length, 0));
        }
    }
}

/// exbfi is 02h in 16-bit words, in both modes and whatever its other bits.
#[test]
fn exbfi_in_16_bit() {
    for bits in 0..0x400 {
        Bench::new_16(&[h_plain(63, bits)]).raises(0x02);
        Bench::new_16(&[h_plain(63, bits)]).user().raises(0x02);
    }
    // In a slot too, and slot and product are dropped.
    let mut bench = Bench::new_16(&[h_jump(36, 8), h_plain(63, 0)]);
    bench.steps(1);
    bench.machine.position.product = Some(5);
    bench.raises(0x02);
    // After 05h, 00h and stop 11.
    Bench::new_16(&[h_plain(63, 0)]).at(1).raises(0x05);
    let mut bench = Bench::new_16(&[h_plain(63, 0)]).user();
    bench.protect_program(1, 1);
    bench.raises(0x00);
    let mut bench = Bench::new_16(&[h_plain(63, 0)]);
    bench.program.truncate(1);
    bench.stops(11);
}

/// The six are no control transfers: they may stand in a branch slot.
#[test]
fn in_a_slot() {
    for (word, expected) in all_six().into_iter().zip(RESULTS) {
        let mut bench = Bench::new(&[jump(36, 8), word]).pr(1, SOURCE).pr(2, SECOND);
        bench.steps(2);
        assert_eq!(bench.machine.set2[3], expected);
        assert_eq!((bench.pc(), bench.machine.position.slot), (20, None));
    }
    // sr is SOURCE, dr 00010102h: length 8, position 2.
    for (word, expected) in [
        (h_rr(58, 2, 1), 0xEF02),
        (h_rr(59, 2, 1), 0xCDEF_0102),
        (h_ri(60, 1, 2), 0x01),
        (h_ri(61, 1, 0), 0x0102),
        (h_rr(62, 2, 1), 0x7B),
    ] {
        let mut bench = Bench::new_16(&[h_jump(36, 8), word])
            .pr(26, SOURCE)
            .pr(25, 0x0001_0102);
        bench.steps(2);
        assert_eq!(bench.machine.set2[25], expected);
        assert_eq!((bench.pc(), bench.machine.position.slot), (18, None));
    }
}

/// The six happen in user mode, on set 1.
#[test]
fn in_user_mode() {
    for (word, expected) in all_six().into_iter().zip(RESULTS) {
        let mut bench = Bench::new(&[word]).user().r(1, SOURCE).r(2, SECOND);
        let mut machine = bench.machine.clone();
        machine.set1[3] = expected;
        machine.position.pc = 4;
        bench.steps(1);
        assert_eq!(bench.machine, machine);
    }
}

/// Sources come from the set that RSRD names, targets go to the set that RSWR names.
#[test]
fn sets_of_the_six() {
    for (word, expected) in all_six().into_iter().zip(RESULTS) {
        // RSRD names set 1, RSWR set 2, and the other way round.
        let mut bench = Bench::new(&[plain(51, 2), word]).r(1, SOURCE).r(2, SECOND);
        bench.steps(2);
        assert_eq!(bench.machine.set2[3], expected);
        assert_eq!(bench.machine.set1[3], 0);
        let mut bench = Bench::new(&[plain(51, 1), word])
            .pr(1, SOURCE)
            .pr(2, SECOND);
        bench.steps(2);
        assert_eq!(bench.machine.set1[3], expected);
        assert_eq!(bench.machine.set2[3], 0);
    }
}

/// A target may be a source.
#[test]
fn target_and_source() {
    let mut bench = Bench::new(&[
        rrr(58, 1, 1, 1),
        rrr(59, 2, 2, 2),
        rri(60, 3, 3, 1),
        rri(61, 4, 4, 1),
        rrr(62, 5, 1, 5),
        exbfi(6, 6, 8, 4),
    ]);
    for register in 1..=6 {
        bench.machine.set2[register] = SOURCE;
    }
    bench.machine.set2[5] = 4 << 5 | 8;
    bench.steps(6);
    assert_eq!(
        bench.machine.set2[1..=6],
        [0xEFEF, 0xCDEF_CDEF, 0xCD, 0x89AB, 0xF, 0xDE]
    );
}

/// PSR as a target keeps its value; R29 of set 1 is an ordinary register.
#[test]
fn psr_as_a_target() {
    for (word, expected) in all_six().into_iter().zip(RESULTS) {
        let word = word & !(31 << 10) | 29 << 10;
        Bench::new(&[word])
            .pr(1, SOURCE)
            .pr(2, SECOND)
            .moves_only_pc(4);
        let mut bench = Bench::new(&[plain(51, 0), word]).r(1, SOURCE).r(2, SECOND);
        bench.steps(2);
        assert_eq!(bench.machine.set1[29], expected);
        assert_eq!(bench.psr(), 0x08);
    }
    // In 16-bit words dr 5 is PSR.
    for word in [
        h_rr(58, 2, 5),
        h_rr(59, 2, 5),
        h_ri(60, 5, 1),
        h_ri(61, 5, 1),
        h_rr(62, 2, 5),
    ] {
        Bench::new_16(&[word]).pr(26, SOURCE).moves_only_pc(2);
    }
    // As a source it can be read.
    let mut bench = Bench::new(&[exbfi(3, 29, 3, 1)]);
    bench.steps(1);
    assert_eq!(bench.machine.set2[3], 7);
}

/// Only an executed muls, mulu, mulus or muli leaves a product: a held one is gone after each
/// of the six, the condition true or not.
#[test]
fn a_held_product_is_dropped() {
    for word in all_six() {
        for word in [word, when(0, 0, word)] {
            let mut bench = Bench::new(&[rrr(9, 4, 1, 1), word, rrr(31, 5, 0, 0)]).pr(1, SOURCE);
            bench.steps(1);
            assert!(bench.machine.position.product.is_some());
            bench.steps(1);
            assert_eq!(bench.machine.position.product, None);
            bench.stops(14);
        }
    }
    for word in [
        h_rr(58, 2, 3),
        h_rr(59, 2, 3),
        h_ri(60, 3, 1),
        h_ri(61, 3, 1),
        h_rr(62, 2, 3),
    ] {
        let mut bench = Bench::new_16(&[h_rr(9, 2, 1), word, h_rr(31, 0, 4)]).pr(26, SOURCE);
        bench.steps(2);
        assert_eq!(bench.machine.position.product, None);
        bench.stops(14);
    }
}
