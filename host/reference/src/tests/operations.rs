//! The effects of operations that move, compute, compare, load and store.

use super::bench::*;
use crate::machine::offset;

/// Runs an operation on two registers in both widths: result and C0.
pub fn compute(operation: u32, first: u32, second: u32) -> (u32, u32) {
    let mut wide = Bench::new(&[rrr(operation, 25, 26, 27)])
        .pr(26, first)
        .pr(27, second);
    wide.steps(1);
    assert_eq!(wide.pc(), 4);
    // 16-bit: first sr, second dr, target dr.
    let mut short = Bench::new_16(&[h_rr(operation as u16, 2, 1)])
        .pr(26, first)
        .pr(25, second);
    short.steps(1);
    assert_eq!(short.pc(), 2);
    assert_eq!(wide.machine.set2[25], short.machine.set2[25]);
    assert_eq!(wide.machine.conditions, short.machine.conditions);
    assert_eq!(wide.machine.conditions[1..], [0; 7]);
    (wide.machine.set2[25], wide.machine.conditions[0])
}

/// Runs an operation on a register and an immediate that both widths can hold: result
/// and C0.
pub fn compute_immediate(operation: u32, first: u32, immediate: i32) -> (u32, u32) {
    let mut wide = Bench::new(&[rri(operation, 25, 26, immediate)]).pr(26, first);
    wide.steps(1);
    let mut short = Bench::new_16(&[h_ri(operation as u16, 1, immediate as i16)]).pr(25, first);
    short.steps(1);
    assert_eq!(wide.machine.set2[25], short.machine.set2[25]);
    assert_eq!(wide.machine.conditions, short.machine.conditions);
    (wide.machine.set2[25], wide.machine.conditions[0])
}

/// Z and N of the 32-bit result, C the carry out.
#[test]
fn additions() {
    for operation in [1, 2] {
        assert_eq!(compute(operation, 2, 3), (5, 0));
        assert_eq!(compute(operation, 0, 0), (0, 4));
        assert_eq!(compute(operation, 5, 0xFFFF_FFFF), (4, 1));
        assert_eq!(compute(operation, 1, 0xFFFF_FFFF), (0, 5));
        assert_eq!(compute(operation, 0, 0xFFFF_FFFF), (0xFFFF_FFFF, 2));
        assert_eq!(
            compute(operation, 0xFFFF_FFFF, 0xFFFF_FFFF),
            (0xFFFF_FFFE, 3)
        );
        assert_eq!(compute(operation, 0x8000_0000, 0), (0x8000_0000, 2));
    }
    // addu wraps.
    assert_eq!(compute(2, 0x7FFF_FFFF, 1), (0x8000_0000, 2));
    assert_eq!(compute(2, 0x8000_0000, 0x8000_0000), (0, 5));
    assert_eq!(compute(2, 0x8000_0000, 0xFFFF_FFFF), (0x7FFF_FFFF, 1));
}

#[test]
fn additions_of_immediates() {
    assert_eq!(compute_immediate(18, 5, -1), (4, 1));
    assert_eq!(compute_immediate(18, 0, -1), (0xFFFF_FFFF, 2));
    assert_eq!(compute_immediate(18, 1, -1), (0, 5));
    assert_eq!(compute_immediate(18, 0x7FFF_FFFE, 1), (0x7FFF_FFFF, 0));
    assert_eq!(compute_immediate(19, 5, 63), (68, 0));
    assert_eq!(compute_immediate(19, 0x7FFF_FFFF, 1), (0x8000_0000, 2));
    assert_eq!(compute_immediate(19, 0xFFFF_FFFF, 1), (0, 5));
    // addiu fills with zeros.
    let mut bench = Bench::new(&[rri(19, 2, 1, 0x1FF)]).pr(1, 1);
    bench.steps(1);
    assert_eq!(bench.machine.set2[2], 0x200);
    let mut bench = Bench::new_16(&[h_ri(19, 1, 0x7F)]).pr(25, 1);
    bench.steps(1);
    assert_eq!(bench.machine.set2[25], 0x80);
}

/// C of a subtraction: first ≥ second, unsigned.
#[test]
fn subtractions() {
    for operation in [3, 4] {
        assert_eq!(compute(operation, 7, 5), (2, 1));
        assert_eq!(compute(operation, 5, 7), (0xFFFF_FFFE, 2));
        assert_eq!(compute(operation, 5, 5), (0, 5));
        assert_eq!(compute(operation, 0, 0xFFFF_FFFF), (1, 0));
        assert_eq!(compute(operation, 0xFFFF_FFFF, 0), (0xFFFF_FFFF, 3));
        assert_eq!(compute(operation, 0x7FFF_FFFF, 0x7FFF_FFFF), (0, 5));
    }
    assert_eq!(compute(4, 0x7FFF_FFFF, 0xFFFF_FFFF), (0x8000_0000, 2));
    assert_eq!(compute(4, 0, 0x8000_0000), (0x8000_0000, 2));
}

/// add, addi and sub are 06h outside signed 32 bits; nothing else is.
#[test]
fn overflow() {
    for (operation, first, second) in [
        (1, 0x7FFF_FFFF, 1),
        (1, 0x8000_0000, 0xFFFF_FFFF),
        (1, 0x8000_0000, 0x8000_0000),
        (3, 0x8000_0000, 1),
        (3, 0, 0x8000_0000),
        (3, 0x7FFF_FFFF, 0xFFFF_FFFF),
    ] {
        let mut bench = Bench::new(&[rrr(operation, 3, 1, 2)])
            .pr(1, first)
            .pr(2, second)
            .c(0, 7);
        bench.raises(0x06);
        let mut bench = Bench::new_16(&[h_rr(operation as u16, 2, 1)])
            .pr(26, first)
            .pr(25, second)
            .c(0, 7);
        bench.raises(0x06);
    }
    Bench::new(&[rri(18, 3, 1, 1)])
        .pr(1, 0x7FFF_FFFF)
        .raises(0x06);
    Bench::new(&[rri(18, 3, 1, -1)])
        .pr(1, 0x8000_0000)
        .raises(0x06);
    Bench::new_16(&[h_ri(18, 1, -1)])
        .pr(25, 0x8000_0000)
        .raises(0x06);
    // muls and muli give none.
    assert_eq!(compute(8, 0x8000_0000, 0x8000_0000).0, 0);
    assert_eq!(compute_immediate(22, 0x4000_0000, 4).0, 0);
}

#[test]
fn bitwise() {
    assert_eq!(compute(5, 0xFF00_FF00, 0x0FF0_0FF0), (0x0F00_0F00, 0));
    assert_eq!(compute(6, 0xFF00_FF00, 0x0FF0_0FF0), (0xFFF0_FFF0, 0));
    assert_eq!(compute(7, 0xFF00_FF00, 0x0FF0_0FF0), (0xF0F0_F0F0, 0));
    assert_eq!(compute(29, 0x1234_5678, 0), (0x1234_5678, 0));
    assert_eq!(compute(30, 0x1234_5678, 0), (0xEDCB_A987, 0));
    assert_eq!(compute_immediate(20, 0xFFFF_FFFF, 0x3F), (0x3F, 0));
    assert_eq!(compute_immediate(21, 0xF000_0000, 0x3F), (0xF000_003F, 0));
    // andi and ori fill with zeros.
    let mut bench = Bench::new(&[rri(20, 2, 1, 0x1FF), rri(21, 3, 0, 0x1FF)]).pr(1, 0xFFFF_FFFF);
    bench.steps(2);
    assert_eq!(bench.machine.set2[2], 0x1FF);
    assert_eq!(bench.machine.set2[3], 0x1FF);
    let mut bench = Bench::new_16(&[h_ri(20, 1, 0x7F), h_ri(21, 2, 0x7F)]).pr(25, 0xFFFF_FFFF);
    bench.steps(2);
    assert_eq!(bench.machine.set2[25], 0x7F);
    assert_eq!(bench.machine.set2[26], 0x7F);
}

/// No flags are written but by add, addi, addu, addiu, sub, subu, cmp, cmpi, rcon, reti.
#[test]
fn flags_untouched() {
    for operation in (5..=17).chain(20..=26).chain([29, 30]).chain(58..=63) {
        let mut bench = Bench::new(&[rrr(operation, 3, 1, 2)])
            .pr(1, 0x8000_0001)
            .pr(2, 0xFFFF_FFFF);
        bench.machine.conditions = [1, 2, 3, 4, 5, 6, 7, 0];
        bench.steps(1);
        assert_eq!(bench.machine.conditions, [1, 2, 3, 4, 5, 6, 7, 0]);
    }
}

#[test]
fn multiplications_of_words() {
    // (operation, first, second, high, low)
    for (operation, first, second, high, low) in [
        (8, 0x8000_0000, 0x8000_0000, 0x4000_0000, 0),
        (8, 0x8000_0000, 0x7FFF_FFFF, 0xC000_0000, 0x8000_0000),
        (8, 0xFFFF_FFFE, 3, 0xFFFF_FFFF, 0xFFFF_FFFA),
        (9, 0xFFFF_FFFE, 3, 2, 0xFFFF_FFFA),
        (9, 0x8000_0000, 0x8000_0000, 0x4000_0000, 0),
        // The first is unsigned, the second signed.
        (10, 0xFFFF_FFFE, 3, 2, 0xFFFF_FFFA),
        (10, 3, 0xFFFF_FFFE, 0xFFFF_FFFF, 0xFFFF_FFFA),
        (10, 0xFFFF_FFFF, 0x8000_0000, 0x8000_0000, 0x8000_0000),
    ] {
        assert_eq!(compute(operation, first, second), (low, 0));
        let mut bench = Bench::new_16(&[h_rr(operation as u16, 2, 1), h_rr(31, 0, 3)])
            .pr(26, first)
            .pr(25, second);
        bench.steps(2);
        assert_eq!(bench.machine.set2[25], low);
        assert_eq!(bench.machine.set2[27], high);
        let mut bench = Bench::new(&[rrr(operation, 3, 1, 2), rrr(31, 4, 0, 0)])
            .pr(1, first)
            .pr(2, second);
        bench.steps(2);
        assert_eq!(bench.machine.set2[3], low);
        assert_eq!(bench.machine.set2[4], high);
    }
    // muli: the immediate's sign is extended.
    let mut bench = Bench::new(&[rri(22, 3, 1, -2), rrr(31, 4, 0, 0)]).pr(1, 0x4000_0000);
    bench.steps(2);
    assert_eq!(bench.machine.set2[3], 0x8000_0000);
    assert_eq!(bench.machine.set2[4], 0xFFFF_FFFF);
    let mut bench = Bench::new_16(&[h_ri(22, 1, -64), h_rr(31, 0, 2)]).pr(25, 0x8000_0000);
    bench.steps(2);
    assert_eq!(bench.machine.set2[25], 0);
    assert_eq!(bench.machine.set2[26], 32);
}

#[test]
fn multiplications_of_halfwords() {
    assert_eq!(compute(11, 0x1234_FFFF, 0x5678_FFFF), (1, 0));
    assert_eq!(compute(11, 0x8000, 0x8000), (0x4000_0000, 0));
    assert_eq!(compute(11, 0x8000, 0x7FFF), (0xC000_8000, 0));
    assert_eq!(compute(12, 0x1234_FFFF, 0x5678_FFFF), (0xFFFE_0001, 0));
    // The first is unsigned, the second signed.
    assert_eq!(compute(13, 0xFFFF, 0xFFFF), (0xFFFF_0001, 0));
    assert_eq!(compute(13, 0xFFFF, 2), (0x1_FFFE, 0));
    assert_eq!(compute(13, 2, 0xFFFF), (0xFFFF_FFFE, 0));
    // They hold no product.
    for operation in 11..=13 {
        let mut bench = Bench::new(&[rrr(operation, 3, 1, 2), rrr(31, 4, 0, 0)]);
        bench.steps(1);
        bench.stops(14);
    }
}

/// Shifts, sext and sexti use the five lowest bits.
#[test]
fn shifts() {
    assert_eq!(compute(14, 0x8000_0001, 1), (2, 0));
    assert_eq!(compute(14, 0x8000_0001, 31), (0x8000_0000, 0));
    assert_eq!(compute(14, 0x8000_0001, 32), (0x8000_0001, 0));
    assert_eq!(compute(14, 0x8000_0001, 0xFFFF_FFE4), (0x10, 0));
    assert_eq!(compute(15, 0x8000_0001, 1), (0x4000_0000, 0));
    assert_eq!(compute(15, 0x8000_0001, 31), (1, 0));
    assert_eq!(compute(15, 0x8000_0001, 32), (0x8000_0001, 0));
    assert_eq!(compute(16, 0x8000_0001, 1), (0xC000_0000, 0));
    assert_eq!(compute(16, 0x8000_0001, 31), (0xFFFF_FFFF, 0));
    assert_eq!(compute(16, 0x7FFF_FFFF, 31), (0, 0));
    assert_eq!(compute(16, 0x8000_0001, 64), (0x8000_0001, 0));
    assert_eq!(compute_immediate(23, 0x8000_0001, 4), (0x10, 0));
    assert_eq!(compute_immediate(23, 0x8000_0001, 32), (0x8000_0001, 0));
    assert_eq!(compute_immediate(24, 0x8000_0001, 31), (1, 0));
    assert_eq!(compute_immediate(25, 0x8000_0001, 31), (0xFFFF_FFFF, 0));
    assert_eq!(compute_immediate(25, 0x8000_0001, 63), (0xFFFF_FFFF, 0));
}

/// sexti: the immediate is the position of the sign bit, 0 the lowest and 31 the highest.
#[test]
fn sign_extensions() {
    assert_eq!(compute(17, 0x0000_0080, 7), (0xFFFF_FF80, 0));
    assert_eq!(compute(17, 0xFFFF_FF7F, 7), (0x0000_007F, 0));
    assert_eq!(compute(17, 1, 0), (0xFFFF_FFFF, 0));
    assert_eq!(compute(17, 2, 0), (0, 0));
    assert_eq!(compute(17, 0x8765_4321, 31), (0x8765_4321, 0));
    assert_eq!(compute(17, 0x8765_4321, 63), (0x8765_4321, 0));
    assert_eq!(compute_immediate(26, 0x1234_8000, 15), (0xFFFF_8000, 0));
    assert_eq!(compute_immediate(26, 0x1234_7FFF, 15), (0x0000_7FFF, 0));
    assert_eq!(compute_immediate(26, 0x1234_8000, 47), (0xFFFF_8000, 0));
}

/// cmp and cmpi: Z if equal, N if less as signed numbers, C as of a subtraction.
#[test]
fn comparisons() {
    for (first, second, expected) in [
        (5, 5, 5),
        (5, 7, 2),
        (7, 5, 1),
        (0xFFFF_FFFF, 1, 3),
        (1, 0xFFFF_FFFF, 0),
        (0x8000_0000, 0x7FFF_FFFF, 3),
        (0x7FFF_FFFF, 0x8000_0000, 0),
    ] {
        for creg in 0..8 {
            let mut bench = Bench::new(&[cmp(creg, 1, 2)]).pr(1, first).pr(2, second);
            bench.machine.conditions = [7; 8];
            let mut conditions = [7; 8];
            conditions[creg as usize] = expected;
            bench.steps(1);
            assert_eq!(bench.machine.conditions, conditions);
        }
        // 16-bit: sr with dr, into C0.
        let mut bench = Bench::new_16(&[h_rr(32, 2, 1)])
            .pr(26, first)
            .pr(25, second);
        bench.machine.conditions = [7; 8];
        bench.steps(1);
        assert_eq!(bench.machine.conditions, [expected, 7, 7, 7, 7, 7, 7, 7]);
        assert_eq!(bench.machine.set2[25], second);
    }
    for (first, immediate, expected) in [
        (5, 5, 5),
        (5, -1, 0),
        (0xFFFF_FFFF, -1, 5),
        (0xFFFF_FFFE, -1, 2),
        (0x8000_0000, 63, 3),
    ] {
        let mut bench = Bench::new(&[cmpi(6, 1, immediate)]).pr(1, first);
        bench.steps(1);
        assert_eq!(bench.machine.conditions, [0, 0, 0, 0, 0, 0, expected, 0]);
        // 16-bit: dr with the immediate.
        let mut bench = Bench::new_16(&[h_ri(33, 1, immediate as i16)]).pr(25, first);
        bench.steps(1);
        assert_eq!(bench.machine.conditions, [expected, 0, 0, 0, 0, 0, 0, 0]);
    }
}

#[test]
fn loading_halves() {
    let mut bench = Bench::new(&[lli(1, 0xFFFF), lui(1, 0x1234), lui(2, 0x8000)])
        .pr(1, 0xAAAA_AAAA)
        .pr(2, 0xBBBB_BBBB);
    bench.steps(1);
    assert_eq!(bench.machine.set2[1], 0x0000_FFFF);
    bench.steps(1);
    assert_eq!(bench.machine.set2[1], 0x1234_FFFF);
    bench.steps(1);
    assert_eq!(bench.machine.set2[2], 0x8000_BBBB);
}

/// scon and rcon have Cn at bits 3n+2..3n.
#[test]
fn saving_and_restoring_conditions() {
    // C0 to C7 are 1, 2, 3, 4, 5, 6, 7, 0.
    let packed = 1 | 2 << 3 | 3 << 6 | 4 << 9 | 5 << 12 | 6 << 15 | 7 << 18;
    let mut bench = Bench::new(&[rrr(56, 9, 1, 1)]).pr(9, 0xFFFF_FFFF);
    bench.machine.conditions = [1, 2, 3, 4, 5, 6, 7, 0];
    bench.steps(1);
    assert_eq!(bench.machine.set2[9], packed);
    let mut bench = Bench::new_16(&[h_rr(56, 1, 3)]);
    bench.machine.conditions = [1, 2, 3, 4, 5, 6, 7, 0];
    bench.steps(1);
    assert_eq!(bench.machine.set2[27], packed);

    let mut bench = Bench::new(&[rrr(57, 1, 9, 1)]).pr(9, packed | 0xFF00_0000);
    bench.steps(1);
    assert_eq!(bench.machine.conditions, [1, 2, 3, 4, 5, 6, 7, 0]);
    let mut bench = Bench::new_16(&[h_rr(57, 3, 1)]).pr(27, packed);
    bench.steps(1);
    assert_eq!(bench.machine.conditions, [1, 2, 3, 4, 5, 6, 7, 0]);
}

#[test]
fn loads_and_stores() {
    let mut bench = Bench::new(&[rri(28, 3, 1, -2), rri(27, 4, 1, -2), rri(27, 5, 1, 1)])
        .pr(1, 10)
        .pr(3, 0xDEAD_BEEF);
    bench.cells[11] = 77;
    bench.steps(3);
    assert_eq!(bench.cells[8], 0xDEAD_BEEF);
    assert_eq!(bench.machine.set2[4], 0xDEAD_BEEF);
    assert_eq!(bench.machine.set2[5], 77);

    let mut bench = Bench::new_16(&[h_memory(28, 1, 3, -8), h_memory(27, 1, 4, 7)])
        .pr(25, 8)
        .pr(27, 0xDEAD_BEEF);
    bench.cells[15] = 77;
    bench.steps(2);
    assert_eq!(bench.cells[0], 0xDEAD_BEEF);
    assert_eq!(bench.machine.set2[28], 77);
}

/// Sources come from the set that RSRD names, targets go to the set that RSWR names.
#[test]
fn register_sets() {
    for (chrs, read, write) in [(0, 1, 1), (1, 2, 1), (2, 1, 2), (3, 2, 2)] {
        let mut bench = Bench::new(&[
            plain(51, chrs),
            rrr(2, 3, 1, 2),
            rri(28, 4, 0, 0),
            lui(5, 0xAAAA),
        ])
        .r(1, 10)
        .r(2, 1)
        .r(4, 400)
        .r(5, 5)
        .pr(1, 20)
        .pr(2, 2)
        .pr(4, 800)
        .pr(5, 6);
        bench.steps(1);
        assert_eq!(bench.psr(), 0x08 | chrs << 1);
        bench.steps(3);
        let sum = if read == 1 { 11 } else { 22 };
        let (changed, kept) = if write == 1 {
            (&bench.machine.set1, &bench.machine.set2)
        } else {
            (&bench.machine.set2, &bench.machine.set1)
        };
        assert_eq!(changed[3], sum);
        assert_eq!(kept[3], 0);
        // st reads dreg as a source.
        assert_eq!(bench.cells[0], if read == 1 { 400 } else { 800 });
        // lui keeps the low half of the target register itself.
        let half = if write == 1 { 5 } else { 6 };
        assert_eq!(changed[5], 0xAAAA_0000 | half);
    }
    // Links go to the set that RSWR names.
    let mut bench = Bench::new(&[plain(51, 1), jump(37, 2)]);
    bench.steps(2);
    assert_eq!(bench.machine.set1[31], 12);
    assert_eq!(bench.machine.set2[31], 0);
}

/// A result for PSR is thrown away, but the rest of the operation happens (Manual 1.4). PSR
/// can be read as register 29 of set 2.
#[test]
fn psr_as_a_register() {
    let mut bench = Bench::new(&[
        rrr(1, 29, 1, 1),
        rrr(9, 29, 1, 1),
        rrr(31, 3, 0, 0),
        rrr(29, 4, 29, 0),
        lli(29, 1),
        lui(29, 1),
        rri(27, 29, 0, 0),
        rrr(56, 29, 0, 0),
        rri(28, 29, 0, 0),
    ])
    .pr(1, 0xFFFF_FFFF);
    bench.cells[0] = 0x1F;
    bench.steps(1);
    assert_eq!(bench.psr(), 0x0E);
    assert_eq!(bench.machine.conditions[0], 3);
    bench.steps(2);
    assert_eq!(bench.machine.set2[3], 0xFFFF_FFFE);
    bench.steps(1);
    assert_eq!(bench.machine.set2[4], 0x0E);
    bench.steps(4);
    assert_eq!(bench.psr(), 0x0E);
    bench.steps(1);
    assert_eq!(bench.cells[0], 0x0E);
    // R29 of set 1 is an ordinary register, and so is SPSR.
    let mut bench = Bench::new(&[lli(30, 0xFFFF), plain(51, 0), lli(29, 7)]);
    bench.steps(3);
    assert_eq!(bench.machine.set2[30], 0xFFFF);
    assert_eq!(bench.machine.set1[29], 7);
    // A load to PSR is tested all the same.
    Bench::new(&[rri(27, 29, 0, 16)]).stops(12);
    // In 16-bit words dr 5 is PSR.
    let mut bench = Bench::new_16(&[h_ri(21, 5, 0x7F), h_rr(29, 5, 4)]);
    bench.steps(2);
    assert_eq!(bench.psr(), 0x06);
    assert_eq!(bench.machine.set2[28], 0x06);
}

/// A held product is dropped by every step but an executed muls, mulu, mulus or muli.
#[test]
fn the_product_is_held_for_one_step() {
    let mut bench = Bench::new(&[rrr(9, 2, 1, 1), NOP, rrr(31, 3, 0, 0)]).pr(1, 0xFFFF_FFFF);
    bench.steps(2);
    assert_eq!(bench.machine.position.product, None);
    bench.stops(14);
    // A second mulhi finds none.
    let mut bench = Bench::new(&[rrr(9, 2, 1, 1), rrr(31, 3, 0, 0), rrr(31, 3, 0, 0)]);
    bench.steps(2);
    bench.stops(14);
    // A mul on a false condition holds none and drops the one held.
    let mut bench = Bench::new(&[
        rrr(9, 2, 1, 1),
        when(0, 1, rrr(9, 2, 1, 1)),
        rrr(31, 3, 0, 0),
    ]);
    bench.steps(2);
    assert_eq!(bench.machine.position.product, None);
    bench.stops(14);
    // mulhi on a false condition needs none, and drops one that is held.
    let mut bench = Bench::new(&[when(0, 1, rrr(31, 3, 0, 0))]);
    bench.moves_only_pc(4);
    let mut bench = Bench::new(&[rrr(9, 2, 1, 1), when(0, 1, rrr(31, 3, 0, 0))]);
    bench.steps(2);
    assert_eq!(bench.machine.position.product, None);
    // The next mul replaces it.
    let mut bench = Bench::new(&[rrr(9, 2, 1, 1), rri(22, 3, 1, -1)]).pr(1, 3);
    bench.steps(2);
    assert_eq!(bench.machine.position.product, Some(-3_i64 as u64));
    // An exception drops it.
    let mut bench = Bench::new(&[rrr(9, 2, 1, 1), plain(55, 0)]);
    bench.steps(1);
    bench.raises(224);
    assert_eq!(bench.machine.position.product, None);
}

/// The control block's 256 addresses from CCB_BASE come first, then cells.
#[test]
fn the_control_block_hides_cells() {
    let mut bench = Bench::new(&[
        rri(27, 3, 1, 0x12),
        rri(28, 4, 1, 0x12),
        rri(27, 5, 2, -1),
        rri(27, 6, 1, -1),
        rri(27, 7, 2, 0),
    ])
    .pr(1, 0x100)
    .pr(2, 0x200)
    .pr(4, 0xFFFF_F123)
    .control(offset::CCB_BASE, 0x100)
    .control(offset::INT_MASK, 0x456);
    bench.cells = vec![0x5555_5555; 0x201];
    bench.cells[0x200] = 9;
    bench.steps(5);
    assert_eq!(bench.machine.set2[3], 0x456);
    assert_eq!(bench.machine.control[offset::INT_MASK], 0x123);
    assert_eq!(bench.cells[0x112], 0x5555_5555);
    assert_eq!(bench.machine.set2[5], 0);
    assert_eq!(bench.machine.set2[6], 0x5555_5555);
    assert_eq!(bench.machine.set2[7], 9);
}
