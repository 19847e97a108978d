//! Instruction words of both widths, conditions and conditional execution.

use super::bench::*;
use crate::decode::{decode, Condition, Operation, WordLength};

fn decode_32(word: u32) -> crate::decode::Instruction {
    decode(word, WordLength::Bits32)
}

fn decode_16(word: u16) -> crate::decode::Instruction {
    decode(u32::from(word), WordLength::Bits16)
}

/// The operations' numbers (Manual 3.1).
#[test]
fn operation_numbers() {
    use Operation::*;
    let named = [
        (0, Nop),
        (1, Add),
        (4, Subu),
        (5, And),
        (7, Xor),
        (8, Muls),
        (10, Mulus),
        (11, Muls16),
        (13, Mulus16),
        (14, Sll),
        (16, Sra),
        (17, Sext),
        (18, Addi),
        (22, Muli),
        (23, Slli),
        (26, Sexti),
        (27, Ld),
        (28, St),
        (29, Mov),
        (30, Not),
        (31, Mulhi),
        (33, Cmpi),
        (34, Lli),
        (35, Lui),
        (36, Jmp),
        (39, Jalr),
        (40, Branch(Condition::Carry)),
        (47, Branch(Condition::NoCarry)),
        (48, Scall),
        (51, Chrs),
        (52, Di),
        (55, Trap),
        (56, Scon),
        (57, Rcon),
        (58, Conb),
        (59, Conh),
        (60, Exb),
        (61, Exh),
        (62, Exbf),
        (63, Exbfi),
    ];
    for (number, operation) in named {
        assert_eq!(decode_32(number << 26).operation, operation);
        assert_eq!(decode_16((number << 10) as u16).operation, operation);
    }
}

#[test]
fn immediates_of_32_bit_words() {
    // The sign is extended by addi, muli, cmpi, ld, st.
    for operation in [18, 22, 33, 27, 28] {
        for immediate in [-256, -255, -1, 0, 1, 31, 32, 255] {
            let word = rri(operation, 4, 5, immediate);
            assert_eq!(decode_32(word).immediate, i64::from(immediate));
        }
    }
    // addiu, andi, ori fill with zeros.
    for operation in [19, 20, 21] {
        for immediate in [0, 1, 31, 32, 255, 256, 511] {
            let word = rri(operation, 4, 5, immediate);
            assert_eq!(decode_32(word).immediate, i64::from(immediate));
        }
    }
    // The five lowest bits of shifts and sexti.
    for operation in 23..=26 {
        assert_eq!(decode_32(rri(operation, 4, 5, 0x1FF)).immediate, 31);
        assert_eq!(decode_32(rri(operation, 4, 5, 0x1E0)).immediate, 0);
    }
    // jmp and jal: bits 24..0, signed, whatever bit 25.
    for operation in [36, 37] {
        for immediate in [-0x100_0000, -1, 0, 1, 0xFF_FFFF] {
            let word = jump(operation, immediate);
            assert_eq!(decode_32(word).immediate, i64::from(immediate));
            assert_eq!(decode_32(word | 1 << 25).immediate, i64::from(immediate));
        }
    }
    // Branches: the register in bits 24..22, the immediate in bits 21..0, signed.
    for immediate in [-0x20_0000, -1, 0, 1, 0x1F_FFFF] {
        let instruction = decode_32(branch(3, 6, immediate));
        assert_eq!(instruction.immediate, i64::from(immediate));
        assert_eq!(instruction.condition_register, 6);
    }
    // lli and lui: dreg in bits 20..16, the immediate in bits 15..0.
    let instruction = decode_32(lli(21, 0xBEEF));
    assert_eq!((instruction.target, instruction.immediate), (21, 0xBEEF));
    // Of 4..0, swm uses bit 0, chrs bits 1 and 0, trap all.
    for (operation, used) in [(54, 0), (51, 2), (55, 0x16)] {
        assert_eq!(decode_32(operation << 26 | 0x3FF_FFF6).immediate, used);
    }
    // exb has bits 1..0, exh bit 0.
    for immediate in 0..0x200 {
        assert_eq!(
            decode_32(rri(60, 4, 5, immediate)).immediate,
            i64::from(immediate & 3)
        );
        assert_eq!(
            decode_32(rri(61, 4, 5, immediate)).immediate,
            i64::from(immediate & 1)
        );
    }
}

#[test]
fn fields_of_16_bit_words() {
    let instruction = decode_16(h_rr(3, 2, 1));
    assert_eq!(
        (instruction.target, instruction.source1, instruction.source2),
        (25, 26, 25)
    );
    // With an immediate, dr is source and target: 18 to 26, 33, 60 and 61.
    for operation in (18..=26).chain([33, 60, 61]) {
        let instruction = decode_16(h_ri(operation, 5, 0x55));
        assert_eq!((instruction.target, instruction.source1), (29, 29));
    }
    // ld and st: base sr, data dr, immediate 9..6 signed.
    for operation in [27, 28] {
        for immediate in -8..=7 {
            let instruction = decode_16(h_memory(operation, 3, 4, immediate));
            assert_eq!((instruction.target, instruction.source1), (28, 27));
            assert_eq!(instruction.immediate, i64::from(immediate));
        }
    }
    for operation in [18, 22, 33] {
        for immediate in [-64, -1, 0, 63] {
            let word = h_ri(operation, 0, immediate);
            assert_eq!(decode_16(word).immediate, i64::from(immediate));
        }
    }
    for operation in [19, 20, 21] {
        assert_eq!(decode_16(h_ri(operation, 0, 0x7F)).immediate, 127);
    }
    for operation in 23..=26 {
        assert_eq!(decode_16(h_ri(operation, 0, 0x7F)).immediate, 31);
        assert_eq!(decode_16(h_ri(operation, 0, 0x60)).immediate, 0);
    }
    for operation in (36..=37).chain(40..=47) {
        for immediate in [-512, -1, 0, 511] {
            let word = h_jump(operation, immediate);
            assert_eq!(decode_16(word).immediate, i64::from(immediate));
        }
    }
    for (operation, used) in [(54, 1), (51, 1), (55, 0x15)] {
        assert_eq!(decode_16(operation << 10 | 0x3F5).immediate, used);
    }
    for immediate in 0..0x80 {
        assert_eq!(
            decode_16(h_ri(60, 0, immediate)).immediate,
            i64::from(immediate & 3)
        );
        assert_eq!(
            decode_16(h_ri(61, 0, immediate)).immediate,
            i64::from(immediate & 1)
        );
    }
    // No 16-bit word is conditional, and only C0 is used.
    for operation in 0..64 {
        let instruction = decode_16(operation << 10 | 0x3FF);
        assert_eq!(instruction.condition, None);
        assert_eq!(instruction.condition_register, 0);
    }
}

/// Bits that an operation does not use are ignored, as 24..19 of add with bit 25 at 0.
#[test]
fn unused_bits() {
    let mut bench = Bench::new(&[rrr(1, 3, 1, 2) | 0x01FF_8000])
        .pr(1, 20)
        .pr(2, 3);
    bench.steps(1);
    assert_eq!(bench.machine.set2[3], 23);
    assert_eq!(bench.pc(), 4);
    // nop with every other bit set.
    Bench::new(&[0x03FF_FFFF]).moves_only_pc(4);
    Bench::new_16(&[0x03FF]).moves_only_pc(2);
    // mov ignores sreg2, di everything.
    let mut bench = Bench::new(&[rrr(29, 3, 1, 31) | 0x01FF_8000]).pr(1, 77);
    bench.steps(1);
    assert_eq!(bench.machine.set2[3], 77);
    let mut bench = Bench::new(&[0x03FF_FFFF | 52 << 26]);
    bench.machine.set_psr(0x1E);
    bench.steps(1);
    assert_eq!(bench.psr(), 0x0E);
}

/// A condition register is Z×4 + N×2 + C; which conditions hold of it (Manual 2.6).
#[test]
fn conditions() {
    // For each condition the values 0 to 7 of which it is true.
    let truth: [(u32, &[u32]); 8] = [
        (0, &[1, 3, 5, 7]),
        (1, &[0, 1, 4, 5]),
        (2, &[2, 3, 4, 5, 6, 7]),
        (3, &[4, 5, 6, 7]),
        (4, &[0, 1]),
        (5, &[2, 3, 6, 7]),
        (6, &[0, 1, 2, 3]),
        (7, &[0, 2, 4, 6]),
    ];
    for (condition, values) in truth {
        for value in 0..8 {
            let is_true = values.contains(&value);
            // As the condition of a mov, in register C5.
            let mut bench = Bench::new(&[when(condition, 5, rrr(29, 3, 1, 0))])
                .pr(1, 9)
                .c(5, value);
            bench.steps(1);
            assert_eq!(bench.machine.set2[3], if is_true { 9 } else { 0 });
            // As a branch on C5, and in 16-bit on C0.
            let mut bench = Bench::new(&[branch(condition, 5, 4)]).c(5, value);
            bench.steps(1);
            assert_eq!(bench.machine.position.slot, is_true.then_some(12));
            assert_eq!(bench.pc(), 4);
            let mut bench = Bench::new_16(&[h_jump(40 + condition as u16, 4)])
                .c(0, value)
                .c(7, value ^ 7);
            bench.steps(1);
            assert_eq!(bench.machine.position.slot, is_true.then_some(10));
            assert_eq!(bench.pc(), 2);
        }
    }
}

/// Every operation that may be conditional does nothing on a false condition but move
/// PC; 1 to 31, 38, 39, 48, 58 to 62.
#[test]
fn false_conditions() {
    for operation in (1..=31).chain([38, 39, 48]).chain(58..=62) {
        let word = when(0, 3, rrr(operation, 3, 1, 2));
        let mut bench = Bench::new(&[word]).pr(1, 0x7FFF_FFFF).pr(2, 0x7FFF_FFFF);
        bench.moves_only_pc(4);
    }
}

/// Operations that are never conditional ignore bit 25: with it at 1 and a condition that
/// would be false, they happen all the same.
#[test]
fn never_conditional() {
    // Condition c (0) of a condition register that is 0 is false.
    let always = |word: u32| word | 1 << 25;

    // cmp, cmpi: equal zeros give Z and C.
    for word in [cmp(2, 3, 4), cmpi(2, 3, 0)] {
        let mut bench = Bench::new(&[always(word)]);
        bench.steps(1);
        assert_eq!(bench.machine.conditions[2], 5);
    }
    let mut bench = Bench::new(&[always(lli(3, 7)), always(lui(3, 1))]);
    bench.steps(2);
    assert_eq!(bench.machine.set2[3], 0x0001_0007);
    for word in [jump(36, 2), jump(37, 2), branch(7, 0, 2)] {
        let mut bench = Bench::new(&[always(word)]);
        bench.steps(1);
        assert_eq!(bench.machine.position.slot, Some(8));
    }
    let mut bench = Bench::new(&[always(plain(49, 0)), NOP]).pr(31, 64);
    bench.steps(1);
    assert_eq!((bench.pc(), bench.psr()), (64, 0x09));
    let words = [always(plain(50, 0)), NOP, NOP, NOP];
    let mut bench = Bench::new(&words).in_service(2, 64, 0x0A, 3);
    bench.steps(1);
    assert_eq!((bench.pc(), bench.psr()), (64, 0x0A));
    // chrs 0, ei, di, swm 0, trap 4.
    for (word, psr) in [
        (plain(51, 0), 0x08),
        (plain(53, 0), 0x1E),
        (plain(54, 0), 0x06),
    ] {
        let mut bench = Bench::new(&[always(word), NOP, NOP]);
        bench.steps(1);
        assert_eq!(bench.psr(), psr);
    }
    let mut bench = Bench::new(&[always(plain(52, 0))]);
    bench.machine.set_psr(0x1E);
    bench.steps(1);
    assert_eq!(bench.psr(), 0x0E);
    Bench::new(&[always(plain(55, 4))]).raises(0xE4);
    let mut bench = Bench::new(&[always(rrr(56, 3, 0, 0))]).c(1, 5);
    bench.steps(1);
    assert_eq!(bench.machine.set2[3], 5 << 3);
    let mut bench = Bench::new(&[always(rrr(57, 0, 3, 0))]).pr(3, 6 << 6);
    bench.steps(1);
    assert_eq!(bench.machine.conditions[2], 6);
    // exbfi: its length is where the condition would be, here C0 and c.
    let mut bench = Bench::new(&[always(exbfi(3, 1, 0, 0))]).pr(3, 7);
    bench.steps(1);
    assert_eq!(bench.machine.set2[3], 0);
}

/// In 16-bit words what would be bit 25 does not exist: jmpr, jalr and scall happen.
#[test]
fn nothing_is_conditional_in_16_bit() {
    let mut bench = Bench::new_16(&[h_rr(38, 2, 0)]).pr(26, 40);
    bench.steps(1);
    assert_eq!(bench.machine.position.slot, Some(40));
    let mut bench = Bench::new_16(&[h_plain(48, 0), 0]).control(0x1F, 40);
    bench.steps(1);
    assert_eq!(bench.pc(), 40);
}
