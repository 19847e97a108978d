//! Jumps, branch slots, system calls, returns and the word length.

use super::bench::*;
use crate::machine::offset;

/// A target by immediate is the slot's address plus twice the signed immediate.
#[test]
fn targets_by_immediate() {
    for (word, target) in [
        (jump(36, 10), 64),
        (jump(37, 10), 64),
        (jump(36, -22), 0),
        (branch(7, 0, 10), 64),
        (branch(7, 0, -22), 0),
    ] {
        let mut bench = Bench::new(&[NOP; 12]).at(40);
        bench.program[40..44].copy_from_slice(&word.to_be_bytes());
        bench.steps(1);
        assert_eq!(
            (bench.pc(), bench.machine.position.slot),
            (44, Some(target))
        );
    }
    for (word, target) in [
        (h_jump(36, 10), 62),
        (h_jump(37, 11), 64),
        (h_jump(36, -21), 0),
        (h_jump(47, -20), 2),
    ] {
        let mut bench = Bench::new_16(&[0; 24]).at(40);
        bench.program[40..42].copy_from_slice(&word.to_be_bytes());
        bench.steps(1);
        assert_eq!(
            (bench.pc(), bench.machine.position.slot),
            (42, Some(target))
        );
    }
}

/// A link is the address after the slot.
#[test]
fn links() {
    let mut bench = Bench::new(&[jump(37, 8)]);
    bench.steps(1);
    assert_eq!(bench.machine.set2[31], 8);
    let mut bench = Bench::new(&[rrr(39, 0, 3, 0)]).pr(3, 0x100);
    bench.steps(1);
    assert_eq!(bench.machine.set2[31], 8);
    assert_eq!(bench.machine.position.slot, Some(0x100));
    let mut bench = Bench::new_16(&[h_jump(37, 8)]);
    bench.steps(1);
    assert_eq!(bench.machine.set2[31], 4);
    let mut bench = Bench::new_16(&[h_rr(39, 3, 0)]).pr(27, 0x102);
    bench.steps(1);
    assert_eq!(bench.machine.set2[31], 4);
    assert_eq!(bench.machine.position.slot, Some(0x102));
    // jmp and jmpr write none.
    for word in [jump(36, 8), rrr(38, 0, 3, 0)] {
        let mut bench = Bench::new(&[word]).pr(3, 0x100).pr(31, 5);
        bench.steps(1);
        assert_eq!(bench.machine.set2[31], 5);
    }
    // jalr of the link register goes to its old value, and the slot sees the link.
    let mut bench = Bench::new(&[rrr(39, 0, 31, 0), rrr(29, 4, 31, 0)]).pr(31, 0x40);
    bench.steps(2);
    assert_eq!(bench.pc(), 0x40);
    assert_eq!(bench.machine.set2[4], 8);
}

/// A taken jump leaves one slot, one that is not taken none.
#[test]
fn slots() {
    let mut bench = Bench::new(&[branch(0, 2, 8), lli(1, 1), lli(2, 2)]);
    bench.steps(3);
    assert_eq!(bench.pc(), 12);
    assert_eq!(bench.machine.set2[2], 2);
    let mut bench = Bench::new(&[branch(0, 2, 8), lli(1, 1), lli(2, 2)]).c(2, 1);
    bench.steps(2);
    assert_eq!(bench.machine.set2[1], 1);
    assert_eq!((bench.pc(), bench.machine.position.slot), (20, None));
    // On a false condition jmpr and jalr are not taken.
    for operation in [38, 39] {
        Bench::new(&[when(0, 0, rrr(operation, 0, 1, 0))])
            .pr(1, 1)
            .moves_only_pc(4);
    }
    // A slot instruction on a false condition uses the slot up.
    let mut bench = Bench::new(&[jump(36, 8), when(0, 0, rrr(29, 1, 2, 0))]).pr(2, 9);
    bench.steps(2);
    assert_eq!(bench.machine.set2[1], 0);
    assert_eq!((bench.pc(), bench.machine.position.slot), (20, None));
    // chrs, di, ei may stand in a slot.
    for (word, psr) in [
        (plain(51, 0), 0x08),
        (plain(52, 0), 0x0E),
        (plain(53, 0), 0x1E),
    ] {
        let mut bench = Bench::new(&[jump(36, 8), word]);
        bench.steps(2);
        assert_eq!((bench.pc(), bench.psr()), (20, psr));
    }
    // trap in a slot: the exception drops it.
    let mut bench = Bench::new(&[jump(36, 8), plain(55, 1)]).control(offset::EXCEP_ADDR, 0x60);
    bench.steps(1);
    bench.raises(225);
    assert_eq!((bench.pc(), bench.machine.position.slot), (0x60, None));
    assert_eq!(bench.machine.control[offset::EXCEPTION_PC], 4);
    // A product made in a slot is held for the target.
    let mut bench =
        Bench::new(&[jump(36, 4), rrr(9, 2, 1, 1), NOP, rrr(31, 3, 0, 0)]).pr(1, 0xFFFF_FFFF);
    bench.steps(3);
    assert_eq!(bench.machine.set2[3], 0xFFFF_FFFE);
    assert_eq!(bench.pc(), 16);
}

/// A control transfer in a slot is stop 13: operations 36 to 50 and swm, the condition true or
/// not.
#[test]
fn transfers_in_a_slot() {
    for operation in (36..=50).chain([54]) {
        let mut bench = Bench::new(&[jump(36, 8), operation << 26]);
        bench.steps(1);
        bench.requests = vec![0xFFF];
        bench.stops(13);
        let mut bench = Bench::new_16(&[h_jump(36, 8), (operation << 10) as u16]);
        bench.steps(1);
        bench.stops(13);
    }
    for operation in [38, 39, 48] {
        let mut bench = Bench::new(&[jump(36, 8), when(0, 0, operation << 26)]);
        bench.steps(1);
        bench.stops(13);
    }
}

/// scall: the link in PR31 is two words on, SPSR takes PSR, PSR becomes 0Eh.
#[test]
fn system_calls() {
    let mut bench = Bench::new(&[NOP, plain(48, 0), NOP])
        .user()
        .at(4)
        .pr(30, 0xFFFF_FFFF)
        .control(offset::SYSTEM_ADDR, 0x1234_5677);
    bench.machine.set_psr(0x19);
    let set1 = bench.machine.set1;
    bench.steps(1);
    assert_eq!((bench.pc(), bench.psr()), (0x1234_5677, 0x0E));
    assert_eq!(bench.machine.set2[31], 12);
    assert_eq!(bench.machine.set2[30], 0x19);
    assert_eq!(bench.machine.set1, set1);
    assert_eq!(bench.machine.position.slot, None);
    // It has no jump tests; the next step finds the misaligned address.
    bench.raises(0x05);

    // 16-bit: two old-width words on. PR31 and SPSR are written whatever RSWR says.
    let mut bench = Bench::new_16(&[h_plain(48, 0), 0]);
    bench.machine.set_psr(0x12);
    bench.steps(1);
    assert_eq!((bench.pc(), bench.psr()), (0, 0x0E));
    assert_eq!(bench.machine.set2[31], 4);
    assert_eq!(bench.machine.set2[30], 0x12);

    // Conditional scall.
    let mut bench = Bench::new(&[when(3, 6, plain(48, 0)), NOP])
        .c(6, 4)
        .control(offset::SYSTEM_ADDR, 8);
    bench.steps(1);
    assert_eq!(bench.pc(), 8);
}

/// retu: PC comes from PR31, IE and IL from SPSR; user mode, set 1.
#[test]
fn returns_to_user_mode() {
    for (spsr, psr) in [
        (0, 0x01),
        (0x08, 0x09),
        (0x10, 0x11),
        (0xFFFF_FFFF, 0x19),
        (0x06, 0x01),
    ] {
        let mut bench = Bench::new(&[plain(49, 0), NOP])
            .pr(31, 0xFFFF_FFFD)
            .pr(30, spsr);
        bench.steps(1);
        assert_eq!((bench.pc(), bench.psr()), (0xFFFF_FFFD, psr));
        assert_eq!(bench.machine.set2[30], spsr);
    }
}

/// reti: the top entry goes, and its source is no longer in service; stop 15 when the stack is
/// empty.
#[test]
fn returns_from_interrupts() {
    let reti = [plain(50, 0), NOP, NOP, NOP];
    let mut bench = Bench::new(&[reti; 3].concat())
        .in_service(7, 32, 0x1E, 2)
        .in_service(3, 16, 0x0E, 5);
    bench.steps(1);
    assert_eq!((bench.pc(), bench.psr()), (16, 0x0E));
    assert_eq!(bench.machine.conditions[0], 5);
    assert_eq!(bench.machine.control[offset::INT_SERV], 1 << 7);
    assert_eq!(bench.machine.control[0x28..=0x2A], [32, 0x1E, 2]);
    bench.steps(1);
    assert_eq!((bench.pc(), bench.psr()), (32, 0x1E));
    assert_eq!(bench.machine.conditions[0], 2);
    assert_eq!(bench.machine.control[offset::INT_SERV], 0);
    assert_eq!(bench.machine.control[0x28..=0x2A], [1, 9, 0]);
    bench.stops(15);
    // It runs in user mode too.
    let mut bench = Bench::new(&reti).user().in_service(0, 64, 0x0E, 0);
    bench.steps(1);
    assert_eq!((bench.pc(), bench.psr()), (64, 0x0E));
}

/// swm: bit 0 is IL, and PC goes on three words of the old width later.
#[test]
fn switching_the_word_length() {
    for (psr, immediate, new_psr) in [
        (0x0E, 0, 0x06),
        (0x0E, 16, 0x06),
        (0x0E, 30, 0x06),
        (0x0E, 1, 0x0E),
        (0x1E, 31, 0x1E),
    ] {
        let mut bench = Bench::new(&[NOP, plain(54, immediate), NOP, NOP]).at(4);
        bench.machine.set_psr(psr);
        bench.steps(1);
        assert_eq!((bench.pc(), bench.psr()), (16, new_psr));
    }
    let mut bench = Bench::new_16(&[0, h_plain(54, 1), 0, 0]).at(2);
    bench.steps(1);
    assert_eq!((bench.pc(), bench.psr()), (8, 0x0E));
    // It never aligns.
    let mut bench = Bench::new_16(&[h_plain(54, 1), 0, 0]);
    bench.steps(1);
    assert_eq!((bench.pc(), bench.psr()), (6, 0x0E));
    bench.raises(0x05);
    // It runs in user mode.
    let mut bench = Bench::new(&[plain(54, 0), NOP, NOP]).user();
    bench.steps(1);
    assert_eq!((bench.pc(), bench.psr()), (12, 0x01));
}

/// 32-bit and 16-bit words one after the other in one program.
#[test]
fn mixed_word_lengths() {
    let mut program = Vec::new();
    for word in [lli(24, 5), plain(54, 0), NOP, NOP] {
        program.extend_from_slice(&word.to_be_bytes());
    }
    // At 16: addi R24, 1; swm 1; nop; nop; and at 24 a 32-bit word.
    for word in [h_ri(18, 0, 1), h_plain(54, 1), 0, 0] {
        program.extend_from_slice(&word.to_be_bytes());
    }
    program.extend_from_slice(&rri(18, 24, 24, 100).to_be_bytes());
    let mut bench = Bench::new(&[]);
    bench.program = program;
    bench.steps(5);
    assert_eq!(bench.machine.set2[24], 106);
    assert_eq!(bench.pc(), 28);
}

/// di, ei in both modes.
#[test]
fn enabling_and_disabling_interrupts() {
    for (operation, psr, expected) in [
        (53, 0x0E, 0x1E),
        (53, 0x09, 0x19),
        (52, 0x1E, 0x0E),
        (52, 0x19, 0x09),
        (52, 0x09, 0x09),
    ] {
        let mut bench = Bench::new(&[plain(operation, 0)]).user();
        bench.machine.set_psr(psr);
        bench.steps(1);
        assert_eq!((bench.pc(), bench.psr()), (4, expected));
    }
    let mut bench = Bench::new_16(&[h_plain(53, 0)]);
    bench.steps(1);
    assert_eq!((bench.pc(), bench.psr()), (2, 0x16));
}
