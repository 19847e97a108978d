//! Each exception code and each stop, and the order in which they are asked.

use super::bench::*;
use crate::machine::offset;

/// 00h: any byte of the word protected in user mode.
#[test]
fn code_00() {
    for byte in 4..8 {
        let mut bench = Bench::new(&[NOP, NOP, NOP]).user().at(4);
        bench.protect_program(byte, byte);
        bench.raises(0x00);
    }
    for byte in [3, 8] {
        let mut bench = Bench::new(&[NOP, NOP, NOP]).user().at(4);
        bench.protect_program(byte, byte);
        bench.moves_only_pc(8);
    }
    for (byte, protected) in [(3, false), (4, true), (5, true), (6, false)] {
        let mut bench = Bench::new_16(&[0, 0, 0, 0]).user().at(4);
        bench.protect_program(byte, byte);
        if protected {
            bench.raises(0x00);
        } else {
            bench.moves_only_pc(6);
        }
    }
    // Super user is not bound by it; LO above HI protects nothing.
    let mut bench = Bench::new(&[NOP, NOP]);
    bench.protect_program(0, 0xFFFF_FFFF);
    bench.moves_only_pc(4);
    let mut bench = Bench::new(&[NOP, NOP]).user();
    bench.protect_program(2, 1);
    bench.moves_only_pc(4);
    // Protection is by address, present or not: it comes before stop 11.
    let mut bench = Bench::new(&[]).user().at(0xFFFF_FFFC);
    bench.protect_program(0xFFFF_FFFF, 0xFFFF_FFFF);
    bench.raises(0x00);
}

/// Code 01h never occurs, whatever the operation, the width and the mode.
#[test]
fn no_code_01() {
    for operation in 0..64 {
        for bits in [0, 0x03FF_FFFF] {
            let wide = operation << 26 | bits;
            let short = (operation << 10 | bits & 0x3FF) as u16;
            for bench in [
                Bench::new(&[wide, NOP, NOP, NOP]),
                Bench::new(&[wide, NOP, NOP, NOP]).user(),
                Bench::new_16(&[short, 0, 0, 0]),
                Bench::new_16(&[short, 0, 0, 0]).user(),
            ] {
                let mut bench = bench.control(offset::EXCEPTION_CS, 0xFF);
                bench.run(1);
                assert_ne!(bench.exception_code(), 0x01, "operation {operation}");
            }
        }
    }
}

/// 02h: lli, lui and exbfi in 16-bit words; retu and chrs in user mode.
#[test]
fn code_02() {
    for operation in [34, 35, 63] {
        Bench::new_16(&[operation << 10]).raises(0x02);
        Bench::new_16(&[operation << 10]).user().raises(0x02);
    }
    for operation in [49, 51] {
        Bench::new(&[u32::from(operation) << 26])
            .user()
            .raises(0x02);
        Bench::new_16(&[operation << 10]).user().raises(0x02);
    }
    // lli, lui and exbfi are fine in user mode with 32-bit words, and no other operation
    // is refused in user mode.
    for operation in (0..=63).filter(|operation| ![49, 51].contains(operation)) {
        let mut bench = Bench::new(&[operation << 26, NOP, NOP, NOP])
            .user()
            .in_service(0, 0, 9, 0);
        bench.machine.position.product = Some(0);
        bench.steps(1);
        if operation == 55 {
            assert_eq!(bench.exception_code(), 0xE0);
        } else {
            assert_eq!(bench.exception_code(), 0);
            assert_eq!(bench.machine.control[offset::EXCEPTION_PSR], 0);
        }
    }
    // Before stop 13.
    let mut bench = Bench::new(&[jump(36, 8), plain(49, 0)]).user();
    bench.steps(1);
    bench.raises(0x02);
}

/// 03h: a target that is no word boundary at the present word length.
#[test]
fn code_03() {
    for immediate in [-3, -1, 1, 3] {
        for word in [
            jump(36, immediate),
            jump(37, immediate),
            branch(7, 0, immediate),
        ] {
            let mut bench = Bench::new(&[NOP, NOP, NOP, NOP]).at(8);
            bench.program[8..12].copy_from_slice(&word.to_be_bytes());
            bench.raises(0x03);
        }
    }
    for (target, misaligned) in [(4, false), (5, true), (6, true), (7, true)] {
        for operation in [38, 39] {
            let mut bench = Bench::new(&[rrr(operation, 0, 3, 0)])
                .pr(3, target)
                .pr(31, 1);
            if misaligned {
                bench.raises(0x03);
                assert_eq!(bench.machine.set2[31], 1);
            } else {
                bench.steps(1);
                assert_eq!(bench.machine.position.slot, Some(target));
            }
        }
    }
    for (target, misaligned) in [(4, false), (5, true), (6, false), (7, true)] {
        let mut bench = Bench::new_16(&[h_rr(38, 3, 0)]).pr(27, target);
        if misaligned {
            bench.raises(0x03);
        } else {
            bench.steps(1);
            assert_eq!(bench.machine.position.slot, Some(target));
        }
    }
    // Not asked of a jump that is not taken.
    Bench::new(&[branch(0, 0, 1)]).moves_only_pc(4);
    Bench::new(&[when(0, 0, rrr(38, 0, 3, 0))])
        .pr(3, 1)
        .moves_only_pc(4);
}

/// 04h: a target by immediate outside 32 bits; before 03h.
#[test]
fn code_04() {
    Bench::new(&[jump(36, -4)]).raises(0x04);
    Bench::new(&[jump(37, -3)]).raises(0x04);
    Bench::new(&[branch(7, 0, -0x20_0000)]).raises(0x04);
    Bench::new_16(&[h_jump(36, -2)]).raises(0x04);
    let mut bench = Bench::new(&[jump(36, -2)]);
    bench.steps(1);
    assert_eq!(bench.machine.position.slot, Some(0));
    // The longest jump forward stays inside.
    let mut bench = Bench::new(&[jump(36, 0xFF_FFFE)]);
    bench.steps(1);
    assert_eq!(bench.machine.position.slot, Some(0x0200_0000));
    // A register can hold no target outside 32 bits.
    let mut bench = Bench::new(&[rrr(38, 0, 3, 0)]).pr(3, 0xFFFF_FFFC);
    bench.steps(1);
    assert_eq!(bench.machine.position.slot, Some(0xFFFF_FFFC));
    bench.program.extend_from_slice(&[0; 4]);
    bench.steps(1);
    assert_eq!(bench.pc(), 0xFFFF_FFFC);
    bench.stops(11);
}

/// 05h: a misaligned instruction address, which EXCEPTION_PC shows.
#[test]
fn code_05() {
    for address in [1, 2, 3, 0xFFFF_FFFF] {
        Bench::new(&[NOP, NOP]).at(address).raises(0x05);
    }
    Bench::new_16(&[0, 0, 0]).at(1).raises(0x05);
    Bench::new_16(&[0, 0, 0]).at(2).moves_only_pc(4);
    // Before 00h.
    let mut bench = Bench::new(&[NOP, NOP]).user().at(2);
    bench.protect_program(0, 0xFFFF_FFFF);
    bench.raises(0x05);
    // A misaligned EXCEP_ADDR is an endless loop of exceptions, each a step.
    let mut bench = Bench::new(&[plain(55, 7)]).control(offset::EXCEP_ADDR, 3);
    bench.steps(1);
    assert_eq!(bench.exception_code(), 0xE7);
    bench.steps(10);
    assert_eq!((bench.pc(), bench.exception_code()), (3, 0x05));
    assert_eq!(bench.machine.control[offset::EXCEPTION_PC], 3);
}

/// 06h drops the slot and writes nothing.
#[test]
fn code_06_in_a_slot() {
    let mut bench = Bench::new(&[jump(36, 8), rrr(1, 3, 1, 1)])
        .pr(1, 0x7FFF_FFFF)
        .c(0, 6);
    bench.steps(1);
    bench.raises(0x06);
    assert_eq!(bench.machine.control[offset::EXCEPTION_PC], 4);
}

/// 07h: user and protected, for loads and stores, cells and control block; before 08h and
/// stop 12.
#[test]
fn code_07() {
    for operation in [27, 28] {
        let mut bench = Bench::new(&[rri(operation, 2, 1, 0)])
            .user()
            .r(1, 3)
            .r(2, 9);
        bench.protect_data(3, 3);
        bench.raises(0x07);
        // The control block is guarded like a cell.
        let mut bench = Bench::new(&[rri(operation, 2, 1, 0x12)])
            .user()
            .r(1, 0x0001_0000);
        bench.protect_data(0x0001_0000, 0x0001_00FF);
        bench.raises(0x07);
        // Present or not.
        let mut bench = Bench::new(&[rri(operation, 2, 1, 0)])
            .user()
            .r(1, 0xFFFF_FFFF);
        bench.protect_data(0xFFFF_FFFF, 0xFFFF_FFFF);
        bench.raises(0x07);
        // Super user is not bound.
        let mut bench = Bench::new(&[rri(operation, 2, 1, 0)]).pr(1, 3);
        bench.protect_data(0, 0xFFFF_FFFF);
        bench.steps(1);
        assert_eq!(bench.pc(), 4);
    }
    // An unprotected control block can be used by user mode.
    let mut bench = Bench::new(&[rri(28, 2, 1, 0x12)])
        .user()
        .r(1, 0x0001_0000)
        .r(2, 5);
    bench.steps(1);
    assert_eq!(bench.machine.control[offset::INT_MASK], 5);
    // MEM_CONF turns nothing round.
    let mut bench = Bench::new(&[rri(27, 2, 1, 0)])
        .user()
        .r(1, 3)
        .control(offset::MEM_CONF, 0);
    bench.protect_data(3, 3);
    bench.raises(0x07);
}

/// 08h: an address outside 32 bits; after 07h (Manual 4.7).
#[test]
fn code_08() {
    for operation in [27, 28] {
        for (base, immediate) in [(0, -1), (255, -256), (0xFFFF_FFFF, 1), (0xFFFF_FF01, 255)] {
            let word = rri(operation, 2, 1, immediate);
            Bench::new(&[word]).pr(1, base).raises(0x08);
            Bench::new(&[word]).user().r(1, base).raises(0x08);
            let mut bench = Bench::new(&[word]).user().r(1, base);
            bench.protect_data(0, 0xFFFF_FFFF);
            bench.raises(0x07);
        }
        Bench::new_16(&[h_memory(operation as u16, 1, 2, -8)])
            .pr(25, 7)
            .raises(0x08);
        // The last address is inside, but absent.
        Bench::new(&[rri(operation, 2, 1, 1)])
            .pr(1, 0xFFFF_FFFE)
            .stops(12);
    }
}

/// User mode, R1 as given, 32 cells of 77 and the bounds 10h to 13h.
fn bounded(words: &[u32], base: u32) -> Bench {
    let mut bench = Bench::new(words).user().r(1, base).r(3, 9);
    bench.cells = vec![77; 32];
    bench.protect_data(0x10, 0x13);
    bench
}

/// In user mode an address outside 32 bits is 07h if it is protected modulo 2^32.
#[test]
fn wrapped_address() {
    for (word, base, code) in [
        (0x6C00_0C30, 0xFFFF_FFFF, 0x08), // ld R3, R1, 16: 0Fh
        (0x6C00_0C31, 0xFFFF_FFFF, 0x07), // ld R3, R1, 17: 10h
        (0x7000_0C34, 0xFFFF_FFFF, 0x07), // st R3, R1, 20: 13h
        (0x7000_0C35, 0xFFFF_FFFF, 0x08), // st R3, R1, 21: 14h
        (0x6C07_8C3F, 0, 0x08),           // ld R3, R1, -1: FFFFFFFFh
    ] {
        bounded(&[NOP, word], base).at(4).raises(code);
    }
    let mut bench = bounded(&[0x6C07_8C3F], 0);
    bench.protect_data(0x10, 0xFFFF_FFFF);
    bench.raises(0x07);
    // Super user, with either set.
    for psr in [0x08, 0x0A, 0x0C, 0x0E] {
        for word in [0x6C00_0C31, 0x7000_0C34] {
            let mut bench = bounded(&[word], 0xFFFF_FFFF).pr(1, 0xFFFF_FFFF);
            bench.machine.set_psr(psr);
            bench.raises(0x08);
        }
    }
}

/// The order of the data tests at all addresses that can be outside 32 bits, and those beside
/// them: user and protected modulo 2^32 (07h); outside 32 bits (08h); absent (stop 12).
#[test]
fn data_tests_at_the_ends_of_the_range() {
    let bounds = [
        (0, 0),
        (1, 0xFE),
        (0xFE, 0xFE),
        (0xFF, 0xFFFF_FEFF),
        (0xFFFF_FF00, 0xFFFF_FF00),
        (0xFFFF_FF01, 0xFFFF_FFFE),
        (0xFFFF_FFFF, 0xFFFF_FFFF),
        (0, 0xFFFF_FFFF),
        // Nothing is protected.
        (1, 0),
        (0xFFFF_FFFF, 0),
    ];
    for base in [0, 1, 255, 256, 0xFFFF_FF00, 0xFFFF_FF01, 0xFFFF_FFFF] {
        for immediate in -256..=255 {
            let sum = i64::from(base) + i64::from(immediate);
            let wrapped = sum.rem_euclid(1 << 32);
            for (low, high) in bounds {
                for operation in [27, 28] {
                    let word = rri(operation, 3, 1, immediate);
                    let mut bench = bounded(&[word], base);
                    bench.protect_data(low, high);
                    if i64::from(low) <= wrapped && wrapped <= i64::from(high) {
                        bench.raises(0x07);
                    } else if sum != wrapped {
                        bench.raises(0x08);
                    } else if sum >= 32 {
                        bench.stops(12);
                    } else {
                        bench.steps(1);
                        assert_eq!((bench.pc(), bench.psr()), (4, 0x09));
                    }
                }
            }
        }
    }
}

/// Protection goes by the address modulo 2^32, present or not, block or cell.
#[test]
fn wrapped_address_of_any_kind() {
    for operation in [27, 28] {
        // No cells, and the control block elsewhere.
        let mut bench = bounded(&[rri(operation, 3, 1, 17)], 0xFFFF_FFFF);
        bench.cells.clear();
        bench.raises(0x07);
        // In the control block, at either end of the range. INT_MASK is at 12h.
        for (block, base, immediate) in [
            (0, 0xFFFF_FFFF, 0x13),
            (0, 0xFFFF_FFFF, 1),
            (0, 0xFFFF_FF01, 255),
            (0xFFFF_FF00, 0, -1),
            (0xFFFF_FF00, 0, -0xEE),
            (0xFFFF_FF00, 0, -256),
        ] {
            for cells in [0, 32] {
                let mut bench = bounded(&[rri(operation, 3, 1, immediate)], base)
                    .control(offset::CCB_BASE, block);
                bench.cells.truncate(cells);
                bench.protect_data(block, block + 255);
                bench.raises(0x07);

                let mut bench = bounded(&[rri(operation, 3, 1, immediate)], base)
                    .control(offset::CCB_BASE, block);
                bench.cells.truncate(cells);
                bench.protect_data(0x100, 0xFFFF_FEFF);
                bench.raises(0x08);
            }
        }
        // A low bound above the high one protects nothing.
        for immediate in 16..=21 {
            let mut bench = bounded(&[rri(operation, 3, 1, immediate)], 0xFFFF_FFFF);
            bench.protect_data(0x13, 0x10);
            bench.raises(0x08);
        }
    }
}

/// In a branch slot, on a condition, with a product held and with requests.
#[test]
fn wrapped_address_in_a_program() {
    for (immediate, code) in [(16, 0x08), (17, 0x07), (20, 0x07), (21, 0x08)] {
        for operation in [27, 28] {
            let word = rri(operation, 3, 1, immediate);
            let mut bench = bounded(&[jump(36, 8), word], 0xFFFF_FFFF);
            bench.steps(1);
            assert_eq!(bench.machine.position.slot, Some(20));
            bench.raises(code);

            // Condition 0 is C of the condition register.
            bounded(&[when(0, 5, word)], 0xFFFF_FFFF).moves_only_pc(4);
            bounded(&[when(0, 5, word)], 0xFFFF_FFFF)
                .c(5, 1)
                .raises(code);
            let mut bench = bounded(&[jump(36, 8), when(0, 5, word)], 0xFFFF_FFFF);
            bench.steps(2);
            assert_eq!((bench.pc(), bench.machine.position.slot), (20, None));
            assert_eq!((bench.psr(), bench.machine.set1[3]), (0x09, 9));

            let mut bench = bounded(&[word], 0xFFFF_FFFF);
            bench.machine.position.product = Some(1);
            bench.requests = vec![0x801];
            bench.raises(code);
        }
    }
}

/// In 16-bit words, whose immediate is -8 to 7.
#[test]
fn wrapped_address_in_16_bit_words() {
    for operation in [27, 28] {
        for (base, immediate, code) in [
            (0xFFFF_FFFF, 3, 0x08),
            (0xFFFF_FFFF, 4, 0x07),
            (0xFFFF_FFFF, 7, 0x07),
            (0xFFFF_FFFC, 7, 0x07),
            (0xFFFF_FFFB, 7, 0x08),
            (7, -8, 0x08),
        ] {
            let word = h_memory(operation, 1, 2, immediate);
            let mut bench = Bench::new_16(&[0, word]).user().at(2).r(25, base).r(26, 9);
            bench.protect_data(3, 6);
            bench.raises(code);

            let mut bench = Bench::new_16(&[word]).pr(25, base);
            bench.protect_data(3, 6);
            bench.raises(0x08);
        }
        let mut bench = Bench::new_16(&[h_memory(operation, 1, 2, -8)])
            .user()
            .r(25, 7);
        bench.protect_data(0xFFFF_FFFF, 0xFFFF_FFFF);
        bench.raises(0x07);
    }
}

/// 09h: a byte of the target word protected in user mode.
#[test]
fn code_09() {
    for byte in 0x20..0x24 {
        for word in [
            jump(36, 0xE),
            jump(37, 0xE),
            branch(7, 0, 0xE),
            rrr(38, 0, 3, 0),
            rrr(39, 0, 3, 0),
        ] {
            let mut bench = Bench::new(&[word]).user().r(3, 0x20).r(31, 1);
            bench.protect_program(byte, byte);
            bench.raises(0x09);
        }
    }
    for byte in [0x1F, 0x24] {
        let mut bench = Bench::new(&[jump(36, 0xE)]).user();
        bench.protect_program(byte, byte);
        bench.steps(1);
        assert_eq!(bench.machine.position.slot, Some(0x20));
    }
    for (byte, protected) in [(0x1F, false), (0x20, true), (0x21, true), (0x22, false)] {
        let mut bench = Bench::new_16(&[h_jump(36, 0xF)]).user();
        bench.protect_program(byte, byte);
        if protected {
            bench.raises(0x09);
        } else {
            bench.steps(1);
            assert_eq!(bench.machine.position.slot, Some(0x20));
        }
    }
    // After 03h; not asked of super user.
    let mut bench = Bench::new(&[jump(36, 1)]).user();
    bench.protect_program(4, 0xFFFF_FFFF);
    bench.raises(0x03);
    let mut bench = Bench::new(&[jump(36, 2)]);
    bench.protect_program(0, 0xFFFF_FFFF);
    bench.steps(1);
    assert_eq!(bench.machine.position.slot, Some(8));
    // The slot itself is asked when it is fetched.
    let mut bench = Bench::new(&[jump(36, 4), NOP]).user();
    bench.protect_program(4, 7);
    bench.steps(1);
    bench.raises(0x00);
}

/// trap n has code 224 + n.
#[test]
fn traps() {
    for n in 0..32 {
        Bench::new(&[plain(55, n)]).raises(224 + n);
        Bench::new_16(&[h_plain(55, n as u16)]).raises(224 + n);
        Bench::new(&[plain(55, n)]).user().raises(224 + n);
    }
}

/// An exception saves the PSR before and the requests stay.
#[test]
fn exception_state() {
    let mut bench = Bench::new_16(&[0, h_plain(55, 3)])
        .user()
        .at(2)
        .control(offset::EXCEP_ADDR, 0x0123_4567);
    bench.machine.set_psr(0x11);
    bench.requests = vec![0x801];
    bench.raises(227);
    assert_eq!(bench.machine.control[offset::EXCEPTION_PSR], 0x11);
    assert_eq!(bench.machine.control[offset::EXCEPTION_PC], 2);
    assert_eq!(bench.machine.control[offset::INT_PEND], 0x801);
    assert_eq!((bench.pc(), bench.psr()), (0x0123_4567, 0x0E));
}

/// Stop 11: a byte of the word is absent.
#[test]
fn stop_11() {
    for length in 4..8 {
        let mut bench = Bench::new(&[NOP, NOP]).at(4);
        bench.program.truncate(length);
        bench.stops(11);
    }
    let mut bench = Bench::new_16(&[0, 0]).at(2);
    bench.moves_only_pc(4);
    bench.stops(11);
    bench.program.push(0);
    bench.stops(11);
    bench.program.push(0);
    bench.moves_only_pc(6);
    Bench::new(&[]).stops(11);
    // The last word of the longest program runs.
    let mut bench = Bench::new(&[NOP; 16_384]).at(65_532);
    bench.moves_only_pc(65_536);
    bench.stops(11);
    let mut bench = Bench::new(&[NOP; 16_384]).at(65_532);
    bench.program[65_532..].copy_from_slice(&jump(37, 0).to_be_bytes());
    bench.steps(1);
    assert_eq!(bench.machine.set2[31], 65_540);
    assert_eq!(bench.machine.position.slot, Some(65_536));
    bench.stops(11);
}

/// Stop 12: neither control block nor cell.
#[test]
fn stop_12() {
    for operation in [27, 28] {
        for base in [16, 0x0000_FFFF, 0x0001_0100, 0xFFFF_FFFF] {
            Bench::new(&[rri(operation, 2, 1, 0)]).pr(1, base).stops(12);
        }
        Bench::new(&[rri(operation, 2, 1, 0)])
            .user()
            .r(1, 16)
            .stops(12);
        let mut bench = Bench::new(&[rri(operation, 2, 1, 0)]);
        bench.cells.clear();
        bench.stops(12);
    }
}

/// Stop 14 comes after the condition, and a stop keeps the requests away.
#[test]
fn stop_14() {
    let mut bench = Bench::new(&[rrr(31, 3, 0, 0)]);
    bench.requests = vec![0xFFF];
    bench.stops(14);
    Bench::new_16(&[h_rr(31, 0, 3)]).stops(14);
    Bench::new(&[when(7, 0, rrr(31, 3, 0, 0))]).stops(14);
    Bench::new(&[when(0, 0, rrr(31, 3, 0, 0))]).moves_only_pc(4);
}

/// Stop 15: reti with an empty stack.
#[test]
fn stop_15() {
    Bench::new(&[plain(50, 0), NOP, NOP, NOP]).stops(15);
    Bench::new_16(&[h_plain(50, 0), 0, 0, 0]).stops(15);
}

/// The answer gives the steps before a stop, and they stay done.
#[test]
fn steps_before_a_stop() {
    let mut bench = Bench::new(&[lli(1, 5), rri(28, 1, 0, 3), lli(2, 6)]);
    bench.requests = vec![1, 2, 4, 8, 16];
    let answer = bench.run(100);
    assert_eq!((answer.steps, answer.ending), (3, 11));
    assert_eq!(bench.cells[3], 5);
    assert_eq!(bench.machine.set2[2], 6);
    assert_eq!(bench.pc(), 12);
    assert_eq!(bench.machine.control[offset::INT_PEND], 7);
}
