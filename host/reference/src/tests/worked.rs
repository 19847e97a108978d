//! The worked examples of docs/MANUAL.md, section 16, and examples of the COFFEE Core user
//! manual.

use super::bench::*;
use crate::machine::offset;
use crate::{reset, run, Answer};

#[test]
fn add_at_the_upper_end() {
    let mut bench = Bench::new(&[rrr(1, 3, 1, 2)]).pr(1, 0x7FFF_FFFF).c(0, 5);
    bench.steps(1);
    assert_eq!(bench.machine.set2[3], 0x7FFF_FFFF);
    assert_eq!(bench.machine.conditions[0], 0);

    let mut bench = Bench::new(&[rrr(1, 3, 1, 2)])
        .pr(1, 0x7FFF_FFFF)
        .pr(2, 1)
        .c(0, 5);
    bench.raises(0x06);
    assert_eq!(bench.machine.conditions[0], 5);
}

#[test]
fn sub_at_the_lower_end() {
    let mut bench = Bench::new(&[rrr(3, 3, 1, 2)]).pr(1, 0x8000_0000).pr(2, 1);
    bench.raises(0x06);

    let mut bench = Bench::new(&[rrr(4, 3, 1, 2)]).pr(1, 0x8000_0000).pr(2, 1);
    bench.steps(1);
    assert_eq!(bench.machine.set2[3], 0x7FFF_FFFF);
    assert_eq!(bench.machine.conditions[0], 1);
}

#[test]
fn products_of_all_ones() {
    // (operation, low, high)
    for (operation, low, high) in [(9, 1, 0xFFFF_FFFE), (10, 1, 0xFFFF_FFFF), (8, 1, 0)] {
        let mut bench = Bench::new(&[rrr(operation, 2, 1, 1), rrr(31, 3, 0, 0)]).pr(1, 0xFFFF_FFFF);
        bench.steps(1);
        assert_eq!(bench.machine.set2[2], low);
        assert_eq!(
            bench.machine.position.product,
            Some(u64::from(high) << 32 | u64::from(low))
        );
        bench.steps(1);
        assert_eq!(bench.machine.set2[3], high);
        assert_eq!(bench.machine.position.product, None);
    }
}

#[test]
fn sub_in_16_bit() {
    let mut bench = Bench::new_16(&[0x0C11]).pr(26, 50).pr(25, 8);
    bench.steps(1);
    assert_eq!(bench.machine.set2[25], 42);
    assert_eq!(bench.machine.set2[26], 50);
    assert_eq!(bench.machine.conditions[0], 1);
    assert_eq!(bench.pc(), 2);
}

#[test]
fn jmp_at_0() {
    let mut bench = Bench::new(&[jump(36, 1), NOP]);
    bench.raises(0x03);

    let mut bench = Bench::new(&[jump(36, 2), NOP, NOP]);
    bench.steps(1);
    assert_eq!((bench.pc(), bench.machine.position.slot), (4, Some(8)));
    bench.steps(1);
    assert_eq!((bench.pc(), bench.machine.position.slot), (8, None));
}

/// swm with its two nops.
#[test]
fn swm_at_0() {
    let mut bench = Bench::new(&[0xD800_0000, NOP, NOP]);
    bench.steps(1);
    assert_eq!(bench.pc(), 12);
    assert_eq!(bench.psr(), 0x06);
}

#[test]
fn user_load_at_the_bounds() {
    for (address, passes) in [(4, true), (5, false), (6, false), (9, false), (10, true)] {
        let mut bench = Bench::new(&[rri(27, 2, 1, 0)]).user().r(1, address);
        bench.cells = (100..116).collect();
        bench.protect_data(5, 9);
        if passes {
            bench.steps(1);
            assert_eq!(bench.machine.set1[2], 100 + address);
        } else {
            bench.raises(0x07);
        }
    }
}

#[test]
fn limits() {
    let mut bench = Bench::new(&[lli(1, 5)]);
    let image = bench.image();
    let mut buffer = [7; 720];
    let answer = run(
        &bench.program,
        &mut bench.cells,
        &image,
        &[],
        0,
        &mut buffer,
    );
    let none = Answer {
        refusal: 0,
        steps: 0,
        ending: 0,
    };
    assert_eq!(answer, none);
    assert_eq!(buffer[..528], image[..]);
    assert!(buffer[528..].iter().all(|&byte| byte == 7));

    let mut buffer = [7; 720];
    let answer = run(
        &bench.program,
        &mut bench.cells,
        &image,
        &[],
        1_000_001,
        &mut buffer,
    );
    let refused = Answer {
        refusal: 7,
        steps: 0,
        ending: 0,
    };
    assert_eq!(answer, refused);
    assert_eq!(buffer, [7; 720]);
}

/// A step limit of 1,000,000 is allowed and reached by an endless loop.
#[test]
fn the_highest_limit() {
    let mut bench = Bench::new(&[jump(36, -2), NOP]);
    bench.steps(1_000_000);
    assert_eq!(bench.pc(), 0);
}

#[test]
fn the_run_program_example() {
    let program: Vec<u8> = [0x8801_0005_u32, 0x4807_883F, 0xDC00_0003]
        .iter()
        .flat_map(|word| word.to_be_bytes())
        .collect();
    let mut image = [0; 720];
    assert_eq!(reset(&mut image), 0);
    let mut cells = vec![0; 4096];
    let mut buffer = [0; 720];
    let answer = run(&program, &mut cells, &image[..528], &[], 3, &mut buffer);
    let expected = Answer {
        refusal: 0,
        steps: 3,
        ending: 0,
    };
    assert_eq!(answer, expected);
    let number = |at: usize| u32::from_be_bytes(buffer[at..at + 4].try_into().unwrap());
    // Set 2 is after 132 bytes, the conditions after 264, the control block after
    // 300, the position after 484; each begins with its count.
    assert_eq!(number(132 + 4 + 4 * 2), 4, "PR2");
    assert_eq!(number(264 + 4), 1, "C0");
    assert_eq!(number(300 + 4 + 4 * 0x17), 0xE3, "EXCEPTION_CS");
    assert_eq!(number(300 + 4 + 4 * 0x18), 8, "EXCEPTION_PC");
    assert_eq!(number(300 + 4 + 4 * 0x19), 0x0E, "EXCEPTION_PSR");
    assert_eq!(number(484 + 4), 0, "PC");
    assert!(cells.iter().all(|&cell| cell == 0));
}

/// COFFEE Core user manual, section 6.2, addu: a sum of 64 bits, the lower halves by addu, and
/// one added to the upper ones where C0 has a carry.
#[test]
fn addition_wider_than_32_bits() {
    let mut bench = Bench::new(&[
        rrr(2, 5, 1, 3),
        when(0, 0, rri(19, 2, 2, 1)),
        rrr(2, 6, 2, 4),
    ])
    .pr(1, 0xFFFF_FFFF)
    .pr(2, 0x10)
    .pr(3, 0x0000_0002)
    .pr(4, 0x20);
    bench.steps(3);
    assert_eq!(bench.machine.set2[5], 1);
    assert_eq!(bench.machine.set2[6], 0x31);
}

/// COFFEE Core user manual, section 6.2, exbf: the field of length 5 at position 6, by a
/// constant and by length and position in registers.
#[test]
fn a_field_of_a_message_frame() {
    let mut bench = Bench::new(&[lli(2, 0x0A6), rrr(62, 3, 0, 2)]).pr(0, 0xFFFF_FD7F);
    bench.steps(2);
    assert_eq!(bench.machine.set2[3], 0b10101);

    let mut bench = Bench::new(&[
        rri(23, 1, 1, 5), // slli PR1, PR1, 5
        rrr(6, 2, 2, 1),  // or PR2, PR2, PR1
        rrr(62, 3, 0, 2), // exbf PR3, PR0, PR2
    ])
    .pr(0, 0xFFFF_FD7F)
    .pr(1, 5)
    .pr(2, 6);
    bench.steps(3);
    assert_eq!(bench.machine.set2[2], 0x0A6);
    assert_eq!(bench.machine.set2[3], 0b10101);
}

/// COFFEE Core user manual, section 4.5, first example: remapping the control block, then a
/// store to its second register at the new place.
#[test]
fn remapping_the_control_block() {
    let mut bench = Bench::new(&[
        rri(28, 1, 0, 0), // st PR1, PR0, 0
        rri(18, 0, 1, 1), // addi PR0, PR1, 1
        rri(28, 2, 0, 0), // st PR2, PR0, 0
    ])
    .pr(0, 0x0001_0000)
    .pr(1, 0x0002_0000)
    .pr(2, 0x1234_5678);
    bench.steps(3);
    assert_eq!(bench.machine.control[offset::CCB_BASE], 0x0002_0000);
    assert_eq!(bench.machine.control[offset::PCB_BASE], 0x1234_5678);
}

/// COFFEE Core user manual, section 4.5, second example: an interrupt vector, then ei.
#[test]
fn setting_a_vector_and_enabling_interrupts() {
    let mut bench = Bench::new(&[rri(28, 1, 0, 0), NOP, NOP, plain(53, 0)])
        .pr(0, 0x0001_0008)
        .pr(1, 0x40)
        .control(offset::INT_MASK, 0x010);
    bench.requests = vec![0x010];
    bench.steps(5);
    assert_eq!(bench.pc(), 0x40);
    assert_eq!(bench.machine.stack[0].source, 4);
    assert_eq!(bench.machine.stack[0].address, 16);
}

/// COFFEE Core user manual, sections 2.7 and 4.4: boot code that enters user mode by retu, and
/// a system call back.
#[test]
fn boot_user_and_system_call() {
    let mut bench = Bench::new(&[
        plain(49, 0),     // 0: retu
        NOP,              // 4
        rri(18, 1, 1, 7), // 8: addi R1, R1, 7
        plain(48, 0),     // 12: scall
        NOP,              // 16
        NOP,              // 20
    ])
    .pr(31, 8)
    .pr(30, 0x1F)
    .control(offset::SYSTEM_ADDR, 4);
    bench.protect_program(1, 0);
    bench.steps(1);
    assert_eq!((bench.pc(), bench.psr()), (8, 0x19));
    bench.steps(1);
    assert_eq!(bench.machine.set1[1], 7);
    bench.steps(1);
    assert_eq!((bench.pc(), bench.psr()), (4, 0x0E));
    assert_eq!(bench.machine.set2[31], 20);
    assert_eq!(bench.machine.set2[30], 0x19);
}
