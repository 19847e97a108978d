//! Stores to RETI_ADDR, RETI_PSR and RETI_CR0 (Manual 5.3).

use super::bench::*;
use super::interrupts::ready;
use super::random::Random;
use crate::machine::{offset, Machine};

/// Where the control block is after reset.
const BLOCK: u32 = 0x0001_0000;

/// The offsets of RETI_ADDR, RETI_PSR and RETI_CR0.
const REGISTERS: [u32; 3] = [0x28, 0x29, 0x2A];

/// What RETI_PSR keeps of 0 to 31: with UM 1 RSRD and RSWR become 0.
const KEPT_PSR: [u32; 32] = [
    0x00, 0x01, 0x02, 0x01, 0x04, 0x01, 0x06, 0x01, // IE 0, IL 0
    0x08, 0x09, 0x0A, 0x09, 0x0C, 0x09, 0x0E, 0x09, // IE 0, IL 1
    0x10, 0x11, 0x12, 0x11, 0x14, 0x11, 0x16, 0x11, // IE 1, IL 0
    0x18, 0x19, 0x1A, 0x19, 0x1C, 0x19, 0x1E, 0x19, // IE 1, IL 1
];

/// A full stack: sources, addresses, PSRs and C0s, top last.
const ENTRIES: [[u32; 4]; 12] = [
    [7, 0x0000_0400, 0x1E, 1],
    [0, 0x0000_0804, 0x19, 6],
    [11, 0x0000_0C08, 0x0E, 3],
    [4, 0x8000_0000, 0x11, 0],
    [2, 0xFFFF_FFFF, 0x01, 7],
    [9, 0x0000_0002, 0x16, 2],
    [1, 0x0000_0000, 0x00, 5],
    [10, 0x1234_5678, 0x18, 4],
    [5, 0x0000_0404, 0x09, 1],
    [3, 0x0000_0808, 0x1A, 0],
    [8, 0x0000_0C0C, 0x14, 3],
    [6, 0x0000_1010, 0x0C, 6],
];

/// A service routine with the first `depth` entries on the stack, register 1 of either set
/// at the control block, and register 2 of either set with `value`.
fn routine(words: &[u32], depth: usize, value: u32) -> Bench {
    let mut bench = Bench::new(words)
        .pr(1, BLOCK)
        .r(1, BLOCK)
        .pr(2, value)
        .r(2, value);
    for &[source, address, psr, c0] in &ENTRIES[..depth] {
        bench = bench.in_service(source, address, psr, c0);
    }
    bench
}

/// st of register 2 to a control block register.
fn st(register: u32) -> u32 {
    rri(28, 2, 1, register as i32)
}

/// ld of a control block register to `dreg`.
fn ld(dreg: u32, register: u32) -> u32 {
    rri(27, dreg, 1, register as i32)
}

/// It has to be followed by three nops.
const RETI: u32 = 50 << 26;

/// What a RETI_ register keeps of a value.
fn kept(register: u32, value: u32) -> u32 {
    match register {
        0x28 => value,
        0x29 => KEPT_PSR[value as usize % 32],
        _ => value % 8,
    }
}

/// Does one step, which must store `value` to a RETI_ register: the top entry and the
/// register change, PC becomes `pc`, and nothing else changes.
fn stores(bench: &mut Bench, register: u32, value: u32, pc: u32) {
    let mut expected = bench.machine.clone();
    let cells = bench.cells.clone();
    let top = expected.stack.last_mut().expect("an entry");
    match register {
        0x28 => top.address = kept(register, value),
        0x29 => top.psr = kept(register, value),
        _ => top.c0 = kept(register, value),
    }
    expected.control[register as usize] = kept(register, value);
    expected.position.pc = pc;
    expected.position.slot = None;
    expected.position.product = None;
    bench.steps(1);
    assert_eq!(bench.machine, expected, "{value:08X}h to {register:02X}h");
    assert_eq!(bench.cells, cells);
}

/// Every bit alone, every bit missing, and three others.
fn values() -> Vec<u32> {
    let bits = (0..32).map(|bit| 1_u32 << bit);
    let missing = bits.clone().map(|bit| !bit);
    bits.chain(missing)
        .chain([0, 0xFFFF_FFFF, 0x1234_5678])
        .collect()
}

/// The numbers of an image, from its stack's count to the last entry's end.
fn stack_of_image(bench: &Bench) -> Vec<u32> {
    let image = bench.image();
    image[512..image.len() - 12]
        .chunks_exact(4)
        .map(|b| u32::from_be_bytes([b[0], b[1], b[2], b[3]]))
        .collect()
}

/// Stores worked by hand.
#[test]
fn three_stores_by_hand() {
    let words = [
        rri(28, 2, 1, 0x28),
        rri(28, 3, 1, 0x29),
        rri(28, 4, 1, 0x2A),
    ];
    let mut bench = Bench::new(&words)
        .pr(1, BLOCK)
        .pr(2, 0xDEAD_BEEF)
        .pr(3, 0xFFFF_FFF7)
        .pr(4, 0xFFFF_FFFD)
        .in_service(3, 0x1000, 0x09, 2)
        .in_service(9, 0x2000, 0x0E, 7);
    for expected in [
        [2, 3, 0x1000, 0x09, 2, 9, 0xDEAD_BEEF, 0x0E, 7],
        [2, 3, 0x1000, 0x09, 2, 9, 0xDEAD_BEEF, 0x11, 7],
        [2, 3, 0x1000, 0x09, 2, 9, 0xDEAD_BEEF, 0x11, 5],
    ] {
        bench.steps(1);
        assert_eq!(stack_of_image(&bench), expected);
        assert_eq!(bench.machine.control[0x28..=0x2A], expected[6..9]);
        assert_eq!(bench.machine.control[offset::INT_SERV], 0x208);
    }
}

/// Stores to RETI_ADDR, RETI_PSR and RETI_CR0 replace the top entry's address, PSR or C0, at
/// every depth, and nothing else of the stack, of INT_SERV or of the machine.
#[test]
fn the_top_entry_is_replaced() {
    for depth in 1..=12 {
        for register in REGISTERS {
            for value in values() {
                let mut bench = routine(&[st(register)], depth, value);
                stores(&mut bench, register, value, 4);
            }
        }
    }
}

/// With an empty stack they are ignored.
#[test]
fn an_empty_stack() {
    for register in REGISTERS {
        for value in values() {
            let mut words = vec![st(register), ld(3, 0x28), ld(4, 0x29), ld(5, 0x2A)];
            words.extend([RETI, NOP, NOP, NOP]);
            let mut bench = routine(&words, 0, value);
            bench.moves_only_pc(4);
            bench.steps(3);
            assert_eq!(bench.machine.set2[3..6], [1, 9, 0]);
            bench.stops(15);
        }
    }
    // Nothing of it is left for an interrupt that comes later.
    let words = [st(0x28), st(0x29), st(0x2A), NOP];
    let mut bench = ready(&words).pr(1, BLOCK).pr(2, 0x55).c(0, 6);
    bench.steps(3);
    bench.requests = vec![1 << 9];
    bench.steps(1);
    assert_eq!(stack_of_image(&bench), [1, 9, 12, 0x1E, 6]);
    assert_eq!(bench.machine.control[0x28..=0x2A], [12, 0x1E, 6]);
    // An emptied stack is an empty one.
    let words = [st(0x28), RETI, NOP, NOP, NOP, st(0x28)];
    let mut bench = routine(&words, 1, 20);
    bench.steps(2);
    bench.moves_only_pc(24);
    assert_eq!(bench.machine.control[0x28..=0x2A], [1, 9, 0]);
}

/// RETI_PSR keeps bits 4..0, and with UM 1 RSRD and RSWR become 0, so that question 4 still
/// passes on every image: every value of bits 8..0, with the bits above 0 and 1, stored by
/// either mode; then reti takes the PSR. `Bench::run` asks questions 2 to 5 of every image
/// that it gets, and the next call takes it.
#[test]
fn every_psr() {
    for low in 0..512 {
        for value in [low, 0xFFFF_FE00 | low] {
            for user in [false, true] {
                for depth in [1, 2, 12] {
                    let words = [st(0x29), RETI, NOP, NOP, NOP];
                    let mut bench = routine(&words, depth, value);
                    if user {
                        bench = bench.user();
                    }
                    stores(&mut bench, 0x29, value, 4);
                    bench.steps(0);
                    let [_, address, _, c0] = ENTRIES[depth - 1];
                    bench.steps(1);
                    assert_eq!(bench.psr(), KEPT_PSR[low as usize % 32]);
                    assert_eq!(bench.pc(), address);
                    assert_eq!(bench.machine.conditions[0], c0);
                    bench.steps(0);
                }
            }
        }
    }
}

/// A short register keeps its low bits: three of RETI_CR0.
#[test]
fn every_c0() {
    for low in 0..256 {
        for value in [low, 0xFFFF_FF00 | low] {
            let words = [st(0x2A), RETI, NOP, NOP, NOP];
            let mut bench = routine(&words, 2, value).c(0, 2).c(1, 5).c(7, 1);
            stores(&mut bench, 0x2A, value, 4);
            bench.steps(1);
            assert_eq!(bench.machine.conditions, [low % 8, 5, 0, 0, 0, 0, 0, 1]);
        }
    }
}

/// All 32 bits of an address are kept, aligned or not, present or not: reti does not test it,
/// and the next step finds what is wrong with it.
#[test]
fn every_address() {
    for address in values() {
        // The third entry's PSR has 32-bit words and super user mode.
        let words = [st(0x28), RETI, NOP, NOP, NOP];
        let mut bench = routine(&words, 3, address);
        stores(&mut bench, 0x28, address, 4);
        bench.steps(1);
        assert_eq!((bench.pc(), bench.psr()), (address, 0x0E));
        if address % 4 != 0 {
            bench.raises(0x05);
        } else if address >= 20 {
            bench.stops(11);
        }
    }
    // To user mode, with all of the program protected.
    let words = [st(0x28), rri(28, 3, 1, 0x29), RETI, NOP, NOP, NOP];
    let mut bench = routine(&words, 1, 0x4C).pr(3, 0x0F);
    bench.steps(3);
    assert_eq!((bench.pc(), bench.psr()), (0x4C, 0x09));
    bench.raises(0x00);
}

/// Stores count from the next step on: a load just before a store finds the old top, a load
/// just after it the new one.
#[test]
fn loads_before_and_after() {
    for depth in [1, 2, 12] {
        for (n, register) in REGISTERS.into_iter().enumerate() {
            for value in values() {
                let words = [ld(3, register), st(register), ld(4, register)];
                let mut bench = routine(&words, depth, value);
                bench.steps(3);
                let old = ENTRIES[depth - 1][1 + n];
                assert_eq!(bench.machine.set2[3..5], [old, kept(register, value)]);
            }
        }
    }
}

/// reti takes the top entry and its source's flag: it goes where the stores say, and the
/// entries below, which then show, are the old ones.
#[test]
fn returns_after_stores() {
    for depth in 1..=12 {
        let words = [st(0x28), st(0x29), st(0x2A), RETI, NOP, NOP, NOP];
        let mut bench = routine(&words, depth, 0x77);
        bench.steps(3);
        for n in (0..depth).rev() {
            let [source, address, psr, c0] = ENTRIES[n];
            let returned = if n == depth - 1 {
                (0x77, 0x11, 7)
            } else {
                (address, psr, c0)
            };
            let flags = bench.machine.control[offset::INT_SERV];
            bench.machine.set_psr(0x0E);
            bench.machine.position.pc = 12;
            bench.steps(1);
            let machine = &bench.machine;
            assert_eq!((bench.pc(), bench.psr(), machine.conditions[0]), returned);
            assert_eq!(machine.control[offset::INT_SERV], flags - (1 << source));
            assert_eq!(machine.stack.len(), n);
            match n {
                0 => assert_eq!(machine.control[0x28..=0x2A], [1, 9, 0]),
                _ => assert_eq!(machine.control[0x28..=0x2A], ENTRIES[n - 1][1..]),
            }
        }
        assert_eq!(bench.machine.control[offset::INT_SERV], 0);
    }
}

/// Change of task (Manual 6.3): a routine that exchanges the top entry with cells 0 to 2 lets
/// two tasks, of different modes and word lengths, run in turn.
#[test]
fn two_tasks_in_turn() {
    let mut exchange = Vec::new();
    for n in 0..3 {
        exchange.push(ld(10, 0x28 + n));
        exchange.push(rri(27, 11, 0, n as i32));
        exchange.push(rri(28, 11, 1, 0x28 + n as i32));
        exchange.push(rri(28, 10, 0, n as i32));
    }
    exchange.push(RETI);
    let steps = 1 + exchange.len() as u32;
    exchange.extend([NOP; 3]);

    // At 0 user code that counts R1 up, at 80h 16-bit super user code that counts PR24 down,
    // at 100h the routine of source 0.
    let mut bench = ready(&[rri(18, 1, 1, 1); 0x20]).r(1, 0xFFFF_FF00);
    for _ in 0..0x40 {
        bench.program.extend(h_ri(18, 0, -1).to_be_bytes());
    }
    for word in exchange {
        bench.program.extend(word.to_be_bytes());
    }
    bench = bench.pr(1, BLOCK).pr(24, 0x100);
    bench.machine.set_psr(0x19);
    bench.protect_program(0x80, 0xFFFF_FFFF);
    bench.cells[..3].copy_from_slice(&[0x80, 0x16, 7]);

    for turn in 0..4 {
        bench.steps(5);
        assert_eq!((bench.pc(), bench.psr()), (20 * (turn + 1), 0x19));
        assert_eq!(bench.machine.set1[1], 0xFFFF_FF00 + 5 * (turn + 1));
        bench.requests = vec![1];
        bench.steps(steps);
        assert_eq!((bench.pc(), bench.psr()), (0x80 + 6 * turn, 0x16));
        // The sums of the one task are negative, those of the other have a carry.
        assert_eq!(bench.machine.conditions[0], if turn == 0 { 7 } else { 1 });
        assert_eq!(bench.cells[..3], [20 * (turn + 1), 0x19, 2]);
        bench.requests.clear();
        bench.steps(3);
        assert_eq!(bench.machine.set2[24], 0x100 - 3 * (turn + 1));
        bench.requests = vec![1];
        bench.steps(steps);
        assert_eq!((bench.pc(), bench.psr()), (20 * (turn + 1), 0x19));
        assert_eq!(bench.machine.conditions[0], 2);
        assert_eq!(bench.cells[..3], [0x80 + 6 * (turn + 1), 0x16, 1]);
        assert_eq!(bench.machine.control[offset::INT_SERV], 0);
        bench.requests.clear();
    }
}

/// An interrupt that comes after a store puts its entry above the changed one, which shows
/// again once it has returned.
#[test]
fn an_interrupt_after_a_store() {
    // Source 4 has priority 0, source 5 has 1.
    let mut bench = ready(&[st(0x28), st(0x29), NOP])
        .control(offset::EXT_INT_PRI, 0x10)
        .pr(1, BLOCK)
        .pr(2, 0x0D)
        .c(0, 3)
        .in_service(5, 0x40, 0x1E, 4);
    bench.program.resize(0x140, 0);
    for word in [st(0x2A), RETI, NOP, NOP, NOP] {
        bench.program.extend(word.to_be_bytes());
    }
    bench.steps(2);
    assert_eq!(stack_of_image(&bench), [1, 5, 0x0D, 0x09, 4]);
    bench.requests = vec![1 << 4];
    bench.steps(1);
    bench.requests.clear();
    let both = [2, 5, 0x0D, 0x09, 4, 4, 8, 0x1E, 3];
    assert_eq!(stack_of_image(&bench), both);
    assert_eq!(bench.machine.control[0x28..=0x2A], [8, 0x1E, 3]);
    bench.steps(1);
    let both = [2, 5, 0x0D, 0x09, 4, 4, 8, 0x1E, 5];
    assert_eq!(stack_of_image(&bench), both);
    bench.steps(1);
    assert_eq!((bench.pc(), bench.psr()), (8, 0x1E));
    assert_eq!(bench.machine.conditions[0], 5);
    assert_eq!(stack_of_image(&bench), [1, 5, 0x0D, 0x09, 4]);
    assert_eq!(bench.machine.control[0x28..=0x2A], [0x0D, 0x09, 4]);
}

/// A stored IE enables or disables interrupts when reti takes it, and not before.
#[test]
fn a_stored_ie_waits_for_reti() {
    for (stacked, value, enabled) in [(0x0E, 0x1E, true), (0x1E, 0x0E, false)] {
        // Source 1, which is pending, has priority 0, source 0 has 1.
        let mut bench = ready(&[st(0x29), NOP, RETI, NOP, NOP, NOP])
            .control(offset::COP_INT_PRI, 0x0001)
            .pr(1, BLOCK)
            .pr(2, value)
            .in_service(0, 0x40, stacked, 2);
        bench.machine.set_psr(0x0E);
        bench.requests = vec![1 << 1];
        bench.steps(3);
        bench.requests.clear();
        assert_eq!((bench.pc(), bench.psr()), (0x40, value));
        assert_eq!(bench.machine.control[offset::INT_PEND], 1 << 1);
        if enabled {
            bench.steps(1);
            assert_eq!(stack_of_image(&bench), [1, 1, 0x40, 0x1E, 2]);
        } else {
            bench.stops(11);
        }
    }
}

/// On a false condition nothing but PC moves.
#[test]
fn conditional_stores() {
    for register in REGISTERS {
        for depth in [1, 2, 12] {
            let word = when(0, 3, st(register));
            routine(&[word], depth, 0x77).c(3, 6).moves_only_pc(4);
            let mut bench = routine(&[word], depth, 0x77).c(3, 1);
            stores(&mut bench, register, 0x77, 4);
        }
    }
}

/// st in 16-bit words: PR26 to PR25 plus −8 to 7.
#[test]
fn stores_in_16_bit_words() {
    for register in REGISTERS {
        for immediate in [-8, -1, 0, 7] {
            for value in values() {
                let base = (BLOCK + register).wrapping_sub(immediate as u32);
                let words = [h_memory(28, 1, 2, immediate), h_memory(27, 1, 3, immediate)];
                let mut bench = Bench::new_16(&words)
                    .pr(25, base)
                    .pr(26, value)
                    .in_service(7, 0x400, 0x1E, 1)
                    .in_service(0, 0x804, 0x19, 6);
                stores(&mut bench, register, value, 2);
                bench.steps(1);
                assert_eq!(bench.machine.set2[27], kept(register, value));
            }
        }
    }
}

/// A store in a branch slot acts, and the target follows.
#[test]
fn stores_in_a_slot() {
    for register in REGISTERS {
        for transfer in [jump(36, 8), jump(37, 8), branch(7, 0, 8)] {
            let mut words = vec![transfer, st(register), NOP, NOP, NOP];
            words.extend([RETI, NOP, NOP, NOP]);
            let mut bench = routine(&words, 2, 0x77);
            bench.steps(1);
            stores(&mut bench, register, 0x77, 20);
            bench.steps(1);
            let mut expected = ENTRIES[1];
            expected[register as usize - 0x27] = kept(register, 0x77);
            let returned = [bench.pc(), bench.psr(), bench.machine.conditions[0]];
            assert_eq!(returned, expected[1..]);
        }
    }
    // On a false condition the slot is used up and nothing is stored.
    let words = [jump(36, 8), when(0, 0, st(0x28))];
    let mut bench = routine(&words, 2, 0x77);
    bench.steps(2);
    assert_eq!(bench.pc(), 20);
    assert_eq!(
        stack_of_image(&bench),
        [&[2], &ENTRIES[0][..], &ENTRIES[1]].concat()
    );
}

/// In user mode a store to a protected register is 07h, and the stack keeps what it has; to
/// one that is not protected it does what a super user's store does, protected or not.
#[test]
fn user_mode() {
    for register in REGISTERS {
        let address = BLOCK + register;
        for depth in [0, 1, 2, 12] {
            let user = |low, high| {
                let mut bench = routine(&[st(register)], depth, 0xFFFF_FF77).user();
                bench.protect_data(low, high);
                bench
            };
            for (low, high) in [(0, 0xFFFF_FFFF), (BLOCK, BLOCK + 255), (address, address)] {
                user(low, high).raises(0x07);
            }
            for (low, high) in [(1, 0), (0, address - 1), (address + 1, 0xFFFF_FFFF)] {
                let mut bench = user(low, high);
                if depth == 0 {
                    bench.moves_only_pc(4);
                } else {
                    stores(&mut bench, register, 0xFFFF_FF77, 4);
                }
            }
        }
    }
    // An address outside 32 bits is 07h or 08h, though modulo 2^32 it is a RETI_ register's.
    for (low, high, code) in [(0, 0xFFFF_FFFF, 0x07), (1, 0, 0x08)] {
        let mut bench = routine(&[rri(28, 2, 1, 0x29)], 2, 0x77)
            .user()
            .control(offset::CCB_BASE, 0)
            .r(1, 0xFFFF_FFFF);
        bench.protect_data(low, high);
        bench.raises(code);
    }
}

/// The registers move with the block, before the cells.
#[test]
fn a_moved_block() {
    for base in [0, 0x0000_FF00, 0xFFFF_FF00] {
        for register in REGISTERS {
            let mut bench = routine(&[st(register)], 2, 0x77)
                .control(offset::CCB_BASE, base)
                .pr(1, base);
            bench.cells = vec![0xAAAA_AAAA; 65_536];
            stores(&mut bench, register, 0x77, 4);
            routine(&[st(register)], 2, 0x77)
                .control(offset::CCB_BASE, base)
                .stops(12);
        }
    }
}

/// No store to another register changes the stack, or what shows of it.
#[test]
fn stores_to_other_registers() {
    for offset in (0..256).filter(|offset| !REGISTERS.contains(offset)) {
        for value in [0, 0xFFFF_FFFF] {
            let words = [rri(28, 2, 1, 0)];
            let mut bench = routine(&words, 12, value).pr(1, BLOCK + offset);
            let before = bench.machine.clone();
            bench.steps(1);
            assert_eq!(bench.machine.stack, before.stack);
            assert_eq!(bench.machine.control[0x28..], before.control[0x28..]);
            assert_eq!(bench.machine.control[offset::INT_SERV], 0xFFF);
        }
    }
}

/// Of several stores to one register the last is kept; the order of stores to different ones
/// makes no difference.
#[test]
fn several_stores() {
    let orders = [
        [0, 1, 2],
        [0, 2, 1],
        [1, 0, 2],
        [1, 2, 0],
        [2, 0, 1],
        [2, 1, 0],
    ];
    for order in orders {
        let words = order.map(|n| rri(28, 3 + n, 1, 0x28 + n as i32));
        let mut bench = routine(&[st(0x28), st(0x29), st(0x2A)], 2, 0xFFFF_FFFF)
            .pr(3, 0x1234)
            .pr(4, 0xFFFF_FFEE)
            .pr(5, 0xFFFF_FFF9);
        bench
            .program
            .extend(words.iter().flat_map(|word| word.to_be_bytes()));
        bench.steps(3);
        assert_eq!(bench.machine.control[0x28..=0x2A], [0xFFFF_FFFF, 0x19, 7]);
        bench.steps(3);
        assert_eq!(bench.machine.control[0x28..=0x2A], [0x1234, 0x0E, 1]);
        assert_eq!(stack_of_image(&bench)[5..], [0, 0x1234, 0x0E, 1]);
    }
}

/// A watchdog's reset comes after the step's stores, and leaves the stack empty.
#[test]
fn a_reset_in_the_same_step() {
    for register in REGISTERS {
        let mut bench = routine(&[st(register)], 2, 0x77)
            .control(0x24, 1)
            .control(0x27, 0x9000);
        bench.steps(1);
        assert_eq!(bench.machine, Machine::reset());
    }
}

/// Random stores, interrupts and returns, beside a plain list of entries.
#[test]
fn beside_a_list() {
    let mut random = Random(0x2545_F491_4F6C_DD1D);
    let mut list: Vec<[u32; 4]> = Vec::new();
    let mut depths = [0; 13];
    let mut bench = ready(&[rri(28, 2, 1, 0), RETI, NOP, NOP, NOP]);
    for round in 0..40_000 {
        // The stack grows and shrinks by turns.
        let growing = round / 100 % 2 == 0;
        match random.below(3) {
            0 if growing => {
                let source = random.below(12);
                if list.iter().any(|entry| entry[0] == source) {
                    continue;
                }
                // This source has priority 0, all others 15.
                let priorities = !(15_u64 << (4 * source));
                bench.machine.control[offset::COP_INT_PRI] = priorities as u32 & 0xFFFF;
                bench.machine.control[offset::EXT_INT_PRI] = (priorities >> 16) as u32;
                let psr = KEPT_PSR[16 + random.below(16) as usize];
                let entry = [source, random.next(), psr, random.below(8)];
                bench.machine.position.pc = entry[1];
                bench.machine.set_psr(entry[2]);
                bench.machine.conditions[0] = entry[3];
                bench.requests = vec![1 << source];
                bench.steps(1);
                bench.requests.clear();
                list.push(entry);
            }
            0 => {
                bench.machine.position.pc = 4;
                bench.machine.set_psr(0x0E);
                if let Some([_, address, psr, c0]) = list.pop() {
                    bench.steps(1);
                    assert_eq!((bench.pc(), bench.psr()), (address, psr));
                    assert_eq!(bench.machine.conditions[0], c0);
                } else {
                    bench.stops(15);
                }
            }
            _ => {
                let register = REGISTERS[random.below(3) as usize];
                let value = random.next();
                bench.machine.position.pc = 0;
                bench.machine.set_psr(0x0E);
                bench = bench.pr(1, BLOCK + register).pr(2, value);
                bench.steps(1);
                if let Some(top) = list.last_mut() {
                    top[register as usize - 0x27] = kept(register, value);
                }
            }
        }
        let mut numbers = vec![list.len() as u32];
        numbers.extend(list.iter().flatten());
        assert_eq!(stack_of_image(&bench), numbers);
        let shown = list
            .last()
            .map_or([1, 9, 0], |top| [top[1], top[2], top[3]]);
        assert_eq!(bench.machine.control[0x28..=0x2A], shown);
        let flags = list.iter().fold(0, |flags, entry| flags | 1 << entry[0]);
        assert_eq!(bench.machine.control[offset::INT_SERV], flags);
        depths[list.len()] += 1;
    }
    assert!(depths.iter().all(|&count| count > 100), "{depths:?}");
}
