//! Interrupts: acceptance, priority, ties, nesting, mask, branch slot and mulhi rule.

use super::bench::*;
use crate::machine::{offset, StackEntry};

/// A machine with interrupts enabled, all sources unmasked, super user and 32-bit words
/// in every service routine, and the vector of source s at 100h + 10h × s.
pub fn ready(words: &[u32]) -> Bench {
    let mut bench = Bench::new(words);
    bench.machine.set_psr(0x1E);
    bench.machine.control[offset::INT_MASK] = 0xFFF;
    bench.machine.control[offset::INT_MODE_UM] = 0;
    for source in 0..12 {
        bench.machine.control[0x04 + source] = 0x100 + 0x10 * source as u32;
    }
    bench
}

/// The source that one step with these requests accepts.
fn accepted(bench: &mut Bench, requests: u32) -> Option<u32> {
    bench.requests = vec![requests];
    let depth = bench.machine.stack.len();
    bench.steps(1);
    bench.requests.clear();
    (bench.machine.stack.len() > depth).then(|| bench.machine.stack[depth].source)
}

#[test]
fn acceptance() {
    for source in 0..12 {
        let mut bench = ready(&[NOP, NOP]).at(4).c(0, 5).c(1, 3).r(4, 4).pr(4, 5);
        bench.requests = vec![1 << source];
        let mut expected = bench.machine.clone();
        bench.steps(1);
        expected.control[offset::INT_SERV] = 1 << source;
        expected.control[offset::RETI_ADDR] = 4;
        expected.control[offset::RETI_PSR] = 0x1E;
        expected.control[offset::RETI_CR0] = 5;
        expected.stack.push(StackEntry {
            source,
            address: 4,
            psr: 0x1E,
            c0: 5,
        });
        expected.position.pc = 0x100 + 0x10 * source;
        expected.set2[29] = 0x0E;
        assert_eq!(bench.machine, expected);
    }
}

/// IL and UM are the source's bits of the two mode registers (UM 1 is user mode); RSRD and
/// RSWR are 1 for super user mode, else 0.
#[test]
fn modes_of_service_routines() {
    for (il, um, psr) in [(0, 0, 0x06), (1, 0, 0x0E), (0, 1, 0x01), (1, 1, 0x09)] {
        for source in [0, 3, 4, 11] {
            // The other sources' bits are the opposite.
            let flags = |bit: u32| {
                if bit == 1 {
                    1 << source
                } else {
                    0xFFF & !(1 << source)
                }
            };
            let mut bench = ready(&[NOP])
                .control(offset::INT_MODE_IL, flags(il))
                .control(offset::INT_MODE_UM, flags(um));
            assert_eq!(accepted(&mut bench, 1 << source), Some(source));
            assert_eq!(bench.psr(), psr);
        }
    }
}

#[test]
fn disabled_interrupts() {
    let mut bench = ready(&[NOP, plain(53, 0), NOP]);
    bench.machine.set_psr(0x0E);
    assert_eq!(accepted(&mut bench, 0x20), None);
    assert_eq!(bench.machine.control[offset::INT_PEND], 0x20);
    assert_eq!(bench.pc(), 4);
    // ei itself runs; the next step accepts.
    assert_eq!(accepted(&mut bench, 0), None);
    assert_eq!(accepted(&mut bench, 0), Some(5));
    assert_eq!(bench.machine.stack[0].address, 8);
    assert_eq!(bench.machine.stack[0].psr, 0x1E);
}

#[test]
fn masks() {
    let mut bench = ready(&[NOP; 4]).control(offset::INT_MASK, 0x800);
    assert_eq!(accepted(&mut bench, 0x7FF), None);
    assert_eq!(bench.machine.control[offset::INT_PEND], 0x7FF);
    assert_eq!(accepted(&mut bench, 0x800), Some(11));
    assert_eq!(bench.machine.control[offset::INT_PEND], 0x7FF);
}

/// A step's requests count in that step's own acceptance, and come from the list in order;
/// steps past the list have none.
#[test]
fn request_list() {
    let mut bench = ready(&[NOP; 8]).control(offset::INT_MASK, 0x008);
    bench.requests = vec![0, 1, 8];
    bench.steps(2);
    assert_eq!(bench.machine.control[offset::INT_PEND], 1);
    bench.requests = vec![0, 2, 8];
    bench.steps(3);
    assert_eq!(bench.machine.control[offset::INT_PEND], 3);
    assert_eq!(bench.machine.stack[0].address, 16);
}

/// The smallest priority number comes first, of equal ones the lower source.
#[test]
fn priority_and_ties() {
    // All priorities 0: the lowest source.
    assert_eq!(accepted(&mut ready(&[NOP]), 0xFFF), Some(0));
    assert_eq!(accepted(&mut ready(&[NOP]), 0xFF0), Some(4));
    assert_eq!(accepted(&mut ready(&[NOP]), 0xC00), Some(10));
    // EXT 3 (source 7) has 1, the others 2 or more.
    let prioritized = || {
        ready(&[NOP])
            .control(offset::COP_INT_PRI, 0x2222)
            .control(offset::EXT_INT_PRI, 0x3333_1333)
    };
    assert_eq!(accepted(&mut prioritized(), 0xFFF), Some(7));
    assert_eq!(accepted(&mut prioritized(), 0xF7F), Some(0));
    assert_eq!(accepted(&mut prioritized(), 0xF7E), Some(1));
    assert_eq!(accepted(&mut prioritized(), 0xF70), Some(4));
    // Bits 15..12 are COP3's, bits 31..28 EXT 7's.
    let mut bench = ready(&[NOP])
        .control(offset::COP_INT_PRI, 0x0FFF)
        .control(offset::EXT_INT_PRI, 0xFFFF_FFFF);
    assert_eq!(accepted(&mut bench, 0xFFF), Some(3));
    let mut bench = ready(&[NOP])
        .control(offset::COP_INT_PRI, 0xFFFF)
        .control(offset::EXT_INT_PRI, 0x0FFF_FFFF);
    assert_eq!(accepted(&mut bench, 0xFFF), Some(11));
    // A masked source of smaller number does not hold the others back.
    let mut bench = prioritized().control(offset::INT_MASK, 0xF7F);
    assert_eq!(accepted(&mut bench, 0xFFF), Some(0));
}

/// A priority number has to be below those of all in service.
#[test]
fn nesting() {
    // Priorities: EXT 0 (source 4) has 5, EXT 1 has 4, EXT 2 has 5, COP0 has 6.
    let nested = || {
        ready(&[NOP; 4])
            .control(offset::EXT_INT_PRI, 0x0000_0545)
            .control(offset::COP_INT_PRI, 0x0006)
            .in_service(4, 0x40, 0x1E, 3)
    };
    assert_eq!(accepted(&mut nested(), 1 << 5), Some(5));
    assert_eq!(accepted(&mut nested(), 1 << 6), None);
    assert_eq!(accepted(&mut nested(), 1 << 4), None);
    assert_eq!(accepted(&mut nested(), 1 << 0), None);
    assert_eq!(accepted(&mut nested(), 0xFFF & !(1 << 7)), Some(1));
    let mut bench = nested();
    assert_eq!(accepted(&mut bench, 1 << 5), Some(5));
    assert_eq!(bench.machine.control[offset::INT_SERV], 0x030);
    assert_eq!(bench.machine.control[0x28..=0x2A], [0, 0x1E, 0]);
    assert_eq!(bench.machine.stack.len(), 2);
    // Below all in service, not only below the top: the top here has number 9.
    let mut bench = ready(&[NOP; 4])
        .control(offset::EXT_INT_PRI, 0x0000_0793)
        .in_service(4, 0, 0x1E, 0)
        .in_service(5, 0, 0x1E, 0);
    assert_eq!(accepted(&mut bench, 1 << 6), None);
}

/// A request that cannot nest waits, and is served after reti.
#[test]
fn service_after_return() {
    // The routine of every source is reti and its nops at 100h + 10h × source.
    let mut bench = ready(&[NOP; 128]);
    for source in 0..12 {
        let at = 0x100 + 0x10 * source;
        bench.program[at..at + 4].copy_from_slice(&plain(50, 0).to_be_bytes());
    }
    bench.requests = vec![0x005, 0x001];
    bench.steps(1);
    assert_eq!(bench.pc(), 0x100);
    assert_eq!(bench.machine.control[offset::INT_PEND], 0x004);
    bench.requests = vec![0x001];
    bench.steps(1);
    assert_eq!((bench.pc(), bench.psr()), (0, 0x1E));
    assert_eq!(bench.machine.control[offset::INT_PEND], 0x005);
    bench.requests.clear();
    bench.steps(1);
    assert_eq!(bench.machine.stack[0].source, 0);
    bench.steps(2);
    assert_eq!(bench.machine.stack[0].source, 2);
    bench.steps(2);
    assert_eq!(bench.pc(), 4);
    assert!(bench.machine.stack.is_empty());
}

/// All twelve sources nest, each with a smaller priority number.
#[test]
fn the_deepest_stack() {
    // Every routine begins with ei; source s has priority 11 − s.
    let mut bench = ready(&[NOP; 128])
        .control(offset::COP_INT_PRI, 0x89AB)
        .control(offset::EXT_INT_PRI, 0x0123_4567);
    for source in 0..12 {
        let at = 0x100 + 0x10 * source;
        bench.program[at..at + 4].copy_from_slice(&plain(53, 0).to_be_bytes());
    }
    bench.requests = (0..24)
        .map(|k| if k % 2 == 0 { 1 << (k / 2) } else { 0 })
        .collect();
    bench.steps(24);
    assert_eq!(bench.machine.stack.len(), 12);
    assert_eq!(bench.machine.control[offset::INT_SERV], 0xFFF);
    assert_eq!(bench.image().len(), 720);
    let sources: Vec<u32> = bench
        .machine
        .stack
        .iter()
        .map(|entry| entry.source)
        .collect();
    assert_eq!(sources, (0..12).collect::<Vec<u32>>());
    // Nothing more is accepted.
    assert_eq!(accepted(&mut bench, 0xFFF), None);
}

/// None is accepted while a branch slot waits.
#[test]
fn a_waiting_slot() {
    let mut bench = ready(&[jump(36, 8), lli(1, 1)]);
    bench.steps(1);
    assert_eq!(accepted(&mut bench, 1), None);
    assert_eq!(bench.pc(), 20);
    assert_eq!(bench.machine.set2[1], 1);
    assert_eq!(accepted(&mut bench, 0), Some(0));
    assert_eq!(bench.machine.stack[0].address, 20);
    // A branch that is not taken leaves none.
    let mut bench = ready(&[branch(0, 0, 8), lli(1, 1)]);
    bench.steps(1);
    assert_eq!(accepted(&mut bench, 1), Some(0));
    assert_eq!(bench.machine.stack[0].address, 4);
}

/// None is accepted while a product is held and the next word, with no 05h, 00h or stop 11 for
/// it, is mulhi.
#[test]
fn the_mulhi_rule() {
    // A product and mulhi go together.
    let mut bench = ready(&[rrr(9, 2, 1, 1), rrr(31, 3, 0, 0), NOP]).pr(1, 0xFFFF_FFFF);
    bench.steps(1);
    assert_eq!(accepted(&mut bench, 1), None);
    assert_eq!(bench.machine.set2[3], 0xFFFF_FFFE);
    assert_eq!(accepted(&mut bench, 0), Some(0));
    assert_eq!(bench.machine.stack[0].address, 8);

    // Whatever its condition.
    let mut bench = ready(&[rrr(9, 2, 1, 1), when(0, 1, rrr(31, 3, 0, 0)), NOP]);
    bench.steps(1);
    assert_eq!(accepted(&mut bench, 1), None);
    assert_eq!(accepted(&mut bench, 0), Some(0));

    // Before any other word the interrupt is accepted and the product dropped.
    let mut bench = ready(&[rrr(9, 2, 1, 1), NOP, NOP]);
    bench.steps(1);
    assert!(bench.machine.position.product.is_some());
    assert_eq!(accepted(&mut bench, 1), Some(0));
    assert_eq!(bench.machine.position.product, None);

    // mulhi without a product: the interrupt is accepted, there is no stop 14.
    let mut bench = ready(&[rrr(31, 3, 0, 0)]);
    assert_eq!(accepted(&mut bench, 1), Some(0));

    // In 16-bit words.
    let mut bench = ready(&[]);
    bench.program = [h_rr(9, 0, 1), h_rr(31, 0, 2)]
        .iter()
        .flat_map(|word| word.to_be_bytes())
        .collect();
    bench.machine.set_psr(0x16);
    bench.steps(1);
    assert_eq!(accepted(&mut bench, 1), None);
    assert_eq!(bench.pc(), 4);

    // mulhi with stop 11 for it: two of its bytes are absent.
    let mut bench = ready(&[rrr(9, 2, 1, 1), rrr(31, 3, 0, 0)]);
    bench.program.truncate(6);
    bench.steps(1);
    assert_eq!(accepted(&mut bench, 1), Some(0));
    assert_eq!(bench.machine.position.product, None);

    // mulhi with 00h for it.
    let mut bench = ready(&[rrr(9, 2, 1, 1), rrr(31, 3, 0, 0)]);
    bench.machine.set_psr(0x19);
    bench.protect_program(7, 7);
    bench.steps(1);
    assert_eq!(accepted(&mut bench, 1), Some(0));
    assert_eq!(bench.machine.stack[0].psr, 0x19);

    // mulhi with 05h for it.
    let mut bench = ready(&[rrr(31, 3, 0, 0), rrr(31, 3, 0, 0)]).at(2);
    bench.machine.position.product = Some(1);
    assert_eq!(accepted(&mut bench, 1), Some(0));
}

/// Acceptance comes before anything of the instruction is asked.
#[test]
fn acceptance_before_the_instruction() {
    // 16-bit exbfi, which is 02h.
    let mut illegal = ready(&[63 << 26]);
    illegal.machine.set_psr(0x16);
    // An absent word, a misaligned address, an illegal instruction.
    for bench in [ready(&[]), ready(&[NOP]).at(1), illegal] {
        let mut bench = bench;
        let pc = bench.pc();
        assert_eq!(accepted(&mut bench, 2), Some(1));
        assert_eq!(bench.machine.stack[0].address, pc);
    }
}

/// A vector that does not fit the word length gives 05h in the next step.
#[test]
fn misaligned_vectors() {
    let mut bench = ready(&[NOP]).control(0x04, 6);
    assert_eq!(accepted(&mut bench, 1), Some(0));
    assert_eq!(bench.pc(), 6);
    bench.raises(0x05);
    assert_eq!(bench.machine.stack.len(), 1);
}

/// A load of INT_PEND sees the step's own requests.
#[test]
fn loading_pending_flags() {
    let mut bench = Bench::new(&[rri(27, 2, 1, 0x14)]).pr(1, 0x0001_0000);
    bench.requests = vec![0x123];
    bench.steps(1);
    assert_eq!(bench.machine.set2[2], 0x123);
}

/// reti to a context with IE 1 lets the next pending interrupt through at once.
#[test]
fn back_to_back_interrupts() {
    let mut bench = ready(&[plain(50, 0), NOP, NOP, NOP]).in_service(0, 0x44, 0x1E, 2);
    bench.machine.set_psr(0x0E);
    assert_eq!(accepted(&mut bench, 1), None);
    assert_eq!((bench.pc(), bench.psr()), (0x44, 0x1E));
    assert_eq!(accepted(&mut bench, 0), Some(0));
    assert_eq!(bench.machine.stack[0].address, 0x44);
    assert_eq!(bench.machine.stack[0].c0, 2);
}
