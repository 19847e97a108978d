//! Control block: widths, read-only registers, stores from the next step.

use super::bench::*;
use crate::machine::offset;

/// Stores a value at an offset of the control block by st.
fn store(offset: u32, value: u32) -> Bench {
    let mut bench = Bench::new(&[rri(28, 2, 1, 0)])
        .pr(1, 0x0001_0000 + offset)
        .pr(2, value);
    bench.steps(1);
    assert_eq!(bench.pc(), 4);
    bench
}

/// A short register keeps its low bits, CCB_BASE none of its low byte, and stores to read-only
/// registers are ignored (Manual 5.2). The stack is empty, and so stores to the RETI_
/// registers are ignored as well.
#[test]
fn stores_of_all_ones() {
    for offset in 0..256 {
        let before = Bench::new(&[]).machine.control;
        let bench = store(offset, 0xFFFF_FFFF);
        let mut expected = before;
        let stored = match offset {
            0x00 => Some(0xFFFF_FF00),
            0x01..=0x0F => Some(0xFFFF_FFFF),
            0x10..=0x12 => Some(0xFFF),
            0x13 | 0x14 => None,
            0x15 => Some(0xFFFF_FFFF),
            0x16 => Some(0xFFFF),
            0x17..=0x19 => None,
            0x1A..=0x1D => Some(0xFFFF_FFFF),
            0x1E => Some(3),
            0x1F | 0x20 => Some(0xFFFF_FFFF),
            0x21 => Some(0xFFF),
            0x22 => Some(0x0FFF_FFFF),
            0x23..=0x27 => Some(0xFFFF_FFFF),
            _ => None,
        };
        if let Some(value) = stored {
            expected[offset as usize] = value;
        }
        assert_eq!(bench.machine.control, expected, "offset {offset:02X}h");
        assert!(bench.cells.iter().all(|&cell| cell == 0));
    }
}

#[test]
fn stores_of_a_pattern() {
    assert_eq!(store(0x00, 0x1234_5678).machine.control[0], 0x1234_5600);
    assert_eq!(store(0x10, 0x1234_5678).machine.control[0x10], 0x678);
    assert_eq!(store(0x16, 0x1234_5678).machine.control[0x16], 0x5678);
    assert_eq!(store(0x1E, 0x1234_567A).machine.control[0x1E], 2);
    assert_eq!(store(0x22, 0xF234_5678).machine.control[0x22], 0x0234_5678);
    assert_eq!(store(0x27, 0xF234_5678).machine.control[0x27], 0xF234_5678);
}

/// Loads: the registers after reset (Manual 5.1), and 0 beyond 2Ch.
#[test]
fn loads_after_reset() {
    let mut expected = vec![0; 256];
    expected[0x00] = 0x0001_0000;
    expected[0x01] = 0x0001_0100;
    expected[0x02] = 0x0001_01FF;
    expected[0x03] = 0xFF;
    expected[0x04..0x10].fill(1);
    expected[0x10] = 0xFFF;
    expected[0x11] = 0xFFF;
    expected[0x1B] = 0xFFFF_FFFF;
    expected[0x1D] = 0xFFFF_FFFF;
    expected[0x1E] = 3;
    expected[0x21] = 0xFFF;
    expected[0x28] = 1;
    expected[0x29] = 9;
    expected[0x2C] = 1;
    for offset in 0..256 {
        let mut bench = Bench::new(&[rri(27, 2, 1, 0)])
            .pr(1, 0x0001_0000 + offset)
            .pr(2, 0xAAAA_AAAA);
        bench.steps(1);
        assert_eq!(
            bench.machine.set2[2], expected[offset as usize],
            "offset {offset:02X}h"
        );
    }
}

/// RETI_ registers show the stack's top, and stores to them replace it (Manual 5.3; more in
/// `stack_top`).
#[test]
fn the_stack_top_shows() {
    let mut bench = Bench::new(&[
        rri(27, 2, 1, 0x28),
        rri(27, 3, 1, 0x29),
        rri(27, 4, 1, 0x2A),
        rri(28, 9, 1, 0x28),
        rri(28, 9, 1, 0x29),
        rri(28, 9, 1, 0x2A),
        rri(27, 5, 1, 0x28),
        rri(27, 6, 1, 0x29),
        rri(27, 7, 1, 0x2A),
        plain(50, 0),
        NOP,
        NOP,
        NOP,
    ])
    .pr(1, 0x0001_0000)
    .pr(9, 0xFFFF_FFFC)
    .in_service(3, 0x1000, 0x09, 2)
    .in_service(9, 0x2000, 0x1E, 7);
    bench.steps(10);
    assert_eq!(bench.machine.set2[2..5], [0x2000, 0x1E, 7]);
    assert_eq!(bench.machine.set2[5..8], [0xFFFF_FFFC, 0x1C, 4]);
    assert_eq!((bench.pc(), bench.psr()), (0xFFFF_FFFC, 0x1C));
    assert_eq!(bench.machine.conditions[0], 4);
    assert_eq!(bench.machine.control[0x28..=0x2A], [0x1000, 0x09, 2]);
}

/// Stores act from the next step: bounds, base, vectors, entry addresses.
#[test]
fn stores_act_from_the_next_step() {
    // User code that closes its own program area: the store runs, the next fetch does not.
    let mut bench = Bench::new(&[rri(28, 2, 1, 0x1D), NOP])
        .user()
        .r(1, 0x0001_0000)
        .r(2, 0xFFFF_FFFF);
    bench.steps(1);
    bench.raises(0x00);
    // The moved control block leaves its old addresses.
    let mut bench = Bench::new(&[rri(28, 2, 1, 0), rri(27, 3, 1, 0)])
        .pr(1, 0x0001_0000)
        .pr(2, 0xFFFF_FFFF);
    bench.steps(1);
    bench.stops(12);
    // The block at the highest place.
    let mut bench = Bench::new(&[rri(27, 3, 1, 0), rri(27, 4, 1, -255)])
        .pr(1, 0xFFFF_FFFF)
        .control(offset::CCB_BASE, 0xFFFF_FF00);
    bench.steps(2);
    assert_eq!(bench.machine.set2[3..5], [0, 0xFFFF_FF00]);
    // An entry address is used by the exception after the store.
    let mut bench = Bench::new(&[rri(28, 2, 1, 0x20), plain(55, 0)])
        .pr(1, 0x0001_0000)
        .pr(2, 0x80);
    bench.steps(2);
    assert_eq!(bench.pc(), 0x80);
    // A mask lets a pending interrupt through in the step after the store.
    let mut bench = Bench::new(&[rri(28, 2, 1, 0x12), NOP])
        .pr(1, 0x0001_0000)
        .pr(2, 0x001)
        .control(0x04, 0x60);
    bench.machine.set_psr(0x1E);
    bench.requests = vec![1];
    bench.steps(1);
    assert_eq!(bench.pc(), 4);
    bench.requests.clear();
    bench.steps(1);
    assert_eq!(bench.pc(), 0x60);
    assert_eq!(bench.machine.stack[0].address, 4);
}

/// PCB, bus, coprocessor and MEM_CONF registers hold what is stored and do nothing, and so do
/// timers that are not enabled.
#[test]
fn registers_without_effect() {
    let mut bench = Bench::new(&[NOP; 64])
        .control(0x23, 5)
        .control(0x24, 5)
        .control(0x27, 0x7000_7000)
        .control(0x01, 0)
        .control(0x02, 0xFFFF_FFFF)
        .control(0x03, 0);
    let control = bench.machine.control;
    bench.steps(50);
    assert_eq!(bench.machine.control, control);
}
