//! Images (Manual 8 and 9): reset, round trip, and the refusals 1 to 8.

use super::bench::*;
use crate::image::{Layout, Sections};
use crate::machine::{Machine, StackEntry};
use crate::{reset, run, Answer};

/// The reset image, number by number (Manual 5.1 and 8).
pub fn reset_numbers() -> Vec<u32> {
    let mut numbers = vec![32];
    numbers.extend([0; 32]);
    numbers.push(32);
    numbers.extend([0; 29]);
    numbers.extend([0x0E, 0x09, 0]);
    numbers.push(8);
    numbers.extend([0; 8]);
    numbers.push(45);
    numbers.extend([0x0001_0000, 0x0001_0100, 0x0001_01FF, 0xFF]);
    numbers.extend([1; 12]);
    numbers.extend([0xFFF, 0xFFF, 0, 0, 0]); // 10h to 14h
    numbers.extend([0, 0, 0, 0, 0]); // 15h to 19h
    numbers.extend([0, 0xFFFF_FFFF, 0, 0xFFFF_FFFF, 3]); // 1Ah to 1Eh
    numbers.extend([0, 0, 0xFFF, 0]); // 1Fh to 22h
    numbers.extend([0; 5]); // 23h to 27h
    numbers.extend([1, 9, 0, 0, 1]); // 28h to 2Ch
    numbers.push(6);
    numbers.extend([0; 6]);
    numbers.push(0);
    numbers.extend([2, 0, 0]);
    numbers
}

pub fn bytes(numbers: &[u32]) -> Vec<u8> {
    numbers
        .iter()
        .flat_map(|number| number.to_be_bytes())
        .collect()
}

// Indices of numbers in an image.
pub const SET_2: usize = 34;
pub const CONDITIONS: usize = 67;
pub const CONTROL: usize = 76;
pub const POSITION: usize = 122;
pub const STACK: usize = 129;

/// A reset image with changed numbers.
fn changed(changes: &[(usize, u32)]) -> Vec<u8> {
    let mut numbers = reset_numbers();
    for &(index, number) in changes {
        numbers[index] = number;
    }
    bytes(&numbers)
}

/// A reset image with a interrupt stack of these entries and what must agree with it.
pub fn with_stack(entries: &[[u32; 4]]) -> Vec<u32> {
    let mut numbers = reset_numbers();
    numbers[STACK - 1] = entries.len() as u32;
    for &[source, address, psr, c0] in entries {
        numbers[CONTROL + 0x13] |= 1 << (source % 32);
        numbers[CONTROL + 0x28] = address;
        numbers[CONTROL + 0x29] = psr;
        numbers[CONTROL + 0x2A] = c0;
        // Before the last section.
        let end = numbers.len() - 3;
        numbers.splice(end..end, [source, address, psr, c0]);
    }
    numbers
}

/// Runs no step of an image and gives the refusal; a refused call must change nothing,
/// a good one must hand the same image back.
fn refusal(image: &[u8]) -> u32 {
    let mut buffer = [0x5A; 720];
    let mut cells = [1, 2, 3];
    let answer = run(&[0; 4], &mut cells, image, &[], 0, &mut buffer);
    assert_eq!((answer.steps, answer.ending), (0, 0));
    assert_eq!(cells, [1, 2, 3]);
    if answer.refusal == 0 {
        assert_eq!(buffer[..image.len()], *image);
        assert!(buffer[image.len()..].iter().all(|&byte| byte == 0x5A));
    } else {
        assert_eq!(buffer, [0x5A; 720]);
    }
    answer.refusal
}

#[test]
fn reset_image() {
    let image = bytes(&reset_numbers());
    assert_eq!(image.len(), 528);
    let mut buffer = [0x5A; 732];
    assert_eq!(reset(&mut buffer), 0);
    assert_eq!(buffer[..528], image[..]);
    assert_eq!(buffer[528..], [0x5A; 204]);
    assert_eq!(refusal(&image), 0);
    let mut buffer = [0x5A; 720];
    assert_eq!(reset(&mut buffer), 0);
    let mut buffer = [0x5A; 719];
    assert_eq!(reset(&mut buffer), 8);
    assert_eq!(buffer, [0x5A; 719]);
    assert_eq!(reset(&mut []), 8);
}

#[test]
fn round_trip() {
    let mut machine = Machine::reset();
    for n in 0..32 {
        machine.set1[n] = 0x1100_0000 + n as u32;
        if n != 29 {
            machine.set2[n] = 0x2200_0000 + n as u32;
        }
    }
    machine.conditions = [0, 1, 2, 3, 4, 5, 6, 7];
    machine.position.pc = 0x3333_3333;
    machine.position.slot = Some(0x4444_4444);
    machine.position.product = Some(0x5555_5555_6666_6666);
    for source in [5, 0, 11] {
        machine.push(StackEntry {
            source,
            address: 0x7700_0000 + source,
            psr: 0x19,
            c0: source % 8,
        });
    }
    machine.dividers = [255, 1];
    let sections = Sections::of_machine(&machine);
    let image = sections.to_bytes();
    assert_eq!(image.len(), 528 + 48);
    assert_eq!(
        Sections::read(&image, Layout::Present),
        Some(sections.clone())
    );
    assert_eq!(sections.to_machine(), machine);
    assert_eq!(refusal(&image), 0);
    let number =
        |index: usize| u32::from_be_bytes(image[4 * index..4 * index + 4].try_into().unwrap());
    assert_eq!(number(1 + 7), 0x1100_0007);
    assert_eq!(number(SET_2 + 7), 0x2200_0007);
    assert_eq!(number(CONDITIONS + 6), 6);
    assert_eq!(number(CONTROL + 0x13), 0x821);
    let position: Vec<u32> = (0..6).map(|n| number(POSITION + n)).collect();
    assert_eq!(
        position,
        [0x3333_3333, 1, 0x4444_4444, 1, 0x5555_5555, 0x6666_6666]
    );
    let end: Vec<u32> = (STACK - 1..STACK + 15).map(number).collect();
    assert_eq!(
        end,
        [
            3,
            5,
            0x7700_0005,
            0x19,
            5,
            0,
            0x7700_0000,
            0x19,
            0,
            11,
            0x7700_000B,
            0x19,
            3,
            2,
            255,
            1
        ]
    );
}

#[test]
fn refusal_1() {
    let image = bytes(&reset_numbers());
    let mut buffer = [0; 720];
    for (program, cells, expected) in [
        (65_536, 65_536, 0),
        (65_537, 0, 1),
        (0, 65_537, 1),
        (0, 0, 0),
    ] {
        let mut cells = vec![0; cells];
        let answer = run(&vec![0; program], &mut cells, &image, &[], 0, &mut buffer);
        assert_eq!(answer.refusal, expected);
    }
}

#[test]
fn refusal_2() {
    let image = bytes(&reset_numbers());
    // Too short, too long, empty.
    for length in 0..528 {
        assert_eq!(refusal(&image[..length]), 2);
    }
    for extra in 1..=20 {
        let mut longer = image.clone();
        longer.extend(vec![0; extra]);
        assert_eq!(refusal(&longer), 2);
    }
    // Wrong counts.
    for index in [0, SET_2 - 1, CONDITIONS - 1, CONTROL - 1, POSITION - 1] {
        let count = reset_numbers()[index];
        for wrong in [0, count - 1, count + 1, 0xFFFF_FFFF] {
            assert_eq!(refusal(&changed(&[(index, wrong)])), 2);
        }
    }
    // The stack's count and entries.
    for count in [1, 2, 12, 13, 0xFFFF_FFFF] {
        assert_eq!(refusal(&changed(&[(STACK - 1, count)])), 2);
    }
    let entries: Vec<[u32; 4]> = (0..13).map(|source| [source, 0, 0, 0]).collect();
    assert_eq!(refusal(&bytes(&with_stack(&entries[..12]))), 0);
    assert_eq!(refusal(&bytes(&with_stack(&entries))), 2);
    let mut numbers = with_stack(&entries[..2]);
    numbers.pop();
    assert_eq!(refusal(&bytes(&numbers)), 2);
    // The last section: its count, and as many dividers as it says.
    for count in [0, 1, 3, 0x0200_0000, 0xFFFF_FFFF] {
        assert_eq!(refusal(&changed(&[(STACK, count)])), 2);
    }
    for dividers in [0, 1, 3, 4] {
        let mut numbers = reset_numbers();
        numbers.truncate(STACK);
        numbers.push(dividers);
        numbers.extend(vec![0; dividers as usize]);
        assert_eq!(refusal(&bytes(&numbers)), 2);
    }
    // The earlier layout, at every depth.
    for depth in 0..=12 {
        let mut numbers = with_stack(&entries[..depth]);
        assert_eq!(refusal(&bytes(&numbers)), 0);
        numbers.truncate(numbers.len() - 3);
        assert_eq!(refusal(&bytes(&numbers)), 2);
    }
}

#[test]
fn refusal_3() {
    // PSR at most 31; the rest of the register sets is free.
    assert_eq!(refusal(&changed(&[(SET_2 + 29, 30)])), 0);
    for psr in [32, 0x80, 0x100, 0xFFFF_FFFF] {
        assert_eq!(refusal(&changed(&[(SET_2 + 29, psr)])), 3);
    }
    for n in (0..32).filter(|&n| n != 29) {
        let all_ones = [(1 + n, 0xFFFF_FFFF), (SET_2 + n, 0xFFFF_FFFF)];
        assert_eq!(refusal(&changed(&all_ones)), 0);
    }
    assert_eq!(refusal(&changed(&[(1 + 29, 0xFFFF_FFFF)])), 0);
    // Condition registers.
    for n in 0..8 {
        assert_eq!(refusal(&changed(&[(CONDITIONS + n, 7)])), 0);
        assert_eq!(refusal(&changed(&[(CONDITIONS + n, 8)])), 3);
    }
    // Control block: the greatest number each register can hold, and the one above;
    // INT_SERV and the RETI_ registers must agree with the stack (question 5).
    for offset in 0..45 {
        let (greatest, within) = match offset {
            0x10..=0x12 | 0x14 | 0x21 => (0xFFF, 0),
            0x13 => (0xFFF, 5),
            0x16 => (0xFFFF, 0),
            0x17 | 0x19 => (0xFF, 0),
            0x1E => (3, 0),
            0x22 => (0x0FFF_FFFF, 0),
            0x28 => (0xFFFF_FFFF, 5),
            0x29 => (0xFF, 5),
            0x2A => (7, 5),
            0x2B => (0, 0),
            0x2C => (1, 0),
            0x00 => (0xFFFF_FF00, 0),
            _ => (0xFFFF_FFFF, 0),
        };
        assert_eq!(refusal(&changed(&[(CONTROL + offset, greatest)])), within);
        if greatest != 0xFFFF_FFFF {
            assert_eq!(refusal(&changed(&[(CONTROL + offset, greatest + 1)])), 3);
            assert_eq!(refusal(&changed(&[(CONTROL + offset, 0xFFFF_FFFF)])), 3);
        }
    }
    assert_eq!(refusal(&changed(&[(CONTROL, 0x0001_0080)])), 3);
    assert_eq!(refusal(&changed(&[(CONTROL + 0x2C, 0)])), 3);
    // Flags 0 or 1, a 0 flag's numbers 0.
    for (position, expected) in [
        ([0xFFFF_FFFF, 0, 0, 0, 0, 0], 0),
        ([0, 1, 0xFFFF_FFFF, 0, 0, 0], 0),
        ([0, 1, 0, 1, 0, 0], 0),
        ([0, 0, 0, 1, 0xFFFF_FFFF, 0xFFFF_FFFF], 0),
        ([0, 2, 0, 0, 0, 0], 3),
        ([0, 0, 1, 0, 0, 0], 3),
        ([0, 0, 0, 2, 0, 0], 3),
        ([0, 0, 0, 0, 1, 0], 3),
        ([0, 0, 0, 0, 0, 1], 3),
    ] {
        let changes: Vec<(usize, u32)> = position
            .iter()
            .enumerate()
            .map(|(n, &number)| (POSITION + n, number))
            .collect();
        assert_eq!(refusal(&changed(&changes)), expected);
    }
    // Stacked PSR and C0.
    for (entry, expected) in [
        ([0, 0xFFFF_FFFF, 30, 7], 0),
        ([0, 0, 32, 0], 3),
        ([0, 0, 0, 8], 3),
        ([12, 0, 32, 0], 3),
    ] {
        let mut numbers = with_stack(&[entry, [1, 4, 8, 1]]);
        numbers[CONTROL + 0x13] &= 0xFFF;
        assert_eq!(refusal(&bytes(&numbers)), expected);
    }
    // A divider is at most 255, whatever EN and DIV are.
    for timer in 0..2 {
        for configuration in [0, 0x8000_8000, 0x80FF_80FF] {
            for (divider, expected) in [(0, 0), (1, 0), (255, 0), (256, 3), (0xFFFF_FFFF, 3)] {
                let mut numbers = with_stack(&[[3, 0, 8, 0]]);
                numbers[CONTROL + 0x27] = configuration;
                let place = numbers.len() - 2 + timer;
                numbers[place] = divider;
                assert_eq!(refusal(&bytes(&numbers)), expected);
            }
        }
    }
}

#[test]
fn refusal_4() {
    for psr in 0..32 {
        let user_with_set_2 = psr & 1 == 1 && psr & 6 != 0;
        let expected = if user_with_set_2 { 4 } else { 0 };
        assert_eq!(refusal(&changed(&[(SET_2 + 29, psr)])), expected);
        let numbers = with_stack(&[[3, 0, psr, 0], [1, 0, 8, 0]]);
        assert_eq!(refusal(&bytes(&numbers)), expected);
    }
}

#[test]
fn refusal_5() {
    let entries = [[3, 0x10, 0x1E, 1], [11, 0x20, 0x19, 2]];
    let numbers = with_stack(&entries);
    assert_eq!(refusal(&bytes(&numbers)), 0);
    // INT_SERV with another set, RETI_ with another top.
    for (offset, number) in [
        (0x13, 0x008),
        (0x13, 0x80A),
        (0x28, 0x10),
        (0x29, 0x1E),
        (0x2A, 1),
    ] {
        let mut numbers = numbers.clone();
        numbers[CONTROL + offset] = number;
        assert_eq!(refusal(&bytes(&numbers)), 5);
    }
    // A source twice.
    assert_eq!(
        refusal(&bytes(&with_stack(&[[3, 0, 8, 0], [3, 0, 8, 0]]))),
        5
    );
    // A source above 11, its bit not in INT_SERV, or in it by wrapping round.
    for source in [12, 32, 35, 0xFFFF_FFFF] {
        let mut numbers = with_stack(&[[source, 0, 8, 0]]);
        numbers[CONTROL + 0x13] &= 0xFFF;
        assert_eq!(refusal(&bytes(&numbers)), 5);
    }
    // An empty stack: INT_SERV 0 and 1, 9, 0.
    for (offset, number) in [(0x13, 1), (0x28, 0), (0x29, 8), (0x2A, 1)] {
        assert_eq!(refusal(&changed(&[(CONTROL + offset, number)])), 5);
    }
}

/// The answer for a good image with these requests, limit and buffer length.
fn answer(requests: &[u32], limit: u32, length: usize) -> Answer {
    let image = bytes(&reset_numbers());
    let mut buffer = vec![0x5A; length];
    let mut cells = [1, 2, 3];
    let answer = run(&[0; 8], &mut cells, &image, requests, limit, &mut buffer);
    if answer.refusal != 0 {
        assert_eq!((answer.steps, answer.ending), (0, 0));
        assert_eq!(cells, [1, 2, 3]);
        assert!(buffer.iter().all(|&byte| byte == 0x5A));
    }
    answer
}

#[test]
fn refusals_6_7_8() {
    assert_eq!(answer(&[0xFFF, 0], 1, 720).refusal, 0);
    assert_eq!(answer(&[0x1000], 1, 720).refusal, 6);
    // Also past the limit.
    assert_eq!(answer(&[0, 0, 0xFFFF_FFFF], 1, 720).refusal, 6);
    assert_eq!(answer(&[0x1000], 0, 720).refusal, 6);
    assert_eq!(answer(&[], 1_000_000, 720).refusal, 0);
    assert_eq!(answer(&[], 1_000_001, 720).refusal, 7);
    assert_eq!(answer(&[], 0xFFFF_FFFF, 720).refusal, 7);
    assert_eq!(answer(&[], 1, 719).refusal, 8);
    assert_eq!(answer(&[], 0, 708).refusal, 8);
    assert_eq!(answer(&[], 0, 0).refusal, 8);
    assert_eq!(answer(&[], 1, 721).refusal, 0);
}

/// Questions are asked in order: with several answers no, the first gives the number.
#[test]
fn order_of_refusals() {
    // Each further fault belongs to an earlier question.
    let mut numbers = with_stack(&[[3, 0, 8, 0]]);
    let ask = |numbers: &[u32], program: usize, requests: &[u32], limit, length| {
        let mut buffer = vec![0; length];
        run(
            &vec![0; program],
            &mut [],
            &bytes(numbers),
            requests,
            limit,
            &mut buffer,
        )
        .refusal
    };
    assert_eq!(ask(&numbers, 0, &[], 1, 719), 8);
    assert_eq!(ask(&numbers, 0, &[], 1_000_001, 719), 7);
    assert_eq!(ask(&numbers, 0, &[0x1000], 1_000_001, 719), 6);
    numbers[CONTROL + 0x13] = 0;
    assert_eq!(ask(&numbers, 0, &[0x1000], 1_000_001, 719), 5);
    numbers[STACK + 2] = 7;
    assert_eq!(ask(&numbers, 0, &[0x1000], 1_000_001, 719), 4);
    numbers[CONDITIONS] = 8;
    assert_eq!(ask(&numbers, 0, &[0x1000], 1_000_001, 719), 3);
    numbers.push(0);
    assert_eq!(ask(&numbers, 0, &[0x1000], 1_000_001, 719), 2);
    assert_eq!(ask(&numbers, 65_537, &[0x1000], 1_000_001, 719), 1);
}

/// A buffer longer than 720 bytes keeps its further bytes, a shorter image's too.
#[test]
fn further_bytes() {
    let bench = Bench::new(&[NOP]);
    let mut buffer = vec![0xC3; 1000];
    let answer = run(&bench.program, &mut [], &bench.image(), &[], 5, &mut buffer);
    assert_eq!((answer.steps, answer.ending), (1, 11));
    assert!(buffer[528..].iter().all(|&byte| byte == 0xC3));
}
