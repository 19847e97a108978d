//! Images of the earlier layout carried over (Manual 9): questions 2 to 5 by that layout, then
//! 8; dividers 0, all else the same.

use super::images::{bytes, reset_numbers, with_stack, CONDITIONS, CONTROL, SET_2, STACK};
use crate::image::{Layout, Sections};
use crate::{carry_over, run};

/// The numbers of an image without its last section.
fn earlier(mut numbers: Vec<u32>) -> Vec<u32> {
    numbers.truncate(numbers.len() - 3);
    numbers
}

/// Carries an image over to a buffer of 720 bytes and gives the answer; a refusal must change
/// nothing.
fn answer(image: &[u8]) -> u32 {
    let mut buffer = [0x5A; 720];
    let answer = carry_over(image, &mut buffer);
    assert!(answer == 0 || buffer == [0x5A; 720]);
    answer
}

/// An entry for each of the first sources.
fn entries(depth: u32) -> Vec<[u32; 4]> {
    (0..depth)
        .map(|source| [source, 0x100 + source, 0x19, source % 8])
        .collect()
}

/// Dividers are 0 and all else is the same, at every depth; further bytes keep their values.
#[test]
fn carried_at_every_depth() {
    for depth in 0..=12 {
        let mut numbers = with_stack(&entries(depth));
        for (place, number) in numbers[1..33].iter_mut().enumerate() {
            *number = 0xABCD_0000 + place as u32;
        }
        numbers[CONTROL + 0x14] = 0x5A5;
        // Timers that run.
        numbers[CONTROL + 0x23..CONTROL + 0x28].copy_from_slice(&[
            7,
            9,
            0xFFFF_FFFF,
            0,
            0xFFFF_9FFF,
        ]);
        let image = bytes(&earlier(numbers.clone()));
        assert_eq!(image.len(), 516 + 16 * depth as usize);
        for length in [720, 721, 1000] {
            let mut buffer = vec![0xC3; length];
            assert_eq!(carry_over(&image, &mut buffer), 0);
            let carried = bytes(&numbers);
            assert_eq!(carried.len(), 528 + 16 * depth as usize);
            assert_eq!(buffer[..carried.len()], carried[..]);
            assert!(buffer[carried.len()..].iter().all(|&byte| byte == 0xC3));
            // The run call takes it, and did not take the earlier one.
            let sections = Sections::read(&carried, Layout::Present).expect("question 2");
            assert_eq!(sections.dividers, [0, 0]);
            let mut left = vec![0; 720];
            let mut call = |image: &[u8]| run(&[], &mut [], image, &[], 0, &mut left).refusal;
            assert_eq!(call(&carried), 0);
            assert_eq!(call(&image), 2);
        }
    }
}

/// Question 2 by the earlier layout: the present one is refused, and so is all else.
#[test]
fn refusal_2() {
    for depth in 0..=12 {
        let numbers = with_stack(&entries(depth));
        assert_eq!(answer(&bytes(&numbers)), 2);
        let image = bytes(&earlier(numbers));
        assert_eq!(answer(&image), 0);
        for extra in 1..=20 {
            let mut longer = image.clone();
            longer.extend(vec![0; extra]);
            assert_eq!(answer(&longer), 2);
        }
    }
    let numbers = earlier(reset_numbers());
    let image = bytes(&numbers);
    for length in 0..516 {
        assert_eq!(answer(&image[..length]), 2);
    }
    for index in [0, SET_2 - 1, CONDITIONS - 1, CONTROL - 1, STACK - 1] {
        for wrong in [1, 13, 31, 33, 0xFFFF_FFFF] {
            let mut numbers = numbers.clone();
            numbers[index] = wrong;
            assert_eq!(answer(&bytes(&numbers)), 2);
        }
    }
    let mut thirteen = entries(12);
    thirteen.push([12, 0, 8, 0]);
    assert_eq!(answer(&bytes(&earlier(with_stack(&thirteen)))), 2);
}

/// Questions 3, 4 and 5.
#[test]
fn refusals_3_to_5() {
    let numbers = earlier(with_stack(&entries(2)));
    for (index, number, expected) in [
        (SET_2 + 29, 32, 3),
        (CONDITIONS + 7, 8, 3),
        (CONTROL, 0x0001_0001, 3),
        (CONTROL + 0x2B, 1, 3),
        (CONTROL + 0x2C, 0, 3),
        (STACK + 2, 32, 3),
        (SET_2 + 29, 0x1B, 4),
        (STACK + 2, 0x1F, 4),
        (CONTROL + 0x13, 0, 5),
        (CONTROL + 0x28, 0, 5),
        (STACK, 1, 5),
        (STACK, 12, 5),
    ] {
        let mut numbers = numbers.clone();
        numbers[index] = number;
        assert_eq!(answer(&bytes(&numbers)), expected);
    }
}

/// Question 8: 720 bytes are wanted, also of an image that would need less.
#[test]
fn refusal_8() {
    for depth in [0, 11, 12] {
        let image = bytes(&earlier(with_stack(&entries(depth))));
        for length in [0, 1, 516, 528, 707, 708, 719] {
            let mut buffer = vec![0x5A; length];
            assert_eq!(carry_over(&image, &mut buffer), 8);
            assert!(buffer.iter().all(|&byte| byte == 0x5A));
        }
    }
}

/// Questions 2 to 5 come in order, then 8: the first no gives the number.
#[test]
fn order_of_refusals() {
    // Each further fault belongs to an earlier question.
    let mut numbers = earlier(with_stack(&[[3, 0, 8, 0]]));
    let ask = |numbers: &[u32]| carry_over(&bytes(numbers), &mut [0; 719]);
    assert_eq!(ask(&numbers), 8);
    numbers[CONTROL + 0x13] = 0;
    assert_eq!(ask(&numbers), 5);
    numbers[STACK + 2] = 7;
    assert_eq!(ask(&numbers), 4);
    numbers[CONDITIONS] = 8;
    assert_eq!(ask(&numbers), 3);
    numbers.push(0);
    assert_eq!(ask(&numbers), 2);
}
