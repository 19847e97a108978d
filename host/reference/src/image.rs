//! The machine image (Manual 8): 32-bit numbers, high byte first, in seven sections, each
//! after its count. The earlier layout lacks the last section.

use crate::machine::{
    control_can_hold, offset, Machine, Position, StackEntry, CONTROL_REGISTERS, PSR, RSRD, RSWR,
    SOURCES, UM,
};
use crate::timers::{DIVIDER_LIMIT, TIMERS};

/// The length of an image with a full stack: 528 + 16 × 12 bytes.
pub const LONGEST_IMAGE: usize = 720;

/// The sections that question 2 asks for.
#[derive(Clone, Copy, Debug, PartialEq, Eq)]
pub enum Layout {
    /// Of images saved by versions before 2.0.0: no dividers.
    Earlier,
    /// With a last section, the timers' dividers.
    Present,
}

/// The numbers of an image, section by section, before anything is asked of them.
#[derive(Clone, Debug, PartialEq, Eq)]
pub struct Sections {
    pub set1: [u32; 32],
    pub set2: [u32; 32],
    pub conditions: [u32; 8],
    pub control: [u32; CONTROL_REGISTERS],
    /// PC, slot flag, target, product flag, product high, product low.
    pub position: [u32; 6],
    /// Entries of source, address, PSR and C0, top last.
    pub stack: Vec<[u32; 4]>,
    /// The timers' dividers; 0 in the earlier layout, which has none.
    pub dividers: [u32; TIMERS],
}

impl Sections {
    /// Question 2: the sections of an image that consists of exactly these sections
    /// and counts, else nothing.
    pub fn read(image: &[u8], layout: Layout) -> Option<Sections> {
        let chunks = image.chunks_exact(4);
        if !chunks.remainder().is_empty() {
            return None;
        }
        let mut numbers = chunks.map(|b| u32::from_be_bytes([b[0], b[1], b[2], b[3]]));

        let set1 = read_section(&mut numbers)?;
        let set2 = read_section(&mut numbers)?;
        let conditions = read_section(&mut numbers)?;
        let control = read_section(&mut numbers)?;
        let position = read_section(&mut numbers)?;
        let entries = numbers.next()?;
        if entries as usize > SOURCES {
            return None;
        }
        let mut stack = Vec::new();
        for _ in 0..entries {
            stack.push(read_numbers(&mut numbers)?);
        }
        let dividers = match layout {
            Layout::Earlier => [0; TIMERS],
            Layout::Present => read_section(&mut numbers)?,
        };
        if numbers.next().is_some() {
            return None;
        }
        Some(Sections {
            set1,
            set2,
            conditions,
            control,
            position,
            stack,
            dividers,
        })
    }

    /// Question 3: whether each number is one that its register can hold, PSR at most 31, each
    /// flag 0 or 1, the numbers of a 0 flag 0, and each divider at most 255.
    pub fn registers_can_hold(&self) -> bool {
        let [_, slot_flag, target, product_flag, high, low] = self.position;
        let slot = slot_flag == 1 || (slot_flag == 0 && target == 0);
        let product = product_flag == 1 || (product_flag == 0 && high == 0 && low == 0);
        self.set2[PSR] <= 31
            && self.conditions.iter().all(|&register| register <= 7)
            && (0..CONTROL_REGISTERS).all(|n| control_can_hold(n, self.control[n]))
            && slot
            && product
            && self
                .stack
                .iter()
                .all(|&[_, _, psr, c0]| psr <= 31 && c0 <= 7)
            && self
                .dividers
                .iter()
                .all(|&divider| divider <= DIVIDER_LIMIT)
    }

    /// Question 4: whether every PSR with UM 1, current or on the stack, has RSRD and RSWR 0.
    pub fn user_mode_has_set_1(&self) -> bool {
        let good = |psr: u32| psr & UM == 0 || psr & (RSRD | RSWR) == 0;
        good(self.set2[PSR]) && self.stack.iter().all(|&[_, _, psr, _]| good(psr))
    }

    /// Question 5: whether the stack's sources are below 12, all different and those of
    /// INT_SERV, and the RETI_ registers show the top entry, or 1, 9, 0 when there is none.
    pub fn stack_agrees(&self) -> bool {
        let mut in_service = 0;
        for &[source, ..] in &self.stack {
            if source as usize >= SOURCES || in_service & (1 << source) != 0 {
                return false;
            }
            in_service |= 1 << source;
        }
        let (address, psr, c0) = match self.stack.last() {
            Some(&[_, address, psr, c0]) => (address, psr, c0),
            None => (1, 9, 0),
        };
        self.control[offset::INT_SERV] == in_service
            && self.control[offset::RETI_ADDR] == address
            && self.control[offset::RETI_PSR] == psr
            && self.control[offset::RETI_CR0] == c0
    }

    /// The machine that the sections describe, once questions 3 to 5 are answered
    /// with yes.
    pub fn to_machine(&self) -> Machine {
        let [pc, slot_flag, target, product_flag, high, low] = self.position;
        Machine {
            set1: self.set1,
            set2: self.set2,
            conditions: self.conditions,
            control: self.control,
            position: Position {
                pc,
                slot: (slot_flag == 1).then_some(target),
                product: (product_flag == 1).then_some(u64::from(high) << 32 | u64::from(low)),
            },
            stack: self
                .stack
                .iter()
                .map(|&[source, address, psr, c0]| StackEntry {
                    source,
                    address,
                    psr,
                    c0,
                })
                .collect(),
            dividers: self.dividers,
        }
    }

    /// The sections that describe a machine.
    pub fn of_machine(machine: &Machine) -> Sections {
        let position = &machine.position;
        let (slot_flag, target) = match position.slot {
            Some(target) => (1, target),
            None => (0, 0),
        };
        let (product_flag, product) = match position.product {
            Some(product) => (1, product),
            None => (0, 0),
        };
        Sections {
            set1: machine.set1,
            set2: machine.set2,
            conditions: machine.conditions,
            control: machine.control,
            position: [
                position.pc,
                slot_flag,
                target,
                product_flag,
                (product >> 32) as u32,
                product as u32,
            ],
            stack: machine
                .stack
                .iter()
                .map(|entry| [entry.source, entry.address, entry.psr, entry.c0])
                .collect(),
            dividers: machine.dividers,
        }
    }

    /// The bytes of the image in the present layout, 528 + 16 per stack entry.
    pub fn to_bytes(&self) -> Vec<u8> {
        let mut bytes = Vec::new();
        write_section(&mut bytes, &self.set1);
        write_section(&mut bytes, &self.set2);
        write_section(&mut bytes, &self.conditions);
        write_section(&mut bytes, &self.control);
        write_section(&mut bytes, &self.position);
        write_number(&mut bytes, self.stack.len() as u32);
        for entry in &self.stack {
            for &number in entry {
                write_number(&mut bytes, number);
            }
        }
        write_section(&mut bytes, &self.dividers);
        bytes
    }
}

/// Writes an image to the front of a buffer, whose further bytes keep their values.
pub fn write_image(sections: &Sections, buffer: &mut [u8]) {
    let bytes = sections.to_bytes();
    buffer[..bytes.len()].copy_from_slice(&bytes);
}

/// A section of N numbers after the count N.
fn read_section<const N: usize>(numbers: &mut impl Iterator<Item = u32>) -> Option<[u32; N]> {
    if numbers.next()? as usize != N {
        return None;
    }
    read_numbers(numbers)
}

/// The next N numbers.
fn read_numbers<const N: usize>(numbers: &mut impl Iterator<Item = u32>) -> Option<[u32; N]> {
    let mut section = [0; N];
    for number in &mut section {
        *number = numbers.next()?;
    }
    Some(section)
}

fn write_section(bytes: &mut Vec<u8>, section: &[u32]) {
    write_number(bytes, section.len() as u32);
    for &number in section {
        write_number(bytes, number);
    }
}

fn write_number(bytes: &mut Vec<u8>, number: u32) {
    bytes.extend_from_slice(&number.to_be_bytes());
}
