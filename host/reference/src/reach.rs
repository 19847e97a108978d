//! Which code can be reached: the words of a program that a start address leads to
//! (Manual 13).

use crate::decode::{decode, Instruction, Operation, Operation::*, WordLength};
use crate::PROGRAM_LIMIT;

/// Writes to `map`, over the program's length, 1 at the first byte of each word that is
/// reached from `start`, itself included, and 0 elsewhere, and answers 0; later bytes keep
/// their values. `wide` is true for 32-bit words, false for 16-bit words.
///
/// Or changes nothing and answers 1 when the program has more than 65,536 bytes, then 28 when
/// the map is shorter than the program, then 27 when the start is misaligned or its word
/// absent.
pub fn reach(program: &[u8], wide: bool, start: u32, map: &mut [u8]) -> u32 {
    let length = WordLength::from_wide(u32::from(wide));
    if program.len() > PROGRAM_LIMIT {
        return 1;
    }
    if map.len() < program.len() {
        return 28;
    }
    let code = Code::new(program, length);
    let Some(start) = code.index(i64::from(start)) else {
        return 27;
    };
    let reached = code.reached(start);
    map[..program.len()].fill(0);
    for index in 0..code.instructions.len() {
        if reached.in_full[index] || reached.as_slot[index] {
            map[index * length.bytes() as usize] = 1;
        }
    }
    0
}

/// A program as words of one width, numbered from 0 by an index.
struct Code {
    instructions: Vec<Instruction>,
    length: WordLength,
}

/// The words that a word leads to, by their indices.
struct Successors {
    in_full: Vec<usize>,
    as_slot: Vec<usize>,
}

/// Whether each word is reached, in each of the two ways; it may be in both.
#[derive(Clone, PartialEq, Eq)]
struct Reached {
    /// As a word that leads on.
    in_full: Vec<bool>,
    /// As a branch slot, or as one of the nops that have to follow an operation.
    as_slot: Vec<bool>,
}

impl Code {
    /// The words of a program; bytes left over at its end are no word.
    fn new(program: &[u8], length: WordLength) -> Code {
        let words = program.chunks_exact(length.bytes() as usize);
        let instructions = words.map(|bytes| {
            // High byte first.
            let word = bytes
                .iter()
                .fold(0, |word, &byte| word << 8 | u32::from(byte));
            decode(word, length)
        });
        Code {
            instructions: instructions.collect(),
            length,
        }
    }

    /// The index of the word at an address; only aligned words wholly in the program have one.
    fn index(&self, address: i64) -> Option<usize> {
        let word_bytes = i64::from(self.length.bytes());
        let index = usize::try_from(address / word_bytes).ok()?;
        let aligned = address % word_bytes == 0;
        (aligned && index < self.instructions.len()).then_some(index)
    }

    /// The words that a word leads to when it is reached in full.
    fn successors(&self, index: usize) -> Successors {
        let instruction = &self.instructions[index];
        let word_bytes = i64::from(self.length.bytes());
        let address = index as i64 * word_bytes;
        let words_later = |count: u32| address + i64::from(count) * word_bytes;

        let next = falls_through(instruction).then(|| words_later(1));
        let target = target(instruction, words_later(1));
        let resumption = resumption(instruction, self.length).map(words_later);
        let in_full = [next, target, resumption].into_iter().flatten();
        let as_slot = (1..=slots(instruction.operation)).map(words_later);
        Successors {
            in_full: in_full.filter_map(|address| self.index(address)).collect(),
            as_slot: as_slot.filter_map(|address| self.index(address)).collect(),
        }
    }

    /// What the word with the index `start` leads to: all words are gone through, upwards and
    /// then downwards, again and again until nothing changes.
    fn reached(&self, start: usize) -> Reached {
        let count = self.instructions.len();
        let successors: Vec<Successors> = (0..count).map(|index| self.successors(index)).collect();
        let mut reached = Reached {
            in_full: vec![false; count],
            as_slot: vec![false; count],
        };
        reached.in_full[start] = true;
        loop {
            let before = reached.clone();
            for index in (0..count).chain((0..count).rev()) {
                // A word that is reached only as a slot leads nowhere.
                if reached.in_full[index] {
                    for &successor in &successors[index].in_full {
                        reached.in_full[successor] = true;
                    }
                    for &successor in &successors[index].as_slot {
                        reached.as_slot[successor] = true;
                    }
                }
            }
            if reached == before {
                return reached;
            }
        }
    }
}

/// Whether a reached word leads to the next one. jmp, jal, retu, reti, swm and trap do not;
/// jmpr, jalr and scall do with a condition.
fn falls_through(instruction: &Instruction) -> bool {
    match instruction.operation {
        Jmp | Jal => false,
        Jmpr | Jalr | Scall => instruction.condition.is_some(),
        Retu | Reti | Swm | Trap => false,
        _ => true,
    }
}

/// The target of jmp, jal and branches: the slot's address plus twice the signed immediate.
/// What a register holds is not followed.
fn target(instruction: &Instruction, slot: i64) -> Option<i64> {
    match instruction.operation {
        Jmp | Jal | Branch(_) => Some(slot + 2 * instruction.immediate),
        _ => None,
    }
}

/// How many words later the program goes on after a call, or after a swm.
fn resumption(instruction: &Instruction, length: WordLength) -> Option<u32> {
    match instruction.operation {
        // The word after the slot.
        Jal | Jalr => Some(2),
        // The word after its nop.
        Scall => Some(2),
        // The word three later, where bit 0 of the immediate, the new IL, keeps the width.
        Swm => {
            let new_length = WordLength::from_wide(instruction.immediate as u32);
            (new_length == length).then_some(3)
        }
        _ => None,
    }
}

/// How many of the next words are reached as slots.
fn slots(operation: Operation) -> u32 {
    match operation {
        // The branch slot.
        Jmp | Jal | Jmpr | Jalr => 1,
        // The nops that have to follow.
        Scall | Retu => 1,
        Swm => 2,
        Reti => 3,
        _ => 0,
    }
}
