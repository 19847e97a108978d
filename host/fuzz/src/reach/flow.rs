//! Where words lead (Manual 13), and a search of what a start leads to: for what the maps of a
//! session met, and for what both sides map alike.

use crate::words::{self, *};

/// Where a word leads, by address.
#[derive(Clone, Copy, Debug, PartialEq, Eq)]
pub struct Leads {
    /// The next word.
    pub next: Option<i64>,
    /// The target by immediate.
    pub target: Option<i64>,
    /// Where it goes on after a call or a swm.
    pub later: Option<i64>,
    /// How many of the next words it leads to as slots.
    pub slots: u32,
}

impl Leads {
    /// Where a word at an address leads.
    pub fn of(word: u32, wide: bool, at: u32) -> Leads {
        let operation = words::operation(word, wide);
        let on = |count: u32| i64::from(at + count * words::bytes(wide));
        let next = match operation {
            JMP | JAL | RETU | RETI | SWM | TRAP => false,
            JMPR | JALR | SCALL => has_condition(word, wide),
            _ => true,
        };
        Leads {
            next: next.then(|| on(1)),
            target: has_target(operation).then(|| jump_target(word, wide, at)),
            later: match operation {
                JAL | JALR | SCALL => Some(on(2)),
                // Bit 0 is the new IL.
                SWM if (word & 1 == 1) == wide => Some(on(3)),
                _ => None,
            },
            slots: match operation {
                JMP..=JALR => 1,
                _ => required_nops(operation),
            },
        }
    }

    /// All to which it leads in full.
    pub fn in_full(self) -> impl Iterator<Item = i64> {
        [self.next, self.target, self.later].into_iter().flatten()
    }
}

/// Whether the operation has a target by immediate.
pub fn has_target(operation: u32) -> bool {
    matches!(operation, JMP | JAL | BRANCH..=LAST_BRANCH)
}

/// The number of the word at an address of a program of so many bytes, from 0; only aligned
/// words wholly in the program have one.
pub fn word_number(address: i64, length: usize, wide: bool) -> Option<usize> {
    let width = i64::from(words::bytes(wide));
    let there = address >= 0 && address % width == 0 && address + width <= length as i64;
    there.then_some((address / width) as usize)
}

/// How a word is reached, if it is.
#[derive(Clone, Copy, Debug, Default, PartialEq, Eq)]
pub struct Ways {
    pub in_full: bool,
    pub as_slot: bool,
}

impl Ways {
    pub fn any(self) -> bool {
        self.in_full || self.as_slot
    }
}

/// A search, whose memory is used again.
#[derive(Default)]
pub struct Search {
    /// By the number of the word.
    pub ways: Vec<Ways>,
    /// Words that are reached in full and have still to be followed.
    waiting: Vec<usize>,
}

impl Search {
    /// Searches a program from a start, where there is a word.
    pub fn run(&mut self, start: u32, program: &[u8], wide: bool) {
        let width = words::bytes(wide);
        let number = |address: i64| word_number(address, program.len(), wide);
        self.ways.clear();
        let count = words::whole(program.len(), wide);
        self.ways.resize(count, Ways::default());
        self.waiting.clear();
        self.visit(number(i64::from(start)));
        while let Some(from) = self.waiting.pop() {
            let at = from as u32 * width;
            let Some(word) = word_at(program, at, wide) else {
                continue;
            };
            let leads = Leads::of(word, wide, at);
            for address in leads.in_full() {
                self.visit(number(address));
            }
            for slot in self.ways[from + 1..].iter_mut().take(leads.slots as usize) {
                slot.as_slot = true;
            }
        }
    }

    /// Reaches a word in full, where there is one.
    fn visit(&mut self, number: Option<usize>) {
        if let Some(number) = number.filter(|&number| !self.ways[number].in_full) {
            self.ways[number].in_full = true;
            self.waiting.push(number);
        }
    }
}

#[cfg(test)]
mod tests {
    use super::*;

    /// The words that a start reaches, in full and as slots.
    fn reached(start: u32, words: &[u32], wide: bool) -> [Vec<usize>; 2] {
        let mut program = Vec::new();
        for &word in words {
            append(&mut program, word, wide);
        }
        let mut search = Search::default();
        search.run(start, &program, wide);
        let numbers = |which: fn(&Ways) -> bool| {
            let ways = search.ways.iter().enumerate();
            ways.filter(|(_, ways)| which(ways))
                .map(|(number, _)| number)
                .collect()
        };
        [numbers(|ways| ways.in_full), numbers(|ways| ways.as_slot)]
    }

    /// Each rule of Manual 13, in words of 32 bits and then of 16.
    #[test]
    fn rules() {
        let conditional = 1 << 25;
        let ones = 0x03FF_FFFF;
        for (words, in_full, as_slot) in [
            (&[0, 0, 0][..], &[0, 1, 2][..], &[][..]),
            (&[JMP << 26 | 4, 0, 0, 0], &[0, 3], &[1]),
            (&[JMP << 26 | conditional | 4, 0, 0, 0], &[0, 3], &[1]),
            (&[JMP << 26 | 3, 0, 0, 0], &[0], &[1]),
            (&[JAL << 26 | 6, 0, TRAP << 26, 0, 0], &[0, 2, 4], &[1]),
            (&[JMPR << 26, 0, 0], &[0], &[1]),
            (&[JMPR << 26 | conditional, 0, 0], &[0, 1, 2], &[1]),
            (&[JALR << 26, 0, 0], &[0, 2], &[1]),
            (&[JALR << 26 | conditional, TRAP << 26, 0], &[0, 1, 2], &[1]),
            (&[BRANCH << 26 | 4, TRAP << 26, 0, 0], &[0, 1, 3], &[]),
            (&[LAST_BRANCH << 26 | ones, TRAP << 26], &[0, 1], &[]),
            (&[SCALL << 26, 0, 0], &[0, 2], &[1]),
            (&[SCALL << 26 | conditional, 0, 0], &[0, 1, 2], &[1]),
            (&[RETU << 26, 0, 0], &[0], &[1]),
            (&[RETI << 26, 0, 0, 0, 0], &[0], &[1, 2, 3]),
            (&[SWM << 26 | 31, 0, 0, 0], &[0, 3], &[1, 2]),
            (&[SWM << 26 | 30, 0, 0, 0], &[0], &[1, 2]),
            (&[TRAP << 26, 0, 0], &[0], &[]),
            (&[JMP << 26 | 2, JMP << 26 | 4, 0, 0], &[0, 2, 3], &[1]),
        ] {
            assert_eq!(reached(0, words, true), [in_full, as_slot], "{words:X?}");
        }
        for (words, in_full, as_slot) in [
            (&[JMP << 10 | 2, 0, 0, 0][..], &[0, 3][..], &[1][..]),
            (&[JMP << 10 | 0x3FF, 0], &[0], &[1]),
            (&[JALR << 10 | 0x3FF, 0, 0], &[0, 2], &[1]),
            (&[SCALL << 10 | 0x3FF, 0, 0], &[0, 2], &[1]),
            (&[SWM << 10 | 0x3FE, 0, 0, 0], &[0, 3], &[1, 2]),
            (&[SWM << 10 | 1, 0, 0, 0], &[0], &[1, 2]),
            (&[LLI << 10, LUI << 10, EXBFI << 10], &[0, 1, 2], &[]),
        ] {
            assert_eq!(reached(0, words, false), [in_full, as_slot], "{words:X?}");
        }
    }

    /// Words at the program's ends.
    #[test]
    fn ends() {
        let number = |address, wide| word_number(address, 10, wide);
        assert_eq!(
            [0, 4, 6, 8].map(|at| number(at, true)),
            [Some(0), Some(1), None, None]
        );
        assert_eq!(
            [7, 8, 9, 10].map(|at| number(at, false)),
            [None, Some(4), None, None]
        );
        assert_eq!([-4, -2].map(|at| number(at, false)), [None; 2]);
        assert_eq!(reached(8, &[0, 0, RETI << 26], true), [vec![2], vec![]]);
        assert_eq!(reached(4, &[0, SWM << 26 | 1, 0], true), [vec![1], vec![2]]);
    }
}
