//! What the looks at the nops after scall, retu, reti and swm met (Manual 4.6), from the
//! machine before them.

use crate::call::MEMORY_LIMIT;
use crate::image::*;
use crate::met::{add, line, Unmet, WIDTH_NAMES};
use crate::words::{self, *};

/// The most words that are looked at.
const MOST: usize = 3;

/// Why a look ends at a word: in user mode it is protected, it is not all there, or it has
/// another operation.
const PROTECTED: usize = 0;
const ABSENT: usize = 1;
const OTHER: usize = 2;
const REASONS: [&str; 3] = ["a protected nop", "an absent nop", "another operation"];
/// What the step or stop then comes to.
const ENDS: [&str; 3] = ["00h", "11", "20"];

/// Whether something can be met after an operation in a width.
type Possible = fn(u32, bool) -> bool;

/// What comes in place of a look that would end at a word.
const SOONER: [(&str, Possible); 4] = [
    ("an interrupt", any),
    ("02h", of_super_user),
    ("13", any),
    ("a false condition", conditional),
];

/// What a look meets.
const LOOKS: [(&str, Possible); 38] = [
    ("passes", any),
    ("passes in user mode", in_user_mode),
    ("passes after a true condition", conditional),
    ("passes bits that nop ignores", any),
    ("passes protected nops in super user mode", any),
    ("passes up to a protected byte in user mode", in_user_mode),
    ("passes up to the program's end", any),
    ("passes up to another operation", any),
    ("passes where the other width has no nops", with_several),
    ("00h by the first byte alone", in_user_mode),
    ("00h by the last byte alone", in_user_mode),
    ("00h by a byte between alone", with_bytes_between),
    ("00h at an absent word", in_user_mode),
    ("00h at another operation", in_user_mode),
    ("00h before an absent word", with_several),
    ("00h before another operation", with_several),
    ("11 in user mode", in_user_mode),
    ("11 in super user mode", any),
    ("11 at a part of a nop", any),
    ("11 at a part of another operation", any),
    ("11 at a protected word in super user mode", any),
    ("11 before a protected word in user mode", with_several),
    ("11 at the greatest length", any),
    ("20 in user mode", in_user_mode),
    ("20 in super user mode", any),
    ("20 after a true condition", conditional),
    ("20 at a protected word in super user mode", any),
    ("20 before a protected word in user mode", with_several),
    ("20 before an absent word", with_several),
    ("20 before another operation", with_several),
    ("20 where the other width has nops", with_several),
    ("20 with requests", any),
    ("20 with a timer enabled", any),
    ("20 with a product held", any),
    ("00h with an empty stack", of_stack),
    ("11 with an empty stack", of_stack),
    ("20 with an empty stack", of_stack),
    ("15", of_stack),
];

fn any(_: u32, _: bool) -> bool {
    true
}

fn of_super_user(operation: u32, _: bool) -> bool {
    operation == RETU
}

fn in_user_mode(operation: u32, wide: bool) -> bool {
    !of_super_user(operation, wide)
}

fn with_bytes_between(operation: u32, wide: bool) -> bool {
    in_user_mode(operation, wide) && wide
}

fn with_several(operation: u32, _: bool) -> bool {
    required_nops(operation) > 1
}

fn of_stack(operation: u32, _: bool) -> bool {
    operation == RETI
}

fn conditional(operation: u32, wide: bool) -> bool {
    wide && !never_conditional(operation)
}

/// What a step or stop at one of the operations comes to.
#[derive(Clone, Copy, Debug, PartialEq, Eq)]
pub enum Outcome {
    Instruction,
    /// The condition is false.
    Nothing,
    Interrupt,
    Exception(u32),
    Stop(u32),
}

/// A word that can be fetched and has one of the operations, and the words after it.
struct Look<'a> {
    program: &'a [u8],
    before: &'a Image,
    word: u32,
    operation: u32,
}

impl Look<'_> {
    /// The look at PC, if there is one.
    fn at_pc<'a>(program: &'a [u8], before: &'a Image) -> Option<Look<'a>> {
        let wide = before.wide();
        let word = word_at(program, before.pc(), wide)?;
        let look = Look {
            program,
            before,
            word,
            operation: words::operation(word, wide),
        };
        let fetched =
            before.pc() & (words::bytes(wide) - 1) == 0 && !(before.user() && look.protected(0));
        (required_nops(look.operation) > 0 && fetched).then_some(look)
    }

    fn count(&self) -> u32 {
        required_nops(self.operation)
    }

    /// The bytes of the word so many words on.
    fn bytes(&self, n: u32) -> std::ops::Range<u32> {
        let width = words::bytes(self.before.wide());
        let start = self.before.pc() + n * width;
        start..start + width
    }

    /// Whether a byte of the word so many words on is protected.
    fn protected(&self, n: u32) -> bool {
        self.bytes(n).any(|byte| self.before.code_protected(byte))
    }

    /// Whether the byte with this index, and no other of the word so many words on, is
    /// protected.
    fn protected_alone(&self, n: u32, index: usize) -> bool {
        self.bytes(n)
            .enumerate()
            .all(|(place, byte)| self.before.code_protected(byte) == (place == index))
    }

    fn absent(&self, n: u32) -> bool {
        self.bytes(n).end as usize > self.program.len()
    }

    /// Whether the word so many words on is there and has another operation than nop.
    fn other(&self, n: u32) -> bool {
        !self.absent(n) && self.first_byte(n).is_some_and(|byte| byte >> 2 != 0)
    }

    /// The first byte of the word so many words on, which has the operation in both widths.
    fn first_byte(&self, n: u32) -> Option<u8> {
        self.program.get(self.bytes(n).start as usize).copied()
    }

    /// Why it would end at the word so many words on, if it does.
    fn reason(&self, n: u32) -> Option<usize> {
        if self.before.user() && self.protected(n) {
            Some(PROTECTED)
        } else if self.absent(n) {
            Some(ABSENT)
        } else {
            self.other(n).then_some(OTHER)
        }
    }

    /// Where and why it ends, if it does.
    fn end(&self) -> Option<(u32, usize)> {
        (1..=self.count()).find_map(|n| Some((n, self.reason(n)?)))
    }

    /// Whether one of the words after the one so many words on is wanted.
    fn later(&self, n: u32, wanted: impl Fn(u32) -> bool) -> bool {
        (n + 1..=self.count()).any(wanted)
    }

    /// Whether as many words of the other width, from the first byte on, are nops.
    fn nops_in_other_width(&self) -> bool {
        let wide = !self.before.wide();
        let first = self.bytes(1).start;
        (0..self.count())
            .map(|n| word_at(self.program, first + n * words::bytes(wide), wide))
            .all(|word| word.is_some_and(|word| words::operation(word, wide) == NOP))
    }

    /// What it meets, in the order of LOOKS.
    fn met(&self, outcome: Outcome, requests: u32) -> [bool; LOOKS.len()] {
        let before = self.before;
        let (wide, user) = (before.wide(), before.user());
        let width = words::bytes(wide) as usize;
        let mut nops = 1..=self.count();
        let behind = self.bytes(self.count() + 1).start;
        let conditional = wide && self.word >> 25 & 1 == 1;
        let ignored = self.bytes(1).start as usize..behind as usize;
        let ignored = self.program.get(ignored);
        let ignored = ignored.is_some_and(|bytes| bytes.iter().any(|&byte| byte != 0));
        let part = |n: u32| self.absent(n) && self.first_byte(n).is_some();
        let part_of_other = |n: u32| self.first_byte(n).is_some_and(|byte| byte >> 2 != 0);
        let timer = (0..TIMERS).any(|number| before.timer(number).half & EN != 0);
        let empty = before.depth == 0;

        let passes = outcome == Outcome::Instruction;
        let end = self.end();
        let ends = |reason: usize, met: &dyn Fn(u32) -> bool| match end {
            Some((n, why)) => why == reason && met(n),
            None => false,
        };
        let violates = |met: &dyn Fn(u32) -> bool| ends(PROTECTED, met);
        let lacks = |met: &dyn Fn(u32) -> bool| ends(ABSENT, met);
        let differs = |met: &dyn Fn(u32) -> bool| ends(OTHER, met);
        [
            passes,
            passes && user,
            passes && conditional,
            passes && ignored,
            passes && !user && nops.any(|n| self.protected(n)),
            passes && user && before.code_protected(behind),
            passes && behind as usize == self.program.len(),
            passes && self.other(self.count() + 1),
            passes && !self.nops_in_other_width(),
            violates(&|n| self.protected_alone(n, 0)),
            violates(&|n| self.protected_alone(n, width - 1)),
            violates(&|n| (1..width - 1).any(|index| self.protected_alone(n, index))),
            violates(&|n| self.absent(n)),
            violates(&|n| self.other(n)),
            violates(&|n| self.later(n, |later| self.absent(later))),
            violates(&|n| self.later(n, |later| self.other(later))),
            lacks(&|_| user),
            lacks(&|_| !user),
            lacks(&|n| part(n) && !part_of_other(n)),
            lacks(&part_of_other),
            lacks(&|n| !user && self.protected(n)),
            lacks(&|n| user && self.later(n, |later| self.protected(later))),
            lacks(&|_| self.program.len() == MEMORY_LIMIT),
            differs(&|_| user),
            differs(&|_| !user),
            differs(&|_| conditional),
            differs(&|n| !user && self.protected(n)),
            differs(&|n| user && self.later(n, |later| self.protected(later))),
            differs(&|n| self.later(n, |later| self.absent(later))),
            differs(&|n| self.later(n, |later| self.other(later))),
            differs(&|_| self.nops_in_other_width()),
            differs(&|_| requests & !before.control[INT_PEND] != 0),
            differs(&|_| timer),
            differs(&|_| before.position[PRODUCT] == 1),
            violates(&|_| empty),
            lacks(&|_| empty),
            differs(&|_| empty),
            outcome == Outcome::Stop(15),
        ]
    }
}

/// Counts of looks: stops of all calls, and all else of those repeated step by step.
#[derive(Default)]
pub struct RequiredNops {
    /// By width and operation, as the next two: where looks end, by reason and word.
    ends: [[[[u64; MOST]; REASONS.len()]; BEFORE_NOPS.len()]; 2],
    looks: [[Looks; BEFORE_NOPS.len()]; 2],
    /// What comes in place of a look, by the reason for which it would end.
    sooner: [[[[u64; REASONS.len()]; SOONER.len()]; BEFORE_NOPS.len()]; 2],
    /// Stops 20 by an operation with a single bit, by width and bit.
    bits: [[u64; 6]; 2],
    /// What is not as this module has it.
    unlike: u64,
}

/// Counts in the order of LOOKS.
struct Looks([u64; LOOKS.len()]);

impl Default for Looks {
    fn default() -> Looks {
        Looks([0; LOOKS.len()])
    }
}

impl RequiredNops {
    /// Counts a step or a stop, with its requests: the machine before it, and what it comes to.
    pub fn count(&mut self, program: &[u8], before: &Image, outcome: Outcome, requests: u32) {
        let Some(look) = Look::at_pc(program, before) else {
            return;
        };
        let width = usize::from(before.wide());
        let index = BEFORE_NOPS
            .iter()
            .position(|&operation| operation == look.operation)
            .expect("one of the operations");
        let end = look.end();
        let sooner = match outcome {
            Outcome::Interrupt => Some(0),
            Outcome::Exception(2) => Some(1),
            Outcome::Stop(13) => Some(2),
            Outcome::Nothing => Some(3),
            _ => None,
        };
        if let Some(sooner) = sooner {
            if let Some((_, reason)) = end {
                self.sooner[width][index][sooner][reason] += 1;
            }
            return;
        }
        let expected = match end {
            Some((_, PROTECTED)) => Outcome::Exception(0),
            Some((_, ABSENT)) => Outcome::Stop(11),
            Some(_) => Outcome::Stop(20),
            None if look.operation == RETI && before.depth == 0 => Outcome::Stop(15),
            None => Outcome::Instruction,
        };
        if outcome != expected {
            self.unlike += 1;
            return;
        }
        if let Some((n, reason)) = end {
            self.ends[width][index][reason][n as usize - 1] += 1;
            if let (OTHER, Some(byte)) = (reason, look.first_byte(n)) {
                let operation = byte >> 2;
                if operation.is_power_of_two() {
                    self.bits[width][operation.trailing_zeros() as usize] += 1;
                }
            }
        }
        add(&mut self.looks[width][index].0, look.met(outcome, requests));
    }

    /// What a session should meet after an operation in a width.
    fn counts(&self, width: usize, index: usize) -> Vec<(String, &u64)> {
        let (operation, wide) = (BEFORE_NOPS[index], width == 1);
        let mut counts = Vec::new();
        let ends = ENDS.iter().zip(&self.ends[width][index]);
        for (reason, (name, words)) in ends.enumerate() {
            if reason != PROTECTED || in_user_mode(operation, wide) {
                let words = words.iter().take(required_nops(operation) as usize);
                let words = words.enumerate();
                counts.extend(words.map(|(n, count)| (format!("{name} at word {}", n + 1), count)));
            }
        }
        let looks = LOOKS.iter().zip(&self.looks[width][index].0);
        for ((name, possible), count) in looks {
            if possible(operation, wide) {
                counts.push((name.to_string(), count));
            }
        }
        let sooner = SOONER.iter().zip(&self.sooner[width][index]);
        for ((name, possible), reasons) in sooner {
            for (reason, count) in reasons.iter().enumerate() {
                // 02h comes before 13.
                let never = *name == "13" && reason == PROTECTED && operation == RETU;
                if possible(operation, wide) && !never {
                    counts.push((format!("{name} before {}", REASONS[reason]), count));
                }
            }
        }
        counts
    }

    pub fn need(&self, unmet: &mut Unmet) {
        unmet.need(
            u64::from(self.unlike == 0),
            format!("looks at nops as the manual has them ({} are not)", self.unlike),
        );
        for (width, name) in WIDTH_NAMES.into_iter().enumerate() {
            for (index, &operation) in BEFORE_NOPS.iter().enumerate() {
                let mnemonic = NAMES[operation as usize];
                unmet.need_each(self.counts(width, index), |what| {
                    format!("look after {name} {mnemonic}: {what}")
                });
            }
            unmet.need_each(self.bits[width].iter().enumerate(), |bit| {
                format!("20 by a {name} word with operation {}", 1 << bit)
            });
        }
    }

    pub fn report(&self, out: &mut String) {
        for (width, name) in WIDTH_NAMES.into_iter().enumerate() {
            for (index, &operation) in BEFORE_NOPS.iter().enumerate() {
                let mnemonic = NAMES[operation as usize];
                let title = format!("looks after {name} {mnemonic}, stops of all calls");
                line(out, &title, self.counts(width, index));
            }
            let bits = self.bits[width].iter().enumerate();
            let title = format!("20 of all calls by a {name} word, by operation");
            line(out, &title, bits.map(|(bit, count)| (1 << bit, count)));
        }
    }
}

#[cfg(test)]
mod tests {
    use super::*;

    /// A word of a width with an operation, all its other bits 1 or 0.
    fn word(operation: u32, wide: bool, others: bool) -> u32 {
        let shift = if wide { 26 } else { 10 };
        operation << shift | if others { (1 << shift) - 1 } else { 0 }
    }

    /// The first bytes of a program of these words.
    fn program(words: &[u32], wide: bool, length: usize) -> Vec<u8> {
        let unused = if wide { 0 } else { 2 };
        let bytes = words.iter().flat_map(|word| word.to_be_bytes());
        let bytes = bytes.enumerate().filter(|(place, _)| place % 4 >= unused);
        bytes.map(|(_, byte)| byte).take(length).collect()
    }

    /// What the reference makes of a step.
    fn outcome(program: &[u8], before: &Image, requests: u32) -> Outcome {
        let mut marked = before.clone();
        // No PSR.
        marked.control[EXCEPTION_PSR] = 0xFF;
        let mut image = Vec::new();
        marked.write(Layout::Present, &mut image);
        let mut buffer = [0; LONGEST];
        let answer = coffee_reference::run(program, &mut [], &image, &[requests], 1, &mut buffer);
        assert_eq!(answer.refusal, 0);
        let after = Image::read(&buffer);
        if answer.ending != 0 {
            assert_eq!(buffer[..image.len()], image);
            Outcome::Stop(answer.ending)
        } else if after.depth > before.depth {
            Outcome::Interrupt
        } else if after.control[EXCEPTION_PSR] != 0xFF {
            assert_eq!(after.control[EXCEPTION_PC], before.pc());
            Outcome::Exception(after.control[EXCEPTION_CS])
        } else if after.pc() == before.pc() + words::bytes(before.wide()) {
            Outcome::Nothing
        } else {
            Outcome::Instruction
        }
    }

    /// A machine in user mode or not, with a stack or not, and with bounds of the program.
    fn machine(wide: bool, user: bool, depth: usize, bounds: (u32, u32)) -> Image {
        let mut image = Image::new();
        image.set2[PSR] = if wide { IL } else { 0 } | if user { UM } else { 0 };
        image.control[DMEM_BOUND_LO] = 1;
        image.control[IMEM_BOUND_LO] = bounds.0;
        image.control[IMEM_BOUND_HI] = bounds.1;
        // Where no next word is.
        image.control[SYSTEM_ADDR] = 100;
        image.set2[LINK] = 100;
        image.stack[0].address = 100;
        image.depth = depth;
        image.show_stack();
        image
    }

    /// What is said of a look is what the reference does: each of the words a nop, a nop with
    /// bits that it ignores or another operation, the program's end and bounds anywhere among
    /// them, in user mode and not, with a stack and without.
    #[test]
    fn as_the_reference() {
        let mut met = RequiredNops::default();
        for (operation, wide) in BEFORE_NOPS
            .into_iter()
            .flat_map(|operation| [(operation, false), (operation, true)])
        {
            let width = words::bytes(wide);
            let nops = required_nops(operation);
            let end = (nops + 1) * width;
            for kinds in 0..3_u32.pow(nops) {
                let mut words = vec![word(operation, wide, false)];
                words.extend((0..nops).map(|n| match kinds / 3_u32.pow(n) % 3 {
                    0 => 0,
                    1 => word(NOP, wide, true),
                    _ => word(1 << ((kinds + n) % 6), wide, false),
                }));
                let behind = if kinds % 2 == 0 { TRAP } else { NOP };
                words.extend([word(behind, wide, false), 0, 0]);
                for length in width..=end + 3 * width {
                    let program = program(&words, wide, length as usize);
                    let bytes = width..=end;
                    let bounds = bytes.flat_map(|byte| [(byte, byte), (byte, u32::MAX)]);
                    for bounds in bounds.chain([(1, 0)]) {
                        for case in 0..4 {
                            let user = case & 1 == 1;
                            let before = machine(wide, user, case >> 1, bounds);
                            let outcome = outcome(&program, &before, 0);
                            met.count(&program, &before, outcome, 0);
                        }
                    }
                }
            }
        }
        assert_eq!(met.unlike, 0);
        // What is left out takes requests, a timer, a product, a condition or a slot, the
        // greatest length, or a false condition or an interrupt.
        let mut unmet = Unmet::default();
        met.need(&mut unmet);
        for what in unmet.lines() {
            let left_out = [
                "with requests",
                "with a timer enabled",
                "with a product held",
                "after a true condition",
                "at the greatest length",
                "13 before",
                "an interrupt before",
                "a false condition before",
            ];
            assert!(left_out.iter().any(|&end| what.contains(end)), "{what}");
        }
    }

    /// What the look after an operation meets, if anything: the counts that are not 0.
    fn met_by(program: &[u8], before: &Image, requests: u32) -> String {
        let mut met = RequiredNops::default();
        met.count(
            program,
            before,
            outcome(program, before, requests),
            requests,
        );
        assert_eq!(met.unlike, 0);
        let mut counts = Vec::new();
        for (width, index) in (0..BEFORE_NOPS.len()).flat_map(|index| [(0, index), (1, index)]) {
            counts.extend(met.counts(width, index));
        }
        let counts = counts.into_iter().filter(|&(_, &count)| count != 0);
        counts.map(|(name, _)| name).collect::<Vec<_>>().join(", ")
    }

    /// Looks worked by hand, in 32-bit words at address 0 but for the last two.
    #[test]
    fn worked_by_hand() {
        let none = (1, 0);
        let [add, addi] = [1 << 26, 0x4807_883F];
        let [swm, scall, retu, reti] = [0xD800_0000, 0xC000_0000, 0xC400_0000, 0xC800_0000];
        let if_equal = 0xC218_0000;
        let met = |words: &[u32], length: usize, before: &Image, requests: u32| {
            met_by(&program(words, true, length), before, requests)
        };
        let super_user = machine(true, false, 0, none);
        let user = machine(true, true, 0, none);

        assert_eq!(
            met(&[swm, 0, addi], 12, &super_user, 0),
            "20 at word 2, 20 in super user mode, 20 where the other width has nops"
        );
        assert_eq!(
            met(&[swm, addi], 8, &super_user, 0),
            "20 at word 1, 20 in super user mode, 20 before an absent word"
        );
        assert_eq!(
            met(&[swm, 0, 0], 10, &user, 0),
            "11 at word 2, 11 in user mode, 11 at a part of a nop"
        );
        assert_eq!(
            met(&[swm, addi], 5, &machine(true, true, 0, (9, 9)), 0),
            "11 at word 1, 11 in user mode, 11 at a part of another operation, \
             11 before a protected word in user mode"
        );
        assert_eq!(
            met(&[swm, 0, addi], 12, &machine(true, true, 0, (11, 11)), 0),
            "00h at word 2, 00h by the last byte alone, 00h at another operation"
        );
        assert_eq!(
            met(&[swm, addi, 0], 12, &machine(true, true, 0, (8, 9)), 0),
            "20 at word 1, 20 in user mode, 20 before a protected word in user mode"
        );
        assert_eq!(
            met(&[swm, 0, 0, 0], 16, &machine(true, false, 0, (11, 11)), 0),
            "passes, passes protected nops in super user mode"
        );
        assert_eq!(
            met(
                &[swm, 0x03FF_FFFF, 0, add],
                16,
                &machine(true, true, 0, (12, 12)),
                0
            ),
            "passes, passes in user mode, passes bits that nop ignores, passes up to a \
             protected byte in user mode, passes up to another operation, passes where the other \
             width has no nops"
        );
        assert_eq!(met(&[reti, 0, 0, 0], 16, &super_user, 0), "15");
        assert_eq!(
            met(&[reti, 0, 0, add], 16, &user, 0),
            "20 at word 3, 20 in user mode, 20 where the other width has nops, 20 with an empty \
             stack"
        );
        assert_eq!(
            met(&[reti, 0, 0, add], 16, &machine(true, true, 0, (6, 6)), 0),
            "00h at word 1, 00h by a byte between alone, 00h before another operation, 00h with \
             an empty stack"
        );
        assert_eq!(
            met(&[retu, add], 8, &user, 0),
            "02h before another operation"
        );
        assert_eq!(met(&[retu], 4, &user, 0), "02h before an absent nop");
        assert_eq!(
            met(&[retu], 4, &machine(true, true, 0, (5, 5)), 0),
            "02h before a protected nop"
        );
        assert_eq!(
            met(&[retu, 0], 8, &machine(true, false, 0, (5, 5)), 0),
            "passes, passes protected nops in super user mode, passes up to the program's \
             end"
        );
        assert_eq!(
            met(&[if_equal, addi], 8, &user, 0),
            "a false condition before another operation"
        );

        let mut equal = user.clone();
        equal.conditions[0] = 4;
        assert_eq!(
            met(&[if_equal, addi], 8, &equal, 0),
            "20 at word 1, 20 in user mode, 20 after a true condition"
        );
        assert_eq!(
            met(&[if_equal, 0, 0], 12, &equal, 0),
            "passes, passes in user mode, passes after a true condition"
        );

        let mut slot = user.clone();
        slot.position[SLOT] = 1;
        assert_eq!(
            met(&[scall, addi], 8, &slot, 0),
            "13 before another operation"
        );

        let mut busy = user.clone();
        busy.position[PRODUCT] = 1;
        busy.control[TMR_CONF] = EN << 16;
        assert_eq!(
            met(&[scall, addi], 8, &busy, 1),
            "20 at word 1, 20 in user mode, 20 with requests, 20 with a timer enabled, 20 with a \
             product held"
        );
        busy.set2[PSR] |= IE;
        busy.control[INT_MASK] = 1;
        busy.control[COP_INT_PRI] = 0;
        assert_eq!(
            met(&[scall, addi], 8, &busy, 1),
            "an interrupt before another operation"
        );

        // One in a 16-bit word, and one at the greatest length.
        let short = machine(false, true, 0, none);
        assert_eq!(
            met_by(&[0xC0, 0, 0, 1], &short, 0),
            "passes, passes in user mode, passes bits that nop ignores, passes up to the program's \
             end"
        );
        let mut last = super_user;
        last.position[PC] = 65_532;
        let mut greatest = vec![0; MEMORY_LIMIT];
        greatest[65_532] = 0xC0;
        assert_eq!(
            met_by(&greatest, &last, 0),
            "11 at word 1, 11 in super user mode, 11 at the greatest length"
        );
    }

    /// No look: a word that is misaligned, protected, absent or has another operation.
    #[test]
    fn no_look() {
        let user = machine(true, true, 0, (3, 3));
        let scall = [0xC0, 0, 0, 0, 0xFF];
        assert_eq!(met_by(&scall, &user, 0), "");
        let mut misaligned = machine(true, true, 0, (1, 0));
        misaligned.position[PC] = 2;
        assert_eq!(met_by(&[0, 0, 0xC0, 0, 0, 0, 0xFF], &misaligned, 0), "");
        let user = machine(true, true, 0, (1, 0));
        assert_eq!(met_by(&scall[..3], &user, 0), "");
        assert_eq!(met_by(&[0, 0, 0, 0], &user, 0), "");
        assert_eq!(
            met_by(&scall, &user, 0),
            "11 at word 1, 11 in user mode, 11 at a part of another operation"
        );
    }
}
