//! A machine with its memories to try things on, and builders of instruction words.

use crate::image::{Layout, Sections};
use crate::machine::{offset, Machine, StackEntry};
use crate::{run, Answer};

/// PSR in super user mode with 16-bit words and set 2, interrupts disabled.
pub const SUPER_USER_16_PSR: u32 = 0x06;

/// A machine with its memories and requests.
pub struct Bench {
    pub machine: Machine,
    pub program: Vec<u8>,
    pub cells: Vec<u32>,
    pub requests: Vec<u32>,
}

impl Bench {
    /// The machine after reset, with 32-bit words at 0 and 16 cells.
    pub fn new(words: &[u32]) -> Bench {
        Bench {
            machine: Machine::reset(),
            program: words.iter().flat_map(|word| word.to_be_bytes()).collect(),
            cells: vec![0; 16],
            requests: Vec::new(),
        }
    }

    /// The machine after reset, but with 16-bit words, which are at 0.
    pub fn new_16(words: &[u16]) -> Bench {
        let mut bench = Bench::new(&[]);
        bench.program = words.iter().flat_map(|word| word.to_be_bytes()).collect();
        bench.machine.set_psr(SUPER_USER_16_PSR);
        bench
    }

    /// Sets the divider of a timer.
    pub fn divider(mut self, timer: usize, divider: u32) -> Bench {
        self.machine.dividers[timer] = divider;
        self
    }

    /// Goes to user mode, keeping the word length, with nothing protected.
    pub fn user(mut self) -> Bench {
        let psr = self.machine.psr() & 0x18 | 1;
        self.machine.set_psr(psr);
        self.protect_data(1, 0);
        self.protect_program(1, 0);
        self
    }

    /// Sets a register of set 1.
    pub fn r(mut self, index: usize, value: u32) -> Bench {
        self.machine.set1[index] = value;
        self
    }

    /// Sets a register of set 2.
    pub fn pr(mut self, index: usize, value: u32) -> Bench {
        self.machine.set2[index] = value;
        self
    }

    /// Sets a condition register.
    pub fn c(mut self, index: usize, value: u32) -> Bench {
        self.machine.conditions[index] = value;
        self
    }

    /// Sets PC.
    pub fn at(mut self, pc: u32) -> Bench {
        self.machine.position.pc = pc;
        self
    }

    /// Sets a control block register.
    pub fn control(mut self, offset: usize, value: u32) -> Bench {
        self.machine.control[offset] = value;
        self
    }

    pub fn protect_data(&mut self, low: u32, high: u32) {
        self.machine.control[offset::DMEM_BOUND_LO] = low;
        self.machine.control[offset::DMEM_BOUND_HI] = high;
    }

    pub fn protect_program(&mut self, low: u32, high: u32) {
        self.machine.control[offset::IMEM_BOUND_LO] = low;
        self.machine.control[offset::IMEM_BOUND_HI] = high;
    }

    /// The image of the machine.
    pub fn image(&self) -> Vec<u8> {
        Sections::of_machine(&self.machine).to_bytes()
    }

    /// Calls `run`, which must not refuse, and goes on with the image it leaves.
    pub fn run(&mut self, limit: u32) -> Answer {
        let image = self.image();
        let mut buffer = [0xA5; 732];
        let answer = run(
            &self.program,
            &mut self.cells,
            &image,
            &self.requests,
            limit,
            &mut buffer,
        );
        assert_eq!(answer.refusal, 0);
        let entries = u32::from_be_bytes([buffer[512], buffer[513], buffer[514], buffer[515]]);
        let length = 528 + 16 * entries as usize;
        assert!(buffer[length..].iter().all(|&byte| byte == 0xA5));
        let sections = Sections::read(&buffer[..length], Layout::Present).expect("question 2");
        assert!(sections.registers_can_hold());
        assert!(sections.user_mode_has_set_1());
        assert!(sections.stack_agrees());
        self.machine = sections.to_machine();
        answer
    }

    /// Does `count` steps, none of which may be a stop.
    pub fn steps(&mut self, count: u32) {
        let answer = self.run(count);
        assert_eq!((answer.steps, answer.ending), (count, 0));
    }

    /// Does one step, which must enter the exception with this code and change
    /// nothing else.
    pub fn raises(&mut self, code: u32) {
        let mut expected = self.machine.clone();
        let cells = self.cells.clone();
        expected.control[offset::INT_PEND] |= self.requests.first().copied().unwrap_or(0);
        expected.control[offset::EXCEPTION_CS] = code;
        expected.control[offset::EXCEPTION_PC] = expected.position.pc;
        expected.control[offset::EXCEPTION_PSR] = expected.set2[29];
        expected.set2[29] = 0x0E;
        expected.position.pc = expected.control[offset::EXCEP_ADDR];
        expected.position.slot = None;
        expected.position.product = None;
        self.steps(1);
        assert_eq!(self.machine, expected);
        assert_eq!(self.cells, cells);
    }

    /// Tries one step, which must stop with this number and change nothing.
    pub fn stops(&mut self, number: u32) {
        let machine = self.machine.clone();
        let cells = self.cells.clone();
        let answer = self.run(1);
        assert_eq!((answer.steps, answer.ending), (0, number));
        assert_eq!(self.machine, machine);
        assert_eq!(self.cells, cells);
    }

    /// Does one step that moves PC and changes nothing else.
    pub fn moves_only_pc(&mut self, pc: u32) {
        let mut expected = self.machine.clone();
        let cells = self.cells.clone();
        expected.position.pc = pc;
        self.steps(1);
        assert_eq!(self.machine, expected);
        assert_eq!(self.cells, cells);
    }

    pub fn pc(&self) -> u32 {
        self.machine.position.pc
    }

    pub fn psr(&self) -> u32 {
        self.machine.set2[29]
    }

    pub fn exception_code(&self) -> u32 {
        self.machine.control[offset::EXCEPTION_CS]
    }

    /// Puts an entry on the interrupt stack as an accepted interrupt would.
    pub fn in_service(mut self, source: u32, address: u32, psr: u32, c0: u32) -> Bench {
        self.machine.stack.push(StackEntry {
            source,
            address,
            psr,
            c0,
        });
        self.machine.control[offset::INT_SERV] |= 1 << source;
        self.machine.control[offset::RETI_ADDR] = address;
        self.machine.control[offset::RETI_PSR] = psr;
        self.machine.control[offset::RETI_CR0] = c0;
        self
    }
}

// 32-bit words

/// An operation with three registers.
pub fn rrr(operation: u32, dreg: u32, sreg1: u32, sreg2: u32) -> u32 {
    operation << 26 | dreg << 10 | sreg1 << 5 | sreg2
}

/// An operation with two registers and a 9-bit immediate.
pub fn rri(operation: u32, dreg: u32, sreg1: u32, immediate: i32) -> u32 {
    let immediate = immediate as u32 & 0x1FF;
    operation << 26 | (immediate >> 5) << 15 | dreg << 10 | sreg1 << 5 | immediate & 31
}

/// cmp (32) with its condition register.
pub fn cmp(creg: u32, sreg1: u32, sreg2: u32) -> u32 {
    rrr(32, 0, sreg1, sreg2) | creg << 22
}

/// cmpi (33) with its condition register.
pub fn cmpi(creg: u32, sreg1: u32, immediate: i32) -> u32 {
    rri(33, 0, sreg1, immediate) | creg << 22
}

/// lli (34).
pub fn lli(dreg: u32, immediate: u32) -> u32 {
    34 << 26 | dreg << 16 | immediate
}

/// lui (35).
pub fn lui(dreg: u32, immediate: u32) -> u32 {
    35 << 26 | dreg << 16 | immediate
}

/// jmp (36) or jal (37).
pub fn jump(operation: u32, immediate: i32) -> u32 {
    operation << 26 | immediate as u32 & 0x1FF_FFFF
}

/// A branch on a condition of 0 to 7.
pub fn branch(condition: u32, creg: u32, immediate: i32) -> u32 {
    (40 + condition) << 26 | creg << 22 | immediate as u32 & 0x3F_FFFF
}

/// An operation with no operand or one in bits 4..0.
pub fn plain(operation: u32, immediate: u32) -> u32 {
    operation << 26 | immediate
}

/// exbfi (63), its length in bits 24..19 and its position in bits 4..0.
pub fn exbfi(dreg: u32, sreg1: u32, length: u32, position: u32) -> u32 {
    63 << 26 | length << 19 | dreg << 10 | sreg1 << 5 | position
}

/// The same word as executed on a condition of a condition register.
pub fn when(condition: u32, creg: u32, word: u32) -> u32 {
    word | 1 << 25 | creg << 22 | condition << 19
}

pub const NOP: u32 = 0;

// 16-bit words

/// An operation with sr and dr, 0 to 7.
pub fn h_rr(operation: u16, sr: u16, dr: u16) -> u16 {
    operation << 10 | sr << 3 | dr
}

/// An operation with dr and a 7-bit immediate.
pub fn h_ri(operation: u16, dr: u16, immediate: i16) -> u16 {
    operation << 10 | (immediate as u16 & 0x7F) << 3 | dr
}

/// ld (27) or st (28).
pub fn h_memory(operation: u16, sr: u16, dr: u16, immediate: i16) -> u16 {
    operation << 10 | (immediate as u16 & 0xF) << 6 | sr << 3 | dr
}

/// A jump or branch with a 10-bit immediate.
pub fn h_jump(operation: u16, immediate: i16) -> u16 {
    operation << 10 | immediate as u16 & 0x3FF
}

/// An operation with no operand or one in bits 4..0.
pub fn h_plain(operation: u16, immediate: u16) -> u16 {
    operation << 10 | immediate
}
