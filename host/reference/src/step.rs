//! One step of the machine (Manual 4): an interrupt is accepted, or one instruction runs, or
//! an exception is entered, and the timers have their clock; or the machine stops.

use crate::decode::{decode, operation_number, Instruction, Operation, WordLength};
use crate::machine::{
    offset, Machine, StackEntry, CONTROL_BLOCK_SIZE, IE, IL, LINK, RSRD, RSWR, SOURCES, SPSR,
    SUPER_USER_PSR, UM,
};

/// Exception codes (Manual 4.9).
mod exception {
    pub const INSTRUCTION_ADDRESS_VIOLATION: u32 = 0x00;
    pub const ILLEGAL_INSTRUCTION: u32 = 0x02;
    pub const MISALIGNED_JUMP_ADDRESS: u32 = 0x03;
    pub const JUMP_ADDRESS_OVERFLOW: u32 = 0x04;
    pub const MISALIGNED_INSTRUCTION_ADDRESS: u32 = 0x05;
    pub const ARITHMETIC_OVERFLOW: u32 = 0x06;
    pub const DATA_ADDRESS_VIOLATION: u32 = 0x07;
    pub const DATA_ADDRESS_OVERFLOW: u32 = 0x08;
    pub const ILLEGAL_JUMP: u32 = 0x09;
    /// Of trap 0; that of trap n is n more.
    pub const TRAP: u32 = 224;
}

/// Stop numbers (Manual 4.10).
mod stop {
    /// A byte of the instruction word, or of a nop that has to follow it, is absent.
    pub const NO_PROGRAM_BYTE: u32 = 11;
    /// A data address is neither in the control block nor a cell.
    pub const NO_DATA_CELL: u32 = 12;
    /// A control transfer stands in a branch slot.
    pub const TRANSFER_IN_SLOT: u32 = 13;
    /// mulhi without a product from the step just before.
    pub const NO_PRODUCT: u32 = 14;
    /// reti with an empty interrupt stack.
    pub const EMPTY_STACK: u32 = 15;
    /// Another operation stands where a nop has to follow.
    pub const NOT_A_NOP: u32 = 20;
}

/// Why an instruction is not done.
#[derive(Clone, Copy, Debug, PartialEq, Eq)]
enum Fault {
    /// An exception with this code is entered instead.
    Exception(u32),
    /// The machine stops with this number.
    Stop(u32),
}

/// Where a data address leads.
enum Place {
    /// The control block, at this offset of 0 to 255.
    Control(usize),
    /// The data memory's cell with this address.
    Cell(usize),
}

impl Machine {
    /// Does one step with this step's requests. On a stop the answer is its number, and
    /// everything, requests included, is as before it.
    pub fn step(&mut self, program: &[u8], cells: &mut [u32], requests: u32) -> Result<(), u32> {
        let mut next = self.clone();
        next.control[offset::INT_PEND] |= requests;
        if let Some(source) = next.interrupt_to_accept(program) {
            next.accept_interrupt(source);
        } else {
            let mut done = next.clone();
            match done.run_instruction(program, cells) {
                Ok(()) => next = done,
                Err(Fault::Exception(code)) => next.enter_exception(code),
                Err(Fault::Stop(number)) => return Err(number),
            }
        }
        // Each completed step has one clock, after its stores; a stop has none (Manual 4.11).
        next.clock();
        *self = next;
        Ok(())
    }

    // Interrupts

    /// The source whose interrupt this step accepts, if any (Manual 4.2).
    ///
    /// None is accepted where IE is 0, while a branch slot waits, or while a product is held
    /// and the next word, with no 05h, 00h or stop 11 for it, is mulhi.
    fn interrupt_to_accept(&self, program: &[u8]) -> Option<usize> {
        if self.psr() & IE == 0 || self.position.slot.is_some() {
            return None;
        }
        if self.position.product.is_some() && self.next_word_is_mulhi(program) {
            return None;
        }
        // The smallest priority number comes first, of equal ones the lower source: min_by_key
        // gives the first of several least ones.
        (0..SOURCES)
            .filter(|&source| self.request_gets_through(source))
            .min_by_key(|&source| self.priority(source))
    }

    /// Whether the source is pending, has INT_MASK 1, and has a priority number below those of
    /// all sources in service.
    fn request_gets_through(&self, source: usize) -> bool {
        let flag = 1 << source;
        let in_service = |other: &usize| self.control[offset::INT_SERV] & (1 << other) != 0;
        self.control[offset::INT_PEND] & flag != 0
            && self.control[offset::INT_MASK] & flag != 0
            && (0..SOURCES)
                .filter(in_service)
                .all(|other| self.priority(source) < self.priority(other))
    }

    /// The priority number of a source, 0 to 15 (Manual 4.2): COP_INT_PRI and EXT_INT_PRI hold
    /// four bits for each source, the first source lowest.
    fn priority(&self, source: usize) -> u32 {
        let field = if source < 4 {
            self.control[offset::COP_INT_PRI] >> (4 * source)
        } else {
            self.control[offset::EXT_INT_PRI] >> (4 * (source - 4))
        };
        field & 15
    }

    /// Whether the word at PC can be fetched and is mulhi.
    fn next_word_is_mulhi(&self, program: &[u8]) -> bool {
        match self.fetch(program) {
            Ok(word) => {
                let number = operation_number(word, self.word_length());
                Operation::from_number(number) == Operation::Mulhi
            }
            Err(_) => false,
        }
    }

    /// Accepts an interrupt (Manual 4.2): the source's flag moves from pending to in service;
    /// PC, PSR and C0 go on the interrupt stack; PC takes the vector; IE becomes 0, IL and UM
    /// the source's bits of the two mode registers, RSRD and RSWR 1 for super user mode, else
    /// 0. A held product is dropped.
    fn accept_interrupt(&mut self, source: usize) {
        let flag = 1 << source;
        self.control[offset::INT_PEND] &= !flag;
        self.push(StackEntry {
            source: source as u32,
            address: self.position.pc,
            psr: self.psr(),
            c0: self.conditions[0],
        });
        self.position.pc = self.control[offset::COP0_INT_VEC + source];
        self.position.product = None;

        let mut psr = 0;
        if self.control[offset::INT_MODE_IL] & flag != 0 {
            psr |= IL;
        }
        if self.control[offset::INT_MODE_UM] & flag != 0 {
            psr |= UM;
        } else {
            psr |= RSWR | RSRD;
        }
        self.set_psr(psr);
    }

    // Exceptions

    /// Enters an exception (Manual 4.9): EXCEPTION_CS, _PC and _PSR take the code, the
    /// instruction's address and the PSR before; PSR becomes 0Eh, PC EXCEP_ADDR. Slot and held
    /// product are dropped.
    fn enter_exception(&mut self, code: u32) {
        self.control[offset::EXCEPTION_CS] = code;
        self.control[offset::EXCEPTION_PC] = self.position.pc;
        self.control[offset::EXCEPTION_PSR] = self.psr();
        self.set_psr(SUPER_USER_PSR);
        self.position.pc = self.control[offset::EXCEP_ADDR];
        self.position.slot = None;
        self.position.product = None;
    }

    // Instructions

    /// The width of instruction words: bit IL of PSR.
    fn word_length(&self) -> WordLength {
        if self.psr() & IL != 0 {
            WordLength::Bits32
        } else {
            WordLength::Bits16
        }
    }

    /// Whether an address is no word boundary at the present word length.
    fn misaligned(&self, address: u32) -> bool {
        // The number of bytes is 2 or 4.
        address & (self.word_length().bytes() - 1) != 0
    }

    /// Whether user mode forbids a byte of the word at an aligned address.
    fn word_forbidden(&self, address: u32) -> bool {
        let last = address + (self.word_length().bytes() - 1);
        self.user_mode() && (address..=last).any(|byte| self.program_byte_protected(byte))
    }

    /// The word at PC, by the fetch tests (Manual 4.3): misaligned (05h); a byte of it
    /// protected in user mode (00h); a byte absent (stop 11).
    fn fetch(&self, program: &[u8]) -> Result<u32, Fault> {
        let address = self.position.pc;
        if self.misaligned(address) {
            return Err(Fault::Exception(exception::MISALIGNED_INSTRUCTION_ADDRESS));
        }
        self.word_at(address, program)
    }

    /// The word at an aligned address, with the last two tests of a fetch.
    fn word_at(&self, address: u32, program: &[u8]) -> Result<u32, Fault> {
        if self.word_forbidden(address) {
            return Err(Fault::Exception(exception::INSTRUCTION_ADDRESS_VIOLATION));
        }
        let start = address as usize;
        let end = start + self.word_length().bytes() as usize;
        let bytes = program
            .get(start..end)
            .ok_or(Fault::Stop(stop::NO_PROGRAM_BYTE))?;
        Ok(bytes
            .iter()
            .fold(0, |word, &byte| word << 8 | u32::from(byte)))
    }

    /// Runs the instruction at PC, with its tests in the order of the manual (Manual 4.3 to
    /// 4.8). After a fault the machine is of no further use: the caller goes on with a copy.
    fn run_instruction(&mut self, program: &[u8], cells: &mut [u32]) -> Result<(), Fault> {
        let word = self.fetch(program)?;
        let instruction = decode(word, self.word_length());

        if self.illegal(instruction.operation) {
            return Err(Fault::Exception(exception::ILLEGAL_INSTRUCTION));
        }

        if self.position.slot.is_some() && instruction.operation.is_control_transfer() {
            return Err(Fault::Stop(stop::TRANSFER_IN_SLOT));
        }

        // PC goes to the next word, or from a branch slot to the target. Every step
        // but an executed muls, mulu, mulus or muli drops the product.
        let address = self.position.pc;
        let product = self.position.product.take();
        self.position.pc = match self.position.slot.take() {
            Some(target) => target,
            None => address + self.word_length().bytes(),
        };

        // On a false condition nothing but PC moves (Manual 4.5).
        if let Some(condition) = instruction.condition {
            if !condition.is_true(self.conditions[instruction.condition_register]) {
                return Ok(());
            }
        }

        self.check_required_nops(instruction.operation, address, program)?;
        self.execute(instruction, address, product, cells)
    }

    /// Tests the words after the instruction at `address` that have to be nops (Manual 4.6),
    /// one after another: a byte protected in user mode is 00h, at the instruction's own
    /// address; an absent byte is stop 11; another operation than 0 is stop 20. A word has all
    /// its tests before the next has any. PSR is still the old one, and so are width and mode.
    fn check_required_nops(
        &self,
        operation: Operation,
        address: u32,
        program: &[u8],
    ) -> Result<(), Fault> {
        let length = self.word_length();
        for n in 1..=operation.required_nops() {
            let word = self.word_at(address + n * length.bytes(), program)?;
            // Only the operation counts: a nop ignores its other bits.
            if operation_number(word, length) != 0 {
                return Err(Fault::Stop(stop::NOT_A_NOP));
            }
        }
        Ok(())
    }

    /// Whether the operation is not available, 02h (Manual 4.4): lli, lui and exbfi in 16-bit
    /// words, retu and chrs in user mode.
    fn illegal(&self, operation: Operation) -> bool {
        match operation {
            Operation::Lli | Operation::Lui | Operation::Exbfi => {
                self.word_length() == WordLength::Bits16
            }
            Operation::Retu | Operation::Chrs => self.user_mode(),
            _ => false,
        }
    }

    /// The operation's own effect. PC has moved already; `address` is the
    /// instruction's own, `product` the one held from the step just before.
    fn execute(
        &mut self,
        instruction: Instruction,
        address: u32,
        product: Option<u64>,
        cells: &mut [u32],
    ) -> Result<(), Fault> {
        use Operation::*;

        let target = instruction.target;
        let first = self.read_register(instruction.source1);
        let second = self.read_register(instruction.source2);
        let immediate = instruction.immediate;
        // The immediate as a 32-bit word, sign or zeros extended.
        let extended = immediate as u32;
        let word_bytes = self.word_length().bytes();
        // The first address after a branch slot, which is what jal and jalr link.
        let after_slot = address + 2 * word_bytes;

        match instruction.operation {
            Nop => {}

            Add => self.add_signed(target, first, second)?,
            Addi => self.add_signed(target, first, extended)?,
            Addu => self.add(target, first, second),
            Addiu => self.add(target, first, extended),
            Sub => self.subtract_signed(target, first, second)?,
            Subu => self.subtract(target, first, second),

            And => self.write_register(target, first & second),
            Andi => self.write_register(target, first & extended),
            Or => self.write_register(target, first | second),
            Ori => self.write_register(target, first | extended),
            Xor => self.write_register(target, first ^ second),
            Not => self.write_register(target, !first),
            Mov => self.write_register(target, first),

            // mulus: the first is unsigned, the second signed.
            Muls => self.multiply(target, (signed(first) * signed(second)) as u64),
            Mulu => self.multiply(target, u64::from(first) * u64::from(second)),
            Mulus => self.multiply(target, (i64::from(first) * signed(second)) as u64),
            Muli => self.multiply(target, (signed(first) * immediate) as u64),
            Mulhi => {
                let product = product.ok_or(Fault::Stop(stop::NO_PRODUCT))?;
                self.write_register(target, (product >> 32) as u32);
            }

            // The 16-bit products fit in 32 bits and hold nothing for mulhi.
            Muls16 => {
                let product = signed_half(first) * signed_half(second);
                self.write_register(target, product as u32);
            }
            Mulu16 => {
                let product = unsigned_half(first) * unsigned_half(second);
                self.write_register(target, product as u32);
            }
            Mulus16 => {
                let product = unsigned_half(first) * signed_half(second);
                self.write_register(target, product as u32);
            }

            Sll => self.write_register(target, shift_left(first, second)),
            Slli => self.write_register(target, shift_left(first, extended)),
            Srl => self.write_register(target, shift_right_logical(first, second)),
            Srli => self.write_register(target, shift_right_logical(first, extended)),
            Sra => self.write_register(target, shift_right_arithmetic(first, second)),
            Srai => self.write_register(target, shift_right_arithmetic(first, extended)),
            Sext => self.write_register(target, extend_sign_from(first, second)),
            Sexti => self.write_register(target, extend_sign_from(first, extended)),

            Ld => {
                let value = match self.data_place(first, immediate, cells.len())? {
                    Place::Control(offset) => self.read_control(offset),
                    Place::Cell(index) => cells[index],
                };
                self.write_register(target, value);
            }
            // The register that is stored is read from the set that RSRD names.
            St => {
                let value = self.read_register(target);
                match self.data_place(first, immediate, cells.len())? {
                    Place::Control(offset) => self.store_control(offset, value),
                    Place::Cell(index) => cells[index] = value,
                }
            }

            Cmp => self.compare(instruction.condition_register, first, second),
            Cmpi => self.compare(instruction.condition_register, first, extended),

            Lli => self.write_register(target, extended),
            // The low half of the target register stays.
            Lui => {
                let low_half = self.read_target(target) & 0xFFFF;
                self.write_register(target, extended << 16 | low_half);
            }

            // A target by immediate is the slot's address plus twice the signed immediate
            // (Manual 4.8); a link is written only by a jump that passes its tests.
            Jmp => self.jump(i64::from(address + word_bytes) + 2 * immediate)?,
            Jal => {
                self.jump(i64::from(address + word_bytes) + 2 * immediate)?;
                self.write_register(LINK, after_slot);
            }
            Jmpr => self.jump(i64::from(first))?,
            Jalr => {
                self.jump(i64::from(first))?;
                self.write_register(LINK, after_slot);
            }
            Branch(condition) => {
                if condition.is_true(self.conditions[instruction.condition_register]) {
                    self.jump(i64::from(address + word_bytes) + 2 * immediate)?;
                }
            }

            // The link in PR31 is two words on, SPSR takes PSR, PSR becomes 0Eh.
            Scall => {
                self.set2[LINK] = after_slot;
                self.set2[SPSR] = self.psr();
                self.set_psr(SUPER_USER_PSR);
                self.position.pc = self.control[offset::SYSTEM_ADDR];
            }
            // PC comes from PR31, IE and IL from SPSR; the mode is user mode, by set 1.
            Retu => {
                self.position.pc = self.set2[LINK];
                self.set_psr(self.set2[SPSR] & (IE | IL) | UM);
            }
            // The top entry gives PC, PSR and C0 (stop 15 when there is none), and its source
            // is no longer in service.
            Reti => {
                let entry = self.pop().ok_or(Fault::Stop(stop::EMPTY_STACK))?;
                self.position.pc = entry.address;
                self.set_psr(entry.psr);
                self.conditions[0] = entry.c0;
            }
            // Bit 0 is RSRD, bit 1 RSWR.
            Chrs => {
                let mut psr = self.psr() & !(RSRD | RSWR);
                if extended & 1 != 0 {
                    psr |= RSRD;
                }
                if extended & 2 != 0 {
                    psr |= RSWR;
                }
                self.set_psr(psr);
            }
            Di => self.set_psr(self.psr() & !IE),
            Ei => self.set_psr(self.psr() | IE),
            // Bit 0 is IL, and PC goes on three words of the old width later.
            Swm => {
                let mut psr = self.psr() & !IL;
                if extended & 1 != 0 {
                    psr |= IL;
                }
                self.set_psr(psr);
                self.position.pc = address + 3 * word_bytes;
            }
            Trap => return Err(Fault::Exception(exception::TRAP + extended)),

            // Cn stands at bits 3n+2..3n.
            Scon => {
                let mut word = 0;
                for (n, register) in self.conditions.iter().enumerate() {
                    word |= register << (3 * n);
                }
                self.write_register(target, word);
            }
            Rcon => {
                for (n, register) in self.conditions.iter_mut().enumerate() {
                    *register = first >> (3 * n) & 7;
                }
            }

            Conb => self.write_register(target, concatenate(first, second, 8)),
            Conh => self.write_register(target, concatenate(first, second, 16)),
            // The byte with this number, 0 the lowest; the halfword likewise.
            Exb => self.write_register(target, first >> (8 * extended) & 0xFF),
            Exh => self.write_register(target, first >> (16 * extended) & 0xFFFF),
            Exbf => self.write_register(target, extract_field(first, second)),
            // Its length and position stand to each other as those of exbf's second source.
            Exbfi => {
                let field = (instruction.length << 5 | immediate) as u32;
                self.write_register(target, extract_field(first, field));
            }
        }
        Ok(())
    }

    /// Writes C0: Z and N of the 32-bit result, C the carry out (Manual 3.2).
    fn write_flags(&mut self, result: u32, carry: bool) {
        self.conditions[0] = flags(result == 0, signed(result) < 0, carry);
    }

    /// Addition that wraps: addu, addiu.
    fn add(&mut self, target: usize, first: u32, second: u32) {
        let sum = u64::from(first) + u64::from(second);
        let result = sum as u32;
        self.write_flags(result, sum >> 32 != 0);
        self.write_register(target, result);
    }

    /// Addition that gives 06h outside signed 32 bits: add, addi.
    fn add_signed(&mut self, target: usize, first: u32, second: u32) -> Result<(), Fault> {
        signed_range(signed(first) + signed(second))?;
        self.add(target, first, second);
        Ok(())
    }

    /// Subtraction that wraps: subu. The carry is first ≥ second, unsigned.
    fn subtract(&mut self, target: usize, first: u32, second: u32) {
        let result = (i64::from(first) - i64::from(second)) as u32;
        self.write_flags(result, first >= second);
        self.write_register(target, result);
    }

    /// Subtraction that gives 06h outside signed 32 bits: sub.
    fn subtract_signed(&mut self, target: usize, first: u32, second: u32) -> Result<(), Fault> {
        signed_range(signed(first) - signed(second))?;
        self.subtract(target, first, second);
        Ok(())
    }

    /// cmp and cmpi: Z if equal, N if less as signed numbers, C as of a subtraction.
    fn compare(&mut self, condition_register: usize, first: u32, second: u32) {
        self.conditions[condition_register] = flags(
            first == second,
            signed(first) < signed(second),
            first >= second,
        );
    }

    /// Writes the low half of a 64-bit product and holds the whole for mulhi.
    fn multiply(&mut self, target: usize, product: u64) {
        self.write_register(target, product as u32);
        self.position.product = Some(product);
    }

    /// Takes a jump: tests its target and leaves one branch slot (Manual 4.8).
    ///
    /// The tests are 04h for a target outside 32 bits, then 03h, then in user mode 09h if a
    /// byte of the target word is protected.
    fn jump(&mut self, target: i64) -> Result<(), Fault> {
        let target = u32::try_from(target)
            .map_err(|_| Fault::Exception(exception::JUMP_ADDRESS_OVERFLOW))?;
        if self.misaligned(target) {
            return Err(Fault::Exception(exception::MISALIGNED_JUMP_ADDRESS));
        }
        if self.word_forbidden(target) {
            return Err(Fault::Exception(exception::ILLEGAL_JUMP));
        }
        self.position.slot = Some(target);
        Ok(())
    }

    /// Where a load or store goes (Manual 4.7): in user mode 07h if the address modulo 2^32 is
    /// protected; then 08h if the address is outside 32 bits; then stop 12 if it is neither
    /// the control block's nor a cell's.
    fn data_place(&self, base: u32, immediate: i64, cells: usize) -> Result<Place, Fault> {
        let sum = i64::from(base) + immediate;
        // The address modulo 2^32.
        let address = sum as u32;
        if self.user_mode() && self.data_protected(address) {
            return Err(Fault::Exception(exception::DATA_ADDRESS_VIOLATION));
        }
        if sum != i64::from(address) {
            return Err(Fault::Exception(exception::DATA_ADDRESS_OVERFLOW));
        }
        // The control block's 256 addresses from CCB_BASE come first, then cells.
        let first = self.control[offset::CCB_BASE];
        let last = first + (CONTROL_BLOCK_SIZE - 1);
        if first <= address && address <= last {
            return Ok(Place::Control((address - first) as usize));
        }
        if (address as usize) < cells {
            return Ok(Place::Cell(address as usize));
        }
        Err(Fault::Stop(stop::NO_DATA_CELL))
    }
}

/// A register read as a signed number.
fn signed(word: u32) -> i64 {
    i64::from(word as i32)
}

/// The low half of a register, read as a signed number.
fn signed_half(word: u32) -> i64 {
    i64::from(word as u16 as i16)
}

/// The low half of a register, read as an unsigned number.
fn unsigned_half(word: u32) -> i64 {
    i64::from(word as u16)
}

/// 06h for a result outside signed 32 bits.
fn signed_range(result: i64) -> Result<(), Fault> {
    if i32::try_from(result).is_ok() {
        Ok(())
    } else {
        Err(Fault::Exception(exception::ARITHMETIC_OVERFLOW))
    }
}

/// A condition register: Z×4 + N×2 + C.
fn flags(zero: bool, negative: bool, carry: bool) -> u32 {
    u32::from(zero) * 4 + u32::from(negative) * 2 + u32::from(carry)
}

// Shifts, sext and sexti use the five lowest bits of their second operand.

fn shift_left(value: u32, amount: u32) -> u32 {
    (u64::from(value) << (amount & 31)) as u32
}

fn shift_right_logical(value: u32, amount: u32) -> u32 {
    value >> (amount & 31)
}

fn shift_right_arithmetic(value: u32, amount: u32) -> u32 {
    (signed(value) >> (amount & 31)) as u32
}

/// Repeats the bit at `position` in all bits above it: sext and sexti.
fn extend_sign_from(value: u32, position: u32) -> u32 {
    let position = position & 31;
    let above = !((1_u64 << (position + 1)) - 1) as u32;
    if value >> position & 1 == 1 {
        value | above
    } else {
        value & !above
    }
}

/// conb and conh: the low `width` bits of the first above those of the second.
fn concatenate(first: u32, second: u32, width: u32) -> u32 {
    let low_bits = (1 << width) - 1;
    (first & low_bits) << width | second & low_bits
}

/// exbf and exbfi: the field of `value` with the length in bits 10..5 of `field` and the
/// position in bits 4..0. Its bits past bit 31 are zero; a length over 32 counts as 32.
fn extract_field(value: u32, field: u32) -> u32 {
    let length = (field >> 5 & 63).min(32);
    let position = field & 31;
    let low_bits = ((1_u64 << length) - 1) as u32;
    value >> position & low_bits
}
