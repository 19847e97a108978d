//! Instruction words: their fields in both widths (Manual 2).

use self::Operation::*;
use std::ops::RangeInclusive;

/// The width of an instruction word, as bit IL of PSR names it.
#[derive(Clone, Copy, Debug, PartialEq, Eq)]
pub enum WordLength {
    Bits16,
    Bits32,
}

impl WordLength {
    /// The width that a caller names: 0 for 16-bit words, any other number for 32-bit words.
    pub fn from_wide(wide: u32) -> WordLength {
        match wide {
            0 => WordLength::Bits16,
            _ => WordLength::Bits32,
        }
    }

    /// The number of bytes of a word.
    pub fn bytes(self) -> u32 {
        match self {
            WordLength::Bits16 => 2,
            WordLength::Bits32 => 4,
        }
    }
}

/// The conditions, by number from 0 to 7: c, egt, elt, eq, gt, lt, ne, nc (Manual 2.6).
#[derive(Clone, Copy, Debug, PartialEq, Eq)]
pub enum Condition {
    Carry,
    EqualOrGreater,
    EqualOrLess,
    Equal,
    Greater,
    Less,
    NotEqual,
    NoCarry,
}

impl Condition {
    /// The condition with the number that the low three bits of `number` give.
    fn from_number(number: u32) -> Condition {
        match number & 7 {
            0 => Condition::Carry,
            1 => Condition::EqualOrGreater,
            2 => Condition::EqualOrLess,
            3 => Condition::Equal,
            4 => Condition::Greater,
            5 => Condition::Less,
            6 => Condition::NotEqual,
            _ => Condition::NoCarry,
        }
    }

    /// Whether the condition holds of a condition register, Z×4 + N×2 + C: lt is N, eq is Z,
    /// elt is N or Z, gt is neither of them, egt is not N.
    pub fn is_true(self, register: u32) -> bool {
        let z = register & 4 != 0;
        let n = register & 2 != 0;
        let c = register & 1 != 0;
        match self {
            Condition::Carry => c,
            Condition::EqualOrGreater => !n,
            Condition::EqualOrLess => n || z,
            Condition::Equal => z,
            Condition::Greater => !n && !z,
            Condition::Less => n,
            Condition::NotEqual => !z,
            Condition::NoCarry => !c,
        }
    }
}

/// The operations, in the order of their numbers.
#[derive(Clone, Copy, Debug, PartialEq, Eq)]
pub enum Operation {
    Nop,
    Add,
    Addu,
    Sub,
    Subu,
    And,
    Or,
    Xor,
    Muls,
    Mulu,
    Mulus,
    Muls16,
    Mulu16,
    Mulus16,
    Sll,
    Srl,
    Sra,
    Sext,
    Addi,
    Addiu,
    Andi,
    Ori,
    Muli,
    Slli,
    Srli,
    Srai,
    Sexti,
    Ld,
    St,
    Mov,
    Not,
    Mulhi,
    Cmp,
    Cmpi,
    Lli,
    Lui,
    Jmp,
    Jal,
    Jmpr,
    Jalr,
    Branch(Condition),
    Scall,
    Retu,
    Reti,
    Chrs,
    Di,
    Ei,
    Swm,
    Trap,
    Scon,
    Rcon,
    Conb,
    Conh,
    Exb,
    Exh,
    Exbf,
    Exbfi,
}

impl Operation {
    /// The operation with the number that the low six bits of `number` give (Manual 3.1).
    pub fn from_number(number: u32) -> Operation {
        match number & 63 {
            0 => Nop,
            1 => Add,
            2 => Addu,
            3 => Sub,
            4 => Subu,
            5 => And,
            6 => Or,
            7 => Xor,
            8 => Muls,
            9 => Mulu,
            10 => Mulus,
            11 => Muls16,
            12 => Mulu16,
            13 => Mulus16,
            14 => Sll,
            15 => Srl,
            16 => Sra,
            17 => Sext,
            18 => Addi,
            19 => Addiu,
            20 => Andi,
            21 => Ori,
            22 => Muli,
            23 => Slli,
            24 => Srli,
            25 => Srai,
            26 => Sexti,
            27 => Ld,
            28 => St,
            29 => Mov,
            30 => Not,
            31 => Mulhi,
            32 => Cmp,
            33 => Cmpi,
            34 => Lli,
            35 => Lui,
            36 => Jmp,
            37 => Jal,
            38 => Jmpr,
            39 => Jalr,
            40..=47 => Branch(Condition::from_number(number - 40)),
            48 => Scall,
            49 => Retu,
            50 => Reti,
            51 => Chrs,
            52 => Di,
            53 => Ei,
            54 => Swm,
            55 => Trap,
            56 => Scon,
            57 => Rcon,
            58 => Conb,
            59 => Conh,
            60 => Exb,
            61 => Exh,
            62 => Exbf,
            _ => Exbfi,
        }
    }

    /// Whether the operation has a form in a width: lli, lui and exbfi have none in 16-bit
    /// words.
    pub fn has_form(self, length: WordLength) -> bool {
        match self {
            Lli | Lui | Exbfi => length == WordLength::Bits32,
            _ => true,
        }
    }

    /// Whether the operation may be conditional in a width (Manual 3.1). 16-bit words never
    /// are. Of 32-bit words nop, cmp, cmpi, lli, lui, jumps with an immediate, branches, 49 to
    /// 57 and exbfi are not, and ignore bit 25.
    pub fn may_be_conditional(self, length: WordLength) -> bool {
        let never = matches!(
            self,
            Nop | Cmp
                | Cmpi
                | Lli
                | Lui
                | Jmp
                | Jal
                | Branch(_)
                | Retu
                | Reti
                | Chrs
                | Di
                | Ei
                | Swm
                | Trap
                | Scon
                | Rcon
                | Exbfi
        );
        length == WordLength::Bits32 && !never
    }

    /// Whether the operation is a control transfer, which may not stand in a branch slot: 36
    /// to 50 and swm (Manual 4.4).
    pub fn is_control_transfer(self) -> bool {
        matches!(
            self,
            Jmp | Jal | Jmpr | Jalr | Branch(_) | Scall | Retu | Reti | Swm
        )
    }

    /// How many nops have to follow the operation (Manual 4.6).
    pub fn required_nops(self) -> u32 {
        match self {
            Swm => 2,
            Scall | Retu => 1,
            Reti => 3,
            _ => 0,
        }
    }

    /// The operations with an immediate and one source register (18 to 26, 33, 60 and 61),
    /// which in a 16-bit word is dr, source and target (Manual 2.2).
    fn has_register_and_immediate(self) -> bool {
        matches!(
            self,
            Addi | Addiu | Andi | Ori | Muli | Slli | Srli | Srai | Sexti | Cmpi | Exb | Exh
        )
    }
}

/// The parts of a word that an operation works with.
#[derive(Clone, Copy, Debug, PartialEq, Eq)]
pub enum Operand {
    /// The condition register: the one that is tested, or the target of cmp and cmpi.
    ConditionRegister,
    /// The target register; for st the register that is stored.
    Target,
    /// The first source register.
    Source1,
    /// The second source register.
    Source2,
    /// The immediate; for exbfi the position.
    Immediate,
    /// The length of exbfi.
    Length,
}

/// A place for a number in a word.
#[derive(Clone, Copy, Debug, PartialEq, Eq)]
pub struct Field {
    /// The highest and the lowest bit of each part, the upper part first. Without parts the
    /// number is 0.
    parts: &'static [(u32, u32)],
    meaning: Meaning,
}

/// What the bits of a field stand for.
#[derive(Clone, Copy, Debug, PartialEq, Eq)]
enum Meaning {
    Unsigned,
    /// Two's complement.
    Signed,
    /// Of a register of a 16-bit word, 24 to 31: 24 less.
    ShortRegister,
}

impl Field {
    /// The place of what an operation does not have.
    pub const NONE: Field = unsigned(&[]);
    /// Bit 25: the word is conditional.
    pub const CONDITIONAL: Field = unsigned(&[(25, 25)]);
    /// Bits 24..22: the condition register.
    pub const CONDITION_REGISTER: Field = unsigned(&[(24, 22)]);
    /// Bits 21..19: the condition.
    pub const CONDITION: Field = unsigned(&[(21, 19)]);

    /// The operation's place: bits 31..26 of a 32-bit word, 15..10 of a 16-bit one.
    pub fn operation(length: WordLength) -> Field {
        match length {
            WordLength::Bits32 => unsigned(&[(31, 26)]),
            WordLength::Bits16 => unsigned(&[(15, 10)]),
        }
    }

    /// The place of an operand in the words of an operation.
    pub fn operand(operand: Operand, operation: Operation, length: WordLength) -> Field {
        match length {
            WordLength::Bits32 => operand_32(operand, operation),
            WordLength::Bits16 => operand_16(operand, operation),
        }
    }

    /// The number that a word has here.
    pub fn read(self, word: u32) -> i64 {
        let mut number = 0;
        for &(high, low) in self.parts {
            number = number << part_width(high, low) | i64::from(bits(word, high, low));
        }
        match self.meaning {
            Meaning::Unsigned => number,
            Meaning::Signed => sign_extend(number, self.width()),
            Meaning::ShortRegister => number + 24,
        }
    }

    /// The numbers that fit.
    pub fn range(self) -> RangeInclusive<i64> {
        let count = 1_i64 << self.width();
        let least = match self.meaning {
            Meaning::Unsigned => 0,
            Meaning::Signed => -(count / 2),
            Meaning::ShortRegister => 24,
        };
        least..=least + count - 1
    }

    /// The bits of a word that has this number here and 0 elsewhere; nothing where the
    /// number does not fit.
    pub fn write(self, number: i64) -> Option<u32> {
        if !self.range().contains(&number) {
            return None;
        }
        // In all three meanings the bits are the lowest of the number.
        let mut rest = number;
        let mut word = 0;
        for &(high, low) in self.parts.iter().rev() {
            word |= bits(rest as u32, high - low, 0) << low;
            rest >>= part_width(high, low);
        }
        Some(word)
    }

    /// A word with ones here and zeros elsewhere.
    pub fn mask(self) -> u32 {
        let parts = self.parts.iter();
        parts.fold(0, |mask, &(high, low)| {
            mask | bits(u32::MAX, high - low, 0) << low
        })
    }

    /// The number of bits.
    fn width(self) -> u32 {
        let parts = self.parts.iter();
        parts.map(|&(high, low)| part_width(high, low)).sum()
    }
}

const fn unsigned(parts: &'static [(u32, u32)]) -> Field {
    Field {
        parts,
        meaning: Meaning::Unsigned,
    }
}

const fn signed(parts: &'static [(u32, u32)]) -> Field {
    Field {
        parts,
        meaning: Meaning::Signed,
    }
}

const fn short_register(parts: &'static [(u32, u32)]) -> Field {
    Field {
        parts,
        meaning: Meaning::ShortRegister,
    }
}

/// The operands of a 32-bit word (Manual 2.3): condition register in bits 24..22, dreg in
/// 14..10 (of lli and lui in 20..16), sreg1 in 9..5, sreg2 in 4..0, exbfi's length in 24..19.
fn operand_32(operand: Operand, operation: Operation) -> Field {
    match (operand, operation) {
        (Operand::ConditionRegister, _) => Field::CONDITION_REGISTER,
        (Operand::Target, Lli | Lui) => unsigned(&[(20, 16)]),
        (Operand::Target, _) => unsigned(&[(14, 10)]),
        (Operand::Source1, _) => unsigned(&[(9, 5)]),
        (Operand::Source2, _) => unsigned(&[(4, 0)]),
        (Operand::Immediate, _) => immediate_32(operation),
        (Operand::Length, Exbfi) => unsigned(&[(24, 19)]),
        (Operand::Length, _) => Field::NONE,
    }
}

/// The immediate of a 32-bit word, by the bits that are used (Manual 2.3 and 2.4). One of nine
/// bits is bits 18..15 above bits 4..0.
fn immediate_32(operation: Operation) -> Field {
    match operation {
        Addi | Muli | Cmpi | Ld | St => signed(&[(18, 15), (4, 0)]),
        Addiu | Andi | Ori => unsigned(&[(18, 15), (4, 0)]),
        Slli | Srli | Srai | Sexti => unsigned(&[(4, 0)]),
        Lli | Lui => unsigned(&[(15, 0)]),
        Jmp | Jal => signed(&[(24, 0)]),
        Branch(_) => signed(&[(21, 0)]),
        Swm => unsigned(&[(0, 0)]),
        Chrs => unsigned(&[(1, 0)]),
        Trap => unsigned(&[(4, 0)]),
        Exb => unsigned(&[(1, 0)]),
        Exh => unsigned(&[(0, 0)]),
        Exbfi => unsigned(&[(4, 0)]),
        _ => Field::NONE,
    }
}

/// The operands of a 16-bit word (Manual 2.2 and 2.3): sr in bits 5..3 is the first source, dr
/// in bits 2..0 the second and the target. C0 is its only condition register.
fn operand_16(operand: Operand, operation: Operation) -> Field {
    let sr = short_register(&[(5, 3)]);
    let dr = short_register(&[(2, 0)]);
    match operand {
        Operand::ConditionRegister => Field::NONE,
        Operand::Target => dr,
        Operand::Source1 if operation.has_register_and_immediate() => dr,
        Operand::Source1 => sr,
        Operand::Source2 => dr,
        Operand::Immediate => immediate_16(operation),
        Operand::Length => Field::NONE,
    }
}

/// The immediate of a 16-bit word, by the bits that are used (Manual 2.3 and 2.4): bits 9..3,
/// of ld and st 9..6, of jumps and branches 9..0; of swm, chrs and trap as in 32-bit words.
fn immediate_16(operation: Operation) -> Field {
    match operation {
        Addi | Muli | Cmpi => signed(&[(9, 3)]),
        Addiu | Andi | Ori => unsigned(&[(9, 3)]),
        Slli | Srli | Srai | Sexti => unsigned(&[(7, 3)]),
        Ld | St => signed(&[(9, 6)]),
        Jmp | Jal | Branch(_) => signed(&[(9, 0)]),
        Swm => unsigned(&[(0, 0)]),
        Chrs => unsigned(&[(1, 0)]),
        Trap => unsigned(&[(4, 0)]),
        Exb => unsigned(&[(4, 3)]),
        Exh => unsigned(&[(3, 3)]),
        _ => Field::NONE,
    }
}

/// A decoded instruction word.
#[derive(Clone, Copy, Debug, PartialEq, Eq)]
pub struct Instruction {
    pub operation: Operation,
    /// The condition that must be true for the operation to be done, if any.
    pub condition: Option<Condition>,
    /// The operands (see `Operand`), those that the operation does not have included: the
    /// registers that the bits name, and 0 for immediate and length.
    pub condition_register: usize,
    pub target: usize,
    pub source1: usize,
    pub source2: usize,
    /// Extended as the operation wants it.
    pub immediate: i64,
    pub length: i64,
}

impl Instruction {
    /// The number of an operand.
    pub fn operand(&self, operand: Operand) -> i64 {
        match operand {
            Operand::ConditionRegister => self.condition_register as i64,
            Operand::Target => self.target as i64,
            Operand::Source1 => self.source1 as i64,
            Operand::Source2 => self.source2 as i64,
            Operand::Immediate => self.immediate,
            Operand::Length => self.length,
        }
    }
}

/// The operation number of a word.
pub fn operation_number(word: u32, length: WordLength) -> u32 {
    Field::operation(length).read(word) as u32
}

/// Decodes a word.
pub fn decode(word: u32, length: WordLength) -> Instruction {
    let operation = Operation::from_number(operation_number(word, length));
    let conditional = operation.may_be_conditional(length) && Field::CONDITIONAL.read(word) == 1;
    let read = |operand| Field::operand(operand, operation, length).read(word);
    Instruction {
        operation,
        condition: conditional.then(|| Condition::from_number(Field::CONDITION.read(word) as u32)),
        condition_register: read(Operand::ConditionRegister) as usize,
        target: read(Operand::Target) as usize,
        source1: read(Operand::Source1) as usize,
        source2: read(Operand::Source2) as usize,
        immediate: read(Operand::Immediate),
        length: read(Operand::Length),
    }
}

/// Bits `high` to `low` of a word, moved down to bit 0.
fn bits(word: u32, high: u32, low: u32) -> u32 {
    ((u64::from(word) >> low) & ((1 << part_width(high, low)) - 1)) as u32
}

/// The number of bits from `high` to `low`.
fn part_width(high: u32, low: u32) -> u32 {
    high - low + 1
}

/// The signed number that the low `width` bits stand for in two's complement.
fn sign_extend(value: i64, width: u32) -> i64 {
    if value >> (width - 1) & 1 == 1 {
        value - (1 << width)
    } else {
        value
    }
}
