//! Listings: a line of text for each word of a program (Manual 11).

use crate::decode::{decode, Condition, Instruction, Operand, Operation, Operation::*, WordLength};
use crate::operands::operands;
use crate::PROGRAM_LIMIT;

/// The bytes of a line: 47 characters and a newline.
const LINE: usize = 48;

/// Writes the lines of `program` to the front of `text`, whose further bytes keep their
/// values, and answers 0. `wide` is 0 for 16-bit words, any other number for 32-bit words.
///
/// Or changes nothing and answers 1 when the program has more than 65,536 bytes, then 16 when
/// its bytes are no whole number of words, then 17 when the text has fewer than 48 bytes for
/// each word.
pub fn listing(program: &[u8], wide: u32, text: &mut [u8]) -> u32 {
    let length = WordLength::from_wide(wide);
    let word_bytes = length.bytes() as usize;
    if program.len() > PROGRAM_LIMIT {
        return 1;
    }
    let left_over = program.len() % word_bytes;
    if left_over > 0 {
        return 16;
    }
    let words = program.len() / word_bytes;
    if text.len() < words * LINE {
        return 17;
    }
    for (number, bytes) in program.chunks_exact(word_bytes).enumerate() {
        // High byte first.
        let word = bytes
            .iter()
            .fold(0, |word, &byte| word << 8 | u32::from(byte));
        let address = number * word_bytes;
        let start = number * LINE;
        let line = line(address, word, length);
        text[start..start + LINE].copy_from_slice(line.as_bytes());
    }
    0
}

/// The line of a word (Manual 11): its address, 8 hex digits; the word, 8 or 4 of them; its
/// condition, as `egt C7`, in 6 characters; its name in 8; its operands in 13. A blank stands
/// between two parts, and each is filled with blanks on its right.
fn line(address: usize, word: u32, length: WordLength) -> String {
    let digits = match length {
        WordLength::Bits16 => format!("{word:04X}"),
        WordLength::Bits32 => format!("{word:08X}"),
    };
    let instruction = decode(word, length);
    let condition = match instruction.condition {
        Some(condition) => {
            let name = condition_name(condition);
            format!("{name} C{}", instruction.condition_register)
        }
        None => String::new(),
    };
    // An operation with no form in this width shows `?` and no operands.
    let (name, operands) = if instruction.operation.has_form(length) {
        (
            operation_name(instruction.operation),
            operands(instruction.operation, length),
        )
    } else {
        ("?", &[][..])
    };
    let operands: Vec<String> = operands
        .iter()
        .map(|&operand| operand_text(&instruction, operand))
        .collect();
    let operands = operands.join(" ");
    format!("{address:08X} {digits:<8} {condition:<6} {name:<8} {operands:<13}\n")
}

/// An operand as text: a register with its letter, or a decimal number.
fn operand_text(instruction: &Instruction, operand: Operand) -> String {
    let number = instruction.operand(operand);
    match operand {
        Operand::ConditionRegister => format!("C{number}"),
        Operand::Target | Operand::Source1 | Operand::Source2 => format!("R{number}"),
        Operand::Immediate | Operand::Length => number.to_string(),
    }
}

/// The name of a condition (Manual 2.6).
fn condition_name(condition: Condition) -> &'static str {
    match condition {
        Condition::Carry => "c",
        Condition::EqualOrGreater => "egt",
        Condition::EqualOrLess => "elt",
        Condition::Equal => "eq",
        Condition::Greater => "gt",
        Condition::Less => "lt",
        Condition::NotEqual => "ne",
        Condition::NoCarry => "nc",
    }
}

/// The name of an operation (Manual 3.1).
fn operation_name(operation: Operation) -> &'static str {
    match operation {
        Nop => "nop",
        Add => "add",
        Addu => "addu",
        Sub => "sub",
        Subu => "subu",
        And => "and",
        Or => "or",
        Xor => "xor",
        Muls => "muls",
        Mulu => "mulu",
        Mulus => "mulus",
        Muls16 => "muls_16",
        Mulu16 => "mulu_16",
        Mulus16 => "mulus_16",
        Sll => "sll",
        Srl => "srl",
        Sra => "sra",
        Sext => "sext",
        Addi => "addi",
        Addiu => "addiu",
        Andi => "andi",
        Ori => "ori",
        Muli => "muli",
        Slli => "slli",
        Srli => "srli",
        Srai => "srai",
        Sexti => "sexti",
        Ld => "ld",
        St => "st",
        Mov => "mov",
        Not => "not",
        Mulhi => "mulhi",
        Cmp => "cmp",
        Cmpi => "cmpi",
        Lli => "lli",
        Lui => "lui",
        Jmp => "jmp",
        Jal => "jal",
        Jmpr => "jmpr",
        Jalr => "jalr",
        Branch(Condition::Carry) => "bc",
        Branch(Condition::EqualOrGreater) => "begt",
        Branch(Condition::EqualOrLess) => "belt",
        Branch(Condition::Equal) => "beq",
        Branch(Condition::Greater) => "bgt",
        Branch(Condition::Less) => "blt",
        Branch(Condition::NotEqual) => "bne",
        Branch(Condition::NoCarry) => "bnc",
        Scall => "scall",
        Retu => "retu",
        Reti => "reti",
        Chrs => "chrs",
        Di => "di",
        Ei => "ei",
        Swm => "swm",
        Trap => "trap",
        Scon => "scon",
        Rcon => "rcon",
        Conb => "conb",
        Conh => "conh",
        Exb => "exb",
        Exh => "exh",
        Exbf => "exbf",
        Exbfi => "exbfi",
    }
}
