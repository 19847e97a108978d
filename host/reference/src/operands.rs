//! The operands that an operation has, in the order in which they are shown and given
//! (Manual 11 and 12).

use crate::decode::{Operand, Operand::*, Operation, Operation::*, WordLength};

/// The operands of an operation that has a form in this width (Manual 3.1). Each
/// comment is a form of 32-bit words, then the one of 16-bit words where it differs.
pub fn operands(operation: Operation, length: WordLength) -> &'static [Operand] {
    use WordLength::{Bits16, Bits32};
    match (operation, length) {
        // nop, scall, retu, reti, di, ei
        (Nop | Scall | Retu | Reti | Di | Ei, _) => &[],
        // conh dreg, sreg2, sreg1 / conh dr, sr
        (Conh, Bits32) => &[Target, Source2, Source1],
        (Conh, Bits16) => &[Target, Source1],
        // add dreg, sreg1, sreg2 / add dr, sr
        (
            Add | Addu | Sub | Subu | And | Or | Xor | Muls | Mulu | Mulus | Muls16 | Mulu16
            | Mulus16 | Sll | Srl | Sra | Sext | Conb | Exbf,
            Bits32,
        ) => &[Target, Source1, Source2],
        (
            Add | Addu | Sub | Subu | And | Or | Xor | Muls | Mulu | Mulus | Muls16 | Mulu16
            | Mulus16 | Sll | Srl | Sra | Sext | Conb | Exbf,
            Bits16,
        ) => &[Target, Source1],
        // addi dreg, sreg1, imm / addi dr, imm
        (Addi | Addiu | Andi | Ori | Muli | Slli | Srli | Srai | Sexti | Exb | Exh, Bits32) => {
            &[Target, Source1, Immediate]
        }
        // In a 16-bit word dr is source and target, of exb and exh too, and shown once.
        (Addi | Addiu | Andi | Ori | Muli | Slli | Srli | Srai | Sexti | Exb | Exh, Bits16) => {
            &[Target, Immediate]
        }
        // ld dreg, sreg1, imm
        (Ld, _) => &[Target, Source1, Immediate],
        // st dreg, sreg1, imm: the register that is stored comes first
        (St, _) => &[Target, Source1, Immediate],
        // mov dreg, sreg1; not dreg, sreg1
        (Mov | Not, _) => &[Target, Source1],
        // mulhi dreg
        (Mulhi, _) => &[Target],
        // cmp creg, sreg1, sreg2 / cmp sr, dr
        (Cmp, Bits32) => &[ConditionRegister, Source1, Source2],
        (Cmp, Bits16) => &[Source1, Source2],
        // cmpi creg, sreg1, imm / cmpi dr, imm
        (Cmpi, Bits32) => &[ConditionRegister, Source1, Immediate],
        (Cmpi, Bits16) => &[Source1, Immediate],
        // lli dreg, imm; lui dreg, imm
        (Lli | Lui, _) => &[Target, Immediate],
        // jmp imm; jal imm
        (Jmp | Jal, _) => &[Immediate],
        // jmpr sreg1; jalr sreg1
        (Jmpr | Jalr, _) => &[Source1],
        // bc creg, imm / bc imm
        (Branch(_), Bits32) => &[ConditionRegister, Immediate],
        (Branch(_), Bits16) => &[Immediate],
        // chrs imm; swm imm; trap imm
        (Chrs | Swm | Trap, _) => &[Immediate],
        // scon dreg
        (Scon, _) => &[Target],
        // rcon sreg1
        (Rcon, _) => &[Source1],
        // exbfi dreg, sreg1, length, position
        (Exbfi, _) => &[Target, Source1, Length, Immediate],
    }
}
