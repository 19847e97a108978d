//! Instruction words in both widths (Manual 2).

/// The names of the operations.
pub const NAMES: [&str; 64] = [
    "nop", "add", "addu", "sub", "subu", "and", "or", "xor", "muls", "mulu", "mulus", "muls_16",
    "mulu_16", "mulus_16", "sll", "srl", "sra", "sext", "addi", "addiu", "andi", "ori", "muli",
    "slli", "srli", "srai", "sexti", "ld", "st", "mov", "not", "mulhi", "cmp", "cmpi", "lli",
    "lui", "jmp", "jal", "jmpr", "jalr", "bc", "begt", "belt", "beq", "bgt", "blt", "bne", "bnc",
    "scall", "retu", "reti", "chrs", "di", "ei", "swm", "trap", "scon", "rcon", "conb", "conh",
    "exb", "exh", "exbf", "exbfi",
];

/// The number of 16-bit words.
pub const SHORT_WORDS: u64 = 0x1_0000;

/// Operation numbers that the generator treats apart.
pub const NOP: u32 = 0;
pub const MULS: u32 = 8;
pub const MULU: u32 = 9;
pub const MULUS: u32 = 10;
pub const MULI: u32 = 22;
pub const SLLI: u32 = 23;
pub const SEXTI: u32 = 26;
pub const LD: u32 = 27;
pub const ST: u32 = 28;
pub const MULHI: u32 = 31;
pub const CMP: u32 = 32;
pub const CMPI: u32 = 33;
pub const LLI: u32 = 34;
pub const LUI: u32 = 35;
pub const JMP: u32 = 36;
pub const JAL: u32 = 37;
pub const JMPR: u32 = 38;
pub const JALR: u32 = 39;
pub const BRANCH: u32 = 40;
pub const LAST_BRANCH: u32 = 47;
pub const SCALL: u32 = 48;
pub const RETU: u32 = 49;
pub const RETI: u32 = 50;
pub const CHRS: u32 = 51;
pub const DI: u32 = 52;
pub const EI: u32 = 53;
pub const SWM: u32 = 54;
pub const TRAP: u32 = 55;
pub const SCON: u32 = 56;
pub const RCON: u32 = 57;
pub const CONB: u32 = 58;
pub const EXB: u32 = 60;
pub const EXH: u32 = 61;
pub const EXBF: u32 = 62;
pub const EXBFI: u32 = 63;

/// Whether the operation may not stand in a branch slot (stop 13).
pub fn is_transfer(operation: u32) -> bool {
    (JMP..=RETI).contains(&operation) || operation == SWM
}

/// The operations after which nops have to follow (Manual 4.6).
pub const BEFORE_NOPS: [u32; 4] = [SCALL, RETU, RETI, SWM];

/// How many nops have to follow the operation.
pub fn required_nops(operation: u32) -> u32 {
    match operation {
        SCALL | RETU => 1,
        SWM => 2,
        RETI => 3,
        _ => 0,
    }
}

/// Whether the operation holds its product for mulhi.
pub fn holds_product(operation: u32) -> bool {
    matches!(operation, MULS | MULU | MULUS | MULI)
}

/// Whether the operation takes the 9-bit or 7-bit immediate.
pub fn has_immediate(operation: u32) -> bool {
    matches!(operation, 18..=26 | CMPI | EXB | EXH)
}

/// Whether an operation is never conditional, so that bit 25 is ignored.
pub fn never_conditional(operation: u32) -> bool {
    matches!(operation, NOP | CMP..=JAL | BRANCH..=LAST_BRANCH | RETU..=RCON | EXBFI)
}

/// Whether a word has a condition.
pub fn has_condition(word: u32, wide: bool) -> bool {
    wide && word >> 25 & 1 == 1 && !never_conditional(operation(word, wide))
}

/// Whether the operation is 02h in a 16-bit word.
pub fn only_wide(operation: u32) -> bool {
    matches!(operation, LLI | LUI | EXBFI)
}

/// The operation number of a word.
pub fn operation(word: u32, wide: bool) -> u32 {
    if wide {
        word >> 26
    } else {
        word >> 10
    }
}

/// The bytes of a word.
pub fn bytes(wide: bool) -> u32 {
    if wide {
        4
    } else {
        2
    }
}

/// The whole words of so many bytes.
pub fn whole(length: usize, wide: bool) -> usize {
    length / bytes(wide) as usize
}

/// Puts a word at a program's end.
pub fn append(program: &mut Vec<u8>, word: u32, wide: bool) {
    let unused = 4 - bytes(wide) as usize;
    program.extend_from_slice(&word.to_be_bytes()[unused..]);
}

/// The word at an address, where all of it is there.
pub fn word_at(program: &[u8], address: u32, wide: bool) -> Option<u32> {
    let start = address as usize;
    let bytes = program.get(start..start + bytes(wide) as usize)?;
    Some(
        bytes
            .iter()
            .fold(0, |word, &byte| word << 8 | u32::from(byte)),
    )
}

/// A 32-bit word of three registers.
pub fn wide_registers(operation: u32, target: u32, first: u32, second: u32) -> u32 {
    operation << 26 | target << 10 | first << 5 | second
}

/// A 32-bit word with a 9-bit immediate, bits 18..15 above bits 4..0.
pub fn wide_immediate(operation: u32, target: u32, first: u32, immediate: u32) -> u32 {
    operation << 26 | (immediate >> 5 & 15) << 15 | target << 10 | first << 5 | immediate & 31
}

/// A 32-bit exbfi, its length in bits 24..19 and its position in bits 4..0.
pub fn wide_field(target: u32, first: u32, length: u32, position: u32) -> u32 {
    EXBFI << 26 | length << 19 | target << 10 | first << 5 | position
}

/// A 16-bit word of two registers, given by their low three bits.
pub fn short_registers(operation: u32, sr: u32, dr: u32) -> u32 {
    operation << 10 | (sr & 7) << 3 | dr & 7
}

/// A 16-bit word with a 7-bit immediate.
pub fn short_immediate(operation: u32, dr: u32, immediate: u32) -> u32 {
    operation << 10 | (immediate & 127) << 3 | dr & 7
}

/// A 16-bit ld or st.
pub fn short_memory(operation: u32, sr: u32, dr: u32, immediate: u32) -> u32 {
    operation << 10 | (immediate & 15) << 6 | (sr & 7) << 3 | dr & 7
}

/// The bits of the immediate of jmp, jal or a branch, which are the lowest.
pub fn jump_mask(operation: u32, wide: bool) -> u32 {
    match (wide, operation) {
        (false, _) => 0x03FF,
        (true, JMP | JAL) => 0x01FF_FFFF,
        (true, _) => 0x003F_FFFF,
    }
}

/// The target of a jmp, jal or branch at an address: the slot's address plus twice the signed
/// immediate.
pub fn jump_target(word: u32, wide: bool, at: u32) -> i64 {
    let mask = jump_mask(operation(word, wide), wide);
    let sign = i64::from(mask / 2 + 1);
    let immediate = (i64::from(word & mask) ^ sign) - sign;
    i64::from(at + bytes(wide)) + 2 * immediate
}

/// The base register and the signed immediate of ld or st.
pub fn memory_operand(word: u32, wide: bool) -> (usize, i64) {
    if wide {
        let immediate = i64::from(word >> 15 & 15) << 5 | i64::from(word & 31);
        ((word >> 5 & 31) as usize, (immediate ^ 256) - 256)
    } else {
        let immediate = i64::from(word >> 6 & 15);
        ((word >> 3 & 7) as usize + 24, (immediate ^ 8) - 8)
    }
}

/// The register that st stores.
pub fn stored_register(word: u32, wide: bool) -> usize {
    if wide {
        (word >> 10 & 31) as usize
    } else {
        (word & 7) as usize + 24
    }
}

/// The register that is the second source.
pub fn second_source(word: u32, wide: bool) -> usize {
    if wide {
        (word & 31) as usize
    } else {
        (word & 7) as usize + 24
    }
}

/// The immediate of exb and exh, of which they use the lowest bits.
pub fn low_immediate(word: u32, wide: bool) -> u32 {
    if wide {
        word & 31
    } else {
        word >> 3 & 31
    }
}

/// Whether a condition holds of a condition register (Manual 2.6).
pub fn condition(number: u32, register: u32) -> bool {
    let (z, n, c) = (register & 4 != 0, register & 2 != 0, register & 1 != 0);
    match number {
        0 => c,
        1 => !n,
        2 => n || z,
        3 => z,
        4 => !n && !z,
        5 => n,
        6 => !z,
        _ => !c,
    }
}

#[cfg(test)]
mod tests {
    use super::*;

    /// Words worked by hand.
    #[test]
    fn worked_by_hand() {
        assert_eq!(short_registers(3, 26, 25), 0x0C11);
        assert_eq!(wide_registers(SWM, 0, 0, 0), 0xD800_0000);
        assert_eq!(wide_immediate(18, 2, 1, 0x1FF), 0x4807_883F);
        assert_eq!(LLI << 26 | 1 << 16 | 5, 0x8801_0005);
        assert_eq!(wide_registers(TRAP, 0, 0, 3), 0xDC00_0003);
        assert_eq!(memory_operand(0x4807_883F, true), (1, -1));
        assert_eq!(jump_target(JMP << 26 | 1, true, 0), 6);
        assert_eq!(jump_target(JMP << 26 | 2, true, 0), 8);
    }

    /// Targets at both ends of an immediate, the bits above it at 1.
    #[test]
    fn jump_targets() {
        for (operation, wide, far) in [
            (JAL, true, 0x0200_0000),
            (LAST_BRANCH, true, 0x0040_0000),
            (JMP, false, 0x400),
            (BRANCH, false, 0x400),
        ] {
            let mask = jump_mask(operation, wide);
            let above = if wide { 0x03FF_FFFF & !mask } else { 0 };
            let word = operation << (8 * bytes(wide) - 6) | above;
            let slot = 8 + i64::from(bytes(wide));
            assert_eq!(jump_target(word, wide, 8), slot);
            assert_eq!(jump_target(word | mask, wide, 8), slot - 2);
            assert_eq!(jump_target(word | (mask / 2), wide, 8), slot + far - 2);
            assert_eq!(jump_target(word | (mask / 2 + 1), wide, 8), slot - far);
        }
    }

    /// What is put at a program's end is there.
    #[test]
    fn appended() {
        let mut program = Vec::new();
        append(&mut program, 0xD800_0001, true);
        append(&mut program, 0x0C11, false);
        assert_eq!(program, [0xD8, 0, 0, 1, 0x0C, 0x11]);
        assert_eq!([true, false].map(|wide| whole(6, wide)), [1, 3]);
        assert_eq!(word_at(&program, 4, false), Some(0x0C11));
        assert_eq!(word_at(&program, 4, true), None);
    }

    /// The numbers of the byte and field operations, and exbfi's fields.
    #[test]
    fn byte_and_field_operations() {
        let names = ["conb", "conh", "exb", "exh", "exbf", "exbfi"];
        assert_eq!(NAMES[CONB as usize..=EXBFI as usize], names);
        assert_eq!(wide_field(31, 31, 63, 31), 0xFDF8_7FFF);
        assert_eq!(wide_field(0, 0, 1, 0), 0xFC08_0000);
    }
}
