//! Listings (Manual 11): the lines of both widths, and the refusals.

use super::bench::*;
use crate::listing;

/// A byte that no line has, to see what is written.
const KEPT: u8 = 0xA5;

/// The bytes of 32-bit words.
pub fn bytes_32(words: &[u32]) -> Vec<u8> {
    words.iter().flat_map(|word| word.to_be_bytes()).collect()
}

/// The bytes of 16-bit words.
pub fn bytes_16(words: &[u16]) -> Vec<u8> {
    words.iter().flat_map(|word| word.to_be_bytes()).collect()
}

/// The listing of a program that is not refused, in a buffer of just its length.
pub fn list(program: &[u8], wide: u32) -> String {
    let word_bytes = if wide == 0 { 2 } else { 4 };
    let mut text = vec![KEPT; program.len() / word_bytes * 48];
    assert_eq!(listing(program, wide, &mut text), 0);
    String::from_utf8(text).expect("only characters")
}

/// Condition, name and operands of a line, their padding cut off, after asking that the line
/// is made as Manual 11 says.
pub fn parts(line: &str) -> [&str; 3] {
    assert_eq!(line.len(), 48);
    assert!(line.is_ascii());
    assert_eq!(&line[47..], "\n");
    for blank in [8, 17, 24, 33] {
        assert_eq!(&line[blank..blank + 1], " ");
    }
    let parts = [&line[18..24], &line[25..33], &line[34..47]].map(|part| part.trim_end());
    for part in parts {
        assert_eq!(part, part.trim_start());
        assert!(!part.contains("  "));
    }
    parts
}

/// The line of a 32-bit word at 0 has these parts.
fn shows(word: u32, expected: [&str; 3]) {
    let line = list(&bytes_32(&[word]), 1);
    assert_eq!(&line[..18], format!("00000000 {word:08X} "));
    assert_eq!(parts(&line), expected, "{word:08X}");
}

/// The line of a 16-bit word at 0 has these parts, and no condition.
fn h_shows(word: u16, name: &str, operands: &str) {
    let line = list(&bytes_16(&[word]), 0);
    assert_eq!(&line[..18], format!("00000000 {word:04X}     "));
    assert_eq!(parts(&line), ["", name, operands], "{word:04X}");
}

/// The run program's example (Manual 16), every column of it.
#[test]
fn a_program_of_32_bit_words() {
    let program = bytes_32(&[0x8801_0005, 0x4807_883F, 0xDC00_0003]);
    let expected = concat!(
        "00000000 88010005        lli      R1 5         \n",
        "00000004 4807883F        addi     R2 R1 -1     \n",
        "00000008 DC000003        trap     3            \n",
    );
    assert_eq!(list(&program, 1), expected);
}

/// The same bytes as 16-bit words. 8801h is lli, which has no form: `?` and no operands.
/// 0005h, 0003h: nop. 4807h: addi R31 0. 883Fh: lli. DC00h: trap 0.
#[test]
fn a_program_of_16_bit_words() {
    let program = bytes_32(&[0x8801_0005, 0x4807_883F, 0xDC00_0003]);
    let expected = concat!(
        "00000000 8801            ?                     \n",
        "00000002 0005            nop                   \n",
        "00000004 4807            addi     R31 0        \n",
        "00000006 883F            ?                     \n",
        "00000008 DC00            trap     0            \n",
        "0000000A 0003            nop                   \n",
    );
    assert_eq!(list(&program, 0), expected);
}

/// Every column of more words. 07C87FFFh is add (04000000h) with bit 25 (02000000h), register
/// 7 (01C00000h), condition 1 (00080000h) and all registers 31 (7FFFh). A7E00000h is begt
/// (A4000000h) with bit 25, register 7 and the least immediate (00200000h).
#[test]
fn whole_lines() {
    for (word, expected) in [
        (
            0x07C8_7FFF,
            "00000000 07C87FFF egt C7 add      R31 R31 R31  \n",
        ),
        (
            0xD800_0000,
            "00000000 D8000000        swm      0            \n",
        ),
        (
            0xFDF8_7FFF,
            "00000000 FDF87FFF        exbfi    R31 R31 63 31\n",
        ),
        (
            0xA7E0_0000,
            "00000000 A7E00000        begt     C7 -2097152  \n",
        ),
        (
            0x3600_0000,
            "00000000 36000000 c C0   mulus_16 R0 R0 R0     \n",
        ),
    ] {
        assert_eq!(list(&bytes_32(&[word]), 1), expected);
    }
    let expected = "00000000 0C11            sub      R25 R26      \n";
    assert_eq!(list(&bytes_16(&[0x0C11]), 0), expected);
}

/// Every operation, with its operands in both widths.
///
/// In 32-bit words: dreg 3, sreg1 1, sreg2 2, which as a 9-bit immediate with bits 18..15 at
/// 0 is 2 too. In 16-bit words: sr 2 is R26, dr 1 is R25, the immediate of 9..3 is 2, that of
/// 9..6 is 0, that of 9..0 is 17, and bits 4..0 are 17; `?` where there is no form.
#[test]
fn operations() {
    let three = "R3 R1 R2";
    let immediate = "R3 R1 2";
    let two = "R25 R26";
    let h_immediate = "R25 2";
    for (operation, name, operands, h_operands) in [
        (0, "nop", "", ""),
        (1, "add", three, two),
        (2, "addu", three, two),
        (3, "sub", three, two),
        (4, "subu", three, two),
        (5, "and", three, two),
        (6, "or", three, two),
        (7, "xor", three, two),
        (8, "muls", three, two),
        (9, "mulu", three, two),
        (10, "mulus", three, two),
        (11, "muls_16", three, two),
        (12, "mulu_16", three, two),
        (13, "mulus_16", three, two),
        (14, "sll", three, two),
        (15, "srl", three, two),
        (16, "sra", three, two),
        (17, "sext", three, two),
        (18, "addi", immediate, h_immediate),
        (19, "addiu", immediate, h_immediate),
        (20, "andi", immediate, h_immediate),
        (21, "ori", immediate, h_immediate),
        (22, "muli", immediate, h_immediate),
        (23, "slli", immediate, h_immediate),
        (24, "srli", immediate, h_immediate),
        (25, "srai", immediate, h_immediate),
        (26, "sexti", immediate, h_immediate),
        (27, "ld", immediate, "R25 R26 0"),
        (28, "st", immediate, "R25 R26 0"),
        (29, "mov", "R3 R1", two),
        (30, "not", "R3 R1", two),
        (31, "mulhi", "R3", "R25"),
        // The first source is sr, the second dr.
        (32, "cmp", "C0 R1 R2", "R26 R25"),
        (33, "cmpi", "C0 R1 2", h_immediate),
        // dreg is 20..16; 0C22h is 3106.
        (34, "lli", "R0 3106", "?"),
        (35, "lui", "R0 3106", "?"),
        (36, "jmp", "3106", "17"),
        (37, "jal", "3106", "17"),
        (38, "jmpr", "R1", "R26"),
        (39, "jalr", "R1", "R26"),
        (40, "bc", "C0 3106", "17"),
        (41, "begt", "C0 3106", "17"),
        (42, "belt", "C0 3106", "17"),
        (43, "beq", "C0 3106", "17"),
        (44, "bgt", "C0 3106", "17"),
        (45, "blt", "C0 3106", "17"),
        (46, "bne", "C0 3106", "17"),
        (47, "bnc", "C0 3106", "17"),
        (48, "scall", "", ""),
        (49, "retu", "", ""),
        (50, "reti", "", ""),
        (51, "chrs", "2", "1"),
        (52, "di", "", ""),
        (53, "ei", "", ""),
        (54, "swm", "0", "1"),
        (55, "trap", "2", "17"),
        (56, "scon", "R3", "R25"),
        (57, "rcon", "R1", "R26"),
        (58, "conb", three, two),
        // conh has its second source before the first.
        (59, "conh", "R3 R2 R1", two),
        (60, "exb", immediate, h_immediate),
        (61, "exh", "R3 R1 0", "R25 0"),
        (62, "exbf", three, two),
        (63, "exbfi", "R3 R1 0 2", "?"),
    ] {
        shows(operation << 26 | 0x0C22, ["", name, operands]);
        let h_word = (operation << 10 | 0x0011) as u16;
        match h_operands {
            "?" => h_shows(h_word, "?", ""),
            _ => h_shows(h_word, name, h_operands),
        }
    }
}

/// The names of all registers.
#[test]
fn registers() {
    for number in 0..32 {
        let name = format!("R{number}");
        let other = format!("R{}", 31 - number);
        let word = rrr(1, number, 31 - number, number);
        shows(word, ["", "add", &format!("{name} {other} {name}")]);
        shows(lli(number, 0), ["", "lli", &format!("{name} 0")]);
    }
    for number in 0..8_u16 {
        let name = format!("R{}", 24 + number);
        let other = format!("R{}", 31 - number);
        let word = h_rr(1, 7 - number, number);
        h_shows(word, "add", &format!("{name} {other}"));
        h_shows(h_ri(18, number, 0), "addi", &format!("{name} 0"));
        h_shows(h_plain(56, number), "scon", &name);
    }
}

/// Bit 25 at 1: the condition 21..19, a blank and the register 24..22.
#[test]
fn conditions() {
    let names = ["c", "egt", "elt", "eq", "gt", "lt", "ne", "nc"];
    for (condition, name) in (0..).zip(names) {
        for register in 0..8 {
            let shown = format!("{name} C{register}");
            let word = when(condition, register, rrr(1, 3, 1, 2));
            shows(word, [&shown, "add", "R3 R1 R2"]);
            let word = when(condition, register, rri(27, 3, 1, -256));
            shows(word, [&shown, "ld", "R3 R1 -256"]);
            // With bit 25 at 0 bits 24..19 are ignored.
            let word = word & !(1 << 25);
            shows(word, ["", "ld", "R3 R1 -256"]);
        }
    }
}

/// The operations that may be conditional, each with bit 25 at 1 and at 0.
#[test]
fn conditional_operations() {
    let conditional: Vec<u32> = (1..=31).chain([38, 39, 48]).chain(58..=62).collect();
    for operation in 0..64 {
        let line = list(&bytes_32(&[when(6, 5, operation << 26)]), 1);
        let shown = if conditional.contains(&operation) {
            "ne C5"
        } else {
            ""
        };
        assert_eq!(parts(&line)[0], shown, "operation {operation}");
        let line = list(&bytes_32(&[operation << 26 | 0x1F8_0000]), 1);
        assert_eq!(parts(&line)[0], "", "operation {operation}");
    }
}

/// Operations that are never conditional ignore bit 25; what their bits 24..19 are.
#[test]
fn never_conditional() {
    let bit = 1 << 25;
    shows(bit | 0x1FF_FFFF, ["", "nop", ""]);
    shows(bit | cmp(7, 1, 2), ["", "cmp", "C7 R1 R2"]);
    shows(bit | cmpi(6, 1, -2), ["", "cmpi", "C6 R1 -2"]);
    shows(bit | lli(21, 5), ["", "lli", "R21 5"]);
    shows(bit | lui(21, 5), ["", "lui", "R21 5"]);
    shows(bit | jump(36, -1), ["", "jmp", "-1"]);
    shows(bit | jump(37, 1), ["", "jal", "1"]);
    shows(bit | branch(7, 3, 4), ["", "bnc", "C3 4"]);
    shows(bit | exbfi(3, 1, 33, 4), ["", "exbfi", "R3 R1 33 4"]);
    for (operation, name) in [(49, "retu"), (50, "reti"), (52, "di"), (53, "ei")] {
        shows(bit | plain(operation, 0), ["", name, ""]);
    }
}

/// Immediates by the bits used, negative ones of signed fields with a minus.
#[test]
fn immediates_of_32_bit_words() {
    // Nine bits, signed.
    for (operation, name) in [(18, "addi"), (22, "muli"), (27, "ld"), (28, "st")] {
        for immediate in [-256, -255, -100, -32, -10, -1, 0, 9, 10, 31, 32, 99, 255] {
            let word = rri(operation, 31, 30, immediate);
            shows(word, ["", name, &format!("R31 R30 {immediate}")]);
        }
    }
    shows(cmpi(7, 31, -256), ["", "cmpi", "C7 R31 -256"]);
    shows(cmpi(7, 31, 255), ["", "cmpi", "C7 R31 255"]);
    // Nine bits, unsigned.
    for (operation, name) in [(19, "addiu"), (20, "andi"), (21, "ori")] {
        for immediate in [0, 1, 99, 100, 255, 256, 511] {
            let word = rri(operation, 31, 30, immediate);
            shows(word, ["", name, &format!("R31 R30 {immediate}")]);
        }
    }
    // The five lowest bits.
    for (operation, name) in [(23, "slli"), (24, "srli"), (25, "srai"), (26, "sexti")] {
        shows(rri(operation, 4, 5, 0x1FF), ["", name, "R4 R5 31"]);
        shows(rri(operation, 4, 5, 0x1E0), ["", name, "R4 R5 0"]);
        shows(rri(operation, 4, 5, 32), ["", name, "R4 R5 0"]);
    }
    // exb has bits 1..0, exh bit 0.
    shows(rri(60, 4, 5, 0x1FF), ["", "exb", "R4 R5 3"]);
    shows(rri(60, 4, 5, 0x1FC), ["", "exb", "R4 R5 0"]);
    shows(rri(61, 4, 5, 0x1FF), ["", "exh", "R4 R5 1"]);
    shows(rri(61, 4, 5, 0x1FE), ["", "exh", "R4 R5 0"]);
    // lli and lui have bits 15..0, with no sign.
    for (word, name) in [(lli(31, 0xFFFF), "lli"), (lui(31, 0xFFFF), "lui")] {
        shows(word, ["", name, "R31 65535"]);
        shows(word & !0x7FFF, ["", name, "R31 32768"]);
    }
    // jmp and jal have bits 24..0, signed, shown as they stand and not doubled.
    for immediate in [-16_777_216, -16_777_215, -1, 0, 1, 16_777_215] {
        let shown = immediate.to_string();
        shows(jump(36, immediate), ["", "jmp", &shown]);
        shows(jump(37, immediate), ["", "jal", &shown]);
    }
    // Branches have their register in bits 24..22, the immediate in bits 21..0, signed.
    for immediate in [-2_097_152, -1_000_000, -999_999, -1, 0, 1, 2_097_151] {
        let shown = format!("C6 {immediate}");
        shows(branch(2, 6, immediate), ["", "belt", &shown]);
    }
    // swm has bit 0, chrs bits 1..0, trap bits 4..0.
    for immediate in 0..32 {
        shows(
            plain(54, immediate),
            ["", "swm", &(immediate & 1).to_string()],
        );
        shows(
            plain(51, immediate),
            ["", "chrs", &(immediate & 3).to_string()],
        );
        shows(plain(55, immediate), ["", "trap", &immediate.to_string()]);
    }
    // The length before the position; a length over 32 as it stands.
    for length in 0..64 {
        for position in 0..32 {
            let shown = format!("R30 R31 {length} {position}");
            shows(exbfi(30, 31, length, position), ["", "exbfi", &shown]);
        }
    }
}

#[test]
fn immediates_of_16_bit_words() {
    // Bits 9..3.
    for (operation, name) in [(18, "addi"), (22, "muli"), (33, "cmpi")] {
        for immediate in -64..=63 {
            let word = h_ri(operation, 7, immediate);
            h_shows(word, name, &format!("R31 {immediate}"));
        }
    }
    for (operation, name) in [(19, "addiu"), (20, "andi"), (21, "ori")] {
        for immediate in 0..=127 {
            let word = h_ri(operation, 6, immediate);
            h_shows(word, name, &format!("R30 {immediate}"));
        }
    }
    for immediate in 0..=127 {
        for (operation, name) in [(23, "slli"), (24, "srli"), (25, "srai"), (26, "sexti")] {
            let shown = format!("R29 {}", immediate & 31);
            h_shows(h_ri(operation, 5, immediate), name, &shown);
        }
        let shown = format!("R28 {}", immediate & 3);
        h_shows(h_ri(60, 4, immediate), "exb", &shown);
        let shown = format!("R27 {}", immediate & 1);
        h_shows(h_ri(61, 3, immediate), "exh", &shown);
    }
    // ld and st: bits 9..6.
    for immediate in -8..=7 {
        let shown = format!("R30 R31 {immediate}");
        h_shows(h_memory(27, 7, 6, immediate), "ld", &shown);
        h_shows(h_memory(28, 7, 6, immediate), "st", &shown);
    }
    // Jumps and branches: bits 9..0, signed, and no C0.
    for immediate in [-512, -511, -100, -1, 0, 1, 99, 511] {
        let shown = immediate.to_string();
        h_shows(h_jump(36, immediate), "jmp", &shown);
        h_shows(h_jump(37, immediate), "jal", &shown);
        h_shows(h_jump(45, immediate), "blt", &shown);
    }
    for immediate in 0..32 {
        h_shows(h_plain(54, immediate), "swm", &(immediate & 1).to_string());
        h_shows(h_plain(51, immediate), "chrs", &(immediate & 3).to_string());
        h_shows(h_plain(55, immediate), "trap", &immediate.to_string());
    }
}

/// lli, lui and exbfi have no form in 16-bit words, whatever their other bits.
#[test]
fn no_form() {
    for operation in [34, 35, 63] {
        for bits in 0..0x400 {
            h_shows(h_plain(operation, bits), "?", "");
        }
    }
}

/// The bits that an operation uses below bit 25, conditions left out.
pub fn used_32(operation: u32) -> u32 {
    match operation {
        // dreg, sreg1, sreg2; shifts by five bits have the same places.
        1..=17 | 23..=26 | 58 | 59 | 62 => 0x7FFF,
        // and the upper four bits of the immediate
        18..=22 | 27 | 28 => 0x7_FFFF,
        29 | 30 => 0x7FE0,
        31 | 56 => 0x7C00,
        32 => 0x1C0_03FF,
        33 => 0x1C7_83FF,
        34 | 35 => 0x1F_FFFF,
        36 | 37 | 40..=47 => 0x1FF_FFFF,
        38 | 39 | 57 => 0x3E0,
        51 => 3,
        54 => 1,
        55 => 0x1F,
        60 => 0x7FE3,
        61 => 0x7FE1,
        63 => 0x1F8_7FFF,
        _ => 0,
    }
}

/// The bits that an operation uses in a 16-bit word.
pub fn used_16(operation: u32) -> u32 {
    match operation {
        1..=17 | 29 | 30 | 32 | 58 | 59 | 62 => 0x3F,
        18..=22 | 27 | 28 | 33 | 36 | 37 | 40..=47 => 0x3FF,
        23..=26 => 0xFF,
        31 | 56 => 7,
        38 | 39 | 57 => 0x38,
        51 => 3,
        54 => 1,
        55 => 0x1F,
        60 => 0x1F,
        61 => 0xF,
        _ => 0,
    }
}

/// All bits that an operation uses show, and no others do (Manual 2.5). Every single bit, with
/// the other bits 0, 1 or mixed.
#[test]
fn bits_used() {
    let patterns = [
        0, 0x3FF_FFFF, 0x155_5555, 0x2AA_AAAA, 0x123_4567, 0x2DC_BA98,
    ];
    for operation in 0..64 {
        for pattern in patterns {
            let word = operation << 26 | pattern;
            let line = list(&bytes_32(&[word]), 1);
            let may_be_conditional = matches!(operation, 1..=31 | 38 | 39 | 48 | 58..=62);
            for bit in 0..26 {
                let mut used = used_32(operation);
                if may_be_conditional {
                    used |= 1 << 25;
                    if word >> 25 & 1 == 1 {
                        used |= 0x1F8_0000;
                    }
                }
                let other = list(&bytes_32(&[word ^ 1 << bit]), 1);
                let same = line[18..] == other[18..];
                assert_eq!(same, used >> bit & 1 == 0, "{word:08X} bit {bit}");
            }
            let word = word as u16 & 0x3FF | (operation << 10) as u16;
            let line = list(&bytes_16(&[word]), 0);
            for bit in 0..10 {
                let other = list(&bytes_16(&[word ^ 1 << bit]), 0);
                let same = line[18..] == other[18..];
                let used = used_16(operation);
                assert_eq!(same, used >> bit & 1 == 0, "{word:04X} bit {bit}");
            }
        }
    }
}

/// Every 16-bit word, in two programs of 65,536 bytes: the addresses, the words, and lines
/// that are made as they should be.
#[test]
fn all_16_bit_words() {
    for first in [0, 0x8000] {
        let words: Vec<u16> = (0..0x8000).map(|number| first + number).collect();
        let text = list(&bytes_16(&words), 0);
        for (number, &word) in words.iter().enumerate() {
            let line = &text[number * 48..number * 48 + 48];
            let front = format!("{:08X} {word:04X}     ", 2 * number);
            assert_eq!(&line[..18], front);
            assert_eq!(parts(line)[0], "");
        }
        assert_eq!(&text[48 * 0x7FFF..][..8], "0000FFFE");
    }
}

/// The longest program of 32-bit words: addresses count bytes, digits are capitals.
#[test]
fn addresses() {
    let words: Vec<u32> = (0..16_384_u32)
        .map(|number| number.wrapping_mul(0x9E37_79B1))
        .collect();
    let text = list(&bytes_32(&words), 1);
    assert_eq!(text.len(), 786_432);
    for (number, word) in words.iter().enumerate() {
        let line = &text[number * 48..number * 48 + 48];
        assert_eq!(&line[..18], format!("{:08X} {word:08X} ", 4 * number));
        parts(line);
    }
    assert_eq!(&text[48 * 0x3FFF..][..8], "0000FFFC");
}

/// Any `wide` but 0 means 32-bit words.
#[test]
fn widths() {
    let program = bytes_32(&[0x8801_0005, 0x0C11_0C11]);
    let expected = list(&program, 1);
    for wide in [2, 3, 16, 32, 256, 0x1_0000, 0x8000_0000, 0xFFFF_FFFF] {
        assert_eq!(list(&program, wide), expected);
    }
    assert_eq!(list(&program, 0).len(), 4 * 48);
}

/// Asks for a listing that is refused, and that it changes nothing.
fn refused(length: usize, wide: u32, text_length: usize, refusal: u32) {
    let program = vec![0; length];
    let mut text = vec![KEPT; text_length];
    assert_eq!(listing(&program, wide, &mut text), refusal);
    assert!(text.iter().all(|&byte| byte == KEPT));
}

/// The refusals alone.
#[test]
fn refusals() {
    // 1: more than 65,536 bytes.
    refused(65_538, 0, 2_000_000, 1);
    refused(65_540, 1, 2_000_000, 1);
    // 16: no whole number of words.
    for length in [1, 3, 65_535] {
        refused(length, 0, 2_000_000, 16);
    }
    for length in [1, 2, 3, 5, 6, 7, 65_533, 65_534, 65_535] {
        refused(length, 1, 2_000_000, 16);
    }
    // 17: fewer than 48 bytes for each word.
    for (length, wide) in [(2, 0), (4, 0), (4, 1), (8, 1), (65_536, 0), (65_536, 1)] {
        let words = if wide == 0 { length / 2 } else { length / 4 };
        refused(length, wide, 48 * words - 1, 17);
        refused(length, wide, 47 * words, 17);
        refused(length, wide, 0, 17);
    }
}

/// 1 before 16 before 17.
#[test]
fn order_of_refusals() {
    for wide in [0, 1] {
        refused(65_537, wide, 2_000_000, 1);
        refused(65_540, wide, 0, 1);
        refused(65_537, wide, 0, 1);
        refused(65_535, wide, 0, 16);
        refused(7, wide, 47, 16);
        refused(1, wide, 0, 16);
    }
}

/// A buffer of just the length, and longer ones: every byte past the lines keeps its value.
#[test]
fn buffers() {
    let wide = bytes_32(&[rrr(1, 3, 1, 2), NOP]);
    for (program, width, lines) in [(&wide, 1, 2), (&wide, 0, 4)] {
        let expected = list(program, width);
        assert_eq!(expected.len(), 48 * lines);
        for more in [0, 1, 47, 48, 49, 1000] {
            let mut text = vec![KEPT; 48 * lines + more];
            assert_eq!(listing(program, width, &mut text), 0);
            assert_eq!(&text[..48 * lines], expected.as_bytes());
            assert!(text[48 * lines..].iter().all(|&byte| byte == KEPT));
        }
    }
}

/// A program of no words has no lines and needs no buffer.
#[test]
fn empty_program() {
    for wide in [0, 1] {
        for length in [0, 1, 48, 100] {
            let mut text = vec![KEPT; length];
            assert_eq!(listing(&[], wide, &mut text), 0);
            assert!(text.iter().all(|&byte| byte == KEPT));
        }
    }
}
