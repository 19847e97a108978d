//! Random programs: regions of 16-bit and 32-bit words, biased towards words that run.

use crate::call::MEMORY_LIMIT;
use crate::image::{
    RETI_ADDR, RETI_PSR, RETI_REGISTERS, TIMER_REGISTERS, TMR0_CNT, TMR1_MAX_CNT, TMR_CONF,
};
use crate::random::Random;
use crate::words::{self, *};

/// What a region is for, which decides how it ends.
#[derive(Clone, Copy, Debug, PartialEq, Eq)]
pub enum Role {
    /// Ends with swm into the next region, with a jump, or runs on.
    Plain,
    /// An interrupt handler: ends with reti.
    Handler,
    /// A system or exception handler: ends with retu.
    System,
}

impl Role {
    /// How many nops a region has at its end.
    fn nops(self) -> u32 {
        match self {
            Role::Plain => 0,
            Role::Handler => required_nops(RETI),
            Role::System => required_nops(RETU),
        }
    }
}

/// A part of the program whose words have one width.
#[derive(Clone, Copy, Debug)]
pub struct Region {
    pub start: u32,
    pub end: u32,
    pub wide: bool,
    pub role: Role,
}

impl Region {
    /// Where the nops at its end start, or its end.
    fn nops(self) -> u32 {
        self.end - self.role.nops() * words::bytes(self.wide)
    }
}

/// Registers with a purpose, the same in both sets; the others hold any number. The
/// second of each pair is one that a 16-bit word can name.
pub const DATA_BASES: [u32; 2] = [1, 24];
pub const CONTROL_BASES: [u32; 2] = [2, 25];
pub const CODE_BASES: [u32; 2] = [3, 26];
/// A register for shift amounts.
pub const AMOUNT: u32 = 4;
/// Registers for the second source of exbf.
pub const FIELDS: [u32; 2] = [13, 27];

/// What is mostly between CCB_BASE and each of the control bases. From the second a 16-bit word
/// reaches the registers of the timers and of the stack's top.
pub const CONTROL_REACHES: [u32; 2] = [0, TMR0_CNT as u32];
/// Registers for TMR_CONF.
pub const TIMER_CONFIGURATIONS: [u32; 2] = [14, 28];
/// Registers for a timer's count and maximum.
pub const TIMER_COUNTS: [u32; 2] = [15, 16];
/// Registers for RETI_PSR.
pub const STATUSES: [u32; 2] = [17, 30];

/// The greatest length of a program.
const GREATEST: u32 = MEMORY_LIMIT as u32;

/// The draw of a raw random word, after the operations.
const RAW: u32 = 64;

/// The number of kinds of programs.
pub const THEMES: usize = 10;
/// Programs that load and store the registers of the stack's top.
const INTERRUPT_THEME: usize = 4;
/// Programs that change the mode.
const MODE_THEME: usize = 5;
/// Programs that load and store timer registers.
const TIMER_THEME: usize = 9;

/// For each kind of program, the operations, each as often as its weight.
pub struct Themes {
    draws: [Vec<u8>; THEMES],
}

impl Themes {
    pub fn new() -> Themes {
        Themes {
            draws: std::array::from_fn(|theme| {
                let mut draws = Vec::new();
                for operation in 0..=RAW {
                    for _ in 0..weight(theme, operation) {
                        draws.push(operation as u8);
                    }
                }
                draws
            }),
        }
    }

    fn draw(&self, theme: usize, random: &mut Random) -> u32 {
        u32::from(random.pick(&self.draws[theme]))
    }
}

impl Default for Themes {
    fn default() -> Themes {
        Themes::new()
    }
}

/// How often an operation is drawn in a kind of program.
fn weight(theme: usize, operation: u32) -> u32 {
    let mixed = match operation {
        0 => 4,
        1 | 3 | 18 => 10,
        2 | 4 => 8,
        5..=7 => 5,
        8..=10 | MULI => 5,
        11..=13 => 3,
        14..=17 | 20 | 21 | 23..=26 => 4,
        19 => 6,
        LD | ST => 16,
        29 => 4,
        30 => 3,
        CMP => 6,
        CMPI => 8,
        LLI => 8,
        LUI => 5,
        JMP => 4,
        JAL | JMPR | JALR => 3,
        BRANCH..=LAST_BRANCH => 3,
        SCALL => 3,
        CHRS => 3,
        EI => 4,
        SCON | RCON => 3,
        CONB..=EXBFI => 4,
        _ => 1,
    };
    match (theme, operation) {
        // Arithmetic, fields and flags.
        (1, 1..=30 | CMP | CMPI | SCON..=EXBFI) => 3 * mixed,
        // Loads and stores.
        (2, LD | ST) => 6 * mixed,
        // Jumps and branches.
        (3, JMP..=LAST_BRANCH | CMP | CMPI) => 4 * mixed,
        (INTERRUPT_THEME, EI | RETI) => 10,
        (INTERRUPT_THEME, DI) => 3,
        (MODE_THEME, SCALL | RETU | RETI | CHRS | DI | EI | TRAP) => 12,
        (MODE_THEME, SWM) => 8,
        // Multiplication.
        (6, 8..=13 | MULI) => 6 * mixed,
        (6, MULHI) => 6,
        // Every operation alike, and raw words.
        (7, _) => 1,
        (8, RAW) => 60,
        (TIMER_THEME, LD | ST) => 3 * mixed,
        _ => mixed,
    }
}

/// Replaces `bytes` and `regions` by a random program, and says whether it has nops wherever they
/// have to follow, but for those that its end cuts off.
pub fn build(
    random: &mut Random,
    themes: &Themes,
    bytes: &mut Vec<u8>,
    regions: &mut Vec<Region>,
) -> bool {
    let mut theme = random.below(THEMES as u32) as usize;
    let keeps_nops = random.percent(92);
    if !keeps_nops && random.percent(60) {
        theme = MODE_THEME;
    }
    lay_out(random, bytes, regions);
    for index in 0..regions.len() {
        Filler {
            random,
            themes,
            theme,
            keeps_nops,
            bytes,
            regions,
        }
        .fill(index);
    }
    // A last word that is there in part only (stop 11), and a tail of anything.
    let length = bytes.len();
    match random.below(16) {
        0 => bytes.truncate(length - random.below(4) as usize),
        1 => bytes.truncate(random.below(length as u32 + 1) as usize),
        2 if length < 60_000 => {
            for _ in 0..random.below(9) {
                let byte = random.word() as u8;
                bytes.push(byte);
            }
        }
        3..=10 if !keeps_nops => end_among_nops(random, bytes, regions),
        _ => {}
    }
    keeps_nops
}

/// Ends the program among or after the nops that have to follow a word of it; now and then moves
/// the end to the greatest length.
fn end_among_nops(random: &mut Random, bytes: &mut Vec<u8>, regions: &mut [Region]) {
    let Some(place) = BeforeNops::pick(random, bytes, regions) else {
        return;
    };
    let width = words::bytes(place.wide);
    let first = place.at + width;
    let length = random.range(first, place.end()).min(GREATEST);
    bytes.resize(length as usize, 0);
    // Mostly nops as far as words are there, and anything in a part of one.
    let whole = (length - first) / width * width;
    let (whole, part) = bytes[first as usize..].split_at_mut(whole as usize);
    if random.percent(75) {
        whole.fill(0);
    }
    for byte in part {
        *byte = if random.percent(50) {
            0
        } else {
            random.word() as u8
        };
    }
    if length & 3 == 0 && random.one_in(4) {
        let origin = GREATEST - length;
        bytes.splice(0..0, vec![0; origin as usize]);
        for region in regions {
            region.start += origin;
            region.end += origin;
        }
    }
}

/// A word after which nops have to follow.
#[derive(Clone, Copy)]
pub struct BeforeNops {
    pub at: u32,
    pub wide: bool,
    pub operation: u32,
}

impl BeforeNops {
    /// The first address after the nops.
    pub fn end(self) -> u32 {
        self.at + (1 + required_nops(self.operation)) * words::bytes(self.wide)
    }

    /// One of a program's, if it has one.
    fn pick(random: &mut Random, bytes: &[u8], regions: &[Region]) -> Option<BeforeNops> {
        let mut places = BeforeNops::all(bytes, regions);
        let operation = random.pick(&BEFORE_NOPS);
        if places.iter().any(|place| place.operation == operation) {
            places.retain(|place| place.operation == operation);
        }
        (!places.is_empty()).then(|| random.pick(&places))
    }

    /// One of a program's, if it has one: mostly that among or after whose nops it ends.
    pub fn last_or_other(
        random: &mut Random,
        bytes: &[u8],
        regions: &[Region],
    ) -> Option<BeforeNops> {
        let last = BeforeNops::all(bytes, regions).last().copied();
        match last {
            Some(last) if last.end() as usize >= bytes.len() && random.percent(70) => Some(last),
            _ => BeforeNops::pick(random, bytes, regions),
        }
    }

    /// All of a program's.
    fn all(bytes: &[u8], regions: &[Region]) -> Vec<BeforeNops> {
        let mut all = Vec::new();
        for region in regions {
            let wide = region.wide;
            for at in (region.start..region.end).step_by(words::bytes(wide) as usize) {
                let Some(word) = words::word_at(bytes, at, wide) else {
                    break;
                };
                let operation = words::operation(word, wide);
                if required_nops(operation) > 0 {
                    all.push(BeforeNops {
                        at,
                        wide,
                        operation,
                    });
                }
            }
        }
        all
    }
}

/// Decides where the regions are, and fills the program with zeros (nop).
fn lay_out(random: &mut Random, bytes: &mut Vec<u8>, regions: &mut Vec<Region>) {
    regions.clear();
    let mut at = 0_u32;
    for index in 0..random.range(1, 5) {
        let wide = random.percent(if index == 0 { 70 } else { 55 });
        let role = match random.below(16) {
            0..=4 => Role::Handler,
            5..=7 => Role::System,
            _ => Role::Plain,
        };
        if wide && at & 2 != 0 {
            at += 2;
            if let Some(before) = regions.last_mut() {
                before.end = at;
            }
        }
        let count = if random.one_in(10) {
            random.range(20, 50)
        } else {
            random.range(3, 16)
        };
        let end = at + (count + role.nops()) * words::bytes(wide);
        regions.push(Region {
            start: at,
            end,
            wide,
            role,
        });
        at = end;
    }
    // Mostly at address 0, now and then further on, or up to the greatest length.
    let origin = match random.below(1000) {
        0..=19 => 4 * random.range(1, 60),
        20..=22 => (GREATEST - at) & !3,
        _ => 0,
    };
    for region in regions.iter_mut() {
        region.start += origin;
        region.end += origin;
    }
    bytes.clear();
    bytes.resize((at + origin) as usize, 0);
}

/// Fills the regions of one program.
struct Filler<'a> {
    random: &'a mut Random,
    themes: &'a Themes,
    theme: usize,
    /// Whether nops follow wherever they have to.
    keeps_nops: bool,
    bytes: &'a mut Vec<u8>,
    regions: &'a [Region],
}

impl Filler<'_> {
    fn fill(&mut self, index: usize) {
        let region = self.regions[index];
        let wide = region.wide;
        let width = words::bytes(wide);
        let next_width = self.regions.get(index + 1).map(|next| next.wide);
        let last = next_width.is_none();

        // Where the region's planned end starts, counted from its end, and its word.
        let (tail, tail_word) = match region.role {
            Role::Handler => (1 + self.nops_at_end(RETI), self.plain(RETI, wide)),
            Role::System => (1 + self.nops_at_end(RETU), self.plain(RETU, wide)),
            Role::Plain if next_width == Some(!wide) && self.random.percent(95) => {
                let bit = u32::from(!wide);
                (3, self.plain(SWM, wide) & !1 | bit)
            }
            Role::Plain if last && self.random.percent(75) => {
                (2, self.jump(JMP, region.end - 2 * width, wide))
            }
            _ => (0, 0),
        };
        let tail_at = region.end - tail * width;
        // A handler may change where and how it returns.
        let accesses = match region.role {
            Role::Handler if self.random.percent(30) => self.random.range(1, 6),
            _ => 0,
        };
        let accesses_at = tail_at.saturating_sub(accesses * width);

        let mut at = region.start;
        if region.role != Role::Plain && self.random.percent(40) {
            let word = self.plain(EI, wide);
            self.put(at, wide, word);
            at += width;
        }
        // Whether the word before is a jump, and whether it holds its product.
        let mut slot = false;
        let mut held = false;
        // The nops that have still to follow.
        let mut nops: u32 = 0;
        while at < region.end {
            let word = if at == tail_at {
                tail_word
            } else if (accesses_at..tail_at).contains(&at) {
                let operation = if self.random.percent(75) { ST } else { LD };
                self.register_access(operation, wide, &RETI_REGISTERS)
            } else if nops > 0 {
                self.required_nop(at, wide)
            } else {
                let planned = [accesses_at, tail_at, region.end];
                let next = planned.into_iter().find(|&next| next > at);
                let room = (next.unwrap_or(region.end) - at) / width - 1;
                let mut word = self.word(at, wide, slot, held);
                while self.keeps_nops && required_nops(operation(word, wide)) > room {
                    word = self.word(at, wide, slot, held);
                }
                word
            };
            let operation = operation(word, wide);
            nops = required_nops(operation).max(nops.saturating_sub(1));
            self.put(at, wide, word);
            slot = (JMP..=LAST_BRANCH).contains(&operation);
            held = holds_product(operation);
            at += width;
        }
    }

    fn put(&mut self, at: u32, wide: bool, word: u32) {
        let at = at as usize;
        if wide {
            self.bytes[at..at + 4].copy_from_slice(&word.to_be_bytes());
        } else {
            self.bytes[at..at + 2].copy_from_slice(&(word as u16).to_be_bytes());
        }
    }

    /// How many of the nops after an operation a region has at its end.
    fn nops_at_end(&mut self, operation: u32) -> u32 {
        let nops = required_nops(operation);
        if self.keeps_nops {
            nops
        } else {
            self.random.below(nops + 1)
        }
    }

    /// A nop that has to follow, often with bits that it ignores; or, where the program does not
    /// keep to that, another operation, often one with a single bit.
    fn required_nop(&mut self, at: u32, wide: bool) -> u32 {
        let shift = if wide { 26 } else { 10 };
        let ignored = if self.random.percent(50) {
            self.random.word() & ((1 << shift) - 1)
        } else {
            0
        };
        if self.keeps_nops || self.random.percent(60) {
            ignored
        } else if self.random.percent(50) {
            ignored | 1 << shift << self.random.below(6)
        } else {
            self.word(at, wide, false, false)
        }
    }

    /// A word for the address `at`.
    fn word(&mut self, at: u32, wide: bool, slot: bool, held: bool) -> u32 {
        let mut operation = self.themes.draw(self.theme, self.random);
        if held && self.random.percent(60) {
            operation = MULHI;
        } else if operation == MULHI && !held && self.random.percent(70) {
            operation = MULU;
        }
        if !wide && only_wide(operation) && self.random.percent(90) {
            operation = 19;
        }
        // A conditional transfer in a slot: stop 13, its condition true or not.
        if slot && wide && self.random.one_in(50) {
            let transfer = self.random.pick(&[JMPR, JALR, SCALL]);
            return self.plain(transfer, wide) | 1 << 25;
        }
        while slot && is_transfer(operation) && !self.random.one_in(25) {
            operation = self.themes.draw(self.theme, self.random);
        }
        match operation {
            LD | ST => self.memory(operation, wide),
            JMP | JAL | BRANCH..=LAST_BRANCH => self.jump(operation, at, wide),
            LLI | LUI if wide => {
                let immediate = self.random.number() & 0xFFFF;
                operation << 26 | self.noise(0x03E0_0000) | self.target() << 16 | immediate
            }
            EXBFI if wide => {
                let (length, position) = field(self.random);
                wide_field(self.target(), self.source(), length, position)
                    | self.noise(0x0007_8000)
                    | self.random.below(2) << 25
            }
            RAW => {
                let raw = self.random.word();
                if wide {
                    raw
                } else {
                    raw & 0xFFFF
                }
            }
            _ => self.plain(operation, wide),
        }
    }

    /// An operation on registers, with an immediate or without operands.
    fn plain(&mut self, operation: u32, wide: bool) -> u32 {
        let target = match operation {
            // The second source too.
            EXBF if !wide && self.random.percent(60) => FIELDS[1],
            _ => self.target(),
        };
        let first = match operation {
            JMPR | JALR => self.code_register(wide),
            _ => self.source(),
        };
        let second = match operation {
            14..=17 if self.random.percent(40) => AMOUNT,
            EXBF if self.random.percent(60) => FIELDS[usize::from(self.random.one_in(4))],
            _ => self.source(),
        };
        let immediate = self.immediate();
        if wide {
            let word = if has_immediate(operation) {
                wide_immediate(operation, target, first, immediate)
            } else {
                wide_registers(operation, target, first, second) | self.noise(0x0007_8000)
            };
            word | self.conditional(operation)
        } else if has_immediate(operation) {
            short_immediate(operation, target, immediate)
        } else {
            short_registers(operation, first, target) | self.noise(0x03C0)
        }
    }

    /// ld or st, mostly close to the bounds, the cells or the control block.
    fn memory(&mut self, operation: u32, wide: bool) -> u32 {
        match self.theme {
            TIMER_THEME if self.random.percent(50) => {
                return self.register_access(operation, wide, &TIMER_REGISTERS)
            }
            INTERRUPT_THEME if self.random.percent(30) => {
                return self.register_access(operation, wide, &RETI_REGISTERS)
            }
            _ => {}
        }
        let width_index = self.width_index(wide);
        let (base, immediate) = match self.random.below(32) {
            0..=16 => (
                DATA_BASES[width_index],
                self.random.below(7).wrapping_sub(2),
            ),
            17..=29 if width_index == 0 => (CONTROL_BASES[0], self.control_offset()),
            17..=29 => (CONTROL_BASES[1], self.random.below(16).wrapping_sub(8)),
            30 => (DATA_BASES[width_index], self.random.word()),
            _ => (self.source(), self.random.word()),
        };
        self.access(operation, wide, base, immediate)
    }

    /// ld or st of one of these registers of the control block.
    fn register_access(&mut self, operation: u32, wide: bool, registers: &[usize]) -> u32 {
        let width_index = self.width_index(wide);
        let offset = self.random.pick(registers) as u32;
        self.access(
            operation,
            wide,
            CONTROL_BASES[width_index],
            offset - CONTROL_REACHES[width_index],
        )
    }

    /// Which of a pair of registers a word names.
    fn width_index(&mut self, wide: bool) -> usize {
        usize::from(!wide || self.random.one_in(4))
    }

    /// ld or st with these operands.
    fn access(&mut self, operation: u32, wide: bool, base: u32, immediate: u32) -> u32 {
        let data = match operation {
            ST if self.random.percent(70) => self.stored(wide, base, immediate),
            ST => self.source(),
            _ => self.target(),
        };
        if wide {
            wide_immediate(operation, data, base, immediate & 511) | self.conditional(operation)
        } else {
            short_memory(operation, base, data, immediate)
        }
    }

    /// A register to store, mostly one with a number that fits the control register.
    fn stored(&mut self, wide: bool, base: u32, immediate: u32) -> u32 {
        match control_register(base as usize, immediate) {
            Some(TMR0_CNT..=TMR1_MAX_CNT) => self.random.pick(&TIMER_COUNTS),
            Some(TMR_CONF) => self.random.pick(&TIMER_CONFIGURATIONS),
            Some(RETI_ADDR) => self.code_register(wide),
            Some(RETI_PSR) => STATUSES[self.width_index(wide)],
            _ => self.source(),
        }
    }

    /// An offset from CCB_BASE, mostly one of a register.
    fn control_offset(&mut self) -> u32 {
        match self.random.below(16) {
            0..=11 => self.random.below(46),
            12 => 0,
            13 => 255,
            14 => self.random.below(256),
            _ => u32::MAX - self.random.below(2),
        }
    }

    /// jmp, jal or a branch at the address `at`, mostly to a word of its own width.
    fn jump(&mut self, operation: u32, at: u32, wide: bool) -> u32 {
        let width = words::bytes(wide);
        let target = match self.random.below(32) {
            // A target by immediate outside 32 bits: 04h.
            0 => -2 * i64::from(self.random.range(1, 40)),
            // Misaligned in 32-bit code (03h).
            1 => i64::from(at) + 2 * i64::from(self.random.below(20)) - 20,
            // Past the program's end, or just anywhere.
            2 => self.bytes.len() as i64 + 2 * i64::from(self.random.below(8)) - 8,
            3 if self.random.one_in(3) => 2 * (i64::from(self.random.word() as i32) >> 8),
            _ => i64::from(self.code_address(wide)),
        };
        let immediate = ((target - i64::from(at + width)) / 2) as u32;
        let immediate = immediate & jump_mask(operation, wide);
        if !wide {
            operation << 10 | immediate
        } else if operation < BRANCH {
            operation << 26 | immediate | self.noise(0x0200_0000)
        } else {
            let register = if self.random.percent(60) {
                0
            } else {
                self.random.below(8)
            };
            operation << 26 | register << 22 | immediate | self.noise(0x0200_0000)
        }
    }

    fn code_address(&mut self, wide: bool) -> u32 {
        code_address(self.random, self.regions, wide)
    }

    /// Bit 25 with a condition, or bits that the word ignores.
    fn conditional(&mut self, operation: u32) -> u32 {
        let fields = if matches!(operation, CMP | CMPI) && self.random.percent(60) {
            // Their target is mostly C0, which most words test.
            self.random.below(8) << 19
        } else {
            self.random.below(64) << 19
        };
        if never_conditional(operation) {
            fields | self.random.below(2) << 25
        } else if self.random.percent(22) {
            fields | 1 << 25
        } else if self.random.percent(30) {
            fields
        } else {
            0
        }
    }

    /// Sometimes random bits under a mask, for bits that the word ignores.
    fn noise(&mut self, mask: u32) -> u32 {
        if self.random.percent(25) {
            self.random.word() & mask
        } else {
            0
        }
    }

    /// A register to write, seldom one with a purpose.
    fn target(&mut self) -> u32 {
        match self.random.below(16) {
            0 => self.random.below(32),
            1..=8 => self.random.range(5, 12),
            _ => self.random.range(27, 31),
        }
    }

    /// A register to read.
    fn source(&mut self) -> u32 {
        match self.random.below(16) {
            0..=2 => self.random.below(32),
            3 => 0,
            4..=9 => self.random.range(5, 12),
            _ => self.random.range(24, 31),
        }
    }

    /// A register with an instruction address.
    fn code_register(&mut self, wide: bool) -> u32 {
        match self.random.below(8) {
            0 => self.source(),
            1 | 2 => 31,
            _ => CODE_BASES[usize::from(!wide)],
        }
    }

    /// An immediate, of which the word keeps 9 or 7 bits.
    fn immediate(&mut self) -> u32 {
        match self.random.below(8) {
            0..=2 => self.random.below(5),
            3 => self.random.below(5).wrapping_neg(),
            4 => self.random.below(40),
            _ => self.random.word() & 511,
        }
    }
}

/// The offset in the control block that ld or st mostly has with a base and an immediate.
pub fn control_register(base: usize, immediate: u32) -> Option<usize> {
    let index = CONTROL_BASES
        .iter()
        .position(|&register| register as usize == base)?;
    Some(immediate.wrapping_add(CONTROL_REACHES[index]) as usize)
}

/// Length and position of a field, often at their ends.
pub fn field(random: &mut Random) -> (u32, u32) {
    let length = match random.below(8) {
        0..=3 => random.pick(&[0, 31, 32, 33, 63]),
        4 => random.below(64),
        _ => random.range(1, 30),
    };
    let position = match random.below(4) {
        0 => 0,
        1 => 31,
        _ => random.below(32),
    };
    (length, position)
}

/// The address of a word of the given width, mostly in a region of that width.
pub fn code_address(random: &mut Random, regions: &[Region], wide: bool) -> u32 {
    let mut region = random.pick(regions);
    for _ in 0..6 {
        if region.wide == wide {
            break;
        }
        region = random.pick(regions);
    }
    word_of(random, region, wide)
}

/// The address of a word of the given width in a region, but for the nops at its end; often its
/// first.
pub fn word_of(random: &mut Random, region: Region, wide: bool) -> u32 {
    if random.percent(35) {
        return region.start;
    }
    let width = words::bytes(wide);
    region.start + width * random.below((region.nops() - region.start) / width)
}

#[cfg(test)]
mod tests {
    use super::*;

    /// Most programs have nops wherever they have to follow and are there; of the others most
    /// have not.
    #[test]
    fn nops_follow() {
        let themes = Themes::new();
        let (mut bytes, mut regions) = (Vec::new(), Vec::new());
        // By what build says and by what is there.
        let mut programs = [[0; 2]; 2];
        for case in 0..5000 {
            let mut random = Random::of_case(3, case);
            let keeps_nops = build(&mut random, &themes, &mut bytes, &mut regions);
            let nops = BeforeNops::all(&bytes, &regions).iter().all(|place| {
                let width = words::bytes(place.wide);
                (place.at + width..place.end())
                    .step_by(width as usize)
                    .filter_map(|at| words::word_at(&bytes, at, place.wide))
                    .all(|word| words::operation(word, place.wide) == NOP)
            });
            programs[usize::from(keeps_nops)][usize::from(nops)] += 1;
        }
        let [[wrong, right], [never, kept]] = programs;
        assert_eq!(never, 0);
        assert!(wrong > right && kept > 8 * (wrong + right));
    }
}
