//! Random images that questions 2 to 5 accept (Manual 8).

use crate::image::*;
use crate::program::{
    self, BeforeNops, Region, Role, AMOUNT, CODE_BASES, CONTROL_BASES, CONTROL_REACHES, DATA_BASES,
    FIELDS, STATUSES, TIMER_CONFIGURATIONS, TIMER_COUNTS,
};
use crate::random::Random;
use crate::words;

/// Fills `image` with a random state for a program and a number of cells; `keeps_nops` is whether
/// the program has nops wherever they have to follow.
pub fn build(
    random: &mut Random,
    program: &[u8],
    regions: &[Region],
    keeps_nops: bool,
    cells: usize,
    image: &mut Image,
) {
    *image = Image::new();
    let mut builder = Builder {
        random,
        program,
        regions,
        keeps_nops,
        cells: cells as u32,
        image,
    };
    builder.control_block();
    builder.timers();
    builder.registers();
    builder.stack();
    builder.position();
}

/// A half of TMR_CONF, mostly of a timer that is enabled, seldom of a watchdog.
fn timer_half(random: &mut Random) -> u32 {
    let mut half = match random.below(8) {
        0..=3 => 0,
        4 | 5 => random.range(1, 3),
        6 => random.range(4, 30),
        _ => 255 - random.below(2),
    };
    // INTN and the reserved bit.
    half |= random.below(16) << 8;
    for (bit, percent) in [(EN, 85), (CONT, 50), (GINT, 65), (WDOG, 16)] {
        if random.percent(percent) {
            half |= bit;
        }
    }
    half
}

/// A count and a maximum, mostly close to each other.
fn timer_counts(random: &mut Random) -> (u32, u32) {
    let maximum = match random.below(8) {
        0 | 1 => 0,
        2 | 3 => random.range(1, 5),
        4 | 5 => random.below(60),
        6 => u32::MAX - random.below(3),
        _ => random.number(),
    };
    let count = match random.below(8) {
        0 => maximum.wrapping_sub(1),
        1 | 2 => maximum.wrapping_sub(random.below(8)),
        3 => maximum.wrapping_sub(random.below(60)),
        4 => maximum,
        5 => maximum.wrapping_add(random.range(1, 4)),
        6 => u32::MAX - random.below(6),
        _ => random.number(),
    };
    (count, maximum)
}

struct Builder<'a> {
    random: &'a mut Random,
    program: &'a [u8],
    regions: &'a [Region],
    keeps_nops: bool,
    cells: u32,
    image: &'a mut Image,
}

impl Builder<'_> {
    fn control_block(&mut self) {
        for offset in 0..CONTROL_REGISTERS {
            self.image.control[offset] = self.random.number() & control_mask(offset);
        }
        self.image.control[CORE_VER_ID] = 1;
        let base = match self.random.below(16) {
            0..=3 => 0,
            4..=6 => 256,
            7 | 8 => 256 * self.random.below(8),
            9 => self.cells & !255,
            10..=12 => 0x0001_0000,
            13 => 0xFFFF_FF00,
            14 => 0x0000_FF00,
            _ => self.random.word() & !255,
        };
        self.image.control[CCB_BASE] = base;

        let (low, high) = self.data_bounds();
        self.image.control[DMEM_BOUND_LO] = low;
        self.image.control[DMEM_BOUND_HI] = high;
        let (low, high) = self.code_bounds();
        self.image.control[IMEM_BOUND_LO] = low;
        self.image.control[IMEM_BOUND_HI] = high;

        // Vectors, each with the word length of the region that it leads to.
        let mut widths = 0;
        for source in 0..SOURCES {
            let region = self.region(Role::Handler);
            self.image.control[INT_VEC + source] = self.entrance(region);
            widths |= u32::from(region.wide) << source;
        }
        if self.random.one_in(12) {
            widths = self.random.word() & 0xFFF;
        }
        self.image.control[INT_MODE_IL] = widths;
        self.image.control[INT_MODE_UM] = self.flags();
        self.image.control[INT_MASK] = if self.random.percent(65) {
            0xFFF
        } else {
            self.flags()
        };
        self.image.control[INT_PEND] = match self.random.below(4) {
            0 => 1 << self.random.below(12),
            1 => self.flags(),
            _ => 0,
        };
        self.priorities();

        // Both are entered with 32-bit words.
        for offset in [SYSTEM_ADDR, EXCEP_ADDR] {
            let region = self.wide_region(Role::System);
            // A wrong EXCEP_ADDR only leads to itself.
            self.image.control[offset] = if offset == SYSTEM_ADDR || self.random.one_in(8) {
                self.entrance(region)
            } else {
                program::word_of(self.random, region, true)
            };
        }
    }

    /// Both timers: in half of the images both are disabled, in a quarter one, besides those
    /// that timer_half disables.
    fn timers(&mut self) {
        let running = self.random.pick(&[0, 0, 0, 0, 0b01, 0b10, 0b11, 0b11]);
        // Both at their maxima with the same clock.
        let together = self.random.percent(20);
        let clocks = self.random.range(1, 4);
        for number in 0..TIMERS {
            let (mut count, maximum) = timer_counts(self.random);
            let mut half = timer_half(self.random);
            if together {
                count = maximum.wrapping_sub(clocks);
                half &= !0xFF;
            }
            if running >> number & 1 == 0 {
                half &= !EN;
            }
            let div = half & 0xFF;
            let divider = match self.random.below(8) {
                0..=2 => 0,
                3 => div,
                4 => div.saturating_sub(1),
                5 => (div + 1).min(255),
                6 => 255,
                _ => self.random.below(256),
            };
            let timer = Timer {
                count,
                maximum,
                half,
                divider,
            };
            self.image.set_timer(number, timer);
        }
    }

    /// Four bits for each source: all different, all alike, two values, or any.
    fn priorities(&mut self) {
        let shape = self.random.below(6);
        let common = self.random.below(16);
        let other = self.random.below(16);
        let mut both = 0_u64;
        for source in 0..SOURCES as u32 {
            let priority = match shape {
                0 => source,
                1 => 15 - source,
                2 => common,
                3 => self.random.pick(&[common, other]),
                _ => self.random.below(16),
            };
            both |= u64::from(priority) << (4 * source);
        }
        self.image.control[COP_INT_PRI] = both as u32 & 0xFFFF;
        self.image.control[EXT_INT_PRI] = (both >> 16) as u32;
    }

    /// Twelve flags: none, all, or any.
    fn flags(&mut self) -> u32 {
        match self.random.below(8) {
            0 => 0,
            1 | 2 => 0xFFF,
            _ => self.random.word() & 0xFFF,
        }
    }

    /// A data address close to the ends of the cells, the control block or the bounds.
    fn data_point(&mut self) -> u32 {
        let base = self.image.control[CCB_BASE];
        match self.random.below(8) {
            0 => 0,
            1 => self.cells / 2,
            2 => self.cells,
            3 => base,
            4 => base + 255,
            5 => self.image.control[DMEM_BOUND_LO],
            6 => self.image.control[DMEM_BOUND_HI],
            _ => self.random.below(self.cells.max(1)),
        }
    }

    fn data_bounds(&mut self) -> (u32, u32) {
        match self.random.below(16) {
            0..=3 => self.no_bounds(),
            4 => (0, u32::MAX),
            5 => {
                let base = self.image.control[CCB_BASE];
                (base, base + 255)
            }
            _ => {
                let low = self.data_point();
                let low = self.shifted(low);
                let high = match self.random.below(4) {
                    0 => low,
                    1 => low.saturating_add(self.random.below(20)),
                    2 => u32::MAX,
                    _ => {
                        let high = self.data_point();
                        self.shifted(high)
                    }
                };
                (low, high)
            }
        }
    }

    fn code_bounds(&mut self) -> (u32, u32) {
        let region = self.random.pick(self.regions);
        let point = program::word_of(self.random, region, region.wide) + self.random.below(4);
        match self.random.below(16) {
            0..=6 => self.no_bounds(),
            7 if self.random.percent(50) => (0, u32::MAX),
            7 => (u32::MAX - self.random.below(6), u32::MAX),
            8..=10 => (point, point),
            11 => (point, u32::MAX),
            12 => (0, point),
            13 => (region.start, region.end - 1),
            _ => (point, point.saturating_add(self.random.below(12))),
        }
    }

    /// A low bound above the high one, which protects nothing.
    fn no_bounds(&mut self) -> (u32, u32) {
        match self.random.below(4) {
            0 => (u32::MAX, 0),
            1 => {
                let high = self.random.below(600);
                (high + 1, high)
            }
            _ => (1, 0),
        }
    }

    /// An address, or one at most two away.
    fn shifted(&mut self, address: u32) -> u32 {
        if self.random.percent(50) {
            address
        } else {
            address.wrapping_add(self.random.below(5)).wrapping_sub(2)
        }
    }

    fn registers(&mut self) {
        for number in 0..32 {
            self.image.set1[number] = self.random.number();
            self.image.set2[number] = self.random.number();
        }
        let base = self.image.control[CCB_BASE];
        for second in [false, true] {
            for register in DATA_BASES {
                let address = self.data_point();
                let address = self.shifted(address);
                self.set(second, register, address);
            }
            self.set(second, CONTROL_BASES[0], base);
            let reach = match self.random.below(4) {
                0 => 8,
                1 => 0x18,
                2 => self.random.below(0x30),
                _ => CONTROL_REACHES[1],
            };
            self.set(second, CONTROL_BASES[1], base + reach);
            for (register, wide) in CODE_BASES.into_iter().zip([true, false]) {
                let address = self.code_address(wide);
                self.set(second, register, address);
            }
            let amount = self.random.below(34);
            self.set(second, AMOUNT, amount);
            for register in FIELDS {
                let (length, position) = program::field(self.random);
                // The bits above are ignored.
                let above = if self.random.percent(50) {
                    self.random.word() << 11
                } else {
                    0
                };
                self.set(second, register, above | length << 5 | position);
            }
            for register in TIMER_CONFIGURATIONS {
                let mut both = timer_half(self.random) << 16 | timer_half(self.random);
                // Watchdogs with DIV 0.
                if self.random.one_in(4) {
                    both = (EN | WDOG) << 16 | EN | WDOG | both & (CONT << 16 | CONT);
                }
                self.set(second, register, both);
            }
            let (count, maximum) = timer_counts(self.random);
            for (register, number) in TIMER_COUNTS.into_iter().zip([count, maximum]) {
                self.set(second, register, number);
            }
            let wide = self.random.percent(60);
            let link = self.code_address(wide);
            self.set(second, LINK as u32, link);
            for (register, wide) in STATUSES.into_iter().zip([true, false]) {
                let status = self.stored_status(wide);
                self.set(second, register, status);
            }
        }
        self.image.set2[SPSR] = match self.random.below(4) {
            0 => self.random.number(),
            1 => {
                let wide = self.random.percent(60);
                self.stored_status(wide)
            }
            _ => self.random.pick(&[0x09, 0x19, 0x01, 0x11, 0x0E]),
        };
        for register in &mut self.image.conditions {
            *register = self.random.below(8);
        }
    }

    fn set(&mut self, second: bool, register: u32, value: u32) {
        if second {
            self.image.set2[register as usize] = value;
        } else {
            self.image.set1[register as usize] = value;
        }
    }

    fn position(&mut self) {
        // One state in ten starts at a load or store with an address outside 32 bits, one in
        // twenty at a store to a RETI_ register, as many at a reti after such stores, and as
        // many at a word after which nops have to follow; most do where nops are missing.
        let mut start = self.random.below(20);
        if !self.keeps_nops && self.random.percent(60) {
            start = 4;
        }
        let region = match start {
            2 | 3 => self.region(Role::Handler),
            _ => self.random.pick(self.regions),
        };
        let mut wide = region.wide;
        let pc = self.entrance(region);
        if self.random.one_in(30) {
            wide = !wide;
        }
        self.image.set2[PSR] = self.status(wide);
        self.image.position[PC] = pc;
        match start {
            0 | 1 => self.address_outside(region),
            2 => self.stack_top_store(region),
            3 => self.changed_return(region),
            4 => self.required_nops(),
            _ => {}
        }
        if self.random.percent(12) {
            self.image.position[SLOT] = 1;
            self.image.position[TARGET] = if self.random.percent(85) {
                self.code_address(wide)
            } else {
                self.random.number()
            };
        }
        if self.random.percent(15) {
            self.image.position[PRODUCT] = 1;
            self.image.position[HIGH] = self.random.number();
            self.image.position[LOW] = self.random.number();
            if self.random.percent(60) {
                let mulhi = |word| words::operation(word, region.wide) == words::MULHI;
                if let Some((address, _)) = self.first_in(region, region.start, mulhi) {
                    self.image.position[PC] = address;
                    // A mulhi that may be protected holds no interrupt back.
                    if self.random.percent(20) {
                        let point = address + self.random.below(4);
                        self.image.control[IMEM_BOUND_LO] = point;
                        self.image.control[IMEM_BOUND_HI] = point;
                    }
                }
            }
        }
    }

    /// Starts at a load or store of a region with an address outside 32 bits, mostly with
    /// bounds that end at the wrapped address or next to it.
    fn address_outside(&mut self, region: Region) {
        let from = program::word_of(self.random, region, region.wide);
        let access = |word| {
            matches!(words::operation(word, region.wide), words::LD | words::ST)
                && words::memory_operand(word, region.wide).1 != 0
        };
        let Some((at, word)) = self.first_in(region, from, access) else {
            return;
        };
        let (base, immediate) = words::memory_operand(word, region.wide);
        // From the end of the range, less far than the immediate goes.
        let distance = self.random.below(immediate.unsigned_abs() as u32);
        let start = if immediate < 0 {
            distance
        } else {
            u32::MAX - distance
        };
        self.image.position[PC] = at;
        self.set_both(base, start);
        let wrapped = start.wrapping_add(immediate as u32);
        let point = wrapped.wrapping_add(self.random.below(3)).wrapping_sub(1);
        let (low, high) = match self.random.below(6) {
            0 => (point, point),
            1 => (0, point),
            2 => (point, u32::MAX),
            3 => (point, point.saturating_add(self.random.below(20))),
            // A low bound above the high one.
            4 => (point.max(1), point.max(1) - 1),
            _ => return,
        };
        self.image.control[DMEM_BOUND_LO] = low;
        self.image.control[DMEM_BOUND_HI] = high;
    }

    /// Starts at a store of a region with a RETI_ register as its address, any number to store,
    /// and mostly with bounds that protect the register or end next to it.
    fn stack_top_store(&mut self, region: Region) {
        let wide = region.wide;
        let from = program::word_of(self.random, region, wide);
        let store = |word| words::operation(word, wide) == words::ST;
        let Some((at, word)) = self.first_in(region, from, store) else {
            return;
        };
        let (base, immediate) = words::memory_operand(word, wide);
        // The one that the word is for, so that those after it find theirs.
        let offset = program::control_register(base, immediate as u32)
            .filter(|offset| RETI_REGISTERS.contains(offset))
            .unwrap_or_else(|| self.random.pick(&RETI_REGISTERS));
        let block = self.image.control[CCB_BASE];
        let address = block + offset as u32;
        let Ok(start) = u32::try_from(i64::from(address) - immediate) else {
            return;
        };
        self.image.position[PC] = at;
        let number = match offset {
            RETI_ADDR => self.stored_address(wide),
            RETI_PSR => self.stored_status(wide),
            _ => self.random.number(),
        };
        self.set_both(words::stored_register(word, wide), number);
        self.set_both(base, start);
        let (low, high) = match self.random.below(8) {
            0..=2 => self.no_bounds(),
            3 => (address, address),
            4 => (block, block + 255),
            5 => (0, address - 1),
            6 => (address + 1, u32::MAX),
            _ => return,
        };
        self.image.control[DMEM_BOUND_LO] = low;
        self.image.control[DMEM_BOUND_HI] = high;
    }

    /// Starts at a reti of a region with a top entry as stores to the RETI_ registers leave it.
    fn changed_return(&mut self, region: Region) {
        let reti = |word| words::operation(word, region.wide) == words::RETI;
        let found = self.first_in(region, region.start, reti);
        let (Some((at, _)), Some(top)) = (found, self.image.depth.checked_sub(1)) else {
            return;
        };
        self.image.position[PC] = at;
        let wide = self.random.percent(50);
        self.image.stack[top].address = self.stored_address(wide);
        self.image.stack[top].psr = self.status(wide);
        self.image.show_stack();
    }

    /// Starts at a word after which nops have to follow, mostly with a bound among them or next
    /// to them.
    fn required_nops(&mut self) {
        let found = BeforeNops::last_or_other(self.random, self.program, self.regions);
        let Some(place) = found else {
            return;
        };
        let BeforeNops {
            at,
            wide,
            operation,
        } = place;
        let psr = self.status(wide);
        let user = if operation == words::RETU { 25 } else { 80 };
        self.image.set2[PSR] = if self.random.percent(user) {
            psr & (IE | IL) | UM
        } else {
            psr & !UM
        };
        self.image.position[PC] = at;
        let width = words::bytes(wide);
        let nops = words::required_nops(operation);
        let word = at + width * self.random.range(1, nops);
        let point = match self.random.below(10) {
            0 | 1 => word,
            2 | 3 => word + width - 1,
            4..=6 => word + self.random.below(width),
            7 => at + width - 1,
            _ => place.end(),
        };
        let (low, high) = match self.random.below(8) {
            0..=4 => (point, point),
            5 => (point, u32::MAX),
            6 => (point, point + self.random.below(12)),
            _ => self.no_bounds(),
        };
        self.image.control[IMEM_BOUND_LO] = low;
        self.image.control[IMEM_BOUND_HI] = high;
    }

    /// Sets a register in both sets, but for PSR.
    fn set_both(&mut self, register: usize, value: u32) {
        self.image.set1[register] = value;
        if register != PSR {
            self.image.set2[register] = value;
        }
    }

    /// A number for RETI_ADDR: an instruction address for words of the given length, or one
    /// that is misaligned, protected, absent or too high, or anything.
    fn stored_address(&mut self, wide: bool) -> u32 {
        let address = program::code_address(self.random, self.regions, wide);
        match self.random.below(16) {
            0..=7 => address,
            8 | 9 => address + self.random.range(1, 3),
            10 | 11 => {
                let bound = self.random.pick(&[IMEM_BOUND_LO, IMEM_BOUND_HI]);
                self.image.control[bound] & !(words::bytes(wide) - 1)
            }
            12 => (self.program.len() as u32 & !3) + 4 * self.random.below(2),
            13 | 14 => address | 1 << self.random.range(16, 31),
            _ => self.random.number(),
        }
    }

    /// A number for RETI_PSR with the given word length: either mode with any RSRD and RSWR,
    /// often with bits above, which are not kept.
    fn stored_status(&mut self, wide: bool) -> u32 {
        let sets = self.random.pick(&[0, RSRD, RSWR, RSRD | RSWR]);
        let above = match self.random.below(4) {
            0 => 32 << self.random.below(27),
            1 => self.random.word() & !31,
            _ => 0,
        };
        self.status(wide) | sets | above
    }

    /// The first word of a region from an address on that is wanted, with its address.
    fn first_in(
        &self,
        region: Region,
        from: u32,
        wanted: impl Fn(u32) -> bool,
    ) -> Option<(u32, u32)> {
        (from..region.end)
            .step_by(words::bytes(region.wide) as usize)
            .map_while(|at| Some((at, words::word_at(self.program, at, region.wide)?)))
            .find(|&(_, word)| wanted(word))
    }

    /// A valid PSR with the given word length.
    fn status(&mut self, wide: bool) -> u32 {
        let mut psr = if wide { IL } else { 0 };
        if self.random.percent(60) {
            psr |= IE;
        }
        if self.random.percent(60) {
            psr |= UM;
        } else {
            psr |= self.random.pick(&[0, RSRD, RSWR, RSRD | RSWR]);
        }
        psr
    }

    fn stack(&mut self) {
        let depth = match self.random.below(16) {
            0..=8 => 0,
            9..=12 => self.random.range(1, 3),
            13 | 14 => self.random.range(4, 11),
            _ => 12,
        };
        // Different sources, in any order.
        let mut sources: [u32; SOURCES] = std::array::from_fn(|source| source as u32);
        for place in 0..depth {
            let other = self.random.range(place, SOURCES as u32 - 1);
            sources.swap(place as usize, other as usize);
        }
        // Mostly the later one has the smaller priority number, and a source that is
        // not in service a smaller one still.
        let ordered = self.random.percent(70);
        for (place, &source) in sources[..depth as usize].iter().enumerate() {
            let wide = self.random.percent(50);
            self.image.stack[place] = Entry {
                source,
                address: self.code_address(wide),
                psr: self.status(wide),
                c0: self.random.below(8),
            };
            if ordered {
                let (offset, field) = if source < 4 {
                    (COP_INT_PRI, source)
                } else {
                    (EXT_INT_PRI, source - 4)
                };
                self.image.control[offset] |= 8 << (4 * field);
            }
        }
        self.image.depth = depth as usize;
        self.image.show_stack();
    }

    /// An instruction address for words of the given length, seldom a wrong one.
    fn code_address(&mut self, wide: bool) -> u32 {
        let address = program::code_address(self.random, self.regions, wide);
        self.mostly(address)
    }

    fn entrance(&mut self, region: Region) -> u32 {
        let address = program::word_of(self.random, region, region.wide);
        self.mostly(address)
    }

    /// The address, or seldom one that is misaligned, absent, close to the end of the
    /// 32-bit range, or anything.
    fn mostly(&mut self, address: u32) -> u32 {
        match self.random.below(128) {
            0 | 1 => address + self.random.below(4),
            2 | 3 => (self.program.len() as u32 & !3) + 4 * self.random.below(2),
            4 => 0_u32.wrapping_sub(2 * self.random.range(1, 3)),
            5 => self.random.number(),
            _ => address,
        }
    }

    /// A region, mostly one of the given role.
    fn region(&mut self, role: Role) -> Region {
        let mut region = self.random.pick(self.regions);
        for _ in 0..4 {
            if region.role == role {
                break;
            }
            region = self.random.pick(self.regions);
        }
        region
    }

    /// A region, mostly one of 32-bit words and the given role.
    fn wide_region(&mut self, role: Role) -> Region {
        let mut region = self.region(role);
        for _ in 0..6 {
            if region.wide {
                break;
            }
            region = self.random.pick(self.regions);
        }
        region
    }
}
