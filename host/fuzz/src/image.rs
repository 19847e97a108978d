//! The machine image as plain numbers (Manual 8), for the generator and for reports. Nothing
//! here is shared with the reference.

/// Bits of PSR (Manual 1.4).
pub const IE: u32 = 16;
pub const IL: u32 = 8;
pub const RSWR: u32 = 4;
pub const RSRD: u32 = 2;
pub const UM: u32 = 1;

/// Registers of set 2: PSR, SPSR and the link register.
pub const PSR: usize = 29;
pub const SPSR: usize = 30;
pub const LINK: usize = 31;

/// Numbers of the section "position".
pub const PC: usize = 0;
pub const SLOT: usize = 1;
pub const TARGET: usize = 2;
pub const PRODUCT: usize = 3;
pub const HIGH: usize = 4;
pub const LOW: usize = 5;

/// Offsets in the control block (Manual 5.1).
pub const CCB_BASE: usize = 0x00;
pub const INT_VEC: usize = 0x04;
pub const INT_MODE_IL: usize = 0x10;
pub const INT_MODE_UM: usize = 0x11;
pub const INT_MASK: usize = 0x12;
pub const INT_SERV: usize = 0x13;
pub const INT_PEND: usize = 0x14;
pub const EXT_INT_PRI: usize = 0x15;
pub const COP_INT_PRI: usize = 0x16;
pub const EXCEPTION_CS: usize = 0x17;
pub const EXCEPTION_PC: usize = 0x18;
pub const EXCEPTION_PSR: usize = 0x19;
pub const DMEM_BOUND_LO: usize = 0x1A;
pub const DMEM_BOUND_HI: usize = 0x1B;
pub const IMEM_BOUND_LO: usize = 0x1C;
pub const IMEM_BOUND_HI: usize = 0x1D;
pub const MEM_CONF: usize = 0x1E;
pub const SYSTEM_ADDR: usize = 0x1F;
pub const EXCEP_ADDR: usize = 0x20;
pub const BUS_CONF: usize = 0x21;
pub const COP_CONF: usize = 0x22;
pub const TMR0_CNT: usize = 0x23;
pub const TMR0_MAX_CNT: usize = 0x24;
pub const TMR1_CNT: usize = 0x25;
pub const TMR1_MAX_CNT: usize = 0x26;
pub const TMR_CONF: usize = 0x27;
/// The registers of the timers, which follow each other.
pub const TIMER_REGISTERS: [usize; 5] = [TMR0_CNT, TMR0_MAX_CNT, TMR1_CNT, TMR1_MAX_CNT, TMR_CONF];
pub const RETI_ADDR: usize = 0x28;
pub const RETI_PSR: usize = 0x29;
pub const RETI_CR0: usize = 0x2A;
/// The registers that show the stack's top, which follow those of the timers.
pub const RETI_REGISTERS: [usize; 3] = [RETI_ADDR, RETI_PSR, RETI_CR0];
pub const FPU_STATUS: usize = 0x2B;
pub const CORE_VER_ID: usize = 0x2C;

/// The number of control block registers.
pub const CONTROL_REGISTERS: usize = 45;
/// The number of interrupt sources, and the stack's greatest depth.
pub const SOURCES: usize = 12;
/// The number of timers.
pub const TIMERS: usize = 2;
/// The length of an image with an empty stack.
pub const SHORTEST: usize = 528;
/// The length of an image with a full stack, and the least buffer (question 8).
pub const LONGEST: usize = 720;
/// The same lengths in the earlier layout.
pub const EARLIER_SHORTEST: usize = 516;
pub const EARLIER_LONGEST: usize = 708;

/// The sections of an image.
#[derive(Clone, Copy, Debug, PartialEq, Eq)]
pub enum Layout {
    /// Without dividers.
    Earlier,
    /// With a last section of two dividers.
    Present,
}

impl Layout {
    pub fn other(self) -> Layout {
        match self {
            Layout::Earlier => Layout::Present,
            Layout::Present => Layout::Earlier,
        }
    }
}

/// A timer as an image has it.
#[derive(Clone, Copy, Debug, PartialEq, Eq)]
pub struct Timer {
    pub count: u32,
    pub maximum: u32,
    /// Its half of TMR_CONF.
    pub half: u32,
    pub divider: u32,
}

/// Bits of a timer's half of TMR_CONF (Manual 7.1).
pub const EN: u32 = 0x8000;
pub const CONT: u32 = 0x4000;
pub const GINT: u32 = 0x2000;
pub const WDOG: u32 = 0x1000;

/// The bits that the control block register at `offset` can hold (Manual 5.1).
pub fn control_mask(offset: usize) -> u32 {
    match offset {
        CCB_BASE => 0xFFFF_FF00,
        INT_MODE_IL | INT_MODE_UM | INT_MASK | INT_SERV | INT_PEND | BUS_CONF => 0xFFF,
        COP_INT_PRI => 0xFFFF,
        EXCEPTION_CS | EXCEPTION_PSR | RETI_PSR => 0xFF,
        MEM_CONF => 0x3,
        COP_CONF => 0x0FFF_FFFF,
        RETI_CR0 => 0x7,
        FPU_STATUS => 0,
        CORE_VER_ID => 1,
        _ => 0xFFFF_FFFF,
    }
}

/// One entry of the interrupt stack.
#[derive(Clone, Copy, Debug, Default, PartialEq, Eq)]
pub struct Entry {
    pub source: u32,
    pub address: u32,
    pub psr: u32,
    pub c0: u32,
}

/// The numbers of an image.
#[derive(Clone, Debug, PartialEq, Eq)]
pub struct Image {
    pub set1: [u32; 32],
    pub set2: [u32; 32],
    pub conditions: [u32; 8],
    pub control: [u32; CONTROL_REGISTERS],
    pub position: [u32; 6],
    /// The interrupt stack, top last; only the first `depth` entries count.
    pub stack: [Entry; SOURCES],
    pub depth: usize,
    pub dividers: [u32; TIMERS],
}

impl Image {
    /// An image of zeros but for what question 3 and question 5 ask of every image.
    pub fn new() -> Image {
        let mut control = [0; CONTROL_REGISTERS];
        control[CORE_VER_ID] = 1;
        let mut image = Image {
            set1: [0; 32],
            set2: [0; 32],
            conditions: [0; 8],
            control,
            position: [0; 6],
            stack: [Entry::default(); SOURCES],
            depth: 0,
            dividers: [0; TIMERS],
        };
        image.show_stack();
        image
    }

    pub fn psr(&self) -> u32 {
        self.set2[PSR]
    }

    pub fn pc(&self) -> u32 {
        self.position[PC]
    }

    /// Whether the machine is in user mode.
    pub fn user(&self) -> bool {
        self.psr() & UM != 0
    }

    /// Whether instruction words have 32 bits.
    pub fn wide(&self) -> bool {
        self.psr() & IL != 0
    }

    /// A register as a source.
    pub fn source(&self, register: usize) -> u32 {
        if self.psr() & RSRD != 0 {
            self.set2[register]
        } else {
            self.set1[register]
        }
    }

    /// Whether a data address is protected.
    pub fn data_protected(&self, address: u32) -> bool {
        self.control[DMEM_BOUND_LO] <= address && address <= self.control[DMEM_BOUND_HI]
    }

    /// Whether a program byte is protected.
    pub fn code_protected(&self, address: u32) -> bool {
        self.control[IMEM_BOUND_LO] <= address && address <= self.control[IMEM_BOUND_HI]
    }

    /// The priority number of a source.
    pub fn priority(&self, source: usize) -> u32 {
        if source < 4 {
            self.control[COP_INT_PRI] >> (4 * source) & 15
        } else {
            self.control[EXT_INT_PRI] >> (4 * (source - 4)) & 15
        }
    }

    pub fn timer(&self, number: usize) -> Timer {
        Timer {
            count: self.control[TMR0_CNT + 2 * number],
            maximum: self.control[TMR0_MAX_CNT + 2 * number],
            half: self.control[TMR_CONF] >> (16 * number) & 0xFFFF,
            divider: self.dividers[number],
        }
    }

    pub fn set_timer(&mut self, number: usize, timer: Timer) {
        self.control[TMR0_CNT + 2 * number] = timer.count;
        self.control[TMR0_MAX_CNT + 2 * number] = timer.maximum;
        self.control[TMR_CONF] &= !(0xFFFF << (16 * number));
        self.control[TMR_CONF] |= timer.half << (16 * number);
        self.dividers[number] = timer.divider;
    }

    /// Makes INT_SERV and RETI_ agree with the stack (question 5).
    pub fn show_stack(&mut self) {
        let top = match self.depth {
            0 => Entry {
                source: 0,
                address: 1,
                psr: 9,
                c0: 0,
            },
            depth => self.stack[depth - 1],
        };
        self.control[INT_SERV] = self.stack[..self.depth]
            .iter()
            .fold(0, |flags, entry| flags | 1 << entry.source);
        self.control[RETI_ADDR] = top.address;
        self.control[RETI_PSR] = top.psr;
        self.control[RETI_CR0] = top.c0;
    }

    /// Replaces `bytes` by the image's in a layout.
    pub fn write(&self, layout: Layout, bytes: &mut Vec<u8>) {
        bytes.clear();
        let sections: [&[u32]; 5] = [
            &self.set1,
            &self.set2,
            &self.conditions,
            &self.control,
            &self.position,
        ];
        for section in sections {
            push(bytes, section.len() as u32);
            for &number in section {
                push(bytes, number);
            }
        }
        push(bytes, self.depth as u32);
        for entry in &self.stack[..self.depth] {
            push(bytes, entry.source);
            push(bytes, entry.address);
            push(bytes, entry.psr);
            push(bytes, entry.c0);
        }
        if layout == Layout::Present {
            push(bytes, TIMERS as u32);
            for divider in self.dividers {
                push(bytes, divider);
            }
        }
    }

    /// The image at the front of `bytes`, which questions 2 to 5 are known to accept.
    pub fn read(bytes: &[u8]) -> Image {
        let mut image = Image::new();
        let mut at = 0;
        let mut next = || {
            at += 4;
            number(bytes, at / 4 - 1)
        };
        let sections: [&mut [u32]; 5] = [
            &mut image.set1,
            &mut image.set2,
            &mut image.conditions,
            &mut image.control,
            &mut image.position,
        ];
        for section in sections {
            next();
            for place in section {
                *place = next();
            }
        }
        image.depth = next() as usize;
        for entry in &mut image.stack[..image.depth] {
            entry.source = next();
            entry.address = next();
            entry.psr = next();
            entry.c0 = next();
        }
        next();
        for divider in &mut image.dividers {
            *divider = next();
        }
        image
    }
}

impl Default for Image {
    fn default() -> Image {
        Image::new()
    }
}

/// The length of the image at the front of `bytes`.
pub fn length(bytes: &[u8]) -> usize {
    SHORTEST + 16 * depth(bytes)
}

/// The stack's depth in the image at the front of `bytes`; 0 where they are too few.
pub fn depth(bytes: &[u8]) -> usize {
    if bytes.len() < EARLIER_SHORTEST {
        return 0;
    }
    number(bytes, COUNTS[5]) as usize
}

/// The number with this index in an image.
pub fn number(bytes: &[u8], index: usize) -> u32 {
    let at = 4 * index;
    u32::from_be_bytes([bytes[at], bytes[at + 1], bytes[at + 2], bytes[at + 3]])
}

/// Replaces the number with this index in an image.
pub fn set_number(bytes: &mut [u8], index: usize, value: u32) {
    bytes[4 * index..4 * index + 4].copy_from_slice(&value.to_be_bytes());
}

fn push(bytes: &mut Vec<u8>, number: u32) {
    bytes.extend_from_slice(&number.to_be_bytes());
}

/// The index of each section's count, but for the last.
pub const COUNTS: [usize; 6] = [0, 33, 66, 75, 121, 128];

/// The index of the last section's count.
pub fn last_count(depth: usize) -> usize {
    COUNTS[5] + 1 + 4 * depth
}

/// The name of the number with this index in an image of a depth.
pub fn name(index: usize, depth: usize) -> String {
    let position = [
        "PC",
        "slot flag",
        "slot target",
        "product flag",
        "product high",
        "product low",
    ];
    let entry = ["source", "address", "PSR", "C0"];
    match index {
        0 => "count of set 1".to_string(),
        1..=32 => format!("R{}", index - 1),
        33 => "count of set 2".to_string(),
        63 => "PSR".to_string(),
        64 => "SPSR".to_string(),
        34..=65 => format!("PR{}", index - 34),
        66 => "count of conditions".to_string(),
        67..=74 => format!("C{}", index - 67),
        75 => "count of control block".to_string(),
        76..=120 => format!("control block {:02X}h", index - 76),
        121 => "count of position".to_string(),
        122..=127 => position[index - 122].to_string(),
        128 => "stack count".to_string(),
        _ if index < last_count(depth) => format!(
            "stack entry {} {}",
            (index - 129) / 4,
            entry[(index - 129) % 4]
        ),
        _ => match index - last_count(depth) {
            0 => "count of dividers".to_string(),
            place if place <= TIMERS => format!("divider {}", place - 1),
            _ => "behind the image".to_string(),
        },
    }
}

#[cfg(test)]
mod tests {
    use super::*;

    /// A timer keeps to its own registers, its half of TMR_CONF and its divider.
    #[test]
    fn timers() {
        let timers = [0, 1].map(|number| Timer {
            count: 10 + number,
            maximum: 20 + number,
            half: 0xF5A0 + number,
            divider: 30 + number,
        });
        for order in [[0, 1], [1, 0]] {
            let mut image = Image::new();
            image.control[TMR_CONF] = u32::MAX;
            for number in order {
                image.set_timer(number, timers[number]);
            }
            assert_eq!([0, 1].map(|number| image.timer(number)), timers);
            let registers = [10, 20, 11, 21, 0xF5A1_F5A0];
            assert_eq!(image.control[TMR0_CNT..=TMR_CONF], registers);
            assert_eq!(image.dividers, [30, 31]);
        }
    }

    #[test]
    fn lengths_and_indices() {
        let mut image = Image::new();
        let mut bytes = Vec::new();
        image.write(Layout::Present, &mut bytes);
        assert_eq!(bytes.len(), SHORTEST);
        let counts = [32, 32, 8, 45, 6, 0, 2];
        let indices = COUNTS.into_iter().chain([last_count(0)]);
        for (index, count) in indices.zip(counts) {
            assert_eq!(number(&bytes, index), count);
        }
        let new = bytes.clone();
        image.write(Layout::Earlier, &mut bytes);
        assert_eq!(bytes[..], new[..EARLIER_SHORTEST]);
        image.depth = SOURCES;
        for (source, entry) in image.stack.iter_mut().enumerate() {
            entry.source = source as u32;
        }
        image.show_stack();
        image.dividers = [3, 4];
        image.write(Layout::Earlier, &mut bytes);
        assert_eq!(bytes.len(), EARLIER_LONGEST);
        image.write(Layout::Present, &mut bytes);
        assert_eq!(bytes.len(), LONGEST);
        assert_eq!(length(&bytes), LONGEST);
        assert_eq!(number(&bytes, last_count(SOURCES)), 2);
        assert_eq!(Image::read(&bytes), image);
    }

    #[test]
    fn reset_reads_and_writes_back() {
        let mut buffer = [0; LONGEST];
        assert_eq!(coffee_reference::reset(&mut buffer), 0);
        let image = Image::read(&buffer);
        let mut bytes = Vec::new();
        image.write(Layout::Present, &mut bytes);
        assert_eq!(bytes[..], buffer[..SHORTEST]);
        assert_eq!(image.psr(), 0x0E);
    }
}
