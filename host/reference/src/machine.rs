//! The state of the machine: two register sets, eight condition registers, the
//! control block, the position in the program, the interrupt stack and the dividers of
//! the timers.

use crate::timers::TIMERS;

/// Bit 4 of PSR (Manual 1.4): interrupts enabled.
pub const IE: u32 = 1 << 4;
/// Bit 3 of PSR: instruction words of 32 bits (1) or 16 bits (0).
pub const IL: u32 = 1 << 3;
/// Bit 2 of PSR: the register set that is written, 1 for set 2.
pub const RSWR: u32 = 1 << 2;
/// Bit 1 of PSR: the register set that is read, 1 for set 2.
pub const RSRD: u32 = 1 << 1;
/// Bit 0 of PSR: user mode (1) or super user mode (0).
pub const UM: u32 = 1 << 0;

/// PSR after reset, on a system call and on an exception: 32-bit words, super
/// user, set 2 for reading and writing, interrupts disabled.
pub const SUPER_USER_PSR: u32 = 0x0E;

/// Index of PSR in register set 2.
pub const PSR: usize = 29;
/// Index of SPSR in register set 2.
pub const SPSR: usize = 30;
/// Index of the link register in either set.
pub const LINK: usize = 31;

/// The number of interrupt sources: 0 to 3 are COP, 4 to 11 EXT.
pub const SOURCES: usize = 12;

/// The number of control block registers, offsets 00h to 2Ch.
pub const CONTROL_REGISTERS: usize = 45;

/// The number of data addresses that the control block covers.
pub const CONTROL_BLOCK_SIZE: u32 = 256;

/// Offsets of the control block registers (Manual 5.1).
pub mod offset {
    pub const CCB_BASE: usize = 0x00;
    pub const PCB_BASE: usize = 0x01;
    pub const PCB_END: usize = 0x02;
    pub const PCB_AMASK: usize = 0x03;
    /// The vectors of sources 0 to 11 follow each other from here.
    pub const COP0_INT_VEC: usize = 0x04;
    pub const INT_MODE_IL: usize = 0x10;
    pub const INT_MODE_UM: usize = 0x11;
    pub const INT_MASK: usize = 0x12;
    pub const INT_SERV: usize = 0x13;
    pub const INT_PEND: usize = 0x14;
    pub const EXT_INT_PRI: usize = 0x15;
    pub const COP_INT_PRI: usize = 0x16;
    pub const EXCEPTION_CS: usize = 0x17;
    pub const EXCEPTION_PC: usize = 0x18;
    pub const EXCEPTION_PSR: usize = 0x19;
    pub const DMEM_BOUND_LO: usize = 0x1A;
    pub const DMEM_BOUND_HI: usize = 0x1B;
    pub const IMEM_BOUND_LO: usize = 0x1C;
    pub const IMEM_BOUND_HI: usize = 0x1D;
    pub const MEM_CONF: usize = 0x1E;
    pub const SYSTEM_ADDR: usize = 0x1F;
    pub const EXCEP_ADDR: usize = 0x20;
    pub const BUS_CONF: usize = 0x21;
    pub const COP_CONF: usize = 0x22;
    /// Of timer 0 and of timer 1, as the next.
    pub const TMR_CNT: [usize; 2] = [0x23, 0x25];
    pub const TMR_MAX_CNT: [usize; 2] = [0x24, 0x26];
    pub const TMR_CONF: usize = 0x27;
    pub const RETI_ADDR: usize = 0x28;
    pub const RETI_PSR: usize = 0x29;
    pub const RETI_CR0: usize = 0x2A;
    pub const FPU_STATUS: usize = 0x2B;
    pub const CORE_VER_ID: usize = 0x2C;
}

/// The width in bits of the control block register at `offset` (Manual 5.1).
pub fn control_width(offset: usize) -> u32 {
    match offset {
        offset::INT_MODE_IL
        | offset::INT_MODE_UM
        | offset::INT_MASK
        | offset::INT_SERV
        | offset::INT_PEND
        | offset::BUS_CONF => 12,
        offset::COP_INT_PRI => 16,
        offset::EXCEPTION_CS | offset::EXCEPTION_PSR | offset::RETI_PSR => 8,
        offset::MEM_CONF => 2,
        offset::COP_CONF => 28,
        offset::RETI_CR0 => 3,
        _ => 32,
    }
}

/// The bits that the control block register at `offset` can hold: its width, and
/// for CCB_BASE a low byte of 0.
fn control_mask(offset: usize) -> u32 {
    if offset == offset::CCB_BASE {
        return 0xFFFF_FF00;
    }
    ((1_u64 << control_width(offset)) - 1) as u32
}

/// Whether the control block register at `offset` can hold `value`: question 3 (Manual 8).
pub fn control_can_hold(offset: usize, value: u32) -> bool {
    match offset {
        offset::FPU_STATUS => value == 0,
        offset::CORE_VER_ID => value == 1,
        _ => value & !control_mask(offset) == 0,
    }
}

/// Whether stores to `offset` are ignored whatever the machine (Manual 5.2).
fn control_read_only(offset: usize) -> bool {
    match offset {
        offset::INT_SERV | offset::INT_PEND => true,
        offset::EXCEPTION_CS | offset::EXCEPTION_PC | offset::EXCEPTION_PSR => true,
        offset::FPU_STATUS | offset::CORE_VER_ID => true,
        _ => offset >= CONTROL_REGISTERS,
    }
}

/// What a store to RETI_PSR puts on the interrupt stack: bits 4..0, with RSRD and RSWR at 0
/// where the stored value's own UM is 1 (Manual 5.3). Question 3 still goes by the register's
/// width of 8.
fn stacked_psr(value: u32) -> u32 {
    let psr = value & (IE | IL | RSWR | RSRD | UM);
    if psr & UM != 0 {
        psr & !(RSWR | RSRD)
    } else {
        psr
    }
}

/// An entry of the interrupt stack: what an accepted interrupt leaves there, and stores to
/// the RETI_ registers replace, but for the source.
#[derive(Clone, Copy, Debug, PartialEq, Eq)]
pub struct StackEntry {
    pub source: u32,
    pub address: u32,
    pub psr: u32,
    pub c0: u32,
}

/// Where the machine stands in the program.
#[derive(Clone, Debug, PartialEq, Eq)]
pub struct Position {
    pub pc: u32,
    /// The target of a taken jump whose branch slot waits at `pc`.
    pub slot: Option<u32>,
    /// The 64-bit product of the step just before.
    pub product: Option<u64>,
}

/// The whole machine, but for the two memories.
#[derive(Clone, Debug, PartialEq, Eq)]
pub struct Machine {
    /// Register set 1, R0 to R31.
    pub set1: [u32; 32],
    /// Register set 2, PR0 to PR31, with PSR as 29 and SPSR as 30.
    pub set2: [u32; 32],
    /// C0 to C7, each Z×4 + N×2 + C.
    pub conditions: [u32; 8],
    /// The control block registers by offset.
    pub control: [u32; CONTROL_REGISTERS],
    pub position: Position,
    /// The interrupt stack, top last.
    pub stack: Vec<StackEntry>,
    /// The divider of each timer.
    pub dividers: [u32; TIMERS],
}

impl Machine {
    /// The machine after reset (Manual 4.12 and 5.1).
    pub fn reset() -> Machine {
        let mut control = [0; CONTROL_REGISTERS];
        control[offset::CCB_BASE] = 0x0001_0000;
        control[offset::PCB_BASE] = 0x0001_0100;
        control[offset::PCB_END] = 0x0001_01FF;
        control[offset::PCB_AMASK] = 0x0000_00FF;
        for source in 0..SOURCES {
            control[offset::COP0_INT_VEC + source] = 0x0000_0001;
        }
        control[offset::INT_MODE_IL] = 0xFFF;
        control[offset::INT_MODE_UM] = 0xFFF;
        control[offset::DMEM_BOUND_LO] = 0x0000_0000;
        control[offset::DMEM_BOUND_HI] = 0xFFFF_FFFF;
        control[offset::IMEM_BOUND_LO] = 0x0000_0000;
        control[offset::IMEM_BOUND_HI] = 0xFFFF_FFFF;
        control[offset::MEM_CONF] = 0x3;
        control[offset::BUS_CONF] = 0xFFF;
        control[offset::RETI_ADDR] = 0x0000_0001;
        control[offset::RETI_PSR] = 0x09;
        control[offset::CORE_VER_ID] = 1;

        let mut set2 = [0; 32];
        set2[PSR] = SUPER_USER_PSR;
        set2[SPSR] = 0x0000_0009;

        Machine {
            set1: [0; 32],
            set2,
            conditions: [0; 8],
            control,
            position: Position {
                pc: 0,
                slot: None,
                product: None,
            },
            stack: Vec::new(),
            dividers: [0; TIMERS],
        }
    }

    /// The processor status register.
    pub fn psr(&self) -> u32 {
        self.set2[PSR]
    }

    /// Replaces the processor status register.
    pub fn set_psr(&mut self, psr: u32) {
        self.set2[PSR] = psr;
    }

    /// Whether the machine is in user mode.
    pub fn user_mode(&self) -> bool {
        self.psr() & UM != 0
    }

    /// Reads a register as a source, from the set that RSRD names.
    pub fn read_register(&self, index: usize) -> u32 {
        if self.psr() & RSRD != 0 {
            self.set2[index]
        } else {
            self.set1[index]
        }
    }

    /// Reads a register as a target, from the set that RSWR names (for lui).
    pub fn read_target(&self, index: usize) -> u32 {
        if self.psr() & RSWR != 0 {
            self.set2[index]
        } else {
            self.set1[index]
        }
    }

    /// Writes a register in the set that RSWR names; a result for PSR is thrown away
    /// (Manual 1.4).
    pub fn write_register(&mut self, index: usize, value: u32) {
        if self.psr() & RSWR == 0 {
            self.set1[index] = value;
        } else if index != PSR {
            self.set2[index] = value;
        }
    }

    /// Reads the control block at an offset of 0 to 255; 0 beyond 2Ch.
    pub fn read_control(&self, offset: usize) -> u32 {
        self.control.get(offset).copied().unwrap_or(0)
    }

    /// Stores to the control block at an offset of 0 to 255 (Manual 5.2). A short register
    /// keeps its low bits, CCB_BASE none of its low byte; stores to RETI_ADDR, RETI_PSR and
    /// RETI_CR0 replace the top entry's address, PSR or C0 (Manual 5.3).
    pub fn store_control(&mut self, offset: usize, value: u32) {
        if control_read_only(offset) {
            return;
        }
        let kept = value & control_mask(offset);
        match offset {
            offset::RETI_ADDR => self.change_stack_top(|top| top.address = kept),
            offset::RETI_PSR => self.change_stack_top(|top| top.psr = stacked_psr(kept)),
            offset::RETI_CR0 => self.change_stack_top(|top| top.c0 = kept),
            _ => self.control[offset] = kept,
        }
    }

    /// Puts an entry on the interrupt stack and sets its source's flag in INT_SERV.
    pub fn push(&mut self, entry: StackEntry) {
        self.control[offset::INT_SERV] |= 1 << entry.source;
        self.stack.push(entry);
        self.show_stack_top();
    }

    /// Takes the top entry off the interrupt stack and clears its source's flag in
    /// INT_SERV; nothing when the stack is empty.
    pub fn pop(&mut self) -> Option<StackEntry> {
        let entry = self.stack.pop()?;
        self.control[offset::INT_SERV] &= !(1 << entry.source);
        self.show_stack_top();
        Some(entry)
    }

    /// Changes the top entry of the interrupt stack, and shows it; nothing when the stack is
    /// empty.
    fn change_stack_top(&mut self, change: impl FnOnce(&mut StackEntry)) {
        if let Some(top) = self.stack.last_mut() {
            change(top);
            self.show_stack_top();
        }
    }

    /// Lets the RETI_ registers show the stack's top, or 1, 9, 0 when it is empty.
    fn show_stack_top(&mut self) {
        let (address, psr, c0) = match self.stack.last() {
            Some(top) => (top.address, top.psr, top.c0),
            None => (1, 9, 0),
        };
        self.control[offset::RETI_ADDR] = address;
        self.control[offset::RETI_PSR] = psr;
        self.control[offset::RETI_CR0] = c0;
    }

    /// Whether a data address is protected:
    /// DMEM_BOUND_LO ≤ address ≤ DMEM_BOUND_HI.
    pub fn data_protected(&self, address: u32) -> bool {
        self.control[offset::DMEM_BOUND_LO] <= address
            && address <= self.control[offset::DMEM_BOUND_HI]
    }

    /// Whether the program byte at an address is protected:
    /// IMEM_BOUND_LO ≤ address ≤ IMEM_BOUND_HI.
    pub fn program_byte_protected(&self, address: u32) -> bool {
        self.control[offset::IMEM_BOUND_LO] <= address
            && address <= self.control[offset::IMEM_BOUND_HI]
    }
}
