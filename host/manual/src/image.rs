//! The bytes of an image, by the offsets that the manual gives in 8.1.

pub const SET_1: usize = 4;
pub const SET_2: usize = 136;
pub const PSR: usize = 252;
pub const SPSR: usize = 256;
pub const CONDITIONS: usize = 268;
pub const CONTROL: usize = 304;
pub const PC: usize = 488;
pub const SLOT: usize = 492;
pub const TARGET: usize = 496;
pub const PRODUCT: usize = 500;
pub const HIGH: usize = 504;
pub const LOW: usize = 508;
pub const ENTRIES: usize = 512;

/// Offsets in the control block.
pub const INT_MASK: usize = 0x12;
pub const INT_SERV: usize = 0x13;
pub const INT_PEND: usize = 0x14;
pub const EXCEPTION_CS: usize = 0x17;
pub const EXCEPTION_PSR: usize = 0x19;
pub const DMEM_LO: usize = 0x1A;
pub const DMEM_HI: usize = 0x1B;
pub const IMEM_LO: usize = 0x1C;
pub const IMEM_HI: usize = 0x1D;
pub const RETI_ADDR: usize = 0x28;

#[derive(Clone, PartialEq)]
pub struct Image(Vec<u8>);

impl Image {
    /// The image at a buffer's front.
    pub fn of(buffer: &[u8]) -> Image {
        let image = Image(buffer.to_vec());
        if buffer.len() < ENTRIES + 4 {
            return image;
        }
        let length = 528 + 16 * image.get(ENTRIES).min(12) as usize;
        Image(buffer[..length.min(buffer.len())].to_vec())
    }

    pub fn bytes(&self) -> &[u8] {
        &self.0
    }

    pub fn get(&self, offset: usize) -> u32 {
        match self.0.get(offset..offset + 4) {
            Some(bytes) => u32::from_be_bytes([bytes[0], bytes[1], bytes[2], bytes[3]]),
            None => 0,
        }
    }

    pub fn set(&mut self, offset: usize, value: u32) -> &mut Image {
        if let Some(bytes) = self.0.get_mut(offset..offset + 4) {
            bytes.copy_from_slice(&value.to_be_bytes());
        }
        self
    }

    pub fn control(&self, register: usize) -> u32 {
        self.get(CONTROL + 4 * register)
    }

    pub fn set_control(&mut self, register: usize, value: u32) -> &mut Image {
        self.set(CONTROL + 4 * register, value)
    }

    /// With these entries on the interrupt stack, and INT_SERV and RETI_ registers that show them.
    pub fn stacked(&self, entries: &[[u32; 4]], dividers: [u32; 2]) -> Image {
        let mut image = Image(self.0[..ENTRIES].to_vec());
        let mut push = |n: u32| image.0.extend(n.to_be_bytes());
        push(entries.len() as u32);
        entries.iter().flatten().for_each(|&n| push(n));
        push(2);
        dividers.iter().for_each(|&n| push(n));
        image.set_control(INT_SERV, entries.iter().fold(0, |flags, e| flags | 1 << e[0].min(31)));
        let top = entries.last().copied().unwrap_or([0, 1, 9, 0]);
        for (k, &number) in top[1..].iter().enumerate() {
            image.set_control(RETI_ADDR + k, number);
        }
        image
    }

    /// The first so many bytes.
    pub fn cut(&self, length: usize) -> Image {
        Image(self.0[..length].to_vec())
    }
}
