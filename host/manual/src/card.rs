//! The library, through the functions that include/coffee.h declares.

use crate::image::Image;

mod c {
    #[repr(C)]
    pub struct Answer {
        pub refusal: u32,
        pub steps: u32,
        pub ending: u32,
    }

    extern "C" {
        pub fn coffee_run(
            program: *const u8,
            program_bytes: usize,
            cells: *mut u32,
            cell_count: usize,
            image: *const u8,
            image_bytes: usize,
            requests: *const u32,
            request_count: usize,
            limit: u32,
            buffer: *mut u8,
            buffer_bytes: usize,
        ) -> Answer;
        pub fn coffee_reset(buffer: *mut u8, buffer_bytes: usize) -> u32;
        pub fn coffee_carry_over(image: *const u8, image_bytes: usize, buffer: *mut u8, buffer_bytes: usize) -> u32;
        pub fn coffee_listing(program: *const u8, program_bytes: usize, wide: u32, text: *mut u8, text_bytes: usize) -> u32;
        pub fn coffee_encode(operation: u32, wide: u32, conditional: u32, creg: u32, condition: u32, a: i32, b: i32, c: i32, d: i32)
            -> u64;
        pub fn coffee_reach(program: *const u8, program_bytes: usize, wide: u32, start: u32, map: *mut u8, map_bytes: usize) -> u32;
    }
}

/// One way in which what the library answers is altered, to see that the comparison notices.
#[derive(Clone, Copy, Debug, PartialEq)]
pub enum Fault {
    /// The lowest bit of a number of the image at reset.
    Reset(usize),
    /// The lowest bit of a number of the image that a step leaves.
    Left(usize),
    /// The lowest bit of every stop's number.
    Ending,
    /// The lowest bit of every refusal.
    Refusal,
    /// A bit of every written word.
    Encode(u32),
    /// The lowest bit of a column of every line.
    Listing(usize),
    /// The lowest bit of the map's byte at an address.
    Map(usize),
}

/// The library, altered or not.
#[derive(Clone, Copy, Default)]
pub struct Card {
    pub fault: Option<Fault>,
}

/// What a call is given, as a run call has it.
#[derive(Clone)]
pub struct Given {
    pub program: Vec<u8>,
    pub cells: Vec<u32>,
    pub image: Image,
    pub requests: Vec<u32>,
    pub limit: u32,
    pub room: usize,
}

/// What a run call answers and leaves.
pub struct Outcome {
    pub refusal: u32,
    pub ending: u32,
    pub image: Image,
    pub cells: Vec<u32>,
}

/// The least size of an image buffer.
pub const ROOM: usize = 720;

impl Card {
    pub fn run(&self, given: &Given) -> Outcome {
        let mut cells = given.cells.clone();
        let mut buffer = vec![0; given.room];
        let image = given.image.bytes();
        let answer = unsafe {
            c::coffee_run(
                given.program.as_ptr(),
                given.program.len(),
                cells.as_mut_ptr(),
                cells.len(),
                image.as_ptr(),
                image.len(),
                given.requests.as_ptr(),
                given.requests.len(),
                given.limit,
                buffer.as_mut_ptr(),
                buffer.len(),
            )
        };
        let mut left = Image::of(&buffer);
        if let (Some(Fault::Left(offset)), 1..) = (self.fault, answer.steps) {
            left.set(offset, left.get(offset) ^ 1);
        }
        let ending = answer.ending ^ u32::from(answer.ending != 0 && self.fault == Some(Fault::Ending));
        Outcome { refusal: self.refusal(answer.refusal), ending, image: left, cells }
    }

    pub fn reset(&self) -> Image {
        let mut buffer = vec![0; ROOM];
        let refusal = unsafe { c::coffee_reset(buffer.as_mut_ptr(), buffer.len()) };
        assert_eq!(refusal, 0, "the image at reset is refused");
        let mut image = Image::of(&buffer);
        if let Some(Fault::Reset(offset)) = self.fault {
            image.set(offset, image.get(offset) ^ 1);
        }
        image
    }

    /// The refusal of a reset call with so much room.
    pub fn reset_refusal(&self, room: usize) -> u32 {
        let mut buffer = vec![0; room];
        self.refusal(unsafe { c::coffee_reset(buffer.as_mut_ptr(), buffer.len()) })
    }

    pub fn carry_over(&self, image: &[u8], room: usize) -> (u32, Image) {
        let mut buffer = vec![0; room];
        let refusal = unsafe { c::coffee_carry_over(image.as_ptr(), image.len(), buffer.as_mut_ptr(), buffer.len()) };
        (self.refusal(refusal), Image::of(&buffer))
    }

    /// The refusal, and the lines.
    pub fn listing(&self, program: &[u8], wide: bool, room: usize) -> (u32, Vec<u8>) {
        let mut text = vec![0; room];
        let refusal = unsafe { c::coffee_listing(program.as_ptr(), program.len(), u32::from(wide), text.as_mut_ptr(), text.len()) };
        if let Some(Fault::Listing(column)) = self.fault {
            text.chunks_mut(48).filter(|line| line.len() > column).for_each(|line| line[column] ^= 1);
        }
        (self.refusal(refusal), text)
    }

    /// The line of one word.
    pub fn line(&self, wide: bool, word: u32) -> Vec<u8> {
        self.listing(&bytes_of(wide, word), wide, 48).1
    }

    /// A word, or the refusal.
    pub fn encode(&self, operation: u32, wide: bool, condition: Option<(u32, u32)>, operands: [i32; 4]) -> Result<u32, u32> {
        let (creg, number) = condition.unwrap_or((0, 0));
        let [a, b, c, d] = operands;
        let answer = unsafe { c::coffee_encode(operation, u32::from(wide), u32::from(condition.is_some()), creg, number, a, b, c, d) };
        match (answer >> 32, self.fault) {
            (0, Some(Fault::Encode(bit))) => Ok(answer as u32 ^ 1 << bit),
            (0, _) => Ok(answer as u32),
            _ => Err(self.refusal(answer as u32)),
        }
    }

    /// The refusal, and the map.
    pub fn reach(&self, program: &[u8], wide: bool, start: u32, room: usize) -> (u32, Vec<u8>) {
        let mut map = vec![0; room];
        let refusal = unsafe { c::coffee_reach(program.as_ptr(), program.len(), u32::from(wide), start, map.as_mut_ptr(), map.len()) };
        if let Some(Fault::Map(address)) = self.fault {
            map.iter_mut().skip(address).take(1).for_each(|byte| *byte ^= 1);
        }
        (self.refusal(refusal), map)
    }

    fn refusal(&self, refusal: u32) -> u32 {
        refusal ^ u32::from(refusal != 0 && self.fault == Some(Fault::Refusal))
    }
}

/// The bytes of a word.
pub fn bytes_of(wide: bool, word: u32) -> Vec<u8> {
    let bytes = word.to_be_bytes();
    bytes[if wide { 0 } else { 2 }..].to_vec()
}
