//! Random sessions: lists of run calls on one machine (Manual 9 and 10).

use crate::damage::{self, Damage, DAMAGES};
use crate::image::{self, Image, Layout, EARLIER_LONGEST, LONGEST, PC, PRODUCT, SLOT};
use crate::program::{self, Region, Themes};
use crate::random::Random;
use crate::state;

/// Most bytes of a program, and most cells of data memory.
pub const MEMORY_LIMIT: usize = 65_536;
/// The largest step limit.
pub const STEP_LIMIT: u32 = 1_000_000;

/// The layout that question 2 reads.
const LAYOUT: Layout = Layout::Present;

/// Everything that a call lends or gives.
#[derive(Clone, Default)]
pub struct Call {
    pub program: Vec<u8>,
    pub cells: Vec<u32>,
    pub image: Vec<u8>,
    pub requests: Vec<u32>,
    pub limit: u32,
    pub buffer: Vec<u8>,
}

/// What the generator knows of a call's answer.
#[derive(Clone, Copy, Default)]
pub struct Expected {
    /// The refusal, 0 for none; nothing where two damages may cancel each other.
    pub refusal: Option<u32>,
    /// Where nothing else is wrong, the only damage done to the image, if any (its
    /// place in DAMAGES).
    pub damage: Option<usize>,
    /// Whether the image is damaged, so that no later call can take it.
    pub damaged: bool,
}

/// Makes the calls of one case after another.
pub struct Generator {
    themes: Themes,
    regions: Vec<Region>,
    image: Image,
    program_length: usize,
    cells_length: usize,
}

impl Generator {
    pub fn new() -> Generator {
        Generator {
            themes: Themes::new(),
            regions: Vec::new(),
            image: Image::new(),
            program_length: 0,
            cells_length: 0,
        }
    }

    /// The first call of a case: a new program, new cells and a new image.
    pub fn first(&mut self, random: &mut Random, call: &mut Call) -> Expected {
        let keeps_nops = program::build(random, &self.themes, &mut call.program, &mut self.regions);
        self.program_length = call.program.len();
        self.fill_cells(random, &mut call.cells);
        state::build(
            random,
            &call.program,
            &self.regions,
            keeps_nops,
            self.cells_length,
            &mut self.image,
        );
        let mut expected = Expected {
            refusal: Some(0),
            damage: None,
            damaged: false,
        };
        if random.percent(8) {
            expected.damaged = true;
            let index = random.below(DAMAGES.len() as u32) as usize;
            let first = DAMAGES[index];
            let second = random.pick(&DAMAGES);
            let alone = first == second
                || (first.refusal() == 2 && second.refusal() == 2)
                || random.percent(80);
            if alone {
                damage::apply(&[first], LAYOUT, random, &mut self.image, &mut call.image);
                expected.refusal = Some(first.refusal());
                expected.damage = Some(index);
            } else {
                let both: [Damage; 2] = [first, second];
                damage::apply(&both, LAYOUT, random, &mut self.image, &mut call.image);
                expected.refusal = None;
            }
        } else if random.one_in(40) {
            // The image that reset gives.
            call.image.resize(LONGEST, 0);
            coffee_reference::reset(&mut call.image);
            call.image.truncate(image::SHORTEST);
        } else {
            self.image.write(LAYOUT, &mut call.image);
        }
        self.own_parts(random, call, expected)
    }

    /// A later call of a case: the same program, and the image and cells that the
    /// last call left. After a stop the machine is sometimes moved elsewhere.
    pub fn later(&mut self, random: &mut Random, call: &mut Call, stopped: bool) -> Expected {
        call.program.truncate(self.program_length);
        call.cells.truncate(self.cells_length);
        if stopped && random.percent(70) {
            let mut image = Image::read(&call.image);
            image.position = [0; 6];
            image.position[PC] = program::code_address(random, &self.regions, image.wide());
            image.write(LAYOUT, &mut call.image);
        }
        let expected = Expected {
            refusal: Some(0),
            damage: None,
            damaged: false,
        };
        self.own_parts(random, call, expected)
    }

    /// Requests, step limit and image buffer, which are each call's own; seldom such that
    /// questions 1, 6, 7 or 8 refuse them.
    fn own_parts(&mut self, random: &mut Random, call: &mut Call, image: Expected) -> Expected {
        let mut expected = image;
        let mut refuse = |number: u32| {
            expected.refusal = match expected.refusal {
                Some(0) => Some(number),
                Some(other) => Some(other.min(number)),
                // The image is refused by one of 2 to 5.
                None if number == 1 => Some(1),
                None => None,
            };
            expected.damage = None;
        };
        // Several at once, for the questions' order.
        let rarity = if random.one_in(20) { 3 } else { 90 };
        call.limit = self.limit(random);
        self.fill_requests(random, call);
        let length = match random.below(8) {
            0..=3 => LONGEST,
            4 | 5 => LONGEST + random.below(33) as usize,
            6 => LONGEST + random.below(800) as usize,
            _ => LONGEST + 4,
        };
        fill_bytes(random, &mut call.buffer, length);

        if random.one_in(rarity) {
            refuse(8);
            let least = LONGEST as u32;
            let length = match random.below(6) {
                0 => 0,
                1 => least - 1,
                2 => random.range(EARLIER_LONGEST as u32, least - 1),
                _ => random.below(least),
            };
            call.buffer.truncate(length as usize);
            // The greatest limit, at no cost: it would give 7 if it were refused.
            if random.percent(30) {
                call.limit = STEP_LIMIT;
            }
        }
        if random.one_in(rarity) {
            refuse(7);
            call.limit = match random.below(3) {
                0 => STEP_LIMIT + 1,
                1 => u32::MAX,
                _ => random.range(STEP_LIMIT + 1, u32::MAX),
            };
        }
        if random.one_in(rarity) {
            refuse(6);
            if call.requests.is_empty() {
                call.requests.push(0);
            }
            let place = random.below(call.requests.len() as u32) as usize;
            call.requests[place] |= match random.below(3) {
                0 => 0x1000,
                1 => 0x1000 << random.below(20),
                _ => random.range(0x1000, u32::MAX),
            };
        }
        if random.one_in(4 * rarity) {
            refuse(1);
            let length = MEMORY_LIMIT + random.range(1, 3) as usize;
            if random.percent(50) {
                call.program.resize(length, 0);
            } else {
                call.cells.resize(length, 0);
            }
        }
        expected
    }

    fn limit(&mut self, random: &mut Random) -> u32 {
        match random.below(100) {
            0..=3 => 0,
            4..=30 => random.range(1, 8),
            31..=74 => random.range(9, 64),
            75..=98 => random.range(65, 300),
            _ => match random.below(2000) {
                0..=1699 => random.range(300, 600),
                1700..=1989 => random.range(600, 5000),
                1990..=1998 => random.range(5000, 100_000),
                _ => STEP_LIMIT,
            },
        }
    }

    /// Requests, one number for each step; steps past the list have none.
    fn fill_requests(&mut self, random: &mut Random, call: &mut Call) {
        call.requests.clear();
        let steps = call.limit.min(300);
        let length = match random.below(4) {
            0 => random.below(steps + 1),
            1 => steps + random.below(5),
            _ => steps,
        };
        match random.below(8) {
            // None.
            0 => {}
            1 => call.requests.resize(length as usize, 0),
            // One flag at one step.
            2 | 3 => {
                call.requests.resize(length as usize + 1, 0);
                let step = random.below(length + 1);
                call.requests[step as usize] = 1 << random.below(12);
            }
            // Single flags, seldom or often.
            4 | 5 => {
                let rarity = random.range(2, 30);
                for _ in 0..length {
                    let request = if random.one_in(rarity) {
                        1 << random.below(12)
                    } else {
                        0
                    };
                    call.requests.push(request);
                }
            }
            // Several flags at once.
            6 => {
                for _ in 0..length {
                    let request = random.word() & random.word() & random.word() & 0xFFF;
                    call.requests.push(request);
                }
            }
            _ => call.requests.resize(length as usize, 0xFFF),
        }
    }

    fn fill_cells(&mut self, random: &mut Random, cells: &mut Vec<u32>) {
        let length = match random.below(1000) {
            0..=39 => 0,
            40..=199 => random.range(1, 40),
            200..=549 => random.range(40, 300),
            550..=979 => random.range(256, 600),
            980..=997 => random.range(600, 4096),
            _ => MEMORY_LIMIT as u32 - random.below(3),
        };
        self.cells_length = length as usize;
        cells.clear();
        if length > 600 {
            let factor = random.word();
            cells.extend((0..length).map(|index| index.wrapping_mul(factor)));
        } else {
            cells.extend((0..length).map(|_| random.number()));
        }
    }
}

impl Default for Generator {
    fn default() -> Generator {
        Generator::new()
    }
}

/// Replaces `bytes` by this many random ones.
pub fn fill_bytes(random: &mut Random, bytes: &mut Vec<u8>, length: usize) {
    bytes.clear();
    while bytes.len() < length {
        bytes.extend_from_slice(&random.bits().to_le_bytes());
    }
    bytes.truncate(length);
}

/// The state that an image gives, in a few words.
pub fn summary(image: &Image) -> String {
    format!(
        "PC {:08X}, PSR {:02X}, slot {}, product {}, stack {}",
        image.pc(),
        image.psr(),
        image.position[SLOT],
        image.position[PRODUCT],
        image.depth
    )
}
