//! A reference emulator of the COFFEE core, to compare other implementations with.
//!
//! Its rules are those of docs/MANUAL.md, cited here as "Manual 4.3", and of the COFFEE Core
//! user manual (July 2007) where that cites it. It takes nothing from the proved library, is
//! meant to be read beside the manual, and puts clarity before speed.

mod decode;
mod encode;
mod image;
mod listing;
mod machine;
mod operands;
mod reach;
mod step;
mod timers;

#[cfg(test)]
mod tests;

use image::{write_image, Layout, Sections, LONGEST_IMAGE};
use machine::Machine;
use std::fmt;

pub use encode::{cleared, encode, operand_ranges, reading, Choice};
pub use listing::listing;
pub use reach::reach;

/// Most bytes of a program.
const PROGRAM_LIMIT: usize = 65_536;
/// Most cells of data memory.
const DATA_LIMIT: usize = 65_536;
/// The largest request: a bit for each of the twelve sources.
const REQUEST_LIMIT: u32 = 0xFFF;
/// The largest step limit.
const STEP_LIMIT: u32 = 1_000_000;

/// What a run call answers.
#[derive(Clone, Copy, Debug, PartialEq, Eq)]
pub struct Answer {
    /// 0, or the number of the first question that is answered no, 1 to 8 (Manual 9).
    pub refusal: u32,
    /// The steps done; 0 on a refusal.
    pub steps: u32,
    /// 0 when the limit was reached, or the stop's number, 11 to 15 or 20; 0 on a refusal.
    pub ending: u32,
}

impl fmt::Display for Answer {
    fn fmt(&self, f: &mut fmt::Formatter<'_>) -> fmt::Result {
        let Answer {
            refusal,
            steps,
            ending,
        } = self;
        write!(f, "refusal {refusal} steps {steps} ending {ending}")
    }
}

/// Runs the machine of `image` for at most `limit` steps (Manual 9), with the `requests` of
/// each step in turn; steps past the list have none.
///
/// A refused call changes nothing. Otherwise `cells` are as the steps leave them, and
/// the new image is at the front of `buffer`, whose further bytes keep their values.
pub fn run(
    program: &[u8],
    cells: &mut [u32],
    image: &[u8],
    requests: &[u32],
    limit: u32,
    buffer: &mut [u8],
) -> Answer {
    let mut machine = match admit(program, cells, image, requests, limit, buffer) {
        Ok(machine) => machine,
        Err(refusal) => {
            return Answer {
                refusal,
                steps: 0,
                ending: 0,
            }
        }
    };
    let mut steps = 0;
    let mut ending = 0;
    while steps < limit {
        let requested = requests.get(steps as usize).copied().unwrap_or(0);
        match machine.step(program, cells, requested) {
            Ok(()) => steps += 1,
            Err(stop) => {
                ending = stop;
                break;
            }
        }
    }
    write_image(&Sections::of_machine(&machine), buffer);
    Answer {
        refusal: 0,
        steps,
        ending,
    }
}

/// Writes the image of the machine after reset to the front of `buffer`, whose further
/// bytes keep their values, and answers 0; or answers 8 and changes nothing when the
/// buffer has fewer than 720 bytes.
pub fn reset(buffer: &mut [u8]) -> u32 {
    if buffer.len() < LONGEST_IMAGE {
        return 8;
    }
    write_image(&Sections::of_machine(&Machine::reset()), buffer);
    0
}

/// Carries an image of the earlier layout over (Manual 9): writes it with a last section of
/// dividers 0, all else the same, to the front of `buffer`, whose further bytes keep their
/// values, and answers 0; or answers the number of the first question that is answered no, 2
/// to 5 by the earlier layout, then 8, and changes nothing.
pub fn carry_over(image: &[u8], buffer: &mut [u8]) -> u32 {
    let sections = match questions_2_to_5(image, Layout::Earlier) {
        Ok(sections) => sections,
        Err(refusal) => return refusal,
    };
    if buffer.len() < LONGEST_IMAGE {
        return 8;
    }
    write_image(&sections, buffer);
    0
}

/// Asks the questions 1 to 8 of a run call in order (Manual 9): the machine to run, or the
/// number of the first question that is answered no.
fn admit(
    program: &[u8],
    cells: &[u32],
    image: &[u8],
    requests: &[u32],
    limit: u32,
    buffer: &[u8],
) -> Result<Machine, u32> {
    if program.len() > PROGRAM_LIMIT || cells.len() > DATA_LIMIT {
        return Err(1);
    }
    let sections = questions_2_to_5(image, Layout::Present)?;
    if requests.iter().any(|&request| request > REQUEST_LIMIT) {
        return Err(6);
    }
    if limit > STEP_LIMIT {
        return Err(7);
    }
    if buffer.len() < LONGEST_IMAGE {
        return Err(8);
    }
    Ok(sections.to_machine())
}

/// Asks the questions 2 to 5 of an image in a layout: its sections, or the number of the
/// first question whose answer is no.
fn questions_2_to_5(image: &[u8], layout: Layout) -> Result<Sections, u32> {
    let sections = Sections::read(image, layout).ok_or(2_u32)?;
    if !sections.registers_can_hold() {
        return Err(3);
    }
    if !sections.user_mode_has_set_1() {
        return Err(4);
    }
    if !sections.stack_agrees() {
        return Err(5);
    }
    Ok(sections)
}
