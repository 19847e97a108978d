//! What the carry-overs of a session met.

use super::generate::LAYOUT;
use super::{Input, ANSWERS};
use crate::damage::DAMAGES;
use crate::image::{EARLIER_LONGEST, LONGEST, SOURCES};
use crate::met::{line, put, Met, Unmet};

/// Buffers by their length.
const BUFFERS: [&str; 7] = [
    "0",
    "less than 708",
    "708",
    "709 to 718",
    "719",
    "720",
    "more than 720",
];

/// Counts of what was met.
pub struct Coverage {
    pub compared: u64,
    /// By the place in ANSWERS.
    answers: [u64; ANSWERS.len()],
    /// Carried over, by the stack's depth.
    depths: [u64; SOURCES + 1],
    /// Images with one damage alone.
    damages: [u64; DAMAGES.len()],
    /// By the place in BUFFERS: of good images and of others.
    buffers: [[u64; BUFFERS.len()]; 2],
}

impl Coverage {
    pub fn new() -> Coverage {
        Coverage {
            compared: 0,
            answers: [0; ANSWERS.len()],
            depths: [0; SOURCES + 1],
            damages: [0; DAMAGES.len()],
            buffers: [[0; BUFFERS.len()]; 2],
        }
    }

    /// The images that were carried over.
    pub fn carried(&self) -> u64 {
        self.depths.iter().sum()
    }

    /// Counts a carry-over on which both sides agree.
    pub fn count(&mut self, input: &Input, answer: u32) {
        self.compared += 1;
        for (count, number) in self.answers.iter_mut().zip(ANSWERS) {
            *count += u64::from(number == answer);
        }
        if answer == 0 {
            self.depths[input.expected.depth] += 1;
        }
        if let Some(damage) = input.expected.damage {
            for (count, other) in self.damages.iter_mut().zip(DAMAGES) {
                *count += u64::from(other == damage);
            }
        }
        let place = match input.buffer.len() {
            0 => 0,
            length if length < EARLIER_LONGEST => 1,
            EARLIER_LONGEST => 2,
            length if length < LONGEST - 1 => 3,
            length if length < LONGEST => 4,
            LONGEST => 5,
            _ => 6,
        };
        let damaged = !matches!(answer, 0 | 8);
        self.buffers[usize::from(damaged)][place] += 1;
    }
}

impl Met for Coverage {
    fn unmet(&self) -> Vec<String> {
        let mut unmet = Unmet::default();
        unmet.need_each(ANSWERS.iter().zip(&self.answers), |answer| {
            format!("answer {answer}")
        });
        unmet.need_each(self.depths.iter().enumerate(), |depth| {
            format!("image with {depth} entries carried over")
        });
        let damages = DAMAGES.iter().zip(&self.damages);
        unmet.need_each(
            damages.filter(|(damage, _)| damage.is_of(LAYOUT)),
            |damage| format!("damage {damage:?} alone"),
        );
        for (name, counts) in ["a good", "a damaged"].iter().zip(&self.buffers) {
            unmet.need_each(BUFFERS.iter().zip(counts), |length| {
                format!("{name} image with a buffer of {length} bytes")
            });
        }
        unmet.lines()
    }

    fn report(&self) -> String {
        let mut text = String::new();
        let out = &mut text;
        line(out, "answers", ANSWERS.iter().zip(&self.answers));
        line(out, "carried over by depth", self.depths.iter().enumerate());
        let of_layout = DAMAGES.iter().zip(&self.damages);
        let counts: Vec<u64> = of_layout
            .filter(|(damage, _)| damage.is_of(LAYOUT))
            .map(|(_, &count)| count)
            .collect();
        let least = counts.iter().min().copied().unwrap_or(0);
        put(
            out,
            format!(
                "damaged images: {} kinds, each alone at least {least} times",
                counts.len()
            ),
        );
        for (name, counts) in ["good", "damaged"].iter().zip(&self.buffers) {
            line(
                out,
                &format!("{name} images by buffer"),
                BUFFERS.iter().zip(counts),
            );
        }
        text
    }
}

impl Default for Coverage {
    fn default() -> Coverage {
        Coverage::new()
    }
}
