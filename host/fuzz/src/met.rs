//! What the sessions of calls, of listings, of written words, of carry-overs and of reachable
//! words need to say what they met: lines of counts, lines for what is missing, and the words
//! and conditions met.

use crate::words::{self, NAMES, SHORT_WORDS};
use std::fmt::{Display, Write};

/// The widths: 0 for 16 bits, 1 for 32.
pub const WIDTH_NAMES: [&str; 2] = ["16-bit", "32-bit"];
/// The numbers that say yes or no; the last is that of all others.
pub const YES: [(u32, &str); 5] = [
    (0, "0"),
    (1, "1"),
    (2, "2"),
    (u32::MAX, "FFFFFFFFh"),
    (3, "another"),
];

/// The counts of a session.
pub trait Met {
    /// A line for each thing that a session should meet and did not.
    fn unmet(&self) -> Vec<String>;

    /// The counts as text.
    fn report(&self) -> String;
}

/// Lines for what was not met.
#[derive(Default)]
pub struct Unmet(Vec<String>);

impl Unmet {
    /// Needs a count that is not 0.
    pub fn need(&mut self, count: u64, what: String) {
        if count == 0 {
            self.0.push(what);
        }
    }

    /// Needs every count of a row, each told by its name.
    pub fn need_each<'a, N>(
        &mut self,
        counts: impl IntoIterator<Item = (N, &'a u64)>,
        what: impl Fn(N) -> String,
    ) {
        for (name, &count) in counts {
            self.need(count, what(name));
        }
    }

    pub fn lines(self) -> Vec<String> {
        self.0
    }
}

/// Which words were met: every 16-bit word; 32-bit words by operation, with bit 25 at 0 and
/// at 1.
pub struct Words {
    short: Vec<bool>,
    bit_25: [[u64; 2]; 64],
}

impl Words {
    pub fn new() -> Words {
        Words {
            short: vec![false; SHORT_WORDS as usize],
            bit_25: [[0; 2]; 64],
        }
    }

    /// Counts a word.
    pub fn count(&mut self, word: u32, wide: bool) {
        if wide {
            let operation = words::operation(word, wide) as usize;
            self.bit_25[operation][(word >> 25 & 1) as usize] += 1;
        } else {
            self.short[word as usize] = true;
        }
    }

    /// The different 16-bit words, and all 32-bit words.
    pub fn counts(&self) -> [u64; 2] {
        let short = self.short.iter().filter(|&&met| met).count();
        [short as u64, self.bit_25.iter().flatten().sum()]
    }

    /// Needs every 16-bit word; `done` says what is done with it.
    pub fn need_short(&self, unmet: &mut Unmet, done: &str) {
        let missing = SHORT_WORDS - self.counts()[0];
        unmet.need(
            u64::from(missing == 0),
            format!("every 16-bit word {done} ({missing} are missing)"),
        );
    }

    /// Needs 32-bit words of an operation with bit 25 at 0 and at 1; `done` stands before it.
    pub fn need_bit_25(&self, unmet: &mut Unmet, operation: usize, done: &str) {
        unmet.need_each(self.bit_25[operation].iter().enumerate(), |bit| {
            format!("32-bit {} {done} bit 25 at {bit}", NAMES[operation])
        });
    }
}

impl Default for Words {
    fn default() -> Words {
        Words::new()
    }
}

/// Conditions, by their number and their register.
#[derive(Default)]
pub struct Conditions([[u64; 8]; 8]);

impl Conditions {
    /// Counts a condition.
    pub fn count(&mut self, number: u32, register: u32) {
        self.0[number as usize][register as usize] += 1;
    }

    /// All of them together.
    pub fn sum(&self) -> u64 {
        self.0.iter().flatten().sum()
    }

    /// Needs every condition of every register; `done` says what is done with it.
    pub fn need(&self, unmet: &mut Unmet, done: &str) {
        for (number, registers) in self.0.iter().enumerate() {
            unmet.need_each(registers.iter().enumerate(), |register| {
                format!("condition {number} of C{register} {done}")
            });
        }
    }
}

/// Counts what was met.
pub fn add<const N: usize>(counts: &mut [u64; N], met: [bool; N]) {
    for (count, met) in counts.iter_mut().zip(met) {
        *count += u64::from(met);
    }
}

/// The sums of rows of counts.
pub fn sums<'a, const N: usize>(rows: impl IntoIterator<Item = &'a [u64; N]>) -> [u64; N] {
    let mut sums = [0; N];
    for row in rows {
        for (sum, count) in sums.iter_mut().zip(row) {
            *sum += count;
        }
    }
    sums
}

/// The place of a number in YES.
pub fn yes_place(number: u32) -> usize {
    let place = YES.iter().position(|&(other, _)| other == number);
    place.unwrap_or(YES.len() - 1)
}

pub fn put(text: &mut String, line: String) {
    text.push_str(&line);
    text.push('\n');
}

/// One line of counts with their names.
pub fn line<'a, N: Display>(
    text: &mut String,
    title: &str,
    counts: impl IntoIterator<Item = (N, &'a u64)>,
) {
    text.push_str(title);
    let mut mark = ':';
    for (name, count) in counts {
        // Writing to a string does not fail.
        let _ = write!(text, "{mark} {name} {count}");
        mark = ',';
    }
    text.push('\n');
}

/// Lines of counts that begin with the same name.
pub struct Lines<'a> {
    text: &'a mut String,
    name: &'a str,
}

impl<'a> Lines<'a> {
    pub fn of(text: &'a mut String, name: &'a str) -> Lines<'a> {
        Lines { text, name }
    }

    /// Adds a line of counts with their names.
    pub fn add<'b, N: Display>(
        &mut self,
        title: &str,
        names: impl IntoIterator<Item = N>,
        counts: impl IntoIterator<Item = &'b u64>,
    ) {
        let title = format!("{} {title}", self.name);
        line(self.text, &title, names.into_iter().zip(counts));
    }
}

#[cfg(test)]
mod tests {
    use super::*;

    /// Each word and condition that is left out is told, and no other.
    #[test]
    fn what_is_left_out() {
        let mut words = Words::new();
        let mut conditions = Conditions::default();
        for word in (0..0x1_0000).filter(|&word| word != 0x1234) {
            words.count(word, false);
            if word != 0x8001 {
                words.count(word << 16, true);
            }
        }
        for number in 0..64 {
            if number != 0o52 {
                conditions.count(number >> 3, number & 7);
            }
        }
        let lines = |words: &Words, conditions: &Conditions| {
            let mut unmet = Unmet::default();
            words.need_short(&mut unmet, "met");
            for operation in 0..64 {
                words.need_bit_25(&mut unmet, operation, "with");
            }
            conditions.need(&mut unmet, "met");
            unmet.lines()
        };
        assert_eq!(words.counts(), [0xFFFF, 0xFFFE]);
        assert_eq!(conditions.sum(), 63);
        assert_eq!(
            lines(&words, &conditions),
            [
                "every 16-bit word met (1 are missing)",
                "condition 5 of C2 met"
            ]
        );
        words.count(0x1234, false);
        conditions.count(5, 2);
        assert_eq!(lines(&words, &conditions), [""; 0]);
        let expected: Vec<String> = NAMES
            .iter()
            .flat_map(|name| [0, 1].map(|bit| format!("32-bit {name} with bit 25 at {bit}")))
            .collect();
        let mut unmet = Unmet::default();
        for operation in 0..64 {
            Words::new().need_bit_25(&mut unmet, operation, "with");
        }
        assert_eq!(unmet.lines(), expected);
    }
}
