//! Listings (Manual 11) on both sides, and everything that they may touch; and a session of
//! them.

mod coverage;
mod generate;

use crate::difference::{self, Unlike};
use crate::guarded::Guarded;
use crate::random::Random;
use crate::series::{self, Kind};
use crate::session::Options;
use crate::words::{self, word_at, NAMES};
pub use coverage::Coverage;
pub use generate::{
    every_short_word, longest, random_listing, short_word, too_much, wide_word, Text,
};
use std::fmt;

/// The bytes of a line: 47 characters and a newline.
pub const LINE: usize = 48;

/// A listing: program, width (0 for 16-bit words, any other number for 32-bit words), text.
pub type Listing = fn(&[u8], u32, &mut [u8]) -> u32;

pub type Sides = series::Sides<Listing>;

/// Everything that a listing lends or gives, and what the generator knows of its answer.
#[derive(Clone, Default)]
pub struct Input {
    pub program: Vec<u8>,
    pub wide: u32,
    pub text: Vec<u8>,
    /// How the text was chosen.
    pub kind: Text,
    pub refusal: u32,
}

impl Input {
    /// Whether the words have 32 bits.
    pub fn is_wide(&self) -> bool {
        self.wide != 0
    }

    /// The number of whole words of the program.
    pub fn words(&self) -> usize {
        words::whole(self.program.len(), self.is_wide())
    }
}

/// What the sides leave different after a listing.
#[derive(Clone, Debug, PartialEq, Eq)]
pub enum Left {
    Line {
        number: usize,
        word: u32,
        reference: String,
        library: String,
    },
    /// A byte that is of no line.
    Byte(Unlike<u8>),
}

/// What differs after a listing.
pub type Difference = difference::Difference<u32, Left>;

impl fmt::Display for Left {
    fn fmt(&self, f: &mut fmt::Formatter<'_>) -> fmt::Result {
        match self {
            Left::Line {
                number,
                word,
                reference,
                library,
            } => write!(
                f,
                "line {number} of word {word:X}:\n  reference {reference:?}\n  library   {library:?}"
            ),
            Left::Byte(byte) => write!(f, "text byte {}, of no line: {byte}", byte.index),
        }
    }
}

/// Memory for both sides, used again for every listing.
#[derive(Default)]
pub struct Bench {
    /// What the reference leaves.
    text: Vec<u8>,
    /// The library's, between guards.
    library_text: Guarded<u8>,
    /// The library's copy of what it may only read.
    program: Vec<u8>,
}

impl Bench {
    /// Calls both sides and compares the answers and the whole texts.
    pub fn compare(&mut self, input: &Input, sides: Sides) -> Result<u32, Difference> {
        self.text.clone_from(&input.text);
        self.library_text.lay(&input.text);
        self.program.clone_from(&input.program);

        let reference = (sides.reference)(&input.program, input.wide, &mut self.text);
        let library = (sides.library)(&self.program, input.wide, self.library_text.lent_mut());
        let answer = Difference::agreed(reference, library)?;
        let library_text = self.library_text.lent();
        if let Some(byte) = Unlike::first(&input.text, &self.text, library_text) {
            return Err(Difference::Left(self.left(input, byte, answer)));
        }
        if self.program != input.program {
            return Err(Difference::Stray("the program".to_string()));
        }
        self.library_text
            .untouched("the text")
            .map_err(Difference::Stray)?;
        self.as_promised(input, answer).map_err(Difference::Both)?;
        Ok(answer)
    }

    /// The line of the byte at which the texts differ first, or that byte.
    fn left(&self, input: &Input, byte: Unlike<u8>, answer: u32) -> Left {
        let number = byte.index / LINE;
        if answer != 0 || number >= input.words() {
            return Left::Byte(byte);
        }
        let line = |text: &[u8]| {
            String::from_utf8_lossy(&text[number * LINE..number * LINE + LINE]).into_owned()
        };
        Left::Line {
            number,
            word: input_word(input, number),
            reference: line(&self.text),
            library: line(self.library_text.lent()),
        }
    }

    /// What can be said of every answer without knowing the operands: a refusal is the one
    /// that the generator meant, and changes nothing; otherwise bytes behind the lines stay,
    /// and each line has its address, word and name, and a condition only where one can be.
    fn as_promised(&self, input: &Input, answer: u32) -> Result<(), String> {
        if answer != input.refusal {
            return Err(format!(
                "answer {answer} where the generator meant {}",
                input.refusal
            ));
        }
        // A refusal changes nothing.
        let lines = if answer == 0 { input.words() } else { 0 };
        let end = lines * LINE;
        if self.text[end..] != input.text[end..] {
            return Err(format!(
                "bytes behind {lines} lines changed, answer {answer}"
            ));
        }
        let wide = input.is_wide();
        for (number, line) in self.text[..end].chunks_exact(LINE).enumerate() {
            let word = input_word(input, number);
            let address = number as u32 * words::bytes(wide);
            let operation = words::operation(word, wide);
            let name = if !wide && words::only_wide(operation) {
                "?"
            } else {
                NAMES[operation as usize]
            };
            let conditional = words::has_condition(word, wide);
            let digits = if wide { 8 } else { 4 };
            let good = hex(&line[..8], address)
                && hex(&line[9..9 + digits], word)
                && blank(&line[9 + digits..17])
                && [8, 17, 24, 33].iter().all(|&column| line[column] == b' ')
                && blank(&line[18..24]) != conditional
                && line[25..33].starts_with(name.as_bytes())
                && blank(&line[25 + name.len()..33])
                && (name != "?" || blank(&line[34..47]))
                && line[..47].iter().all(|byte| (b' '..=b'~').contains(byte))
                && line[47] == b'\n';
            if !good {
                let line = String::from_utf8_lossy(line);
                return Err(format!("word {word:X} at {address:X} gives {line:?}"));
            }
        }
        Ok(())
    }
}

/// A word of the program, which is there.
fn input_word(input: &Input, number: usize) -> u32 {
    let wide = input.is_wide();
    let address = number as u32 * words::bytes(wide);
    word_at(&input.program, address, wide).unwrap_or_default()
}

/// Whether all bytes are blanks.
fn blank(bytes: &[u8]) -> bool {
    bytes.iter().all(|&byte| byte == b' ')
}

/// Whether these are the last digits of a number, in capitals.
fn hex(digits: &[u8], number: u32) -> bool {
    let places = digits.iter().rev().enumerate();
    places
        .map(|(place, digit)| (number >> (4 * place) & 15, digit))
        .all(|(value, &digit)| digit == b"0123456789ABCDEF"[value as usize])
}

pub type Found = series::Found<Difference, Input>;
pub type Outcome = series::Outcome<Coverage, Found>;

/// Lists every 16-bit word, the longest program of 32-bit words, and then random programs,
/// until a difference or the number of 32-bit words that the options give.
pub fn run(options: &Options, sides: Sides) -> Outcome {
    let mut bench = Bench::default();
    let compare = |listing, input: &mut Input, coverage: &mut Coverage| {
        let mut random = Random::of_case(options.seed, listing);
        match listing {
            0 | 1 => every_short_word(options.seed, listing, &mut random, input),
            2 => longest(&mut random, input),
            _ => random_listing(&mut random, input),
        }
        let answer = bench.compare(input, sides)?;
        coverage.count(input, answer);
        Ok(listing >= 2 && coverage.lines[1] >= options.words)
    };
    series::run(Kind::Listing, options.seed, options.listing, compare)
}

/// A found difference as text, with everything that is needed to repeat it.
pub fn explain(found: &Found) -> String {
    format!(
        "{}  width {}, program {} bytes, text {} bytes ({:?}), meant to answer {}\n",
        found.head(&format!("listing {}", found.place.number)),
        found.input.wide,
        found.input.program.len(),
        found.input.text.len(),
        found.input.kind,
        found.input.refusal
    )
}

#[cfg(test)]
mod tests {
    use super::*;
    use crate::met::Met;
    use crate::series::tests::{found_twice, no_difference_twice};

    const OPTIONS: Options = Options {
        words: 200_000,
        ..Options::of_seed(5)
    };

    /// The reference agrees with itself, meets all that it should, and a session can be
    /// repeated.
    #[test]
    fn no_difference() {
        let sides = Sides::alike(coffee_reference::listing);
        let coverage = no_difference_twice(|| run(&OPTIONS, sides), explain);
        assert!(coverage.lines[1] >= 200_000);
        assert_eq!(coverage.unmet(), Vec::<String>::new());
    }

    /// The reference, but a word of 32 bits that ends with ABh has another last column.
    fn wrong_at_ab(program: &[u8], wide: u32, text: &mut [u8]) -> u32 {
        let answer = coffee_reference::listing(program, wide, text);
        if answer == 0 && wide != 0 {
            for (word, line) in program.chunks_exact(4).zip(text.chunks_exact_mut(LINE)) {
                if word[3] == 0xAB {
                    line[46] = b'.';
                }
            }
        }
        answer
    }

    /// A difference is found, told by its line, and repeated by its number alone.
    #[test]
    fn difference_repeated() {
        let sides = Sides {
            reference: coffee_reference::listing,
            library: wrong_at_ab,
        };
        let [found, again] = found_twice(&OPTIONS, |options| run(options, sides));
        assert!(matches!(
            found.difference,
            Difference::Left(Left::Line { word, .. }) if word & 0xFF == 0xAB
        ));
        assert_eq!(explain(&found), explain(&again));
    }

    /// The reference, but the last byte of a text becomes 0.
    fn writes_last(program: &[u8], wide: u32, text: &mut [u8]) -> u32 {
        let answer = coffee_reference::listing(program, wide, text);
        if let (0, Some(last)) = (answer, text.last_mut()) {
            *last = 0;
        }
        answer
    }

    /// What both sides do wrong is found too.
    #[test]
    fn both_sides_wrong() {
        let sides = Sides::alike(writes_last);
        let found = run(&OPTIONS, sides).found.expect("a difference");
        assert!(matches!(found.difference, Difference::Both(_)));
    }
}
