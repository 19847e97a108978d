//! Maps of the words that can be reached (Manual 13) on both sides, and everything that they
//! may touch; and a session of them.

mod coverage;
mod flow;
mod generate;

use crate::call::MEMORY_LIMIT;
use crate::difference::{self, Unlike};
use crate::guarded::Guarded;
use crate::listing::LINE;
use crate::random::Random;
use crate::series::{self, Kind};
use crate::session::Options;
use crate::shrink::{hex, shrink_program};
use crate::words::{self, word_at};
pub use coverage::Coverage;
use flow::{word_number, Search};
pub use generate::program;
use std::fmt;

/// A map: program, width (0 for 16-bit words, any other number for 32-bit words), start, map.
pub type Reach = fn(&[u8], u32, u32, &mut [u8]) -> u32;

pub type Sides = series::Sides<Reach>;

/// The reference's.
pub fn reference(program: &[u8], wide: u32, start: u32, map: &mut [u8]) -> u32 {
    coffee_reference::reach(program, wide != 0, start, map)
}

/// Everything that is lent or given.
#[derive(Clone, Default)]
pub struct Input {
    pub program: Vec<u8>,
    pub wide: u32,
    pub start: u32,
    pub map: Vec<u8>,
}

impl Input {
    /// Whether the words have 32 bits.
    pub fn is_wide(&self) -> bool {
        self.wide != 0
    }

    /// The reasons for a refusal, in the order in which they are asked: 1, 28, 27.
    fn reasons(&self) -> [bool; 3] {
        let length = self.program.len();
        let start = word_number(i64::from(self.start), length, self.is_wide());
        [
            length > MEMORY_LIMIT,
            self.map.len() < length,
            start.is_none(),
        ]
    }

    /// The refusal, 0 for none.
    fn refusal(&self) -> u32 {
        match self.reasons() {
            [true, ..] => 1,
            [_, true, _] => 28,
            [.., true] => 27,
            _ => 0,
        }
    }
}

/// A byte of the map that the sides leave different.
#[derive(Clone, Debug, PartialEq, Eq)]
pub struct MapByte(Unlike<u8>);

impl fmt::Display for MapByte {
    fn fmt(&self, f: &mut fmt::Formatter<'_>) -> fmt::Result {
        write!(f, "map byte {}: {}", self.0.index, self.0)
    }
}

/// What differs after a map.
pub type Difference = difference::Difference<u32, MapByte>;

/// Memory for both sides, used again for every program.
#[derive(Default)]
pub struct Bench {
    /// What the reference leaves.
    map: Vec<u8>,
    /// The library's, between guards.
    library_map: Guarded<u8>,
    /// The library's copy of what it may only read.
    program: Vec<u8>,
    /// What is reached, where nothing is refused.
    search: Search,
}

impl Bench {
    /// Calls both sides and compares the answers and the whole maps.
    pub fn compare(&mut self, input: &Input, sides: Sides) -> Result<u32, Difference> {
        self.map.clone_from(&input.map);
        self.library_map.lay(&input.map);
        self.program.clone_from(&input.program);

        let Input { wide, start, .. } = *input;
        let reference = (sides.reference)(&input.program, wide, start, &mut self.map);
        let library = (sides.library)(&self.program, wide, start, self.library_map.lent_mut());
        let answer = Difference::agreed(reference, library)?;
        if let Some(byte) = Unlike::first(&input.map, &self.map, self.library_map.lent()) {
            return Err(Difference::Left(MapByte(byte)));
        }
        if self.program != input.program {
            return Err(Difference::Stray("the program".to_string()));
        }
        self.library_map
            .untouched("the map")
            .map_err(Difference::Stray)?;
        self.as_promised(input, answer).map_err(Difference::Both)?;
        Ok(answer)
    }

    /// What holds of every answer: a refusal is the one that is asked first, and changes
    /// nothing; otherwise the map has, over the program's length, 1 at the first byte of each
    /// word that a search reaches and 0 elsewhere, and its further bytes stay.
    fn as_promised(&mut self, input: &Input, answer: u32) -> Result<(), String> {
        let refusal = input.refusal();
        if answer != refusal {
            return Err(format!("answer {answer} where it should be {refusal}"));
        }
        if answer != 0 {
            if self.map != input.map {
                return Err(format!("answer {answer} and a changed map"));
            }
            return Ok(());
        }
        let wide = input.is_wide();
        let (mapped, further) = self.map.split_at(input.program.len());
        if further != &input.map[mapped.len()..] {
            return Err("bytes behind the program's length changed".to_string());
        }
        self.search.run(input.start, &input.program, wide);
        let width = words::bytes(wide) as usize;
        for (address, &byte) in mapped.iter().enumerate() {
            let ways = self.search.ways.get(address / width);
            let first = address % width == 0 && ways.is_some_and(|ways| ways.any());
            if byte != u8::from(first) {
                return Err(format!("map byte {address} is {byte:02X}"));
            }
        }
        Ok(())
    }
}

pub type Found = series::Found<Difference, Input>;
pub type Outcome = series::Outcome<Coverage, Found>;

/// Maps random programs, until a difference or the number that the options give.
pub fn run(options: &Options, sides: Sides) -> Outcome {
    let mut bench = Bench::default();
    let compare = |number, input: &mut Input, coverage: &mut Coverage| {
        program(&mut Random::of_case(options.seed, number), input);
        let answer = bench.compare(input, sides)?;
        coverage.count(input, answer, &bench.search);
        Ok(number + 1 >= options.programs)
    };
    series::run(Kind::Program, options.seed, options.program, compare)
}

/// A found difference as text: how to repeat it, and the smallest program that shows it.
pub fn explain(found: &Found, sides: Sides) -> String {
    let mut bench = Bench::default();
    let head = found.head(&format!("program {}", found.place.number));
    let input = shrink(&found.input, sides, &mut bench);
    let smaller = match bench.compare(&input, sides) {
        Err(difference) => format!("made smaller: {difference}\n"),
        Ok(_) => String::new(),
    };
    head + &smaller + &describe(&input, &bench)
}

/// A smaller program on which the sides still differ, and a map with less in it.
fn shrink(input: &Input, sides: Sides, bench: &mut Bench) -> Input {
    let mut best = input.clone();
    let mut keep = |best: &mut Input, changed: Input| {
        let differs = bench.compare(&changed, sides).is_err();
        if differs {
            *best = changed;
        }
        differs
    };
    shrink_program(input.program.clone(), |program| {
        let mut changed = best.clone();
        // The map becomes shorter with it.
        let cut = best.program.len() - program.len();
        changed.map.truncate(best.map.len().saturating_sub(cut));
        changed.program = program.to_vec();
        keep(&mut best, changed)
    });
    let mut changed = best.clone();
    changed.map.truncate(best.program.len());
    keep(&mut best, changed);
    let mut changed = best.clone();
    changed.map.fill(0);
    keep(&mut best, changed);
    best
}

/// A program as text, with everything that is needed to repeat it; where it is mapped, with what
/// both sides left: a line as a listing has it for each word that is not 0 or is mapped
/// differently.
fn describe(input: &Input, bench: &Bench) -> String {
    let Input {
        program,
        wide,
        start,
        map,
    } = input;
    let mut text = format!(
        "  width {wide}, start {start:X}h, to answer {}\n  program, {} bytes: {}\n  map, {} bytes: {}\n",
        input.refusal(),
        program.len(),
        hex(program),
        map.len(),
        hex(map)
    );
    if input.refusal() != 0 {
        return text;
    }
    let wide = input.is_wide();
    let width = words::bytes(wide) as usize;
    let count = words::whole(program.len(), wide);
    let mut lines = vec![0; count * LINE];
    coffee_reference::listing(&program[..count * width], input.wide, &mut lines);
    for (number, line) in lines.chunks_exact(LINE).enumerate() {
        let at = number * width;
        let (reference, library) = (bench.map[at], bench.library_map.lent()[at]);
        if word_at(program, at as u32, wide) != Some(0) || reference != library {
            let line = String::from_utf8_lossy(&line[..LINE - 1]);
            text.push_str(&format!(
                "  {line} reference {reference:02X}, library {library:02X}\n"
            ));
        }
    }
    text
}

#[cfg(test)]
mod tests {
    use super::*;
    use crate::met::Met;
    use crate::series::tests::{found_twice, no_difference_twice};
    use crate::words::{JAL, SCALL};

    const OPTIONS: Options = Options {
        programs: 300_000,
        ..Options::of_seed(5)
    };

    /// The reference agrees with itself, meets all that it should, and a session can be
    /// repeated.
    #[test]
    fn no_difference() {
        let sides = Sides::alike(reference);
        let explain = |found: &Found| explain(found, sides);
        let coverage = no_difference_twice(|| run(&OPTIONS, sides), explain);
        assert_eq!(coverage.programs, 300_000);
        assert_eq!(coverage.unmet(), Vec::<String>::new());
    }

    /// The reference, but the word after the slot of a 32-bit jal is not reached where that is
    /// at address 8.
    fn wrong_at_8(program: &[u8], wide: u32, start: u32, map: &mut [u8]) -> u32 {
        let answer = reference(program, wide, start, map);
        if answer == 0
            && wide != 0
            && start == 0
            && program.len() >= 12
            && program[0] >> 2 == JAL as u8
        {
            map[8] = 0;
        }
        answer
    }

    /// A difference is found, told by its byte, repeated by its number alone, and made smaller.
    #[test]
    fn difference_made_smaller() {
        let sides = Sides {
            reference,
            library: wrong_at_8,
        };
        let [found, again] = found_twice(&OPTIONS, |options| run(options, sides));
        assert!(matches!(
            &found.difference,
            Difference::Left(MapByte(byte)) if byte.index == 8
        ));
        assert_eq!(explain(&found, sides), explain(&again, sides));
        let smaller = shrink(&found.input, sides, &mut Bench::default());
        assert_eq!((smaller.program.len(), smaller.map), (12, vec![0; 12]));
    }

    /// The reference, but the last byte of a map becomes 2.
    fn writes_last(program: &[u8], wide: u32, start: u32, map: &mut [u8]) -> u32 {
        let answer = reference(program, wide, start, map);
        if let (0, Some(last)) = (answer, map.last_mut()) {
            *last = 2;
        }
        answer
    }

    /// The reference, but a refused map is cleared.
    fn clears_refused(program: &[u8], wide: u32, start: u32, map: &mut [u8]) -> u32 {
        let answer = reference(program, wide, start, map);
        if answer != 0 {
            map.fill(0);
        }
        answer
    }

    /// The reference, but it takes a start that is misaligned as the word before it.
    fn takes_misaligned(program: &[u8], wide: u32, start: u32, map: &mut [u8]) -> u32 {
        reference(program, wide, start & !1, map)
    }

    /// The reference, but nothing is reached from a scall at the start.
    fn ends_at_scall(program: &[u8], wide: u32, start: u32, map: &mut [u8]) -> u32 {
        let answer = reference(program, wide, start, map);
        if answer == 0 && program[start as usize] >> 2 == SCALL as u8 {
            map[..program.len()].fill(0);
            map[start as usize] = 1;
        }
        answer
    }

    /// What both sides do wrong is found too.
    #[test]
    fn both_sides_wrong() {
        for wrong in [
            wrong_at_8,
            writes_last,
            clears_refused,
            takes_misaligned,
            ends_at_scall,
        ] {
            let sides = Sides::alike(wrong);
            let found = run(&OPTIONS, sides).found.expect("a difference");
            assert!(matches!(found.difference, Difference::Both(_)));
        }
    }
}
