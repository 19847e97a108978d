//! Images of the earlier layout carried over (Manual 9) on both sides, and everything that a
//! carry-over may touch; and a session of them.

mod coverage;
mod generate;

use crate::difference::{self, ImageByte};
use crate::guarded::Guarded;
use crate::random::Random;
use crate::series::{self, Kind};
use crate::session::Options;
pub use coverage::Coverage;
pub use generate::{carry, Expected};

/// The last section: two dividers, which are 0, after their count.
const LAST_SECTION: [u8; 12] = [0, 0, 0, 2, 0, 0, 0, 0, 0, 0, 0, 0];

/// A carry-over: image, buffer.
pub type CarryOver = fn(&[u8], &mut [u8]) -> u32;

pub type Sides = series::Sides<CarryOver>;

/// Everything that a carry-over lends, and what the generator knows of its answer.
#[derive(Clone, Default)]
pub struct Input {
    pub image: Vec<u8>,
    pub buffer: Vec<u8>,
    pub expected: Expected,
}

/// What differs after a carry-over.
pub type Difference = difference::Difference<u32, ImageByte>;

/// Memory for both sides, used again for every carry-over.
#[derive(Default)]
pub struct Bench {
    /// What the reference leaves.
    buffer: Vec<u8>,
    /// The library's, between guards.
    library_buffer: Guarded<u8>,
    /// The library's copy of what it may only read.
    image: Vec<u8>,
}

impl Bench {
    /// Calls both sides and compares the answers and the whole buffers.
    pub fn compare(&mut self, input: &Input, sides: Sides) -> Result<u32, Difference> {
        self.buffer.clone_from(&input.buffer);
        self.library_buffer.lay(&input.buffer);
        self.image.clone_from(&input.image);

        let reference = (sides.reference)(&input.image, &mut self.buffer);
        let library = (sides.library)(&self.image, self.library_buffer.lent_mut());
        let answer = Difference::agreed(reference, library)?;
        let bytes = self.library_buffer.lent();
        if let Some(byte) = ImageByte::first(&input.buffer, &self.buffer, bytes) {
            return Err(Difference::Left(byte));
        }
        if self.image != input.image {
            return Err(Difference::Stray("the image that came in".to_string()));
        }
        self.library_buffer
            .untouched("the buffer")
            .map_err(Difference::Stray)?;
        self.as_promised(input, answer).map_err(Difference::Both)?;
        Ok(answer)
    }

    /// What holds of every answer: it is the one that the generator meant; a refusal changes
    /// nothing; otherwise the buffer begins with the image and the dividers 0, and its further
    /// bytes stay.
    fn as_promised(&self, input: &Input, answer: u32) -> Result<(), String> {
        let meant = input.expected.refusal;
        if meant.is_some_and(|refusal| refusal != answer) || !ANSWERS.contains(&answer) {
            return Err(format!(
                "answer {answer} where the generator meant {meant:?}"
            ));
        }
        if answer != 0 {
            if self.buffer != input.buffer {
                return Err(format!("answer {answer} and a changed buffer"));
            }
            return Ok(());
        }
        let length = input.image.len();
        let end = length + LAST_SECTION.len();
        if self.buffer[..length] != input.image[..] {
            return Err("an image that is not the same".to_string());
        }
        if self.buffer[length..end] != LAST_SECTION {
            return Err("dividers that are not 0".to_string());
        }
        if self.buffer[end..] != input.buffer[end..] {
            return Err("bytes behind the image changed".to_string());
        }
        Ok(())
    }
}

/// The answers: carried over, or the question whose answer is no.
pub const ANSWERS: [u32; 6] = [0, 2, 3, 4, 5, 8];

pub type Found = series::Found<Difference, Input>;
pub type Outcome = series::Outcome<Coverage, Found>;

/// Carries random images over, until a difference or the number that the options give.
pub fn run(options: &Options, sides: Sides) -> Outcome {
    let mut bench = Bench::default();
    let compare = |number, input: &mut Input, coverage: &mut Coverage| {
        carry(&mut Random::of_case(options.seed, number), input);
        let answer = bench.compare(input, sides)?;
        coverage.count(input, answer);
        Ok(number + 1 >= options.carried)
    };
    series::run(Kind::Carry, options.seed, options.carry, compare)
}

/// A found difference as text, with everything that is needed to repeat it.
pub fn explain(found: &Found) -> String {
    let Input {
        image,
        buffer,
        expected,
    } = &found.input;
    format!(
        "{}  image, {} bytes: {}\n  buffer {} bytes, damage {:?}, meant to answer {:?}\n",
        found.head(&format!("carry-over {}", found.place.number)),
        image.len(),
        crate::shrink::hex(image),
        buffer.len(),
        expected.damage,
        expected.refusal
    )
}

#[cfg(test)]
mod tests {
    use super::*;
    use crate::image::{EARLIER_LONGEST, LONGEST};
    use crate::met::Met;
    use crate::series::tests::{found_twice, no_difference_twice};
    use coffee_reference::carry_over;

    const OPTIONS: Options = Options {
        carried: 100_000,
        ..Options::of_seed(5)
    };

    /// The reference agrees with itself, meets all that it should, and a session can be
    /// repeated.
    #[test]
    fn no_difference() {
        let sides = Sides::alike(carry_over);
        let coverage = no_difference_twice(|| run(&OPTIONS, sides), explain);
        assert_eq!(coverage.compared, 100_000);
        assert_eq!(coverage.unmet(), Vec::<String>::new());
    }

    /// The reference, but an image with a full stack is carried over with a divider of 1.
    fn wrong_at_12(image: &[u8], buffer: &mut [u8]) -> u32 {
        let answer = carry_over(image, buffer);
        if answer == 0 && image.len() == EARLIER_LONGEST {
            buffer[LONGEST - 1] = 1;
        }
        answer
    }

    /// A difference is found, told by its byte, and repeated by its number alone.
    #[test]
    fn difference_repeated() {
        let sides = Sides {
            reference: carry_over,
            library: wrong_at_12,
        };
        let [found, again] = found_twice(&OPTIONS, |options| run(options, sides));
        assert!(matches!(
            &found.difference,
            Difference::Left(ImageByte { byte, name })
                if byte.index == LONGEST - 1 && name == "divider 1"
        ));
        assert_eq!(explain(&found), explain(&again));
    }

    /// The reference, but the last byte of a buffer becomes 0.
    fn writes_last(image: &[u8], buffer: &mut [u8]) -> u32 {
        let answer = carry_over(image, buffer);
        if let (0, Some(last)) = (answer, buffer.last_mut()) {
            *last = 0;
        }
        answer
    }

    /// The reference, but it takes a shorter buffer where the image fits.
    fn takes_less(image: &[u8], buffer: &mut [u8]) -> u32 {
        match carry_over(image, buffer) {
            8 if buffer.len() == LONGEST - 1 => 0,
            answer => answer,
        }
    }

    /// What both sides do wrong is found too.
    #[test]
    fn both_sides_wrong() {
        for wrong in [wrong_at_12, writes_last, takes_less] {
            let sides = Sides::alike(wrong);
            let found = run(&OPTIONS, sides).found.expect("a difference");
            assert!(matches!(found.difference, Difference::Both(_)));
        }
    }
}
