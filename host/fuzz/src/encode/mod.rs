//! Written words (Manual 12) on both sides, and what they are read as; and a session of them.

mod coverage;
mod generate;

use crate::difference;
use crate::series::{self, Kind};
use crate::session::Options;
use crate::words::{self, NAMES};
use coffee_reference::{cleared, reading, Choice};
pub use coverage::Coverage;
pub use generate::{choice, Forms, FEWEST};
use std::convert::Infallible;
use std::fmt;

/// The writing of a word: the word, or 2^32 plus the refusal's number.
pub type Encode = fn(&Choice) -> u64;

/// What a refusal is added to.
const REFUSED: u64 = 1 << 32;

pub type Sides = series::Sides<Encode>;

/// A choice, and what the generator knows of its answer.
#[derive(Clone, Copy, Default)]
pub struct Input {
    pub choice: Choice,
    /// The word in which the choice was read, if any.
    pub came_in: Option<u32>,
    pub refusal: u32,
}

/// An answer: a word, or the number of a refusal.
#[derive(Clone, Copy, Debug, PartialEq, Eq)]
pub struct Answer(u64);

impl Answer {
    /// The word, where it is one.
    pub fn word(self) -> Option<u32> {
        u32::try_from(self.0).ok()
    }

    /// The number of the refusal, where it is one.
    pub fn refusal(self) -> Option<u64> {
        self.0.checked_sub(REFUSED)
    }
}

impl fmt::Display for Answer {
    fn fmt(&self, f: &mut fmt::Formatter<'_>) -> fmt::Result {
        match self.refusal() {
            None => write!(f, "{:08X}h", self.0),
            Some(refusal) => write!(f, "refusal {refusal}"),
        }
    }
}

/// What differs in a written word; no memory is lent.
pub type Difference = difference::Difference<Answer, Infallible>;

/// Asks both sides for a word, compares their answers, and writes once more what is read in
/// the word.
pub fn compare(input: &Input, sides: Sides) -> Result<Answer, Difference> {
    let answer = agreed(&input.choice, sides)?;
    as_promised(input, answer, sides)?;
    Ok(answer)
}

/// The answer to a choice, where both sides give it.
fn agreed(choice: &Choice, sides: Sides) -> Result<Answer, Difference> {
    let [reference, library] = [sides.reference, sides.library].map(|side| Answer(side(choice)));
    Difference::agreed(reference, library)
}

/// What can be said of every answer: it is a refusal where the generator meant it to be; else
/// it is a word of this operation, its ignored bits are 0, reading it finds what it was made
/// from, and a second writing alters nothing. A word that came in is written with zeros.
fn as_promised(input: &Input, answer: Answer, sides: Sides) -> Result<(), Difference> {
    let both = |what: String| Err(Difference::Both(what));
    // No refusal has the number 0, so 2^32 is neither that nor a word.
    let meant = Some(u64::from(input.refusal)).filter(|&refusal| refusal != 0);
    if answer.refusal() != meant {
        return both(format!("{answer} is not what the generator meant"));
    }
    let Some(word) = answer.word() else {
        return Ok(());
    };
    let wide = input.choice.wide;
    if words::operation(word, wide != 0) != input.choice.operation {
        return both(format!("{answer} is of another operation or width"));
    }
    if cleared(word, wide) != Some(word) {
        return both(format!("{answer} has ignored bits other than 0"));
    }
    if let Some(came_in) = input
        .came_in
        .filter(|&word| cleared(word, wide) != answer.word())
    {
        return both(format!("{answer} for {came_in:08X}h that came in"));
    }
    let read = reading(word, wide);
    if read != Some(shown(&input.choice)) {
        return both(format!("{answer} is read as {read:?}"));
    }
    let second = agreed(&shown(&input.choice), sides)?;
    if second != answer {
        return both(format!("{answer}, written a second time, is {second}"));
    }
    Ok(())
}

/// A choice as it is read: 1 for a condition, and no numbers for none.
fn shown(choice: &Choice) -> Choice {
    match choice.conditional {
        0 => Choice {
            creg: 0,
            condition: 0,
            ..*choice
        },
        _ => Choice {
            conditional: 1,
            ..*choice
        },
    }
}

pub type Found = series::Found<Difference, Input>;
pub type Outcome = series::Outcome<Coverage, Found>;

/// Writes every 16-bit word and random choices, by turns, until a difference or the number of
/// choices that the options give.
pub fn run(options: &Options, sides: Sides) -> Outcome {
    let forms = Forms::new();
    let enough = options.choices.max(FEWEST);
    let compare = |number, input: &mut Input, coverage: &mut Coverage| {
        choice(options.seed, number, &forms, input);
        let answer = compare(input, sides)?;
        coverage.count(input, answer, &forms);
        Ok(number + 1 >= enough)
    };
    series::run(Kind::Choice, options.seed, options.choice, compare)
}

/// A found difference as text, with everything that is needed to repeat it.
pub fn explain(found: &Found) -> String {
    let choice = &found.input.choice;
    let name = NAMES.get(choice.operation as usize).unwrap_or(&"none");
    let came_in = match found.input.came_in {
        Some(word) => format!(", as read in {word:08X}h"),
        None => String::new(),
    };
    format!(
        "{}  operation {} ({name}), wide {}, conditional {}, creg {}, condition {}, operands {:?}{came_in}, \
         meant to answer {}\n",
        found.head(&format!("choice {}", found.place.number)),
        choice.operation,
        choice.wide,
        choice.conditional,
        choice.creg,
        choice.condition,
        choice.operands,
        match found.input.refusal {
            0 => "a word".to_string(),
            refusal => format!("refusal {refusal}"),
        }
    )
}

#[cfg(test)]
mod tests {
    use super::*;
    use crate::met::Met;
    use crate::series::tests::{found_twice, no_difference_twice};
    use coffee_reference::encode;

    const OPTIONS: Options = Options {
        choices: 1_000_000,
        ..Options::of_seed(5)
    };

    /// The reference agrees with itself, meets all that it should, and a session can be
    /// repeated.
    #[test]
    fn no_difference() {
        let sides = Sides::alike(encode);
        let coverage = no_difference_twice(|| run(&OPTIONS, sides), explain);
        assert_eq!(coverage.choices, 1_000_000);
        assert_eq!(coverage.unmet(), Vec::<String>::new());
    }

    /// The reference, but R13 as the second operand of a 32-bit word is written as R12.
    fn wrong_at_13(choice: &Choice) -> u64 {
        let answer = encode(choice);
        if answer < REFUSED && choice.wide != 0 && choice.operands[1] == 13 {
            answer ^ 1 << 5
        } else {
            answer
        }
    }

    /// A difference is found, told by its answers, and repeated by its number alone.
    #[test]
    fn difference_repeated() {
        let sides = Sides {
            reference: encode,
            library: wrong_at_13,
        };
        let [found, again] = found_twice(&OPTIONS, |options| run(options, sides));
        assert!(matches!(found.difference, Difference::Answer { .. }));
        assert_eq!(found.input.choice.operands[1], 13);
        assert_eq!(explain(&found), explain(&again));
    }

    /// The reference, but nop has an ignored bit at 1.
    fn ignored_bit(choice: &Choice) -> u64 {
        match encode(choice) {
            0 => 1,
            answer => answer,
        }
    }

    /// The reference, but nop is refused with 0.
    fn refusal_0(choice: &Choice) -> u64 {
        match encode(choice) {
            0 => REFUSED,
            answer => answer,
        }
    }

    /// The reference, but a shift by 32 is written as one by 0.
    fn shift_by_32(choice: &Choice) -> u64 {
        let mut choice = *choice;
        if choice.operation == 23 && choice.operands[2] == 32 {
            choice.operands[2] = 0;
        }
        encode(&choice)
    }

    /// What both sides do wrong is found too.
    #[test]
    fn both_sides_wrong() {
        for wrong in [ignored_bit, refusal_0, shift_by_32, wrong_at_13] {
            let sides = Sides::alike(wrong);
            let found = run(&OPTIONS, sides).found.expect("a difference");
            assert!(matches!(found.difference, Difference::Both(_)));
        }
    }
}
