//! Choices to write words from.

use super::Input;
use crate::listing::{short_word, wide_word};
use crate::random::Random;
use crate::words::{self, *};
use coffee_reference::{operand_ranges, reading, Choice};

/// Most operands that a choice gives.
pub const OPERANDS: usize = 4;
/// One choice in this many is that of a 16-bit word, while there are any.
const TURNS: u64 = 4;
/// The choices of a session in which all 16-bit words have had their turn.
pub const FEWEST: u64 = TURNS * SHORT_WORDS;

/// The least and the greatest number that fit.
pub type Range = (i64, i64);
/// What fits an operand that an operation does not have.
const NOTHING: Range = (0, 0);
/// What fits a part of a condition.
const CONDITION_PART: Range = (0, 7);

/// A part of a choice that has to fit.
#[derive(Clone, Copy, Debug, PartialEq, Eq)]
pub enum Part {
    Creg,
    Condition,
    Operand(usize),
}

/// The ranges of the operands of every operation in both widths.
pub struct Forms {
    /// By width (0 for 16 bits, 1 for 32) and operation; none where there is no form.
    forms: [[Option<Vec<Range>>; 64]; 2],
}

impl Forms {
    pub fn new() -> Forms {
        let form = |width: usize, operation: usize| {
            let ranges = operand_ranges(operation as u32, width as u32)?;
            let ends = ranges.iter().map(|range| (*range.start(), *range.end()));
            Some(ends.collect())
        };
        let forms = [0, 1].map(|width| std::array::from_fn(|operation| form(width, operation)));
        Forms { forms }
    }

    /// The ranges of the operands that an operation has in a width; those of 32-bit words
    /// where it has no form in 16-bit words, and none where it is no operation.
    pub fn ranges(&self, operation: u32, wide: bool) -> &[Range] {
        let form = |width: usize| self.forms[width].get(operation as usize)?.as_deref();
        form(usize::from(wide)).or(form(1)).unwrap_or(&[])
    }

    /// Everything of a choice that has to fit, with what fits. Without a condition its parts
    /// are not looked at.
    pub fn parts(&self, choice: &Choice) -> impl Iterator<Item = (Part, i64, Range)> + '_ {
        let given = choice.conditional != 0;
        let condition = [
            (Part::Creg, choice.creg),
            (Part::Condition, choice.condition),
        ];
        let condition = condition
            .into_iter()
            .filter(move |_| given)
            .map(|(part, number)| (part, i64::from(number), CONDITION_PART));
        let ranges = self.ranges(choice.operation, choice.wide != 0);
        let operands = choice.operands.into_iter().enumerate();
        condition.chain(operands.map(|(index, number)| {
            let range = ranges.get(index).copied().unwrap_or(NOTHING);
            (Part::Operand(index), i64::from(number), range)
        }))
    }

    /// The parts of a choice that do not fit.
    pub fn misfits(&self, choice: &Choice) -> impl Iterator<Item = (Part, i64, Range)> + '_ {
        self.parts(choice)
            .filter(|&(_, number, range)| !fits(number, range))
    }

    /// The refusal of a choice, 0 for none.
    pub fn refusal(&self, choice: &Choice) -> u32 {
        if has_no_form(choice) {
            18
        } else if self.misfits(choice).next().is_some() {
            19
        } else {
            0
        }
    }
}

impl Default for Forms {
    fn default() -> Forms {
        Forms::new()
    }
}

pub fn fits(number: i64, (least, greatest): Range) -> bool {
    least <= number && number <= greatest
}

/// Whether the operation has no form in that width, or a condition is given and it has no
/// conditional form.
fn has_no_form(choice: &Choice) -> bool {
    let wide = choice.wide != 0;
    choice.operation > EXBFI
        || !wide && only_wide(choice.operation)
        || choice.conditional != 0 && !may_be_conditional(choice.operation, wide)
}

/// Whether an operation has a conditional form in a width.
pub fn may_be_conditional(operation: u32, wide: bool) -> bool {
    wide && operation <= EXBFI && !never_conditional(operation)
}

/// The choice with this number of a session: those of all 16-bit words, one in four, and
/// else random ones.
pub fn choice(seed: u64, number: u64, forms: &Forms, input: &mut Input) {
    let mut random = Random::of_case(seed, number);
    let random = &mut random;
    let (turn, rest) = (number / TURNS, number % TURNS);
    if rest == 0 && turn < SHORT_WORDS {
        let word = short_word(seed, turn as u32);
        came_in(random, u32::from(word), 0, input);
    } else if random.percent(15) {
        let word = wide_word(random);
        let wide = random.yes();
        came_in(random, word, wide, input);
    } else {
        input.came_in = None;
        input.choice = random_choice(random, forms);
    }
    input.refusal = forms.refusal(&input.choice);
}

/// What the reference reads in a word. A word without a form gives its operation alone.
fn came_in(random: &mut Random, word: u32, wide: u32, input: &mut Input) {
    input.came_in = Some(word);
    input.choice = reading(word, wide).unwrap_or(Choice {
        operation: words::operation(word, wide != 0),
        wide,
        ..Choice::default()
    });
    if input.choice.conditional != 0 {
        input.choice.conditional = random.yes();
    }
}

/// Any operation, seldom a number that none has; all parts fit, or one does not, or several.
fn random_choice(random: &mut Random, forms: &Forms) -> Choice {
    let operation = match random.below(40) {
        0 => random.range(64, 70),
        // The low six bits are those of an operation.
        1 => random.below(64) | 64 << random.below(26),
        2 => random.number(),
        _ => random.below(64),
    };
    let wide = if random.percent(45) { 0 } else { random.yes() };
    let given = if may_be_conditional(operation, wide != 0) {
        random.percent(40)
    } else {
        random.percent(8)
    };
    let mut choice = Choice {
        operation,
        wide,
        conditional: if given { random.yes() } else { 0 },
        ..Choice::default()
    };
    let misfits = match random.below(20) {
        0..=9 => Misfits::Nothing,
        10..=12 if given => Misfits::One(random.pick(&[Part::Creg, Part::Condition])),
        10..=17 => Misfits::One(Part::Operand(random.below(OPERANDS as u32) as usize)),
        _ => Misfits::Several,
    };
    let ranges = forms.ranges(operation, wide != 0);
    for index in 0..OPERANDS {
        let range = ranges.get(index).copied().unwrap_or(NOTHING);
        choice.operands[index] = if misfits.has(random, Part::Operand(index)) {
            misfitting(random, range)
        } else {
            fitting(random, range)
        };
    }
    let large = misfits.has(random, Part::Creg);
    choice.creg = condition_part(random, large, given);
    let large = misfits.has(random, Part::Condition);
    choice.condition = condition_part(random, large, given);
    choice
}

/// The parts of a choice that are not to fit.
#[derive(Clone, Copy)]
enum Misfits {
    Nothing,
    One(Part),
    /// Each part as likely as not.
    Several,
}

impl Misfits {
    fn has(self, random: &mut Random, part: Part) -> bool {
        match self {
            Misfits::Nothing => false,
            Misfits::One(one) => one == part,
            Misfits::Several => random.one_in(2),
        }
    }
}

/// A part of a condition. Without a condition it may be any number.
fn condition_part(random: &mut Random, large: bool, given: bool) -> u32 {
    if !given && random.percent(50) {
        return 0;
    }
    if !large && (given || random.percent(50)) {
        return random.below(8);
    }
    match random.below(6) {
        0 | 1 => 8,
        2 => 9,
        3 => 8 << random.below(29),
        4 => u32::MAX - random.below(8),
        _ => random.word().max(8),
    }
}

/// A number that fits, often one of the ends.
fn fitting(random: &mut Random, (least, greatest): Range) -> i32 {
    let number = match random.below(10) {
        0 | 1 => least,
        2 | 3 => greatest,
        4 if least <= 0 => 0,
        5 => least + i64::from(random.below(3)),
        6 => greatest - i64::from(random.below(3)),
        _ => least + i64::from(random.below((greatest - least) as u32 + 1)),
    };
    number.clamp(least, greatest) as i32
}

/// A number that does not fit, often one past an end.
fn misfitting(random: &mut Random, (least, greatest): Range) -> i32 {
    let count = greatest - least + 1;
    let number = match random.below(16) {
        0..=2 => least - 1,
        3..=5 => greatest + 1,
        6 | 7 => i64::from(i32::MIN) + i64::from(random.below(4) / 3),
        8 | 9 => i64::from(i32::MAX) - i64::from(random.below(4) / 3),
        // Registers, widths and codes of traps.
        10 => i64::from(random.below(64)),
        11 => 224 + i64::from(random.below(32)),
        // A power of two, or one beside it.
        12 => (1 << random.below(32)) - 1 + i64::from(random.below(3)),
        13 => 1 - i64::from(random.below(3)) - (1 << random.below(32)),
        // A number that fits, and other bits above it.
        14 => {
            let number = i64::from(fitting(random, (least, greatest)));
            number + (i64::from(random.below(64)) - 32) * count
        }
        _ => i64::from(random.number() as i32),
    };
    match i32::try_from(number) {
        Ok(small) if !fits(number, (least, greatest)) => small,
        _ => (greatest + 1) as i32,
    }
}

#[cfg(test)]
mod tests {
    use super::*;

    /// Numbers that fit do, and those that do not do not.
    #[test]
    fn numbers() {
        let mut random = Random::of_case(1, 1);
        for range in [
            NOTHING,
            CONDITION_PART,
            (24, 31),
            (-8, 7),
            (0, 65_535),
            (-16_777_216, 16_777_215),
        ] {
            for _ in 0..10_000 {
                assert!(fits(i64::from(fitting(&mut random, range)), range));
                assert!(!fits(i64::from(misfitting(&mut random, range)), range));
            }
        }
    }

    /// Ranges of operands (Manual 2.3 and 2.4).
    #[test]
    fn ranges() {
        let forms = Forms::new();
        let register = (0, 31);
        assert_eq!(forms.ranges(LD, true), [register, register, (-256, 255)]);
        assert_eq!(forms.ranges(LD, false), [(24, 31), (24, 31), (-8, 7)]);
        assert_eq!(forms.ranges(CMP, true), [(0, 7), register, register]);
        assert_eq!(forms.ranges(LLI, false), [register, (0, 65_535)]);
        assert_eq!(
            forms.ranges(EXBFI, true),
            [register, register, (0, 63), register]
        );
        assert_eq!(forms.ranges(NOP, true), []);
        assert_eq!(forms.ranges(64, true), []);
        assert_eq!(forms.ranges(u32::MAX, false), []);
    }
}
