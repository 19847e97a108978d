//! What the written words of a session met.

use super::generate::{may_be_conditional, Forms, Part, Range, OPERANDS};
use super::{Answer, Input};
use crate::met::{
    line, put, sums, yes_place, Conditions, Lines, Met, Unmet, Words, WIDTH_NAMES, YES,
};
use crate::words::{only_wide, NAMES};
use coffee_reference::cleared;

/// The answers.
const ANSWERS: [&str; 3] = ["a word", "18", "19"];
/// Operands at their ends and one past them, where all other parts of the choice fit.
const ENDS: [&str; 4] = ["the least", "the greatest", "one below", "one above"];
/// Operands that do not fit for another reason, where all other parts fit.
const FAR: [&str; 3] = ["80000000h", "7FFFFFFFh", "far off"];
/// Parts of a condition that do not fit, where all other parts fit.
const PARTS: [&str; 2] = ["creg", "condition"];
const LARGE: [&str; 3] = ["8", "9", "more"];
/// Reasons for 18 and 19 that stand together.
const TOGETHER: [&str; 2] = ["a part of the condition", "an operand"];

/// Counts of what was met, by width (0 for 16 bits, 1 for 32) where an array has 2 parts.
pub struct Coverage {
    pub choices: u64,
    /// By operation, and by the place in ANSWERS.
    answers: [[[u64; 3]; 64]; 2],
    /// Operation numbers that no operation has: 64 to 70, and larger ones.
    beyond: [[u64; 2]; 2],
    /// By operation and operand, and by the place in ENDS and in FAR.
    ends: [[[[u64; 4]; OPERANDS]; 64]; 2],
    far: [[[[u64; 3]; OPERANDS]; 64]; 2],
    /// Conditions that were written.
    conditions: Conditions,
    /// By the place in PARTS and in LARGE.
    large: [[u64; 3]; 2],
    /// Words written without a condition, for a choice in which a part of one is above 7.
    no_condition: [u64; 2],
    /// By the place in TOGETHER.
    together: [[u64; 2]; 2],
    /// 19 for several reasons.
    several: [u64; 2],
    /// The width and the condition, by the place in YES.
    wides: [u64; 5],
    conditionals: [u64; 5],
    /// Words that came in; 32-bit words of which an ignored bit was 1, by operation.
    words: Words,
    ignored: [u64; 64],
}

impl Coverage {
    pub fn new() -> Coverage {
        Coverage {
            choices: 0,
            answers: [[[0; 3]; 64]; 2],
            beyond: [[0; 2]; 2],
            ends: [[[[0; 4]; OPERANDS]; 64]; 2],
            far: [[[[0; 3]; OPERANDS]; 64]; 2],
            conditions: Conditions::default(),
            large: [[0; 3]; 2],
            no_condition: [0; 2],
            together: [[0; 2]; 2],
            several: [0; 2],
            wides: [0; 5],
            conditionals: [0; 5],
            words: Words::new(),
            ignored: [0; 64],
        }
    }

    /// The different 16-bit words that came in, and all 32-bit words.
    pub fn words(&self) -> [u64; 2] {
        self.words.counts()
    }

    /// Counts a choice on which both sides agree.
    pub fn count(&mut self, input: &Input, answer: Answer, forms: &Forms) {
        let choice = &input.choice;
        let width = usize::from(choice.wide != 0);
        self.choices += 1;
        self.wides[yes_place(choice.wide)] += 1;
        self.conditionals[yes_place(choice.conditional)] += 1;
        if let Some(word) = input.came_in {
            self.words.count(word, width == 1);
            if width == 1 {
                let ignored = cleared(word, choice.wide) != Some(word);
                self.ignored[(word >> 26) as usize] += u64::from(ignored);
            }
        }
        let misfits: Vec<_> = forms.misfits(choice).collect();
        let refusal = answer.refusal();
        if refusal == Some(18) {
            for &(part, _, _) in &misfits {
                let place = usize::from(matches!(part, Part::Operand(_)));
                self.together[width][place] += 1;
            }
        }
        let Some(by_answer) = self.answers[width].get_mut(choice.operation as usize) else {
            let place = usize::from(choice.operation > 70);
            self.beyond[width][place] += 1;
            return;
        };
        let operation = choice.operation as usize;
        match refusal {
            None => {
                by_answer[0] += 1;
                for (part, number, range) in forms.parts(choice) {
                    if let Part::Operand(index) = part {
                        let ends = &mut self.ends[width][operation][index];
                        ends[0] += u64::from(number == range.0);
                        ends[1] += u64::from(number == range.1);
                    }
                }
                if choice.conditional != 0 {
                    self.conditions.count(choice.condition, choice.creg);
                } else if choice.creg > 7 || choice.condition > 7 {
                    self.no_condition[width] += 1;
                }
            }
            Some(18) => by_answer[1] += 1,
            Some(_) => {
                by_answer[2] += 1;
                match misfits[..] {
                    [alone] => self.count_misfit(width, operation, alone),
                    _ => self.several[width] += 1,
                }
            }
        }
    }

    /// Counts the only part that does not fit.
    fn count_misfit(&mut self, width: usize, operation: usize, misfit: (Part, i64, Range)) {
        let (part, number, (least, greatest)) = misfit;
        let large = match number {
            8 => 0,
            9 => 1,
            _ => 2,
        };
        match part {
            Part::Creg => self.large[0][large] += 1,
            Part::Condition => self.large[1][large] += 1,
            Part::Operand(index) => {
                let ends = &mut self.ends[width][operation][index];
                ends[2] += u64::from(number == least - 1);
                ends[3] += u64::from(number == greatest + 1);
                let far = &mut self.far[width][operation][index];
                far[0] += u64::from(number == i64::from(i32::MIN));
                far[1] += u64::from(number == i64::from(i32::MAX));
                let count = greatest - least + 1;
                far[2] += u64::from((number - least).abs() >= 2 * count);
            }
        }
    }
}

impl Met for Coverage {
    fn unmet(&self) -> Vec<String> {
        let forms = Forms::new();
        let mut unmet = Unmet::default();
        for (width, name) in WIDTH_NAMES.into_iter().enumerate() {
            for (operation, mnemonic) in NAMES.iter().enumerate() {
                let number = operation as u32;
                let has_form = width == 1 || !only_wide(number);
                let never = !may_be_conditional(number, width == 1);
                let answers = ANSWERS.iter().zip(&self.answers[width][operation]);
                let can_be = answers.zip([has_form, never, has_form]);
                unmet.need_each(
                    can_be.filter_map(|(answer, can_be)| can_be.then_some(answer)),
                    |answer| format!("{name} {mnemonic} answered with {answer}"),
                );
                if !has_form {
                    continue;
                }
                let has = forms.ranges(number, width == 1).len();
                for operand in 0..OPERANDS {
                    let what = if operand < has {
                        "operand"
                    } else {
                        "no operand"
                    };
                    let ends = ENDS.iter().zip(&self.ends[width][operation][operand]);
                    let far = FAR.iter().zip(&self.far[width][operation][operand]);
                    unmet.need_each(ends.chain(far), |end| {
                        format!("{name} {mnemonic} with {what} {operand}, {end}")
                    });
                }
            }
            let beyond = ["64 to 70", "above 70"].iter().zip(&self.beyond[width]);
            unmet.need_each(beyond, |numbers| {
                format!("{name} operation number {numbers}")
            });
            unmet.need_each(TOGETHER.iter().zip(&self.together[width]), |reason| {
                format!("{name} choice that answers 18, while {reason} does not fit")
            });
            unmet.need(
                self.several[width],
                format!("{name} choice of which several parts do not fit"),
            );
            unmet.need(
                self.no_condition[width],
                format!("{name} word without a condition, for a choice with a part of one above 7"),
            );
        }
        for (part, counts) in PARTS.iter().zip(&self.large) {
            unmet.need_each(LARGE.iter().zip(counts), |large| format!("{part} {large}"));
        }
        for (place, (_, number)) in YES.into_iter().enumerate() {
            unmet.need(self.wides[place], format!("{number} as the width"));
            unmet.need(
                self.conditionals[place],
                format!("{number} for a condition or none"),
            );
        }
        self.conditions.need(&mut unmet, "written");
        self.words.need_short(&mut unmet, "written again");
        for (operation, mnemonic) in NAMES.iter().enumerate() {
            self.words
                .need_bit_25(&mut unmet, operation, "written again, its");
            unmet.need(
                self.ignored[operation],
                format!("32-bit {mnemonic} written again, an ignored bit at 1"),
            );
        }
        unmet.lines()
    }

    fn report(&self) -> String {
        let mut text = String::new();
        let out = &mut text;
        for (width, name) in WIDTH_NAMES.into_iter().enumerate().rev() {
            let mut lines = Lines::of(out, name);
            lines.add("choices by answer", ANSWERS, &sums(&self.answers[width]));
            lines.add(
                "choices that answer 18 where this does not fit",
                TOGETHER,
                &self.together[width],
            );
            let ends = sums(self.ends[width].iter().flatten());
            let far = sums(self.far[width].iter().flatten());
            lines.add(
                "operands, all else fitting",
                ENDS.iter().chain(&FAR),
                ends.iter().chain(&far),
            );
        }
        for (place, part) in PARTS.into_iter().enumerate() {
            line(
                out,
                &format!("{part} that does not fit, all else fitting"),
                LARGE.iter().zip(&self.large[place]),
            );
        }
        let conditions = self.conditions.sum();
        let [short, wide] = self.words();
        let ignored: u64 = self.ignored.iter().sum();
        put(
            out,
            format!(
                "words with a condition: {conditions}; words written again: 32-bit {wide}, with ignored bits at 1 {ignored}, 16-bit {short}"
            ),
        );
        for (width, name) in WIDTH_NAMES.into_iter().enumerate().rev() {
            let words = self.answers[width].iter().map(|answers| &answers[0]);
            Lines::of(out, name).add("words by operation", NAMES, words);
        }
        text
    }
}

impl Default for Coverage {
    fn default() -> Coverage {
        Coverage::new()
    }
}
