//! What the listings of a session met.

use super::generate::{used_immediate, used_width};
use super::{Input, Text, LINE};
use crate::call::MEMORY_LIMIT;
use crate::met::{put, yes_place, Conditions, Lines, Met, Unmet, Words, WIDTH_NAMES, YES};
use crate::words::{self, *};

/// The answers.
const ANSWERS: [u32; 4] = [0, 1, 16, 17];
/// The kinds of text.
const TEXTS: [(Text, &str); 6] = [
    (Text::Exact, "exact"),
    (Text::Longer, "longer"),
    (Text::OneShort, "one byte short"),
    (Text::NoNewlines, "47 bytes per word"),
    (Text::Shorter, "shorter"),
    (Text::Empty, "empty"),
];
/// Reasons for a refusal that stand together.
const TOGETHER: [&str; 4] = ["1 with 16", "1 with 17", "16 with 17", "all three"];
/// The immediates at the ends.
const ENDS: [&str; 4] = ["0", "all ones", "the top bit alone", "all but the top bit"];

/// Counts of what was met, by width (0 for 16 bits, 1 for 32) where an array has 2 parts.
pub struct Coverage {
    pub listings: u64,
    /// Lines that were written and compared.
    pub lines: [u64; 2],
    operations: [[u64; 64]; 2],
    /// Words that were listed.
    words: Words,
    /// Conditions that are shown.
    conditions: Conditions,
    /// 32-bit words by operation, with an immediate of ENDS.
    ends: [[u64; 4]; 64],
    /// By the place in ANSWERS.
    answers: [[u64; 4]; 2],
    /// By the place in TOGETHER.
    together: [[u64; 4]; 2],
    /// Programs of one word or more and not too long, by the place in TEXTS.
    texts: [[u64; 6]; 2],
    /// By the place in YES.
    widths: [u64; 5],
    /// Programs of no bytes, with an empty text and another; the longest that is listed;
    /// those of one byte and of one word more.
    empty: [[u64; 2]; 2],
    longest: [u64; 2],
    one_byte_more: [u64; 2],
    one_word_more: [u64; 2],
    /// Programs that are no whole number of words, by the bytes left over.
    left_over: [[u64; 4]; 2],
}

impl Coverage {
    pub fn new() -> Coverage {
        Coverage {
            listings: 0,
            lines: [0; 2],
            operations: [[0; 64]; 2],
            words: Words::new(),
            conditions: Conditions::default(),
            ends: [[0; 4]; 64],
            answers: [[0; 4]; 2],
            together: [[0; 4]; 2],
            texts: [[0; 6]; 2],
            widths: [0; 5],
            empty: [[0; 2]; 2],
            longest: [0; 2],
            one_byte_more: [0; 2],
            one_word_more: [0; 2],
            left_over: [[0; 4]; 2],
        }
    }

    /// All words that were listed.
    pub fn words(&self) -> u64 {
        self.lines[0] + self.lines[1]
    }

    /// Counts a listing on which both sides agree.
    pub fn count(&mut self, input: &Input, answer: u32) {
        let wide = input.is_wide();
        let width = usize::from(wide);
        let length = input.program.len();
        let word_bytes = words::bytes(wide) as usize;
        self.listings += 1;
        self.widths[yes_place(input.wide)] += 1;
        if let Some(place) = ANSWERS.iter().position(|&number| number == answer) {
            self.answers[width][place] += 1;
        }
        let long = length > MEMORY_LIMIT;
        let left_over = length % word_bytes;
        let ragged = left_over > 0;
        let short = input.text.len() < input.words() * LINE;
        let place = match (long, ragged, short) {
            (true, true, false) => Some(0),
            (true, false, true) => Some(1),
            (false, true, true) => Some(2),
            (true, true, true) => Some(3),
            _ => None,
        };
        if let Some(place) = place {
            self.together[width][place] += 1;
        }
        if !long && ragged {
            self.left_over[width][left_over] += 1;
        }
        self.one_byte_more[width] += u64::from(length == MEMORY_LIMIT + 1);
        self.one_word_more[width] += u64::from(length == MEMORY_LIMIT + word_bytes);
        if length == 0 {
            self.empty[width][usize::from(!input.text.is_empty())] += 1;
        } else if !long && !ragged {
            let place = TEXTS.iter().position(|&(kind, _)| kind == input.kind);
            self.texts[width][place.unwrap_or(0)] += 1;
        }
        if answer == 0 {
            self.longest[width] += u64::from(length == MEMORY_LIMIT);
            self.lines[width] += input.words() as u64;
            for number in 0..input.words() {
                let address = (number * word_bytes) as u32;
                if let Some(word) = word_at(&input.program, address, wide) {
                    self.count_word(word, wide);
                }
            }
        }
    }

    fn count_word(&mut self, word: u32, wide: bool) {
        let operation = words::operation(word, wide);
        let index = operation as usize;
        self.operations[usize::from(wide)][index] += 1;
        self.words.count(word, wide);
        if !wide {
            return;
        }
        if has_condition(word, wide) {
            self.conditions.count(word >> 19 & 7, word >> 22 & 7);
        }
        if let Some(ends) = ends(operation) {
            let number = used_immediate(operation, word);
            for (count, _) in self.ends[index]
                .iter_mut()
                .zip(ends)
                .filter(|(_, end)| *end == number)
            {
                *count += 1;
            }
        }
    }
}

impl Met for Coverage {
    fn unmet(&self) -> Vec<String> {
        let mut unmet = Unmet::default();
        for (width, name) in WIDTH_NAMES.into_iter().enumerate() {
            unmet.need_each(NAMES.iter().zip(&self.operations[width]), |mnemonic| {
                format!("{name} {mnemonic} listed")
            });
            unmet.need_each(ANSWERS.iter().zip(&self.answers[width]), |answer| {
                format!("{name} listing that answers {answer}")
            });
            unmet.need_each(TOGETHER.iter().zip(&self.together[width]), |reasons| {
                format!("{name} listing with several reasons for a refusal, {reasons}")
            });
            unmet.need_each(TEXTS.iter().zip(&self.texts[width]), |(_, text)| {
                format!("{name} listing, its text {text}")
            });
            let empty = ["an empty", "another"].iter().zip(&self.empty[width]);
            unmet.need_each(empty, |text| {
                format!("{name} listing of no bytes to {text} text")
            });
            unmet.need(
                self.longest[width],
                format!("{name} listing of 65,536 bytes"),
            );
            unmet.need(
                self.one_byte_more[width],
                format!("{name} listing of 65,537 bytes"),
            );
            unmet.need(
                self.one_word_more[width],
                format!("{name} listing of one word more than 65,536 bytes"),
            );
            for left in 1..words::bytes(width == 1) as usize {
                unmet.need(
                    self.left_over[width][left],
                    format!("{name} listing with {left} bytes left over"),
                );
            }
        }
        self.words.need_short(&mut unmet, "listed");
        unmet.need_each(YES.iter().zip(&self.widths), |(_, number)| {
            format!("listing with {number} as its width")
        });
        for (operation, mnemonic) in NAMES.iter().enumerate() {
            self.words.need_bit_25(&mut unmet, operation, "listed with");
            if ends(operation as u32).is_some() {
                unmet.need_each(ENDS.iter().zip(&self.ends[operation]), |end| {
                    format!("32-bit {mnemonic} listed with immediate {end}")
                });
            }
        }
        self.conditions.need(&mut unmet, "listed");
        unmet.lines()
    }

    fn report(&self) -> String {
        let mut text = String::new();
        let out = &mut text;
        for (width, name) in WIDTH_NAMES.into_iter().enumerate().rev() {
            let mut lines = Lines::of(out, name);
            lines.add("listings by answer", ANSWERS, &self.answers[width]);
            lines.add(
                "listings with several reasons for a refusal",
                TOGETHER,
                &self.together[width],
            );
            let kinds = TEXTS.iter().map(|(_, kind)| kind);
            lines.add("listings by text", kinds, &self.texts[width]);
        }
        let [different, _] = self.words.counts();
        let conditions = self.conditions.sum();
        put(
            out,
            format!(
                "lines: 32-bit {}, with a condition {conditions}; 16-bit {}, of {different} different words",
                self.lines[1], self.lines[0]
            ),
        );
        for (width, name) in WIDTH_NAMES.into_iter().enumerate().rev() {
            Lines::of(out, name).add("lines by operation", NAMES, &self.operations[width]);
        }
        text
    }
}

impl Default for Coverage {
    fn default() -> Coverage {
        Coverage::new()
    }
}

/// The immediates of ENDS for an operation in 32-bit words, where it has an immediate.
fn ends(operation: u32) -> Option<[u32; 4]> {
    let width = used_width(operation);
    let all = (1_u32 << width) - 1;
    (width > 0).then(|| [0, all, 1 << (width - 1), all >> 1])
}
