//! Writing words: from operation, width, condition and operands to the word (Manual 12).

use crate::decode::{decode, operation_number, Field, Operation, WordLength};
use crate::operands::operands;
use std::iter::repeat;
use std::ops::RangeInclusive;

/// An answer that is a refusal is this and the refusal's number.
const REFUSED: u64 = 1 << 32;

/// Refusal: the operation has no form in this width, or a condition is given and it has no
/// conditional form.
const NO_FORM: u32 = 18;
/// Refusal: an operand or a part of the condition does not fit its bits, or an operand that
/// the operation does not have is not 0.
const NO_FIT: u32 = 19;

/// The largest number of an operation.
const LAST_OPERATION: u32 = 63;

/// What a word is made from: what a listing shows of it.
#[derive(Clone, Copy, Debug, Default, PartialEq, Eq)]
pub struct Choice {
    /// The operation's number.
    pub operation: u32,
    /// 0 for a 16-bit word, any other number for a 32-bit word.
    pub wide: u32,
    /// 0 for a word without a condition, whatever `creg` and `condition` are; any other
    /// number for one with a condition.
    pub conditional: u32,
    /// The condition's register and its number.
    pub creg: u32,
    pub condition: u32,
    /// The operands in the order of a listing, registers of 16-bit words as 24 to 31; 0 for
    /// each that the operation does not have.
    pub operands: [i32; 4],
}

/// Answers the word of a choice, its ignored bits 0, or 2^32 plus the refusal's number.
pub fn encode(choice: &Choice) -> u64 {
    match word(choice) {
        Ok(word) => u64::from(word),
        Err(refusal) => REFUSED + u64::from(refusal),
    }
}

/// The word of a choice, or the refusal: 18, asked first, or 19.
pub(crate) fn word(choice: &Choice) -> Result<u32, u32> {
    let length = WordLength::from_wide(choice.wide);
    let operation = with_form(choice.operation, length).ok_or(NO_FORM)?;
    let conditional = choice.conditional != 0;
    if conditional && !operation.may_be_conditional(length) {
        return Err(NO_FORM);
    }
    // Each number with its place, and 0 in all other bits.
    let mut numbers = vec![(Field::operation(length), i64::from(choice.operation))];
    if conditional {
        numbers.push((Field::CONDITIONAL, 1));
        numbers.push((Field::CONDITION_REGISTER, i64::from(choice.creg)));
        numbers.push((Field::CONDITION, i64::from(choice.condition)));
    }
    // Operands that the operation does not have have no bits, which nothing but 0 fits.
    let fields = operand_fields(operation, length).chain(repeat(Field::NONE));
    for (field, operand) in fields.zip(choice.operands) {
        numbers.push((field, i64::from(operand)));
    }
    let mut word = 0;
    for (field, number) in numbers {
        word |= field.write(number).ok_or(NO_FIT)?;
    }
    Ok(word)
}

/// The operation with a number, where there is one and it has a form in this width.
fn with_form(number: u32, length: WordLength) -> Option<Operation> {
    let operation = Operation::from_number(number);
    (number <= LAST_OPERATION && operation.has_form(length)).then_some(operation)
}

/// The places of the operands that an operation has, in their order.
fn operand_fields(operation: Operation, length: WordLength) -> impl Iterator<Item = Field> {
    let operands = operands(operation, length).iter();
    operands.map(move |&operand| Field::operand(operand, operation, length))
}

/// What a listing shows of a word, as a choice; nothing where it shows `?`.
pub fn reading(word: u32, wide: u32) -> Option<Choice> {
    let length = WordLength::from_wide(wide);
    let instruction = decode(word, length);
    if !instruction.operation.has_form(length) {
        return None;
    }
    let mut choice = Choice {
        operation: operation_number(word, length),
        wide,
        ..Choice::default()
    };
    if let Some(condition) = instruction.condition {
        choice.conditional = 1;
        choice.creg = instruction.condition_register as u32;
        choice.condition = condition as u32;
    }
    let shown = operands(instruction.operation, length).iter();
    for (number, &operand) in choice.operands.iter_mut().zip(shown) {
        *number = instruction.operand(operand) as i32;
    }
    Some(choice)
}

/// A word with its ignored bits at 0, which is what its reading is written as. Nothing where a
/// listing shows `?`.
pub fn cleared(word: u32, wide: u32) -> Option<u32> {
    let length = WordLength::from_wide(wide);
    let instruction = decode(word, length);
    let operation = instruction.operation;
    if !operation.has_form(length) {
        return None;
    }
    let mut used = Field::operation(length).mask();
    // Without a condition bit 25 is 0 or ignored.
    if instruction.condition.is_some() {
        used |= Field::CONDITIONAL.mask();
        used |= Field::CONDITION_REGISTER.mask();
        used |= Field::CONDITION.mask();
    }
    for field in operand_fields(operation, length) {
        used |= field.mask();
    }
    Some(word & used)
}

/// The numbers that fit each operand of an operation, in their order; nothing where it has no
/// form in this width.
pub fn operand_ranges(operation: u32, wide: u32) -> Option<Vec<RangeInclusive<i64>>> {
    let length = WordLength::from_wide(wide);
    let operation = with_form(operation, length)?;
    let fields = operand_fields(operation, length);
    Some(fields.map(Field::range).collect())
}
