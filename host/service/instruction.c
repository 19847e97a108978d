/* An instruction that is typed as a listing prints it, and its word. The library makes the word,
   and its listing has all names: there is no table of them here. */
#include "instruction.h"

#include "image.h"
#include "report.h"
#include "text.h"

#include <coffee.h>
#include <string.h>

enum {
    OPERATIONS = 64,
    CONDITION_NAMES = 8,
    MOST_OPERANDS = 4,
    /* The least register of 16-bit words. */
    LEAST_REGISTER = 24,
    /* Condition, its register, name and operands, and one that is too many. */
    MOST_PARTS = 3 + MOST_OPERANDS + 1,
    /* Of a line of a listing: where the condition stands, and the characters from there on. */
    CONDITION_COLUMN = 18,
    COLUMNS = COFFEE_LINE - 1 - CONDITION_COLUMN
};

/* The parts of a text, which blanks separate; those past the last that is kept are left out. */
struct parts {
    const char *at[MOST_PARTS];
    size_t count;
};

/* A line of a listing, from its condition on. */
struct line {
    char text[COLUMNS + 1];
    struct parts parts;
};

/* What the library makes a word of, and where it was typed. */
struct instruction {
    uint32_t operation, creg, condition;
    int32_t operands[MOST_OPERANDS];
    bool wide, conditional;
    size_t name;  /* the place of the operation's name among the parts */
    size_t count; /* of operands, which follow it */
};

/* ---- lines of a listing */

/* Cuts a text into its parts. */
static void cut(char *text, struct parts *parts)
{
    char *rest, *part = strtok_r(text, " ", &rest);

    for (parts->count = 0; part != NULL && parts->count < MOST_PARTS; parts->count++) {
        parts->at[parts->count] = part;
        part = strtok_r(NULL, " ", &rest);
    }
}

/* Lists a word. A refusal, which cannot come, is complained of. */
static bool list_word(uint32_t word, bool wide, struct line *line)
{
    uint8_t bytes[4], text[COFFEE_LINE];
    uint32_t refusal;

    number_to(bytes, wide ? word : word << 16);
    refusal = coffee_listing(bytes, wide ? 4 : 2, wide, text, sizeof text);
    if (refusal != 0)
        return complain_of_refusal("encode", refusal);
    memcpy(line->text, text + CONDITION_COLUMN, COLUMNS);
    line->text[COLUMNS] = '\0';
    cut(line->text, &line->parts);
    return true;
}

/* The parts of a line, single blanks between them. */
static const char *join_parts(const struct line *line, char text[COLUMNS + 1])
{
    text[0] = '\0';
    for (size_t i = 0; i < line->parts.count; i++)
        strcat(strcat(text, i == 0 ? "" : " "), line->parts.at[i]);
    return text;
}

/* ---- asking the library */

/* Asks the library for the word of an instruction; gives the refusal, or 0. */
static uint32_t ask(const struct instruction *instruction, uint32_t *word)
{
    const int32_t *operands = instruction->operands;
    uint64_t answer = coffee_encode(instruction->operation, instruction->wide,
                                    instruction->conditional, instruction->creg,
                                    instruction->condition, operands[0], operands[1], operands[2],
                                    operands[3]);

    *word = (uint32_t)answer;
    return answer >= COFFEE_REFUSED ? (uint32_t)(answer - COFFEE_REFUSED) : 0;
}

/* Whether the library refuses an instruction. */
static bool is_refused(const struct instruction *instruction)
{
    uint32_t word;

    return ask(instruction, &word) != 0;
}

/* Asks for the word of a sample: an instruction with the first operands that the library takes,
   each 0 or the least register of 16-bit words. Gives the refusal, or 0. */
static uint32_t ask_sample(struct instruction *sample, uint32_t *word)
{
    uint32_t refusal = 0;

    for (unsigned choice = 0; choice < 1u << MOST_OPERANDS; choice++) {
        for (size_t i = 0; i < MOST_OPERANDS; i++)
            sample->operands[i] = (choice >> i & 1) != 0 ? LEAST_REGISTER : 0;
        refusal = ask(sample, word);
        if (refusal == 0)
            break;
    }
    return refusal;
}

/* Counts `number`, which is one of the sample's, up from 0 until the line of its word begins with
   this name; a number without a word is passed over. It is `count` where there is no such name. */
static bool find_name(const char *name, struct instruction *sample, uint32_t *number,
                      uint32_t count)
{
    struct line line;
    uint32_t word;

    for (*number = 0; *number < count; ++*number) {
        if (ask_sample(sample, &word) != 0)
            continue;
        if (!list_word(word, sample->wide, &line))
            return false;
        if (strcmp(line.parts.at[0], name) == 0)
            break;
    }
    return true;
}

/* ---- reading what was typed */

/* Reads the number of an operand, a register or a plain number, in any spelling: as_listed sees to
   the right one. A number outside 32 bits, which fits nowhere, gives the nearest one inside. */
static bool read_operand(const char *text, int32_t *number)
{
    uint64_t size;
    bool minus;

    if (*text == 'R' || *text == 'C' || *text == 'r' || *text == 'c')
        text++;
    minus = *text == '-';
    if (minus || *text == '+')
        text++;
    if (!read_decimal(text, &size))
        return false;
    if (size > INT32_MAX)
        *number = minus ? INT32_MIN : INT32_MAX;
    else
        *number = minus ? -(int32_t)size : (int32_t)size;
    return true;
}

/* Reads the condition, if there is one: then two parts come before the name. It is looked for with
   the first operation that can have one. */
static bool read_condition(const struct parts *parts, struct instruction *instruction)
{
    struct instruction sample = {.wide = true, .conditional = true};
    uint32_t word;
    int32_t creg;

    if (parts->count == 0)
        return complain("NAME", "is missing");
    while (sample.operation < OPERATIONS && ask_sample(&sample, &word) != 0)
        sample.operation++;
    if (!find_name(parts->at[0], &sample, &sample.condition, CONDITION_NAMES))
        return false;
    if (sample.condition == CONDITION_NAMES)
        return true;
    if (parts->count < 2 || !read_operand(parts->at[1], &creg))
        return complain(parts->at[0], "a condition has its register after it, as C7");
    instruction->creg = (uint32_t)creg;
    instruction->condition = sample.condition;
    instruction->conditional = true;
    instruction->name = 2;
    return true;
}

/* Reads the operation's name. It is looked for in 32-bit words, where every one has a form. */
static bool read_name(const struct parts *parts, struct instruction *instruction)
{
    struct instruction sample = {.wide = true};
    const char *name;

    if (instruction->name == parts->count)
        return complain("NAME", "is missing");
    name = parts->at[instruction->name];
    if (!find_name(name, &sample, &sample.operation, OPERATIONS))
        return false;
    instruction->operation = sample.operation;
    if (instruction->operation < OPERATIONS)
        return true;
    return complain(name, instruction->conditional ? "no such operation"
                                                   : "neither an operation nor a condition");
}

/* Reads the operands, which follow the name. */
static bool read_operands(const struct parts *parts, struct instruction *instruction)
{
    const char *const *operands = parts->at + instruction->name + 1;

    instruction->count = parts->count - instruction->name - 1;
    if (instruction->count > MOST_OPERANDS)
        return complain(operands[MOST_OPERANDS], "no operation has more than %d operands",
                        MOST_OPERANDS);
    for (size_t i = 0; i < instruction->count; i++) {
        if (!read_operand(operands[i], &instruction->operands[i]))
            return complain(operands[i], "neither a register, as R5 or C5, nor a decimal number");
    }
    return true;
}

/* ---- what is wrong, if anything */

/* The bits of an instruction's word. */
static unsigned bits_of(const struct instruction *instruction)
{
    return instruction->wide ? 32 : 16;
}

/* Complains of an instruction that has no form. The library is asked without the condition: it
   refuses that too, or it is the condition. */
static bool complain_of_form(const char *name, const struct instruction *instruction)
{
    struct instruction plain = *instruction;
    uint32_t word;

    plain.conditional = false;
    return complain(name, "refused with 18: no %sform in %u-bit words",
                    ask(&plain, &word) == 18 ? "" : "conditional ", bits_of(instruction));
}

/* Makes an instruction of the same operation that is right. Sees that no operand is missing. */
static bool make_right(const char *name, const struct instruction *instruction,
                       struct instruction *right)
{
    char text[COLUMNS + 1];
    struct line line;
    uint32_t word, refusal;

    *right = (struct instruction){.operation = instruction->operation, .wide = instruction->wide};
    refusal = ask_sample(right, &word);
    if (refusal != 0)
        return complain_of_refusal(name, refusal);
    if (!list_word(word, right->wide, &line) || !read_operands(&line.parts, right))
        return false;
    return instruction->count >= right->count ||
           complain(name, "an operand is missing; a right one in %u-bit words is '%s'",
                    bits_of(right), join_parts(&line, text));
}

/* Complains of an operand that does not fit, counted from 0. */
static bool complain_of_operand(const struct parts *parts, const struct instruction *instruction,
                                size_t index, size_t count)
{
    const char *name = parts->at[instruction->name];
    const char *operand = parts->at[instruction->name + 1 + index];

    if (index < count)
        return complain(operand,
                        "refused with 19: operand %zu of %s does not fit its bits in %u-bit words",
                        index + 1, name, bits_of(instruction));
    return complain(operand, "refused with 19: %s has %zu operand%s in %u-bit words", name, count,
                    count == 1 ? "" : "s", bits_of(instruction));
}

/* Complains of the first part that does not fit. The library is asked for a right instruction with
   this part changed to what was typed. */
static bool complain_of_fit(const struct parts *parts, const struct instruction *instruction,
                            const struct instruction *right)
{
    struct instruction changed = *right;

    changed.conditional = instruction->conditional;
    changed.creg = instruction->creg;
    changed.condition = instruction->condition;
    if (changed.conditional && is_refused(&changed))
        return complain(parts->at[1], "refused with 19: no condition register has this number");
    for (size_t i = 0; i < instruction->count; i++) {
        changed = *right;
        changed.operands[i] = instruction->operands[i];
        if (is_refused(&changed))
            return complain_of_operand(parts, instruction, i, right->count);
    }
    return complain_of_refusal(parts->at[instruction->name], 19);
}

/* Sees that a word is listed as it was typed. */
static bool as_listed(const struct parts *parts, uint32_t word, bool wide)
{
    char text[COLUMNS + 1];
    struct line line;
    size_t i = 0;

    if (!list_word(word, wide, &line))
        return false;
    while (i < parts->count && i < line.parts.count &&
           strcmp(parts->at[i], line.parts.at[i]) == 0)
        i++;
    if (i == parts->count && i == line.parts.count)
        return true;
    return complain(parts->at[i < parts->count ? i : i - 1],
                    "not as a listing has it, which is '%s'", join_parts(&line, text));
}

bool encode_instruction(char *text, bool wide, uint32_t *word)
{
    struct instruction instruction = {.wide = wide}, right;
    struct parts parts;
    const char *name;
    uint32_t refusal;

    cut(text, &parts);
    if (!read_condition(&parts, &instruction) || !read_name(&parts, &instruction) ||
        !read_operands(&parts, &instruction))
        return false;
    name = parts.at[instruction.name];
    refusal = ask(&instruction, word);
    if (refusal == 18)
        return complain_of_form(name, &instruction);
    if (refusal != 0 && refusal != 19)
        return complain_of_refusal(name, refusal);
    if (!make_right(name, &instruction, &right))
        return false;
    return refusal == 0 ? as_listed(&parts, *word, wide)
                        : complain_of_fit(&parts, &instruction, &right);
}
