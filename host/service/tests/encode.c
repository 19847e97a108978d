/* The command encode: words worked out from docs/MANUAL.md (sections 2 and 12), what it refuses,
   and the words of a listing typed back. */
#include "../instruction.h"
#include "faults.h"
#include "harness.h"

#include <coffee.h>
#include <errno.h>
#include <stdio.h>
#include <string.h>

/* ---- the command */

/* The command line that types an instruction, each part a word of its own. */
static char **typed(const char *width, const char *instruction)
{
    static char *words[24];
    size_t count = 3;
    char *rest, *line = text("%s", instruction);

    words[0] = "service";
    words[1] = "encode";
    words[2] = (char *)width;
    for (char *at = strtok_r(line, " ", &rest); at != NULL; at = strtok_r(NULL, " ", &rest))
        words[count++] = at;
    words[count] = NULL;
    return words;
}

/* An instruction has this word. */
static void has_word(const char *width, const char *word, const char *instruction)
{
    accepted_words(text("%s, %s bits", instruction, width), text("%s\n", word),
                   typed(width, instruction));
}

/* An instruction is refused with this line. */
static void has_none(const char *width, const char *instruction, const char *line)
{
    refused_words(text("%s, %s bits", instruction, width), 1, line, typed(width, instruction));
}

static void test_words_32(void)
{
    section("encode: 32-bit words");
    fresh();
    has_word("32", "04000443", "add R1 R2 R3");
    has_word("32", "07C87FDD", "egt C7 add R31 R30 R29");
    has_word("32", "4807883F", "addi R2 R1 -1");
    has_word("32", "4803883F", "addi R2 R1 255");
    has_word("32", "48040820", "addi R2 R1 -256");
    has_word("32", "4C07883F", "addiu R2 R1 511");
    has_word("32", "A1E00000", "bc C7 -2097152");
    has_word("32", "BD5FFFFF", "bnc C5 2097151");
    has_word("32", "91000000", "jmp -16777216");
    has_word("32", "94FFFFFF", "jal 16777215");
    has_word("32", "80C00022", "cmp C3 R1 R2");
    has_word("32", "85C403E0", "cmpi C7 R31 -256");
    has_word("32", "FDF87FFF", "exbfi R31 R31 63 31");
    has_word("32", "00000000", "nop");
    has_word("32", "2C000443", "muls_16 R1 R2 R3");
    has_word("32", "5C00045F", "slli R1 R2 31");
    has_word("32", "6800045F", "sexti R1 R2 31");
    has_word("32", "6C047FE0", "ld R31 R31 -256");
    has_word("32", "70001402", "st R5 R0 2");
    has_word("32", "76000440", "c C0 mov R1 R2");
    has_word("32", "7C000C00", "mulhi R3");
    has_word("32", "881FFFFF", "lli R31 65535");
    has_word("32", "8C00FFFF", "lui R0 65535");
    has_word("32", "980003E0", "jmpr R31");
    has_word("32", "C0000000", "scall");
    has_word("32", "C3F80000", "nc C7 scall");
    has_word("32", "CC000003", "chrs 3");
    has_word("32", "D8000001", "swm 1");
    has_word("32", "DC00001F", "trap 31");
    has_word("32", "E0007C00", "scon R31");
    has_word("32", "E40003E0", "rcon R31");
    has_word("32", "EC001022", "conh R4 R2 R1");
    has_word("32", "F0000443", "exb R1 R2 3");
    has_word("32", "F4000441", "exh R1 R2 1");
    /* Conditions 0 to 7, with C1 to C7 and C0. */
    has_word("32", "06400000", "c C1 add R0 R0 R0");
    has_word("32", "06880000", "egt C2 add R0 R0 R0");
    has_word("32", "06D00000", "elt C3 add R0 R0 R0");
    has_word("32", "07180000", "eq C4 add R0 R0 R0");
    has_word("32", "07600000", "gt C5 add R0 R0 R0");
    has_word("32", "07A80000", "lt C6 add R0 R0 R0");
    has_word("32", "07F00000", "ne C7 add R0 R0 R0");
    has_word("32", "06380000", "nc C0 add R0 R0 R0");
}

static void test_words_16(void)
{
    section("encode: 16-bit words");
    fresh();
    has_word("16", "0C11", "sub R25 R26");
    has_word("16", "6E38", "ld R24 R31 -8");
    has_word("16", "71C7", "st R31 R24 7");
    has_word("16", "800A", "cmp R25 R26");
    has_word("16", "8607", "cmpi R31 -64");
    has_word("16", "49F8", "addi R24 63");
    has_word("16", "4FFF", "addiu R31 127");
    has_word("16", "5CF8", "slli R24 31");
    has_word("16", "7C07", "mulhi R31");
    has_word("16", "91FF", "jmp 511");
    has_word("16", "A200", "bc -512");
    has_word("16", "9838", "jmpr R31");
    has_word("16", "0000", "nop");
    has_word("16", "CC03", "chrs 3");
    has_word("16", "DC1F", "trap 31");
    has_word("16", "E007", "scon R31");
    has_word("16", "E438", "rcon R31");
    has_word("16", "F018", "exb R24 3");
    has_word("16", "F408", "exh R24 1");
}

/* Blanks separate, in a word of the command line and between two. */
static void test_blanks(void)
{
    section("encode: blanks and options");
    fresh();
    ACCEPTED("a line's columns as one word", "07C87FDD\n", "encode", "32",
             "egt C7 add      R31 R30 R29  ");
    ACCEPTED("a line without a condition", "04000443\n", "encode", "32",
             "       add      R1 R2 R3     ");
    ACCEPTED("each column a word", "07C87FDD\n", "encode", "32", "egt C7", "add     ",
             "R31 R30 R29  ");
    ACCEPTED("a column that is blank, and one that is empty", "0000\n", "encode", "16", "      ",
             "nop", "");
    ACCEPTED("a minus in a word", "6E38\n", "encode", "16", "ld R24 R31 -8");
    ACCEPTED("after --", "6E38\n", "encode", "--", "16", "ld", "R24", "R31", "-8");
    ACCEPTED("sixteen words", "0000\n", "encode", "16", "nop", "", "", "", "", "", "", "", "", "",
             "", "", "", "", "");
    same_text("encode leaves no file", "", names_in("."));
}

static void test_no_instruction(void)
{
    section("encode: what is no instruction");
    fresh();
#define NEITHER ": neither an operation nor a condition"
    has_none("32", "addd R1 R2 R3", "addd" NEITHER);
    has_none("32", "ADD R1 R2 R3", "ADD" NEITHER);
    has_none("32", "egtt C7 add R1 R2 R3", "egtt" NEITHER);
    has_none("32", "ad R1 R2 R3", "ad" NEITHER);
    has_none("16", "?", "?" NEITHER);
    has_none("32", "04000443 add R1 R2 R3", "04000443" NEITHER);
    REFUSED("a tab", "add?R1" NEITHER, "encode", "32", "add\tR1", "R2", "R3");
    has_none("32", "egt C7 addd R1 R2 R3", "addd: no such operation");
    has_none("32", "egt C7 egt C7", "egt: no such operation");
#define REGISTER_AFTER ": a condition has its register after it, as C7"
    has_none("32", "egt add R1 R2 R3", "egt" REGISTER_AFTER);
    has_none("32", "egt", "egt" REGISTER_AFTER);
    has_none("16", "nc C nop", "nc" REGISTER_AFTER);
    has_none("32", "egt C7", "NAME: is missing");
    REFUSED("nothing", "NAME: is missing", "encode", "32", "");
    REFUSED("blanks", "NAME: is missing", "encode", "16", "  ", " ");
#define NO_OPERAND ": neither a register, as R5 or C5, nor a decimal number"
    has_none("32", "add R1, R2, R3", "R1," NO_OPERAND);
    has_none("32", "add R1 R2 R", "R" NO_OPERAND);
    has_none("32", "add R1 R2 P3", "P3" NO_OPERAND);
    has_none("32", "addi R1 R2 0x10", "0x10" NO_OPERAND);
    has_none("32", "addi R1 R2 1Fh", "1Fh" NO_OPERAND);
    has_none("32", "addi R1 R2 1.5", "1.5" NO_OPERAND);
    has_none("32", "addi R1 R2 -.5", "-.5" NO_OPERAND);
    has_none("32", "addi R1 R2 -", "-" NO_OPERAND);
    has_none("32", "addi R1 R2 +-5", "+-5" NO_OPERAND);
    has_none("32", "exbfi R1 R2 3 4 5", "5: no operation has more than 4 operands");
    has_none("32", "egt C7 add 1 2 3 4 5", "5: no operation has more than 4 operands");
    has_none("32", "add 1 2 3 4 5 6 7 8 9 10 11", "5: no operation has more than 4 operands");
    REFUSED("too many in one word", "5: no operation has more than 4 operands", "encode", "16",
            "nop 1 2 3 4 5 6 7 8 9 10 11 12 13 14 15 16 17 18 19 20");
    has_none("32", "add R1 R2",
             "add: an operand is missing; a right one in 32-bit words is 'add R0 R0 R0'");
    has_none("32", "egt C7 jmpr",
             "jmpr: an operand is missing; a right one in 32-bit words is 'jmpr R0'");
    has_none("16", "ld R24 R25",
             "ld: an operand is missing; a right one in 16-bit words is 'ld R24 R24 0'");
}

/* What has a word, and is not typed as the listing of that word. */
static void test_spelling(void)
{
    section("encode: other spellings");
    fresh();
#define LISTED ": not as a listing has it, which is "
    has_none("32", "add C1 R2 R3", "C1" LISTED "'add R1 R2 R3'");
    has_none("32", "add 1 2 3", "1" LISTED "'add R1 R2 R3'");
    has_none("32", "add R1 R2 3", "3" LISTED "'add R1 R2 R3'");
    has_none("32", "add r1 R2 R3", "r1" LISTED "'add R1 R2 R3'");
    has_none("32", "add R1 R02 R3", "R02" LISTED "'add R1 R2 R3'");
    has_none("32", "add R1 R2 R-0", "R-0" LISTED "'add R1 R2 R0'");
    has_none("32", "addi R1 R2 +5", "+5" LISTED "'addi R1 R2 5'");
    has_none("32", "addi R1 R2 -0", "-0" LISTED "'addi R1 R2 0'");
    has_none("32", "addi R1 R2 -05", "-05" LISTED "'addi R1 R2 -5'");
    has_none("32", "addi R1 R2 R5", "R5" LISTED "'addi R1 R2 5'");
    has_none("32", "cmp R3 R1 R2", "R3" LISTED "'cmp C3 R1 R2'");
    has_none("32", "cmp c3 R1 R2", "c3" LISTED "'cmp C3 R1 R2'");
    has_none("32", "egt 7 add R1 R2 R3", "7" LISTED "'egt C7 add R1 R2 R3'");
    has_none("32", "egt R7 add R1 R2 R3", "R7" LISTED "'egt C7 add R1 R2 R3'");
    has_none("32", "add R1 R2 R3 0", "0" LISTED "'add R1 R2 R3'");
    has_none("32", "nop 0 0 0 0", "0" LISTED "'nop'");
    has_none("16", "sub 25 26", "25" LISTED "'sub R25 R26'");
    has_none("16", "sub R25 R26 R0", "R0" LISTED "'sub R25 R26'");
}

static void test_no_form(void)
{
    section("encode: refusal 18");
    fresh();
#define NO_FORM(name, bits) name ": refused with 18: no form in " bits "-bit words"
#define NO_CONDITION(name, bits) name ": refused with 18: no conditional form in " bits "-bit words"
    has_none("16", "lli R24 5", NO_FORM("lli", "16"));
    has_none("16", "lui R24 5", NO_FORM("lui", "16"));
    has_none("16", "exbfi R24 R24 1 1", NO_FORM("exbfi", "16"));
    has_none("16", "egt C7 lli R24 5", NO_FORM("lli", "16"));
    has_none("16", "egt C0 add R24 R25", NO_CONDITION("add", "16"));
    has_none("16", "c C0 nop", NO_CONDITION("nop", "16"));
    has_none("32", "egt C7 exbfi R31 R31 63 31", NO_CONDITION("exbfi", "32"));
    has_none("32", "egt C7 nop", NO_CONDITION("nop", "32"));
    has_none("32", "egt C7 cmp C3 R1 R2", NO_CONDITION("cmp", "32"));
    has_none("32", "egt C7 jmp 2", NO_CONDITION("jmp", "32"));
    has_none("32", "egt C7 trap 3", NO_CONDITION("trap", "32"));
    /* 18 is asked before 19. */
    has_none("16", "lli R1 99999999999", NO_FORM("lli", "16"));
    has_none("16", "egt C9 add R1 R2 R3", NO_CONDITION("add", "16"));
    has_none("32", "egt C9 swm 2", NO_CONDITION("swm", "32"));
}

static void test_no_fit(void)
{
    section("encode: refusal 19");
    fresh();
#define NO_FIT(operand, number, name, bits) \
    operand ": refused with 19: operand " number " of " name " does not fit its bits in " bits \
            "-bit words"
#define TOO_MANY(operand, name, count, bits) \
    operand ": refused with 19: " name " has " count " in " bits "-bit words"
    has_none("32", "addi R2 R1 256", NO_FIT("256", "3", "addi", "32"));
    has_none("32", "addi R2 R1 -257", NO_FIT("-257", "3", "addi", "32"));
    has_none("32", "addiu R2 R1 -1", NO_FIT("-1", "3", "addiu", "32"));
    has_none("32", "addiu R2 R1 512", NO_FIT("512", "3", "addiu", "32"));
    has_none("32", "swm 2", NO_FIT("2", "1", "swm", "32"));
    has_none("32", "chrs 4", NO_FIT("4", "1", "chrs", "32"));
    has_none("32", "slli R1 R2 32", NO_FIT("32", "3", "slli", "32"));
    has_none("32", "add R32 R2 R3", NO_FIT("R32", "1", "add", "32"));
    has_none("32", "add R1 R2 R-1", NO_FIT("R-1", "3", "add", "32"));
    has_none("32", "egt C7 add R1 R99 R98", NO_FIT("R99", "2", "add", "32"));
    has_none("32", "cmp C8 R1 R2", NO_FIT("C8", "1", "cmp", "32"));
    has_none("32", "bc C7 2097152", NO_FIT("2097152", "2", "bc", "32"));
    has_none("32", "jmp 16777216", NO_FIT("16777216", "1", "jmp", "32"));
    has_none("32", "exbfi R31 R31 64 31", NO_FIT("64", "3", "exbfi", "32"));
    has_none("32", "exbfi R31 R31 63 32", NO_FIT("32", "4", "exbfi", "32"));
    has_none("16", "sub R23 R26", NO_FIT("R23", "1", "sub", "16"));
    has_none("16", "sub R25 R32", NO_FIT("R32", "2", "sub", "16"));
    has_none("16", "ld R24 R31 8", NO_FIT("8", "3", "ld", "16"));
    has_none("16", "ld R24 R31 -9", NO_FIT("-9", "3", "ld", "16"));
    has_none("16", "addi R24 64", NO_FIT("64", "2", "addi", "16"));
    has_none("16", "cmp C0 R25 R26", NO_FIT("C0", "1", "cmp", "16"));
    has_none("32", "add R1 R2 R3 1", TOO_MANY("1", "add", "3 operands", "32"));
    has_none("32", "egt C7 jmpr R1 R2", TOO_MANY("R2", "jmpr", "1 operand", "32"));
    has_none("32", "nop 0 5", TOO_MANY("5", "nop", "0 operands", "32"));
    has_none("16", "add R24 R25 R26", TOO_MANY("R26", "add", "2 operands", "16"));
    has_none("16", "bc C7 -2", TOO_MANY("-2", "bc", "1 operand", "16"));
#define NO_REGISTER ": refused with 19: no condition register has this number"
    has_none("32", "egt C8 add R1 R2 R3", "C8" NO_REGISTER);
    has_none("32", "egt C-1 add R1 R2 R3", "C-1" NO_REGISTER);
    has_none("32", "egt C99999999999 add R99 R2 R3", "C99999999999" NO_REGISTER);
    /* Numbers of 32 bits and beyond. */
    has_none("32", "jmp 2147483647", NO_FIT("2147483647", "1", "jmp", "32"));
    has_none("32", "jmp -2147483648", NO_FIT("-2147483648", "1", "jmp", "32"));
    has_none("32", "jmp 2147483648", NO_FIT("2147483648", "1", "jmp", "32"));
    has_none("32", "jmp -2147483649", NO_FIT("-2147483649", "1", "jmp", "32"));
    has_none("32", "jmp 4294967296", NO_FIT("4294967296", "1", "jmp", "32"));
    has_none("32", "jmp -18446744073709551616", NO_FIT("-18446744073709551616", "1", "jmp", "32"));
    has_none("32", "add R4294967297 R2 R3", NO_FIT("R4294967297", "1", "add", "32"));
    has_none("32", "add R1 R2 R3 4294967296", TOO_MANY("4294967296", "add", "3 operands", "32"));
}

static void test_command_line(void)
{
    section("encode: usage and outputs that fail");
    fresh();
#define MORE "; 'service --help' tells more"
#define WORDS_ARE "encode: its words are WIDTH [CONDITION Cn] NAME OPERAND.." MORE
    MISUSED("no word", WORDS_ARE, "encode");
    MISUSED("one word", WORDS_ARE, "encode", "32");
    MISUSED("seventeen words", WORDS_ARE, "encode", "16", "nop", "", "", "", "", "", "", "", "",
            "", "", "", "", "", "", "");
    MISUSED("a width that there is not", "64: WIDTH is neither 16 nor 32" MORE, "encode", "64",
            "nop");
    MISUSED("no width", "add: WIDTH is neither 16 nor 32" MORE, "encode", "add", "R1", "R2", "R3");
    REFUSED("an empty width", "WIDTH: is empty", "encode", "", "nop");
    MISUSED("an option", "-v: no such option" MORE, "encode", "-v", "32", "nop");
    MISUSED("a register that begins as an option", "-R1: no such option" MORE, "encode", "32",
            "jmpr", "-R1");
    UNPRINTED("encode", "encode", "32", "nop");
    fault_setting =
        (struct fault_setting){.kind = FAIL, .call = "malloc", .at = 1, .error = ENOMEM};
    REFUSED("without memory", "encode: Cannot allocate memory", "encode", "32", "nop");
}

/* The library, by a stand-in for it, has another answer in place of a word. */
static void answered(const char *width, uint32_t word, uint64_t answer, const char *instruction,
                     const char *line)
{
    fault_setting.word = word;
    fault_setting.encoded = answer;
    has_none(width, instruction, line);
}

static void test_library(void)
{
    section("encode: other answers (from a stand-in for the library)");
    fresh();
    answered("32", 0x04000443, 0x04000444, "add R1 R2 R3", "R3" LISTED "'add R1 R2 R4'");
    answered("32", 0x04000443, 0x06000443, "add R1 R2 R3", "add" LISTED "'c C0 add R1 R2 R3'");
    answered("32", 0x06000443, 0x04000443, "c C0 add R1 R2 R3", "c" LISTED "'add R1 R2 R3'");
    answered("32", 0x04000443, 0x08000443, "add R1 R2 R3", "add" LISTED "'addu R1 R2 R3'");
#define ANY_FIT ": refused with 19: an operand or a condition register that does not fit its bits"
    answered("32", 0x04000443, COFFEE_REFUSED + 19, "add R1 R2 R3", "add" ANY_FIT);
    answered("32", 0x04000443, COFFEE_REFUSED + 17, "add R1 R2 R3",
             "add: refused with 17: a buffer too short for a listing");
    answered("32", 0x04000443, COFFEE_REFUSED + 99, "add R1 R2 R3",
             "add: refused with 99: no reason that is known here");
    /* Without a word of 'add R24 R24' there is no right one to go by. */
    answered("16", 0x0400, COFFEE_REFUSED + 19, "add R24 R25", "add" ANY_FIT);
    /* Without a word of an operation there is no such name. */
    answered("32", 0, COFFEE_REFUSED + 18, "nop", "nop" NEITHER);
    fault_setting.refusal = 17;
    has_none("32", "nop", "encode: refused with 17: a buffer too short for a listing");
}

/* ---- words of a listing, typed back */

enum { COLUMN = 18, COLUMNS = 29, TRIES = 500 };

static uint32_t random_number(void)
{
    static uint64_t state = 7;

    state = state * 6364136223846793005u + 1442695040888963407u;
    return (uint32_t)(state >> 32);
}

/* The columns of a word's line from its condition on. */
static void columns_of(uint32_t word, bool wide, char columns[COLUMNS + 1])
{
    uint8_t bytes[4], line[COFFEE_LINE];
    size_t len = wide ? 4 : 2;

    for (size_t i = 0; i < len; i++)
        bytes[i] = (uint8_t)(word >> 8 * (len - 1 - i));
    memset(line, 0, sizeof line);
    coffee_listing(bytes, len, wide, line, sizeof line);
    memcpy(columns, line + COLUMN, COLUMNS);
    columns[COLUMNS] = '\0';
}

/* Whether two words have the same columns. */
static bool listed_alike(uint32_t one, uint32_t other, bool wide)
{
    char columns[COLUMNS + 1], others[COLUMNS + 1];

    columns_of(one, wide, columns);
    columns_of(other, wide, others);
    return strcmp(columns, others) == 0;
}

/* Types a word's columns. */
static bool type_columns(uint32_t word, bool wide, uint32_t *written)
{
    char columns[COLUMNS + 1];

    columns_of(word, wide, columns);
    return encode_instruction(columns, wide, written);
}

/* Types a word back: the one written is listed as it is, and is the same word with its ignored bits
   0, so it has no bit that the word has not, and none of its bits can be left out. */
static bool typed_back(uint32_t word, bool wide, uint32_t *written)
{
    if (!type_columns(word, wide, written) || !listed_alike(word, *written, wide) ||
        (*written & ~word) != 0)
        return false;
    for (uint32_t bit = 1; bit != 0; bit <<= 1) {
        if ((*written & bit) != 0 && listed_alike(*written, *written ^ bit, wide))
            return false;
    }
    return true;
}

/* All words of 16 bits; a written one is among them, and is its own second writing. */
static void type_all(void)
{
    static uint32_t written[0x10000];
    unsigned forms = 0, whole = 0, altered = 0;
    char columns[COLUMNS + 1];

    for (uint32_t word = 0; word <= 0xFFFF; word++) {
        columns_of(word, false, columns);
        if (strchr(columns, '?') != NULL)
            continue;
        if (!typed_back(word, false, &written[word])) {
            fail("every 16-bit word", "%04X is not typed back", word);
            return;
        }
        forms++;
        whole += written[word] == word;
        /* It is not above this word, so it was typed before. */
        altered += written[written[word]] != written[word];
    }
    pass("every 16-bit word");
    same_number("a second writing of 16-bit words", 0, altered);
    /* All but lli, lui and exbfi. */
    same_number("16-bit words with a form", 61 * 1024, forms);
    /* By the bits that are used: two registers 23 times; a register with 7 bits 6 times, with 5
       bits 4 times, with 2 and with 1; ld, st, jmp, jal and 8 branches; a register alone 5 times;
       chrs, swm and trap; 6 operations without an operand. */
    same_number("16-bit words without an ignored bit",
                23 * 64 + 6 * 1024 + 4 * 256 + 32 + 16 + 12 * 1024 + 5 * 8 + 4 + 2 + 32 + 6, whole);
}

/* Words of 32 bits of each operation, with and without a condition. */
static void type_many(void)
{
    unsigned whole = 0, other = 0;
    uint32_t written, second;

    for (uint32_t i = 0; i < 64 * TRIES; i++) {
        uint32_t fields = random_number();

        /* Often with few ones, or with few zeros. */
        if (i % 3 == 1)
            fields &= random_number() & random_number();
        if (i % 3 == 2)
            fields |= random_number() | random_number();
        fields = (fields & 0x3FFFFFF) | i / TRIES << 26;
        if (!typed_back(fields, true, &written) || !type_columns(written, true, &second) ||
            second != written) {
            fail("32-bit words of each operation", "%08X is not typed back", fields);
            return;
        }
        if (written == fields)
            whole++;
        else
            other++;
    }
    pass("32-bit words of each operation");
    check("words with ignored bits, and without", whole > 1000 && other > 1000);
}

static void test_typed_back(void)
{
    section("encode: words of a listing typed back");
    type_all();
    type_many();
}

void test_encode(void)
{
    test_words_32();
    test_words_16();
    test_blanks();
    test_no_instruction();
    test_spelling();
    test_no_form();
    test_no_fit();
    test_command_line();
    test_library();
    test_typed_back();
}
