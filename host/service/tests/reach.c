/* The command reach: words worked out from docs/MANUAL.md (sections 2 and 13), what it refuses, and
   outputs that fail. */
#include "faults.h"
#include "harness.h"

#include <coffee.h>
#include <errno.h>
#include <string.h>

/* ---- what is reached */

/* Writes the program of 16-bit words, from hexadecimal text, and one byte more. */
static void write_short(const char *words)
{
    uint8_t bytes[64];
    size_t len = put_words(bytes, 2, words);

    bytes[len++] = 0xDC;
    write_bytes("program", bytes, len);
}

/* The lines that a listing of the program has of the words at these addresses. */
static char *lines_at(const char *width, const char *addresses)
{
    size_t word = strcmp(width, "32") == 0 ? 4 : 2, len;
    const uint8_t *program = read_bytes("program", &len);
    char lines[64 * COFFEE_LINE], *all = text("%s", "");
    uint32_t address;

    len -= len % word;
    coffee_listing(program, len, word == 4, (uint8_t *)lines, sizeof lines);
    while (take_number(&addresses, &address))
        all = text("%s%.*s", all, COFFEE_LINE, lines + address / word * COFFEE_LINE);
    return all;
}

/* From START, just the words at these addresses are reached. */
static void reached(char *width, char *start, const char *addresses)
{
    ACCEPTED(text("from %s, %s-bit words: %s", start, width, addresses),
             lines_at(width, addresses), "reach", "program", width, start);
}

/*  0 jmp to 10h    4 jmp, a slot    8 nop    C nop    10 beq to 18h    14 reti    18 retu
   1C nop          20 nop           24 nop */
#define JUMPS "90000006 90000006 0 0 AC000002 C8000000 C4000000 0 0 0"

/*  0 jal to 10h    4 jmp, a slot    8 beq to 10h    C scall    10 (eq, C0) jmpr R31
   14 swm 1        18 nop           1C nop          20 reti     24 jmp to 30h, a slot
   28 nop          2C nop           30 trap 3       34 nop */
#define CALLS "94000006 91FFFFFE AC000002 C0000000 9A1803E0 D8000001 0 0 C8000000 90000004 0 0 " \
              "DC000003 0"

/*  0 bc to 8    2 jalr R25    4 lli, a slot    6 swm 1    8 retu    A jmp to 0, a slot    C nop */
#define SHORT "A003 9C08 8800 D801 C400 93FA 0000"

static void test_worked(void)
{
    section("reach: worked programs");
    fresh();
    write_words("program", JUMPS);
    ACCEPTED("the lines of what is reached",
             "00000000 90000006        jmp      6            \n"
             "00000004 90000006        jmp      6            \n"
             "00000010 AC000002        beq      C0 2         \n"
             "00000014 C8000000        reti                  \n"
             "00000018 C4000000        retu                  \n"
             "0000001C 00000000        nop                   \n"
             "00000020 00000000        nop                   \n",
             "reach", "program", "32", "0");
    reached("32", "4", "4 8 14 18 1C 20");
    reached("32", "8", "8 C 10 14 18 1C 20");
    reached("32", "14", "14 18 1C 20");
    reached("32", "18", "18 1C");
    reached("32", "24", "24");
    write_words("program", CALLS);
    reached("32", "0", "0 4 8 C 10 14 18 1C 20 24 28 2C");
    reached("32", "4", "4 8");
    reached("32", "c", "C 10 14 18 1C 20 24 28 2C");
    reached("32", "24", "24 28 30");
    reached("32", "30", "30");
    write_short(SHORT);
    ACCEPTED("the lines of 16-bit words",
             "00000000 A003            bc       3            \n"
             "00000002 9C08            jalr     R25          \n"
             "00000004 8800            ?                     \n"
             "00000006 D801            swm      1            \n"
             "00000008 C400            retu                  \n"
             "0000000A 93FA            jmp      -6           \n",
             "reach", "program", "16", "0");
    reached("16", "4", "4 6 8 A");
    reached("16", "A", "0 2 4 6 8 A C");
    reached("16", "c", "C");
    /* The same bytes as 32-bit words: bc, lli, retu, and three bytes more. */
    reached("32", "0", "0 4 8");
    same_text("reach leaves no other file", "program", names_in("."));
}

static void test_rules(void)
{
    section("reach: each way on");
    fresh();
    write_words("program", "C0000000 0 0 DC000000");
    reached("32", "0", "0 4 8 C");
    /* The jmp to 14h is a slot only, and then the next word of a scall with a condition. */
    write_words("program", "C0000000 90000006 C4000000 0 0 DC000000");
    reached("32", "0", "0 4 8 C");
    write_words("program", "C2180000 90000006 C4000000 0 0 DC000000");
    reached("32", "0", "0 4 8 C 14");
    write_words("program", "D8000001 0 0 DC000000 0");
    reached("32", "0", "0 4 8 C");
    write_words("program", "D8000000 0 0 DC000000 0");
    reached("32", "0", "0 4 8");
    write_words("program", "980003E0 90000000 0");
    reached("32", "0", "0 4");
    write_words("program", "9C0003E0 90000000 DC000000 0");
    reached("32", "0", "0 4 8");
    /* A target that is no word: misaligned, below 0, past the end, the last one, the start. */
    write_words("program", "90000001 0 0");
    reached("32", "0", "0 4");
    write_words("program", "91FFFFF0 0 0");
    reached("32", "0", "0 4");
    write_words("program", "90000004 0 0");
    reached("32", "0", "0 4");
    write_words("program", "90000002 0 0");
    reached("32", "0", "0 4 8");
    write_words("program", "91FFFFFE 0 0");
    reached("32", "0", "0 4");
    write_words("program", "A0000000");
    reached("32", "0", "0");
    write_short("D800 0 0 DC00 0");
    reached("16", "0", "0 2 4 6");
    write_short("C800 0 0 0 0");
    reached("16", "0", "0 2 4 6");
    write_short("0 93FE 0");
    reached("16", "0", "0 2 4");
}

static void test_start(void)
{
    section("reach: START as it may be typed");
    fresh();
    write_words("program", CALLS);
    reached("32", "00000030", "30");
    reached("32", "030", "30");
    reached("32", "0000002c", "2C 30");
    reached("32", "2C", "2C 30");
    ACCEPTED("after --", lines_at("32", "30"), "reach", "--", "program", "32", "30");
}

/* ---- lengths */

/* Prints a program of so many zeros, which are nops, from an address on, to a file, and compares
   that with the lines of list. */
static void reach_nops(char *width, size_t len, unsigned start)
{
    size_t word = strcmp(width, "32") == 0 ? 4 : 2, lines;

    write_zeros("program", len / word * word);
    setting.output = STORED;
    RUN("list", "program", width);
    lines = len / word - start / word;
    write_bytes("expected", read_bytes("out", NULL) + start / word * COFFEE_LINE,
                lines * COFFEE_LINE);
    write_zeros("program", len);
    setting.output = STORED;
    RUN("reach", "program", width, text("%X", start));
    check("nops: status 0, no complaint", outcome.status == 0 && outcome.err[0] == '\0');
    same_bytes(text("%zu bytes of nops from %X, %s-bit words", len, start, width), "expected",
               "out");
}

static void test_lengths(void)
{
    section("reach: lengths");
    fresh();
    reach_nops("32", 4, 0);
    reach_nops("32", 5, 0);
    reach_nops("32", 7, 0);
    reach_nops("32", 11, 4);
    reach_nops("16", 2, 0);
    reach_nops("16", 3, 0);
    reach_nops("16", 5, 2);
    reach_nops("32", 65536, 0);
    reach_nops("16", 65536, 0);
    reach_nops("32", 65535, 0);
    reach_nops("16", 65535, 2);
    reach_nops("32", 65536, 0x8000);
    reach_nops("16", 65536, 0xFFFE);
    reach_nops("32", 65536, 0xFFFC);
}

/* ---- refusals */

/* A program of so many zeros is refused with this line. */
static void refused(size_t len, char *width, char *start, const char *line)
{
    write_zeros("program", len);
    REFUSED(text("%zu bytes from %s, %s-bit words", len, start, width), line, "reach", "program",
            width, start);
}

/* The library, by a stand-in for it, refuses a good search; the line names the program or START. */
static void refused_with(uint32_t refusal, const char *name, const char *reason)
{
    fault_setting.refusal = refusal;
    REFUSED(text("%u of a good search", refusal),
            text("%s: refused with %u: %s", name, refusal, reason), "reach", "program", "32", "0");
}

static void test_refusals(void)
{
    section("reach: refusals 1, 27, 28");
    fresh();
#define NO_WORD(bits) "program: refused with 27: it has no " bits "-bit word"
#define MULTIPLE(start, bits, bytes) \
    "START " start ": refused with 27: with " bits "-bit words START must be a multiple of " bytes
#define LAST(start, last) \
    "START " start ": refused with 27: no word is there: the program's last one is at " last
#define LENGTH "program: refused with 1: more than 65,536 bytes of program"
    refused(40, "32", "1", MULTIPLE("1", "32", "4"));
    refused(40, "32", "2", MULTIPLE("2", "32", "4"));
    refused(40, "32", "3", MULTIPLE("3", "32", "4"));
    refused(40, "16", "1", MULTIPLE("1", "16", "2"));
    refused(40, "16", "ffffffff", MULTIPLE("ffffffff", "16", "2"));
    refused(40, "32", "FFFFFFFF", MULTIPLE("FFFFFFFF", "32", "4"));
    refused(40, "32", "28", LAST("28", "00000024"));
    refused(40, "16", "28", LAST("28", "00000026"));
    refused(40, "32", "FFFFFFFC", LAST("FFFFFFFC", "00000024"));
    refused(40, "16", "fffffffe", LAST("fffffffe", "00000026"));
    refused(40, "32", "80000000", LAST("80000000", "00000024"));
    refused(39, "32", "24", LAST("24", "00000020"));
    refused(39, "16", "26", LAST("26", "00000024"));
    refused(65536, "32", "10000", LAST("10000", "0000FFFC"));
    refused(65536, "16", "00010000", LAST("00010000", "0000FFFE"));
    refused(65535, "16", "FFFE", LAST("FFFE", "0000FFFC"));
    refused(0, "32", "0", NO_WORD("32"));
    refused(0, "16", "0", NO_WORD("16"));
    refused(0, "16", "1", NO_WORD("16"));
    refused(3, "32", "0", NO_WORD("32"));
    refused(1, "16", "0", NO_WORD("16"));
    refused(65537, "32", "0", LENGTH);
    refused(65537, "16", "0", LENGTH);
    refused(1000000, "32", "0", LENGTH);
    /* 1 is asked first. */
    refused(65537, "32", "2", LENGTH);
    refused(65537, "16", "FFFFFFFF", LENGTH);
    write_words("program", CALLS);
    refused_with(1, "program", "more than 65,536 bytes of program or 65,536 cells of data");
    refused_with(27, "START 0", "a start address at which there is no word");
    refused_with(28, "program", "a map shorter than the program");
    refused_with(99, "program", "no reason that is known here");
    fault_setting = (struct fault_setting){
        .kind = FAIL, .call = "coffee_listing", .at = 1, .refusal = 17};
    REFUSED("17 of its lines", "program: refused with 17: a buffer too short for a listing",
            "reach", "program", "32", "0");
}

static void test_bad_start(void)
{
    static char *const starts[] = {"0x10", "10h", "+4", "-4", "-0", " 4", "4 ", "0 0", "4\n", "G",
                                   "1G", "1.0", "1,000", "#0", "\xC3", "program", "000000000",
                                   "123456789", NULL};

    section("reach: a START that is no address");
    fresh();
    write_words("program", CALLS);
#define NO_ADDRESS "START is not 1 to 8 hexadecimal digits, as list prints addresses"
    for (size_t i = 0; starts[i] != NULL; i++) {
        const char *shown = strchr(starts[i], '\n') != NULL ? "4?" : starts[i];

        REFUSED(text("START '%s'", shown), text("%s: " NO_ADDRESS, shown), "reach", "program",
                "32", starts[i]);
    }
    REFUSED("an empty START", "START: is empty", "reach", "program", "32", "");
    REFUSED("a wrong START comes before a program that is not there", "x: " NO_ADDRESS, "reach",
            "absent", "32", "x");
}

/* A call goes wrong with this error, and nothing is printed. */
static void fails(const char *call, unsigned at, int error, const char *reason)
{
    fault_setting = (struct fault_setting){.kind = FAIL, .call = call, .at = at, .error = error};
    REFUSED(text("reach: %s %u", call, at), text("program: %s", reason), "reach", "program", "32",
            "0");
}

static void test_faults(void)
{
    section("reach without memory, and with a file that cannot be read");
    fresh();
    write_words("program", "DC000003");
    /* The program is read to the first memory; the second is for its lines. */
    fails("malloc", 1, ENOMEM, "Cannot allocate memory");
    fails("malloc", 2, ENOMEM, "Cannot allocate memory");
    fails("read", 1, EIO, "Input/output error");
    fails("read", 2, EIO, "Input/output error");
    fault_setting = (struct fault_setting){.kind = FAIL, .call = "read", .at = 1, .error = EINTR};
    reached("32", "0", "0");
}

/* ---- the library's call */

/* The library's answer for the program with a map of so many bytes, and what is then in that
   memory: for each byte 0, 1, or a dash where it is as it was. */
static const char *mapped(uint32_t wide, uint32_t start, size_t map_bytes)
{
    enum { ROOM = 18, FILLER = 0xA5 };
    uint8_t map[ROOM];
    char digits[ROOM + 1] = "";
    size_t len;
    const uint8_t *program = read_bytes("program", &len);
    uint32_t answer;

    memset(map, FILLER, ROOM);
    answer = coffee_reach(program, len, wide, start, map, map_bytes);
    for (size_t i = 0; i < ROOM; i++)
        digits[i] = map[i] == FILLER ? '-' : map[i] == 0 ? '0' : map[i] == 1 ? '1' : '?';
    return text("%u %s", answer, digits);
}

static void test_library(void)
{
    section("reach: the library's call");
    fresh();
#define UNCHANGED "------------------"
    write_words("program", "90000004 0 0 DC000000");
    same_text("32-bit words", "0 1000100000001000--", mapped(1, 0, 16));
    same_text("any other number is 32-bit words too", "0 1000100000001000--",
              mapped(0x80000000, 0, 16));
    same_text("a longer map", "0 1000100000001000--", mapped(1, 0, 18));
    same_text("another start", "0 0000100010001000--", mapped(1, 4, 16));
    write_short(SHORT);
    same_text("16-bit words and a byte more", "0 101010101010000---", mapped(0, 0, 15));
    same_text("1 byte of a word", "27 " UNCHANGED, mapped(0, 14, 15));
    same_text("a start that is misaligned", "27 " UNCHANGED, mapped(0, 1, 15));
    same_text("a start past the end", "27 " UNCHANGED, mapped(0, 16, 18));
    /* 28 is asked before 27, and 1 before both. */
    same_text("a map that is a byte short", "28 " UNCHANGED, mapped(0, 0, 14));
    same_text("the same with a start that is misaligned", "28 " UNCHANGED, mapped(0, 1, 14));
    write_zeros("program", 65537);
    same_text("a program that is too long", "1 " UNCHANGED, mapped(0, 1, 18));
    write_zeros("program", 0);
    same_text("an empty program", "27 " UNCHANGED, mapped(0, 0, 0));
    same_number("an empty program and no map", 27, coffee_reach(NULL, 0, 1, 0, NULL, 0));
}

/* ---- the command line and the output */

static void test_command_line(void)
{
    section("reach: usage");
    fresh();
    write_words("program", CALLS);
#define MORE "; 'service --help' tells more"
#define WORDS_ARE "reach: its words are PROGRAM WIDTH START" MORE
    MISUSED("no word", WORDS_ARE, "reach");
    MISUSED("two words", WORDS_ARE, "reach", "program", "32");
    MISUSED("four words", WORDS_ARE, "reach", "program", "32", "0", "4");
    MISUSED("a width that there is not", "64: WIDTH is neither 16 nor 32" MORE, "reach", "program",
            "64", "0");
    MISUSED("START before WIDTH", "0: WIDTH is neither 16 nor 32" MORE, "reach", "program", "0",
            "32");
    MISUSED("a wrong WIDTH comes before a wrong START and a program that is not there",
            "8: WIDTH is neither 16 nor 32" MORE, "reach", "absent", "8", "x");
    REFUSED("an empty WIDTH", "WIDTH: is empty", "reach", "program", "", "0");
    REFUSED("an empty PROGRAM", "PROGRAM: is empty", "reach", "", "32", "0");
    MISUSED("an option", "-v: no such option" MORE, "reach", "-v", "program", "32", "0");
    MISUSED("a START that begins as an option", "-A: no such option" MORE, "reach", "program",
            "32", "-A");
    REFUSED("the same after --", "-A: " NO_ADDRESS, "reach", "program", "32", "--", "-A");
    RUN("reach", "--help");
    check("reach --help",
          outcome.status == 0 && outcome.err[0] == '\0' &&
              strstr(outcome.out, "service reach PROGRAM WIDTH START\n") != NULL &&
              strstr(outcome.out, "\nSTART ") != NULL);
}

static void test_outputs(void)
{
    section("reach: outputs that fail");
    fresh();
    write_words("program", CALLS);
    UNPRINTED("reach", "reach", "program", "32", "0");
    /* Its lines are 1,572,864 bytes. */
    write_zeros("program", 65536);
    UNPRINTED("the most lines", "reach", "program", "16", "0");
    CUT_OFF("the most lines", "reach", "program", "16", "0");
}

void test_reach(void)
{
    test_worked();
    test_rules();
    test_start();
    test_lengths();
    test_refusals();
    test_bad_start();
    test_faults();
    test_library();
    test_command_line();
    test_outputs();
}
