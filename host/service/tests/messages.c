/* Refusals, bad files and bad command lines: one line each, and nothing is changed. */
#include "faults.h"
#include "harness.h"
#include "places.h"

#include <coffee.h>
#include <errno.h>
#include <stdlib.h>
#include <string.h>
#include <sys/stat.h>
#include <unistd.h>

/* The files of a good run. */
static void good(void)
{
    fresh();
    write_words("program", "88010005 4807883F DC000003");
    machine("m", 4);
    write_text("requests", "10\n");
}

/* A run of the files is refused with this line. */
static void run_refused(const char *name, const char *line)
{
    REFUSED(name, line, "run", "program", "m", "3", "requests");
}

static void test_limits(void)
{
    section("refusals 1, 6, 7");
    good();
    write_zeros("program", 65537);
    run_refused("1: a program of 65,537 bytes",
                "program: refused with 1: more than 65,536 bytes of program");
    write_zeros("program", 1000000);
    run_refused("1: a program of 1,000,000 bytes",
                "program: refused with 1: more than 65,536 bytes of program");
    good();
    machine("m", 65537);
    run_refused("1: 65,537 cells", "m: refused with 1: the count of the data memory is 00010001: "
                                   "it must be at most 00010000");
    set_word("m", CELL_COUNT, 0xFFFFFFFF);
    run_refused("1: 4,294,967,295 cells",
                "m: refused with 1: the count of the data memory is FFFFFFFF: "
                "it must be at most 00010000");
    REFUSED("1: new with 65,537 cells", "65537: refused with 1: more than 65,536 cells of data",
            "new", "x", "65537");
    REFUSED("new with cells that are no number", "4k: CELLS is not a decimal number", "new", "x",
            "4k");
    good();
    write_text("requests", "1000\n");
    run_refused("6: a request of 1000h",
                "requests: refused with 6: line 1 has 1000: a request is at most FFF");
    write_text("requests", "0\n0\n0\n7: 1\nFFFFFFFF\n");
    run_refused("6: a request past the last step",
                "requests: refused with 6: line 5 has FFFFFFFF: a request is at most FFF");
    good();
    REFUSED("7: 10^12 + 1 steps",
            "1000000000001: refused with 7: more than 1,000,000,000,000 steps", "run", "program",
            "m", "1000000000001");
    REFUSED("7: more than 64 bits",
            "18446744073709551617: refused with 7: more than 1,000,000,000,000 steps", "run",
            "program", "m", "18446744073709551617");
}

static bool starts(const char *all, const char *front)
{
    return strncmp(all, front, strlen(front)) == 0;
}

/* A machine with one word changed is refused by run, and shown with the same line first. */
static void damaged(size_t place, uint32_t word, const char *line)
{
    good();
    set_word("m", place, word);
    run_refused(text("run: %s", line), text("m: refused with %s", line));
    REFUSED(text("export: %s", line), text("m: refused with %s", line), "export", "m", "a", "b");
    RUN("show", "m");
    same_text(text("show: %s", line), text("service: m: refused with %s\n", line), outcome.err);
    check("show: status 1", outcome.status == 1);
    check("show: the rest is marked",
          starts(outcome.out, "NOT ACCEPTED: these are the numbers that the file has\n\nmode: "));
    /* Counts are not shown. */
    if (strstr(line, "the count of") == NULL && place < CELL_COUNT)
        check("show: the wrong number is there", strstr(outcome.out, text(" %08X", word)) != NULL);
}

/* The same for a machine with two stack entries, of sources 5 and 0, and no cells. */
static void damaged_stack(size_t place, uint32_t word, const char *line)
{
    static const uint32_t stack[] = {2, 5, 0x10, 0x1E, 5, 0, 0x20, 0x18, 2, 2, 0, 0, 0};

    good();
    plain_image("m");
    for (size_t i = 0; i < sizeof stack / sizeof stack[0]; i++)
        set_word("m", STACK_COUNT + i, stack[i]);
    set_word("m", INT_SERV, 0x21);
    set_word("m", RETI_ADDR, 0x20);
    set_word("m", RETI_PSR, 0x18);
    set_word("m", RETI_CR0, 2);
    set_word("m", place, word);
    run_refused(text("run: %s", line), text("m: refused with %s", line));
    RUN("show", "m");
    same_text(text("show: %s", line), text("service: m: refused with %s\n", line), outcome.err);
    check("show: status 1", outcome.status == 1);
}

/* The first bytes of a machine are refused with this line. */
static void cut_short(size_t len, const char *line)
{
    good();
    check("shorter", truncate("m", (off_t)len) == 0);
    run_refused(text("a machine of %zu bytes", len), text("m: refused with 2: %s", line));
    RUN("show", "m");
    same_text(text("show: %s", line), text("service: m: refused with 2: %s\n", line), outcome.err);
    check("show: absent numbers",
          (strstr(outcome.out, "--------") != NULL) == (len < COFFEE_IMAGE_MIN));
}

/* A machine with dividers 7 and 8, whose cells are all 2, the count of dividers. */
static void with_dividers(void)
{
    enum { MANY = 100 };

    good();
    machine("m", MANY);
    for (size_t i = 0; i < MANY; i++)
        set_word("m", CELLS + i, 2);
    set_words("m", DIVIDER, "7 8");
}

/* What show prints ends with this. */
static void show_ends(const char *name, const char *end)
{
    size_t len = strlen(end), out;

    RUN("show", "m");
    out = strlen(outcome.out);
    same_text(text("show: %s", name), end, outcome.out + (out < len ? 0 : out - len));
}

static void test_shown(void)
{
#define DIVIDERS(first, second) "\n\ndividers\ntimer 0       " first "\ntimer 1       " second "\n"
    section("show of numbers that are there, and of others");
    with_dividers();
    set_word("m", DIVIDER_COUNT, 1);
    show_ends("a count of 1 divider", DIVIDERS("00000007", "00000008"));
    set_word("m", DIVIDER_COUNT, 0xFFFFFFFF);
    show_ends("a count of too many dividers", DIVIDERS("00000007", "00000008"));
    check("shorter", truncate("m", COFFEE_IMAGE_MIN - 4) == 0);
    show_ends("one divider", DIVIDERS("00000007", "--------"));
    check("shorter", truncate("m", COFFEE_IMAGE_MIN - 5) == 0);
    show_ends("a part of a divider", DIVIDERS("--------", "--------"));
    with_dividers();
    set_word("m", STACK_COUNT, 13);
    show_ends("13 stack entries",
              "\n\nstack: more than 12 entries" DIVIDERS("--------", "--------"));
    set_word("m", STACK_COUNT, 0xFFFFFFFF);
    show_ends("too many stack entries",
              "\n\nstack: more than 12 entries" DIVIDERS("--------", "--------"));
    set_word("m", STACK_COUNT, 2);
    check("shorter", truncate("m", COFFEE_IMAGE_MIN) == 0);
    show_ends("a part of the stack", "\n\nstack, top first\n"
                                     "source       address   PSR       Z N C\n"
                                     "--------     --------  --------  --------\n"
                                     " 2 COP2_INT  00000007  00000008  --------" DIVIDERS(
                                         "--------", "--------"));
    check("shorter", truncate("m", COFFEE_IMAGE_ENTRIES) == 0);
    show_ends("no stack", "\n\nstack: --------" DIVIDERS("--------", "--------"));
    check("shorter", truncate("m", 4 * PSR) == 0);
    RUN("show", "m");
    check("show: no PSR", strstr(outcome.out, "\nmode: --------\n\nset 1\n") != NULL);
}

static void test_damaged(void)
{
#define EARLIER "; a file of the earlier layout takes 'service carry-over'"
    section("damaged machines");
    damaged(CCB_BASE, 0x10001,
            "3: CCB_BASE (00h) is 00010001: its low byte must be 0");
    damaged(0, 0x1F, "2: the count of set 1 is 0000001F: it must be 00000020");
    damaged(33, 0x21, "2: the count of set 2 is 00000021: it must be 00000020");
    damaged(66, 0, "2: the count of the conditions is 00000000: it must be 00000008");
    damaged(75, 0x2E, "2: the count of the control block is 0000002E: it must be 0000002D");
    damaged(121, 7, "2: the count of the position is 00000007: it must be 00000006");
    damaged(STACK_COUNT, 13, "2: the count of the stack is 0000000D: it must be at most 12");
    damaged(DIVIDER_COUNT, 1,
            "2: the count of the dividers is 00000001: it must be 00000002" EARLIER);
    damaged(DIVIDER_COUNT, 3,
            "2: the count of the dividers is 00000003: it must be 00000002" EARLIER);
    damaged(PSR, 0x20, "3: PSR is 00000020: it must be at most 1Fh");
    damaged(C0, 8, "3: C0 is 00000008: it must be at most 7h");
    damaged(C0 + 7, 0xFFFFFFFF, "3: C7 is FFFFFFFF: it must be at most 7h");
    damaged(INT_MASK, 0x1000, "3: INT_MASK (12h) is 00001000: it must be at most FFFh");
    damaged(MEM_CONF, 4, "3: MEM_CONF (1Eh) is 00000004: it must be at most 3h");
    damaged(FPU_STATUS, 1, "3: FPU_STATUS (2Bh) is 00000001: it must be 0");
    damaged(CORE_VER_ID, 0, "3: CORE_VER_ID (2Ch) is 00000000: it must be 1");
    damaged(POSITION + 1, 2, "3: slot flag is 00000002: it must be 0 or 1");
    damaged(POSITION + 2, 4, "3: target is 00000004: it must be 0, as the slot flag is");
    damaged(POSITION + 3, 0x80000000, "3: product flag is 80000000: it must be 0 or 1");
    damaged(POSITION + 4, 1, "3: product high is 00000001: it must be 0, as the product flag is");
    damaged(POSITION + 5, 9, "3: product low is 00000009: it must be 0, as the product flag is");
    damaged(DIVIDER, 0x100, "3: divider of timer 0 is 00000100: it must be at most FFh");
    damaged(DIVIDER + 1, 0xFFFFFFFF, "3: divider of timer 1 is FFFFFFFF: it must be at most FFh");
    damaged(PSR, 0x0B, "4: PSR is 0000000B: in user mode both set bits must be 0");
    damaged(PSR, 0x0D, "4: PSR is 0000000D: in user mode both set bits must be 0");
    damaged(INT_SERV, 1,
            "5: INT_SERV (13h) is 00000001: it must be 00000000, the flags of the stack's sources");
    damaged(RETI_ADDR, 0,
            "5: RETI_ADDR (28h) is 00000000: it must be 00000001, as the stack is empty");
    damaged(RETI_PSR, 8,
            "5: RETI_PSR (29h) is 00000008: it must be 00000009, as the stack is empty");
    damaged(RETI_CR0, 1,
            "5: RETI_CR0 (2Ah) is 00000001: it must be 00000000, as the stack is empty");
    damaged(CELL_COUNT, 5, "2: the file ends after 548 bytes, in the data memory");
    damaged(CELL_COUNT, 3, "2: bytes follow the data memory of 3 cells, the last section");
    damaged_stack(ENTRY + 2, 0x20, "3: PSR of stack entry 1 is 00000020: it must be at most 1Fh");
    damaged_stack(ENTRY + 7, 8, "3: C0 of stack entry 2 is 00000008: it must be at most 7h");
    damaged_stack(ENTRY + 6, 7,
                  "4: PSR of stack entry 2 is 00000007: in user mode both set bits must be 0");
    damaged_stack(ENTRY, 12, "5: source of stack entry 1 is 0000000C: it must be below 12");
    damaged_stack(ENTRY + 4, 5,
                  "5: source of stack entry 2 is 00000005: an entry below has it too");
    damaged_stack(ENTRY + 5, 0x24,
                  "5: RETI_ADDR (28h) is 00000020: it must be 00000024, as in the top entry");
    damaged_stack(ENTRY + 8, 4,
                  "2: the count of the dividers is 00000004: it must be 00000002" EARLIER);
    damaged_stack(ENTRY + 9, 0x100, "3: divider of timer 0 is 00000100: it must be at most FFh");
    cut_short(0, "the file ends after 0 bytes, in the count of set 1");
    cut_short(3, "the file ends after 3 bytes, in the count of set 1");
    cut_short(4, "the file ends after 4 bytes, in set 1");
    cut_short(300, "the file ends after 300 bytes, in the count of the control block");
    cut_short(511, "the file ends after 511 bytes, in the position");
    cut_short(515, "the file ends after 515 bytes, in the count of the stack");
    cut_short(517, "the file ends after 517 bytes, in the count of the dividers" EARLIER);
    cut_short(527, "the file ends after 527 bytes, in the dividers" EARLIER);
    cut_short(529, "the file ends after 529 bytes, in the count of the data memory");
    cut_short(547, "the file ends after 547 bytes, in the data memory");
    good();
    write_text("m", "#!/bin/sh\necho this is no machine at all\n");
    run_refused("a text", "m: refused with 2: the count of set 1 is 23212F62: "
                          "it must be 00000020");
    write_zeros("m", 1000000);
    run_refused("a million zeros", "m: refused with 2: the count of set 1 is 00000000: "
                                   "it must be 00000020");
    machine("m", 65536);
    check("longer", truncate("m", 1000000) == 0);
    run_refused("bytes after the longest machine",
                "m: refused with 2: bytes follow the data memory of 65536 cells, the last section");
    REFUSED("cells of a damaged machine",
            "m: refused with 2: bytes follow the data memory of 65536 cells, the last section",
            "cells", "m");
}

static void test_order(void)
{
    section("the order of the refusals");
    /* All are wrong at first; each is put right in turn. */
    good();
    write_zeros("program", 65537);
    set_word("m", 0, 0x1F);
    set_word("m", PSR, 0x2D);
    set_word("m", INT_SERV, 1);
    write_text("requests", "1000\n");
#define ORDER(name, line) REFUSED(name, line, "run", "program", "m", "1000000000001", "requests")
    ORDER("1 comes first", "program: refused with 1: more than 65,536 bytes of program");
    write_zeros("program", 65536);
    ORDER("then 2", "m: refused with 2: the count of set 1 is 0000001F: it must be 00000020");
    set_word("m", 0, 0x20);
    ORDER("then 3", "m: refused with 3: PSR is 0000002D: it must be at most 1Fh");
    set_word("m", PSR, 0x0D);
    ORDER("then 4", "m: refused with 4: PSR is 0000000D: in user mode both set bits must be 0");
    set_word("m", PSR, 0x0E);
    ORDER("then 5", "m: refused with 5: INT_SERV (13h) is 00000001: it must be 00000000, "
                    "the flags of the stack's sources");
    set_word("m", INT_SERV, 0);
    ORDER("then 6", "requests: refused with 6: line 1 has 1000: a request is at most FFF");
    write_text("requests", "0\n");
    ORDER("then 7", "1000000000001: refused with 7: more than 1,000,000,000,000 steps");
    ACCEPTED("then none", "3 0 0000000C\n", "run", "program", "m", "3", "requests");

    section("refusal 8, and one that is not known (from a stand-in for the library)");
    good();
    fault_setting.refusal = 8;
    run_refused("8: run", "m: refused with 8: a buffer too short for an image");
    fault_setting.refusal = 8;
    REFUSED("8: new", "x: refused with 8: a buffer too short for an image", "new", "x");
    fault_setting.refusal = 9;
    run_refused("9: run", "m: refused with 9: no reason that is known here");
    fault_setting.refusal = 99;
    run_refused("99: run", "m: refused with 99: no reason that is known here");
    /* A refusal that our words do not account for has the library's number all the same. */
    fault_setting.refusal = 3;
    run_refused("3 of a good machine",
                "m: refused with 3: an image with a number that its register cannot hold");
    fault_setting.refusal = 6;
    run_refused("6 of good requests", "requests: refused with 6: a request above FFFh");
    /* The third call does a step again that may have entered an exception. */
    write_words("program", "DC000003");
    fault_setting =
        (struct fault_setting){.kind = FAIL, .call = "coffee_run", .at = 3, .refusal = 3};
    REFUSED("3 of a step that is done again",
            "m: refused with 3: an image with a number that its register cannot hold", "run", "-v",
            "program", "m", "1");
}

/* A program of so many bytes is refused by list with this line. */
static void list_refused(size_t len, char *width, const char *line)
{
    write_zeros("program", len);
    REFUSED(text("list: %zu bytes, %s-bit words", len, width),
            text("program: refused with %s", line), "list", "program", width);
}

/* The library, by a stand-in for it, refuses a good program. */
static void list_refused_with(uint32_t refusal, const char *reason)
{
    fault_setting.refusal = refusal;
    REFUSED(text("%u of a good program", refusal),
            text("program: refused with %u: %s", refusal, reason), "list", "program", "32");
}

static void test_listing(void)
{
    section("refusals 1, 16, 17 of list");
    good();
#define LENGTH_16(len, width, bytes) \
    "16: its length in bytes is " len ": with " width "-bit words it must be a multiple of " bytes
    list_refused(1, "32", LENGTH_16("1", "32", "4"));
    list_refused(2, "32", LENGTH_16("2", "32", "4"));
    list_refused(3, "32", LENGTH_16("3", "32", "4"));
    list_refused(65534, "32", LENGTH_16("65534", "32", "4"));
    list_refused(1, "16", LENGTH_16("1", "16", "2"));
    list_refused(3, "16", LENGTH_16("3", "16", "2"));
    list_refused(65535, "16", LENGTH_16("65535", "16", "2"));
    /* 1 is asked first. */
    list_refused(65537, "32", "1: more than 65,536 bytes of program");
    list_refused(65537, "16", "1: more than 65,536 bytes of program");
    list_refused(65540, "32", "1: more than 65,536 bytes of program");
    list_refused(1000000, "16", "1: more than 65,536 bytes of program");
    good();
    list_refused_with(1, "more than 65,536 bytes of program or 65,536 cells of data");
    list_refused_with(16, "a program that is no whole number of words");
    list_refused_with(17, "a buffer too short for a listing");
    list_refused_with(99, "no reason that is known here");
}

/* A call of list goes wrong with this error, and nothing is printed. */
static void list_fails(const char *call, unsigned at, int error, const char *reason)
{
    fault_setting = (struct fault_setting){.kind = FAIL, .call = call, .at = at, .error = error};
    REFUSED(text("list: %s %u", call, at), text("program: %s", reason), "list", "program", "32");
}

static void test_list_faults(void)
{
    section("list without memory, and with a file that cannot be read");
    good();
    /* The program is read to the first memory; the second is for its lines. */
    list_fails("malloc", 1, ENOMEM, "Cannot allocate memory");
    list_fails("malloc", 2, ENOMEM, "Cannot allocate memory");
    list_fails("read", 1, EIO, "Input/output error");
    list_fails("read", 2, EIO, "Input/output error");
    write_words("program", "EC001022");
    fault_setting = (struct fault_setting){.kind = FAIL, .call = "read", .at = 1, .error = EINTR};
    ACCEPTED("list: a read that is interrupted",
             "00000000 EC001022        conh     R4 R2 R1     \n", "list", "program", "32");
}

/* Each file of a command, in turn, is something else. */
static void bad_file(const char *name, size_t index, char *const *words)
{
    char *changed[8];

    for (size_t i = 0; (changed[i] = words[i]) != NULL; i++)
        continue;
    changed[index] = "absent";
    refused_words(text("no %s", name), 1, "absent: No such file or directory", changed);
    changed[index] = "folder";
    refused_words(text("a folder as %s", name), 1, "folder: a folder, not a file", changed);
    changed[index] = "folder/";
    refused_words(text("a folder with a slash as %s", name), 1, "folder/: a folder, not a file",
                  changed);
    changed[index] = "pipe";
    refused_words(text("a pipe as %s", name), 1, "pipe: not a plain file", changed);
    changed[index] = "/dev/zero";
    refused_words(text("a device as %s", name), 1, "/dev/zero: not a plain file", changed);
    changed[index] = "m/x";
    refused_words(text("a file's file as %s", name), 1, "m/x: Not a directory", changed);
    changed[index] = "loop";
    refused_words(text("a link to itself as %s", name), 1,
                  "loop: Too many levels of symbolic links", changed);
    changed[index] = "";
    refused_words(text("nothing as %s", name), 1, text("%s: is empty", name), changed);
    changed[index] = text("%0256d", 0);
    refused_words(text("a name of 256 characters as %s", name), 1,
                  text("%0256d: File name too long", 0), changed);
    changed[index] = text("%05000d", 0);
    refused_words(text("a name of 5,000 characters as %s", name), 1,
                  text("%05000d: File name too long", 0), changed);
}

/* The same for a file that a command writes. */
static void bad_target(const char *name, size_t index, char *const *words)
{
    char *changed[8];

    for (size_t i = 0; (changed[i] = words[i]) != NULL; i++)
        continue;
    changed[index] = "folder";
    refused_words(text("a folder as new %s", name), 1, "folder: a folder, not a file", changed);
    changed[index] = "pipe";
    refused_words(text("a pipe as new %s", name), 1, "pipe: not a plain file", changed);
    changed[index] = "absent/x";
    refused_words(text("no folder for %s", name), 1, "absent/x: No such file or directory",
                  changed);
    changed[index] = "";
    refused_words(text("nothing as new %s", name), 1, text("%s: is empty", name), changed);
    changed[index] = text("%0256d", 0);
    refused_words(text("a name of 256 characters as new %s", name), 1,
                  text("%0256d: File name too long", 0), changed);
}

#define WORDS(...) ((char *[]){"service", __VA_ARGS__, NULL})

static void test_files(void)
{
    section("bad files");
    good();
    plain_image("image");
    write_words("data", "1 2");
    mkdir("folder", 0755);
    check("a pipe and a link", mkfifo("pipe", 0644) == 0 && symlink("loop", "loop") == 0);
    bad_file("PROGRAM", 2, WORDS("run", "", "m", "3", "requests"));
    bad_file("MACHINE", 3, WORDS("run", "program", "", "3", "requests"));
    bad_file("REQUESTS", 5, WORDS("run", "program", "m", "3", ""));
    bad_file("MACHINE", 2, WORDS("show", ""));
    bad_file("MACHINE", 2, WORDS("cells", ""));
    bad_file("PROGRAM", 2, WORDS("list", "", "32"));
    bad_file("PROGRAM", 2, WORDS("reach", "", "32", "0"));
    REFUSED("list of /dev/null", "/dev/null: not a plain file", "list", "/dev/null", "16");
    bad_file("IMAGE", 2, WORDS("import", "", "data", "x"));
    bad_file("DATA", 3, WORDS("import", "image", "", "x"));
    bad_file("MACHINE", 2, WORDS("export", "", "x", "y"));
    earlier_machine("old", 4);
    bad_file("OLD", 2, WORDS("carry-over", "", "x"));
    bad_target("MACHINE", 2, WORDS("new", ""));
    bad_target("MACHINE", 3, WORDS("new", "--replace", ""));
    bad_target("MACHINE", 4, WORDS("import", "image", "data", ""));
    bad_target("IMAGE", 3, WORDS("export", "m", "", "y"));
    bad_target("DATA", 4, WORDS("export", "m", "x", ""));
    bad_target("NEW", 3, WORDS("carry-over", "old", ""));
    bad_target("NEW", 4, WORDS("carry-over", "--replace", "old", ""));
    REFUSED("a line end in a name", "a?b: No such file or directory", "show", "a\nb");

    for (unsigned len = 1; len < 8; len += len == 3 ? 2 : 1) {
        write_zeros("data", len);
        if (len % 4 != 0)
            REFUSED("data not in fours", text("data: its length, %u bytes, is not in fours", len),
                    "import", "image", "data", "x");
    }
    write_zeros("data", 262148);
    REFUSED("data of 65,537 cells", "data: refused with 1: more than 65,536 cells of data",
            "import", "image", "data", "x");
    REFUSED("a machine as image", "m: has a data memory of its own; a plain image has none",
            "import", "m", "data", "x");
    set_word("image", PSR, 0x20);
    REFUSED("a damaged image", "image: refused with 3: PSR is 00000020: it must be at most 1Fh",
            "import", "image", "data", "x");
}

/* A list of requests is bad in this line. */
static void bad_line(const char *name, const char *line, const char *list)
{
    write_text("requests", list);
    run_refused(name, text("requests: line %s", line));
}

#define NO_LINE " is neither HEX, 1 to 8 hexadecimal digits, nor N: HEX"

static void test_texts(void)
{
    static const char *const steps[] = {"abc", "3x", "-1", "+1", " 1", "1 ", "0x10", "1.5", "1e6",
                                        "1,000", NULL};

    section("bad numbers and texts");
    good();
    for (size_t i = 0; steps[i] != NULL; i++)
        REFUSED(text("steps '%s'", steps[i]), text("%s: STEPS is not a decimal number", steps[i]),
                "run", "program", "m", (char *)steps[i]);
    REFUSED("no steps", "STEPS: is empty", "run", "program", "m", "");
    REFUSED("a line end in a number", "1?2: STEPS is not a decimal number", "run", "program", "m",
            "1\n2");
    bad_line("requests that are no number", "1" NO_LINE, "none\n");
    bad_line("an empty line", "2" NO_LINE, "0\n\n0\n");
    bad_line("0x", "1" NO_LINE, "0x10\n");
    bad_line("a sign", "3" NO_LINE, "0\n1\n-1\n");
    bad_line("a blank", "1" NO_LINE, "1 2\n");
    bad_line("nine digits", "2" NO_LINE, "0\n000000010\n");
    bad_line("a carriage return in the middle", "1" NO_LINE, "1\r1\n");
    bad_line("a step without requests", "2" NO_LINE, "1\n5:\n");
    bad_line("requests without their step", "1" NO_LINE, ": 5\n");
    bad_line("a step in hexadecimal", "1" NO_LINE, "A: 5\n");
    bad_line("two steps", "1" NO_LINE, "1: 2: 5\n");
    bad_line("step 0", "1: steps are counted from 1", "0: 5\n");
    bad_line("a step twice", "2: step 7 does not come after step 7", "7: 1\n7: 2\n");
    bad_line("a step that falls", "3: step 7 does not come after step 8", "7: 1\n1\n7: 0\n");
    bad_line("a step above 10^12", "1: a step above 1,000,000,000,000", "1000000000001: 1\n");
    bad_line("a step after 10^12", "2: a step above 1,000,000,000,000", "1000000000000: 1\n0\n");
    bad_line("a step of more than 64 bits", "1: a step above 1,000,000,000,000",
             "99999999999999999999: 1\n");
    bad_line("a bad line before one above FFFh", "1" NO_LINE, "x\n1000\n");
    write_bytes("requests", "1\0\n", 3);
    run_refused("a zero byte", "requests: line 1" NO_LINE);
    write_zeros("requests", 10000001);
    run_refused("requests of 10,000,001 bytes", "requests: longer than 10,000,000 bytes");
}

static void test_twice(void)
{
    section("one file under two names");
    good();
    plain_image("image");
    write_words("data", "1");
#define TWICE ": given twice in this command"
    REFUSED("machine and program", "m" TWICE, "run", "m", "m", "3");
    REFUSED("machine and requests", "./m" TWICE, "run", "program", "m", "3", "./m");
    check("a link", symlink("m", "link") == 0 && link("m", "hard") == 0);
    REFUSED("a link to the machine", "link" TWICE, "run", "link", "m", "3");
    REFUSED("another name of the machine", "hard" TWICE, "run", "hard", "m", "3");
    REFUSED("import to its image", "image" TWICE, "import", "--replace", "image", "data", "image");
    REFUSED("import to its data", "./data" TWICE, "import", "--replace", "image", "data",
            "./data");
    REFUSED("export to itself", "m" TWICE, "export", "--replace", "m", "m", "y");
    REFUSED("export of both to one", "y" TWICE, "export", "m", "y", "y");
    REFUSED("export of both to one that is new", "./y" TWICE, "export", "m", "y", "./y");
}

static void test_usage(void)
{
    static const char *const widths[] = {"0", "1", "8", "64", "-16", "+16", "016", "16 ", "0x10",
                                         "32.0", "3", "wide", NULL};

    section("usage");
    good();
#define MORE "; 'service --help' tells more"
    refused_words("no words", 2, "no command: a command is wanted" MORE,
                  (char *[]){"service", NULL});
    MISUSED("an unknown command", "go: no such command" MORE, "go", "m");
    MISUSED("an empty command", ": no such command" MORE, "");
    MISUSED("run with two words", "run: its words are PROGRAM MACHINE STEPS [REQUESTS]" MORE,
            "run", "program", "m");
    MISUSED("run with five words", "run: its words are PROGRAM MACHINE STEPS [REQUESTS]" MORE,
            "run", "program", "m", "3", "requests", "more");
    MISUSED("new with no word", "new: its words are MACHINE [CELLS]" MORE, "new");
    MISUSED("new with three words", "new: its words are MACHINE [CELLS]" MORE, "new", "x", "1",
            "2");
    MISUSED("show with no word", "show: its words are MACHINE" MORE, "show");
    MISUSED("show with two words", "show: its words are MACHINE" MORE, "show", "m", "m");
    MISUSED("cells with four words", "cells: its words are MACHINE [FIRST [COUNT]]" MORE, "cells",
            "m", "1", "1", "1");
    MISUSED("list with one word", "list: its words are PROGRAM WIDTH" MORE, "list", "program");
    MISUSED("list with three words", "list: its words are PROGRAM WIDTH" MORE, "list", "program",
            "32", "16");
    for (size_t i = 0; widths[i] != NULL; i++)
        MISUSED(text("width '%s'", widths[i]),
                text("%s: WIDTH is neither 16 nor 32" MORE, widths[i]), "list", "program",
                (char *)widths[i]);
    MISUSED("a width before its program", "program: WIDTH is neither 16 nor 32" MORE, "list", "32",
            "program");
    MISUSED("a wrong width comes before a program that is not there",
            "64: WIDTH is neither 16 nor 32" MORE, "list", "absent", "64");
    REFUSED("no width", "WIDTH: is empty", "list", "program", "");
    MISUSED("an option of list", "-v: no such option" MORE, "list", "-v", "program", "32");
    MISUSED("import with two words", "import: its words are IMAGE DATA MACHINE" MORE, "import",
            "m", "x");
    MISUSED("export with two words", "export: its words are MACHINE IMAGE DATA" MORE, "export",
            "m", "x");
    MISUSED("carry-over with one word", "carry-over: its words are OLD NEW" MORE, "carry-over", "m");
    MISUSED("carry-over with three words", "carry-over: its words are OLD NEW" MORE, "carry-over",
            "m", "x", "y");
    MISUSED("an option of carry-over", "--plain: no such option" MORE, "carry-over", "--plain", "m",
            "x");
    MISUSED("an option of carry-over alone", "--machine: no such option" MORE, "show", "--machine",
            "m");
    MISUSED("an option of new", "--plain: no such option" MORE, "new", "--plain", "x");
    MISUSED("an option that there is not", "--stict: no such option" MORE, "run", "--stict",
            "program", "m", "3");
    MISUSED("an option of another command", "--replace: no such option" MORE, "run", "program",
            "m", "3", "--replace");
    MISUSED("a part of an option", "--s: no such option" MORE, "run", "program", "m", "3", "--s");
    MISUSED("a letter that there is not", "-x: no such option" MORE, "show", "-x");
}

void test_messages(void)
{
    test_limits();
    test_damaged();
    test_shown();
    test_order();
    test_listing();
    test_list_faults();
    test_files();
    test_texts();
    test_twice();
    test_usage();
}
