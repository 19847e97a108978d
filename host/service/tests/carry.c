/* Files of the earlier layout, which has no dividers: carried over by carry-over and import, and
   refused by every other command. Those in earlier/ were written by the program that had it. */
#include "faults.h"
#include "harness.h"
#include "places.h"

#include <coffee.h>
#include <errno.h>
#include <stdlib.h>
#include <string.h>
#include <sys/stat.h>
#include <unistd.h>

/* The program of earlier/stack.words. */
#define STACK_PROGRAM \
    "88010000 8C010001 88020FFF 70000832 70000031 88030044 70000C28 88030054 70000C29 88030001 " \
    "70000C35 70008823 70008827 D4000000 4C0014A1 91FFFFFC 70001401 D4000000 4C0018C1 91FFFFFC " \
    "70001802 4C001CE1 90000002 70001C03 5807A0FD 7C002400 C8000000 00000000 00000000 00000000"

#define EARLIER_LINE ": of the earlier layout; 'service carry-over' writes it in the present one"
#define EITHER_LINE \
    ": a plain image, which takes --plain, or a machine of 2 cells of the earlier layout, which " \
    "takes 'service carry-over --machine'"

/* The length of an image of the earlier layout with so many stack entries. */
static size_t earlier_length(size_t entries)
{
    return COFFEE_EARLIER_IMAGE_MIN + COFFEE_IMAGE_ENTRY * entries;
}

/* Writes a file of the earlier layout with two dividers 0 behind its stack. */
static void with_dividers(const char *from, const char *to)
{
    static const uint8_t dividers[12] = {0, 0, 0, 2};
    static uint8_t all[COFFEE_IMAGE_MAX + 4 + 4 * COFFEE_MEMORY_MAX];
    size_t len, front = earlier_length(word_at(from, STACK_COUNT));
    const uint8_t *bytes = read_bytes(from, &len);

    memcpy(all, bytes, front);
    memcpy(all + front, dividers, sizeof dividers);
    memcpy(all + front + sizeof dividers, bytes + front, len - front);
    write_bytes(to, all, len + sizeof dividers);
}

/* The file 'old' is carried over to 'new' by these words, and stays as it was. */
static void carried_by(const char *name, const char *line, char *const *words)
{
    with_dividers("old", "expected");
    copy("old", "same");
    unlink("new");
    accepted_words(name, text("%s is carried over\n", line), words);
    same_bytes(text("%s: the new file", name), "expected", "new");
    same_bytes(text("%s: the old one", name), "same", "old");
    same_text(text("%s: no other file", name), "expected new old same", names_in("."));
}

static char *const carry[] = {"service", "carry-over", "old", "new", NULL};
static char *const carry_machine[] = {"service", "carry-over", "--machine", "old", "new", NULL};

/* A machine is carried over; --machine changes nothing. */
static void carried(const char *name, const char *line)
{
    carried_by(name, line, carry);
    carried_by(text("%s, --machine", name), line, carry_machine);
}

/* A plain image is carried over; it is no machine. */
static void carried_plain(const char *name)
{
    carried_by(name, "a plain image", carry);
    REFUSED(text("%s, --machine", name), "old: has no data memory; a machine has one", "carry-over",
            "old", "x", "--machine");
}

/* What has the sections of a plain image of the present layout is a machine where --machine says
   so. */
static void carried_two(const char *name)
{
    REFUSED(name,
            "old: a plain image of the present layout, or a machine of 2 cells of the earlier one, "
            "which takes --machine",
            "carry-over", "old", "x");
    carried_by(text("%s, --machine", name), "a machine of 2 cells", carry_machine);
}

static void test_carried(void)
{
    section("carry-over: files that version 1.2.0 wrote");
    fresh();
    stored("old", "earlier/stack.words");
    carried("a machine with two stack entries", "a machine of 5 cells");
    stored("old", "earlier/two.words");
    carried_two("a machine of two cells");
    ACCEPTED("its cells", "00000000  00000007 000000FF\n", "cells", "new");
    stored("old", "earlier/plain.words");
    carried_plain("a plain image");
    RUN("show", "--plain", "new");
    check("a plain image stays one", outcome.status == 0 && outcome.err[0] == '\0');
    /* Both go on alike: the older machine carried over and then run, and the later one. */
    fresh();
    write_words("program", STACK_PROGRAM);
    stored("old", "earlier/stack.words");
    stored("later", "earlier/later.words");
    RUN("carry-over", "old", "new");
    ACCEPTED("ten steps from there", "10 0 0000004C\n", "run", "program", "new", "10");
    with_dividers("later", "expected");
    same_bytes("ten steps from there: as version 1.2.0 left it", "expected", "new");

    section("carry-over: machines of every size");
    fresh();
    earlier_image("old");
    carried_plain("an image at reset");
    earlier_machine("old", 0);
    carried("no cells", "a machine of 0 cells");
    earlier_machine("old", 1);
    set_word("old", EARLIER_CELLS, 0xFFFFFFFF);
    carried("one cell", "a machine of 1 cell");
    /* The cells look like dividers and an empty data memory. */
    earlier_machine("old", 3);
    set_words("old", EARLIER_CELLS, "0 0 0");
    carried("three cells", "a machine of 3 cells");
    earlier_machine("old", 65536);
    set_word("old", EARLIER_CELLS + 65535, 0x12345678);
    carried("65,536 cells", "a machine of 65536 cells");
    /* All twelve sources on the stack. */
    earlier_image("old");
    set_word("old", STACK_COUNT, 12);
    set_word("old", INT_SERV, 0xFFF);
    for (unsigned i = 0; i < 12; i++)
        set_words("old", ENTRY + 4 * i, text("%X 1 9 0", i));
    carried_plain("twelve stack entries");
    set_words("old", ENTRY + 4 * 12, "2 FFFFFFFF 1");
    carried_two("twelve stack entries and two cells");
    /* Registers of the timers are kept, and run on. */
    earlier_machine("old", 4);
    set_words("old", TMR0_CNT, "1 9 2 8 80048002");
    carried("timers", "a machine of 4 cells");
    write_words("program", "00000000 00000000 00000000 00000000");
    ACCEPTED("timers: four steps", "4 0 00000010\n", "run", "program", "new", "4");
    same_text("timers: the dividers", "00000002 00000001 00000004",
              words_of("new", DIVIDER_COUNT, 3));
    same_text("timers: the counts", "00000002 00000009 00000002 00000008",
              words_of("new", TMR0_CNT, 4));
    fresh();
    plain_image("old");
    set_words("old", DIVIDER, "3 4");
    carried_two("a plain image of the present layout");
}

/* The file 'old' is carried over to a file that is not there, which has the same rights then,
   whatever the umask. */
static void rights_kept(mode_t rights, mode_t mask)
{
    chmod("old", rights);
    unlink("new");
    umask(mask);
    ACCEPTED(text("rights %o under umask %o", rights, mask),
             "a machine of 5 cells is carried over\n", "carry-over", "--replace", "old", "new");
    umask(022);
    same_number(text("rights %o under umask %o stay", rights, mask), rights, rights_of("new"));
}

static void test_new_file(void)
{
    section("carry-over: the new file");
    fresh();
    stored("old", "earlier/stack.words");
    with_dividers("old", "expected");
    write_text("new", "something else");
    chmod("new", 0640);
    REFUSED("a file that is there", "new: is there already; --replace replaces it", "carry-over",
            "old", "new");
    ACCEPTED("--replace", "a machine of 5 cells is carried over\n", "carry-over", "--replace",
             "old", "new");
    same_bytes("--replace replaces what was there", "expected", "new");
    same_number("--replace keeps the rights", 0640, rights_of("new"));
    unlink("new");
    ACCEPTED("--replace of no file", "a machine of 5 cells is carried over\n", "carry-over", "old",
             "new", "--replace");
    same_bytes("--replace of no file writes it", "expected", "new");
    mkdir("folder", 0755);
    check("links", symlink("folder/m", "link") == 0 && symlink("old", "other") == 0);
    chmod("old", 0444);
    ACCEPTED("through a link, to a link to nothing", "a machine of 5 cells is carried over\n",
             "carry-over", "other", "link");
    same_bytes("the file that the link names is written", "expected", "folder/m");
    ACCEPTED("a name like an option", "a machine of 5 cells is carried over\n", "carry-over", "--",
             "old", "--machine");
    same_number("rights of the old file", 0444, rights_of("--machine"));
    rights_kept(0600, 0);
    rights_kept(0664, 077);
    REFUSED("onto itself", "old: given twice in this command", "carry-over", "--replace", "old",
            "old");
    REFUSED("onto itself by a link", "other: given twice in this command", "carry-over",
            "--replace", "old", "other");
    check("a hard link", link("old", "hard") == 0);
    REFUSED("onto itself by another name", "hard: given twice in this command", "carry-over",
            "--replace", "old", "hard");
}

/* Every other command refuses a file with this line. */
static void refused_by_all(const char *path, const char *line)
{
    char *m = (char *)path;

    line = text("%s%s", path, line);
    REFUSED(text("run: %s", line), line, "run", "program", m, "3");
    REFUSED(text("run -v: %s", line), line, "run", "-v", "--strict", "program", m, "0");
    REFUSED(text("show: %s", line), line, "show", m);
    REFUSED(text("cells: %s", line), line, "cells", m);
    REFUSED(text("export: %s", line), line, "export", m, "x", "y");
}

/* The same of commands that take it for a plain image. */
static void refused_as_plain(const char *path, const char *line)
{
    char *m = (char *)path;

    line = text("%s%s", path, line);
    REFUSED(text("run --plain: %s", line), line, "run", "--plain", "program", m, "3");
    REFUSED(text("show --plain: %s", line), line, "show", "--plain", m);
    REFUSED(text("cells --plain: %s", line), line, "cells", "--plain", m);
    REFUSED(text("export --plain: %s", line), line, "export", "--plain", m, "x", "y");
}

static void test_others(void)
{
    section("the earlier layout and every other command");
    fresh();
    write_words("program", "00000000");
    write_words("data", "1");
    stored("stack", "earlier/stack.words");
    stored("plain", "earlier/plain.words");
    stored("two", "earlier/two.words");
    earlier_machine("none", 0);
    earlier_machine("many", 4096);
    earlier_machine("most", 65536);
    refused_by_all("stack", EARLIER_LINE);
    refused_by_all("plain", EARLIER_LINE);
    refused_by_all("none", EARLIER_LINE);
    refused_by_all("many", EARLIER_LINE);
    refused_by_all("most", EARLIER_LINE);
    refused_as_plain("stack", EARLIER_LINE);
    refused_as_plain("plain", EARLIER_LINE);
    refused_as_plain("none", EARLIER_LINE);
    REFUSED("import: a machine of the earlier layout", "stack" EARLIER_LINE, "import", "stack",
            "data", "x");
    /* A damaged one is refused so too; carry-over tells what is wrong. */
    set_word("many", PSR, 0x20);
    refused_by_all("many", EARLIER_LINE);
    check("shorter", truncate("many", 9000) == 0);
    REFUSED("run: one cut short",
            "many: refused with 2: the count of the dividers is 00001000: it must be 00000002; a "
            "file of the earlier layout takes 'service carry-over'",
            "run", "program", "many", "3");

    section("a plain image, or two cells of the earlier layout");
    plain_image("image");
    refused_by_all("two", EITHER_LINE);
    refused_by_all("image", EITHER_LINE);
    set_word("two", EARLIER_CELLS, 0x100);
    refused_by_all("two", EITHER_LINE);
    REFUSED("a plain image with two cells as dividers",
            "two: refused with 3: divider of timer 0 is 00000100: it must be at most FFh", "run",
            "--plain", "program", "two", "3");
}

static void test_plain(void)
{
    section("--plain");
    fresh();
    write_words("program", "00000000");
    machine("m", 4);
    refused_as_plain("m", ": has a data memory of its own; a plain image has none");
    machine("m", 0);
    refused_as_plain("m", ": has a data memory of its own; a plain image has none");
    plain_image("m");
    set_word("m", DIVIDER + 1, 256);
    REFUSED("a damaged plain image",
            "m: refused with 3: divider of timer 1 is 00000100: it must be at most FFh", "run",
            "program", "--plain", "m", "3");
    plain_image("m");
    check("shorter", truncate("m", 527) == 0);
    REFUSED("a plain image cut short", "m: refused with 2: the file ends after 527 bytes, in the "
                                       "dividers; a file of the earlier layout takes 'service "
                                       "carry-over'",
            "run", "program", "--plain", "m", "3");
    plain_image("m");
    check("longer", truncate("m", 529) == 0);
    REFUSED("a byte after a plain image", "m: refused with 2: the file ends after 529 bytes, in the "
                                          "count of the data memory",
            "run", "program", "--plain", "m", "3");
}

static void test_import(void)
{
    section("import of either layout");
    fresh();
    write_words("data", "5 6 7");
    stored("image", "earlier/plain.words");
    with_dividers("image", "expected");
    set_words("expected", CELL_COUNT, "3 5 6 7");
#define CARRIED_LINE "the image is carried over from the earlier layout\n"
    ACCEPTED("an image of the earlier layout", CARRIED_LINE, "import", "image", "data", "m");
    same_bytes("an image of the earlier layout: the machine", "expected", "m");
    same_text("no other file", "data expected image m", names_in("."));
    /* The same machine's image and cells, out of its file. */
    stored("old", "earlier/stack.words");
    stored("image", "earlier/stack.words");
    check("its image", truncate("image", (off_t)earlier_length(2)) == 0);
    write_words("data", "0 2 2 0 0");
    RUN("carry-over", "old", "new");
    ACCEPTED("an image with stack entries", CARRIED_LINE, "import", "--replace", "image", "data",
             "m");
    same_bytes("an image with stack entries: as the machine carried over", "new", "m");
    plain_image("image");
    set_words("image", DIVIDER, "1 2");
    ACCEPTED("an image of the present layout", "", "import", "--replace", "image", "data", "m");
    same_text("its dividers stay", "00000002 00000001 00000002 00000005",
              words_of("m", DIVIDER_COUNT, 4));
    /* An IMAGE is a plain image, so this one is of the present layout. */
    stored("image", "earlier/two.words");
    ACCEPTED("what could be two cells", "", "import", "--replace", "image", "data", "m");
    same_text("what could be two cells: dividers", "00000002 00000007 000000FF 00000005",
              words_of("m", DIVIDER_COUNT, 4));
    earlier_image("image");
    set_word("image", PSR, 0x0D);
    REFUSED("a damaged one of the earlier layout",
            "image: refused with 4: PSR is 0000000D: in user mode both set bits must be 0", "import",
            "image", "data", "x");
    earlier_image("image");
    REFUSED("a good one, and bad data", "x: No such file or directory", "import", "image", "x",
            "y");
    fault_setting.refusal = 8;
    REFUSED("8 (from a stand-in for the library)",
            "image: refused with 8: a buffer too short for an image", "import", "image", "data",
            "y");
}

/* The file 'old' is refused with this line. */
static void carry_refused(const char *line)
{
    REFUSED(text("carry-over: %s", line), text("old: refused with %s", line), "carry-over", "old",
            "new");
    REFUSED(text("carry-over --machine: %s", line), text("old: refused with %s", line),
            "carry-over", "--machine", "old", "new");
}

/* A machine of the earlier layout with one word changed is refused with this line. */
static void damaged(size_t place, uint32_t word, const char *line)
{
    fresh();
    earlier_machine("old", 4);
    set_word("old", place, word);
    carry_refused(line);
}

/* The same for the one with two stack entries. */
static void damaged_stack(size_t place, uint32_t word, const char *line)
{
    fresh();
    stored("old", "earlier/stack.words");
    set_word("old", place, word);
    carry_refused(line);
}

/* Its first bytes, of 536, are refused with this line. */
static void cut_short(off_t len, const char *line)
{
    fresh();
    earlier_machine("old", 4);
    check("shorter", truncate("old", len) == 0);
    carry_refused(text("2: %s", line));
}

/* The library, by a stand-in for it, refuses a good machine. */
static void refused_with(uint32_t refusal, const char *reason)
{
    fault_setting.refusal = refusal;
    REFUSED(text("%u of a good machine", refusal),
            text("old: refused with %u: %s", refusal, reason), "carry-over", "old", "new");
}

static void test_damaged(void)
{
    section("carry-over: damaged files");
    damaged(EARLIER_CELL_COUNT, 0x10001, "1: the count of the data memory is 00010001: it must be "
                                         "at most 00010000");
    damaged(EARLIER_CELL_COUNT, 5, "2: the file ends after 536 bytes, in the data memory");
    damaged(EARLIER_CELL_COUNT, 3, "2: bytes follow the data memory of 3 cells, the last section");
    damaged(EARLIER_CELL_COUNT, 0, "2: bytes follow the data memory of 0 cells, the last section");
    damaged(0, 0x1F, "2: the count of set 1 is 0000001F: it must be 00000020");
    damaged(121, 7, "2: the count of the position is 00000007: it must be 00000006");
    damaged(STACK_COUNT, 13, "2: the count of the stack is 0000000D: it must be at most 12");
    damaged(STACK_COUNT, 2, "2: the file ends after 536 bytes, in the stack");
    damaged(PSR, 0x20, "3: PSR is 00000020: it must be at most 1Fh");
    damaged(CCB_BASE, 0x10001, "3: CCB_BASE (00h) is 00010001: its low byte must be 0");
    damaged(POSITION + 5, 9, "3: product low is 00000009: it must be 0, as the product flag is");
    damaged(PSR, 0x0B, "4: PSR is 0000000B: in user mode both set bits must be 0");
    damaged(RETI_PSR, 8,
            "5: RETI_PSR (29h) is 00000008: it must be 00000009, as the stack is empty");
    damaged_stack(ENTRY + 7, 8, "3: C0 of stack entry 2 is 00000008: it must be at most 7h");
    damaged_stack(ENTRY + 6, 7,
                  "4: PSR of stack entry 2 is 00000007: in user mode both set bits must be 0");
    damaged_stack(ENTRY + 4, 4,
                  "5: source of stack entry 2 is 00000004: an entry below has it too");
    damaged_stack(ENTRY + 8, 6, "2: the file ends after 572 bytes, in the data memory");
    cut_short(0, "the file ends after 0 bytes, in the count of set 1");
    cut_short(515, "the file ends after 515 bytes, in the count of the stack");
    cut_short(517, "the file ends after 517 bytes, in the count of the data memory");
    cut_short(535, "the file ends after 535 bytes, in the data memory");
    fresh();
    write_text("old", "#!/bin/sh\necho this is no machine at all\n");
    REFUSED("carry-over: a text", "old: refused with 2: the count of set 1 is 23212F62: it must be "
                                  "00000020",
            "carry-over", "old", "new");
    earlier_machine("old", 65536);
    check("longer", truncate("old", 1000000) == 0);
    REFUSED("carry-over: bytes after the longest machine",
            "old: refused with 2: bytes follow the data memory of 65536 cells, the last section",
            "carry-over", "old", "new");
    for (unsigned cells = 0; cells < 8; cells++) {
        machine("old", cells);
        REFUSED(text("carry-over: the present layout, %u cells", cells),
                "old: of the present layout already", "carry-over", "old", "new");
        REFUSED(text("carry-over --machine: the present layout, %u cells", cells),
                "old: of the present layout already", "carry-over", "old", "new", "--machine");
    }

    section("carry-over: other refusals (from a stand-in for the library)");
    fresh();
    earlier_machine("old", 4);
    refused_with(8, "a buffer too short for an image");
    refused_with(3, "an image with a number that its register cannot hold");
    refused_with(99, "no reason that is known here");
}

/* A call of carry-over goes wrong with this error. */
static void fails(const char *call, unsigned at, int error, const char *path, const char *reason)
{
    fault_setting = (struct fault_setting){.kind = FAIL, .call = call, .at = at, .error = error};
    REFUSED(text("carry-over: %s %u", call, at), text("%s: %s", path, reason), "carry-over", "old",
            "new");
}

static void test_reading(void)
{
    section("carry-over without memory, and with a file that cannot be read");
    fresh();
    earlier_machine("old", 4);
    fails("read", 1, EIO, "old", "Input/output error");
    fails("read", 2, EIO, "old", "Input/output error");
    /* Memory for the file, the cells, the image, and the new file. */
    fails("malloc", 1, ENOMEM, "old", "Cannot allocate memory");
    fails("malloc", 2, ENOMEM, "old", "Cannot allocate memory");
    fails("malloc", 3, ENOMEM, "old", "Cannot allocate memory");
    fails("malloc", 4, ENOMEM, "new", "Cannot allocate memory");
    fault_setting = (struct fault_setting){.kind = FAIL, .call = "malloc", .at = 5, .error = ENOMEM};
    ACCEPTED("carry-over: no more memory is wanted", "a machine of 4 cells is carried over\n",
             "carry-over", "old", "new");
    fault_setting = (struct fault_setting){.kind = FAIL, .call = "read", .at = 1, .error = EINTR};
    ACCEPTED("carry-over: a read that is interrupted", "a machine of 4 cells is carried over\n",
             "carry-over", "--replace", "old", "new");
}

void test_carry(void)
{
    test_carried();
    test_new_file();
    test_others();
    test_plain();
    test_import();
    test_damaged();
    test_reading();
}
