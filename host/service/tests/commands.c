/* The commands where all is well. What is expected is worked out from docs/MANUAL.md. */
#include "harness.h"
#include "places.h"

#include <stdio.h>
#include <stdlib.h>
#include <string.h>
#include <sys/stat.h>
#include <unistd.h>

/* The run program's example (Manual 16): lli PR1, 5; addi; trap 3. */
#define EXAMPLE "88010005 4807883F DC000003"

/* A loop that stores in its slot and holds a product between muli and mulhi:
    0 lli PR1, 7      4 muli PR2, PR1, -3    8 mulhi PR3       12 st PR2 to PR0 + 1
   16 ld PR4, 1      20 addiu PR5, PR5, 1   24 jmp to 4       28 st PR5 to PR0 + 2, the slot
   and a service routine: 32 addiu PR6, PR6, 1   36 reti, with its three nops */
#define LOOP "88010007 5807883D 7C000C00 70000801 6C001001 4C0014A1 91FFFFF4 70001402 " \
             "4C0018C1 C8000000 00000000 00000000 00000000"

static void test_new(void)
{
    section("new");
    fresh();
    machine("expected", 4096);
    ACCEPTED("new prints nothing", "", "new", "m");
    same_bytes("new writes the machine at reset with 4,096 cells", "expected", "m");
    same_text("new leaves no other file", "expected m", names_in("."));
    REFUSED("new of a machine that is there", "m: is there already; --replace replaces it", "new",
            "m");
    write_text("program", "something else");
    REFUSED("new of a program", "program: is there already; --replace replaces it", "new",
            "program");
    chmod("program", 0640);
    ACCEPTED("new --replace", "", "new", "--replace", "program");
    same_bytes("new --replace replaces what was there", "expected", "program");
    same_number("new --replace keeps the rights", 0640, rights_of("program"));
    ACCEPTED("new --replace of no file", "", "new", "other", "--replace");
    same_bytes("new --replace of no file writes it", "expected", "other");
    mkdir("folder", 0755);
    check("a link", symlink("folder/m", "link") == 0);
    ACCEPTED("new through a link to nothing", "", "new", "link", "7");
    machine("expected", 7);
    same_bytes("new writes the file that the link names", "expected", "folder/m");
    ACCEPTED("new with 0 cells", "", "new", "none", "0");
    machine("expected", 0);
    same_bytes("a machine with 0 cells", "expected", "none");
    ACCEPTED("new with 65,536 cells", "", "new", "most", "65536");
    machine("expected", 65536);
    same_bytes("a machine with 65,536 cells", "expected", "most");
    ACCEPTED("a name that begins as an option", "", "new", "--", "--m");
    check("the file of that name", access("--m", F_OK) == 0);
    umask(027);
    ACCEPTED("new under umask 027", "", "new", "masked");
    umask(022);
    same_number("rights by the umask", 0640, rights_of("masked"));
}

/* Sees that show prints a stored text. */
static void shown(const char *name, const char *expected, char *const *words)
{
    accepted_words(name, (char *)read_bytes(text("%s/expected/%s", test_folder, expected), NULL),
                   words);
}

#define SHOWN(name, expected, ...) \
    shown(name, expected, (char *[]){"service", "show", __VA_ARGS__, NULL})

/* What show says of a PSR (Manual 1.4). */
static void mode(uint32_t psr, const char *words)
{
    machine("m", 0);
    set_word("m", PSR, psr);
    RUN("show", "m");
    outcome.out[strcspn(outcome.out, "\n")] = '\0';
    same_text(text("mode of PSR %02Xh", psr), text("mode: %s", words), outcome.out);
}

/* A machine in service of source 0, which interrupted the service of source 5; every kind of
   number has a value of its own. */
static void stacked(const char *path)
{
    plain_image(path);
    set_word(path, SET_1, 0x101);
    set_word(path, SET_1 + 31, 0x11F);
    set_word(path, SET_2, 0x201);
    set_words(path, PSR, "9 21E 21F");
    set_words(path, C0, "4 2 1");
    set_word(path, C0 + 7, 7);
    set_word(path, INT_SERV, 0x21);
    set_words(path, RETI_ADDR, "20 18 2");
    set_words(path, POSITION, "301 1 303 1 305 306");
    set_words(path, STACK_COUNT, "2 5 10 1E 5 0 20 18 2 2 7 FF");
}

static void test_show(void)
{
    char *sources;

    section("show");
    fresh();
    sources = text("%s", "");
    machine("m", 16);
    SHOWN("show of the machine at reset", "reset.show", "m");
    plain_image("plain");
    SHOWN("show of a plain image", "reset.show", "--plain", "plain");
    write_words("program", EXAMPLE);
    RUN("run", "program", "m", "3");
    SHOWN("show of the example", "example.show", "m");
    stacked("m");
    SHOWN("show of two stack entries, a slot, a product and dividers", "stack.show", "m",
          "--plain");

    /* Sources 0 to 3 are COP, 4 to 11 EXT; all twelve on one stack, source 11 on top. */
    plain_image("full");
    set_word("full", STACK_COUNT, 12);
    set_word("full", INT_SERV, 0xFFF);
    for (unsigned i = 0; i < 12; i++)
        set_words("full", ENTRY + 4 * i, text("%X 1 9 0", i));
    set_words("full", ENTRY + 4 * 12, "2 1 2");
    RUN("show", "full", "--plain");
    check("show of a full stack", outcome.status == 0);
    check("show of the dividers behind a full stack",
          strstr(outcome.out, "\ndividers\ntimer 0       00000001\ntimer 1       00000002\n") !=
              NULL);
    for (char *at = strstr(outcome.out, "\nsource"); at != NULL && at[1] != '\0';) {
        unsigned source;
        char name[16];

        if (sscanf(at, " %u %15s", &source, name) == 2)
            sources = text("%s%u %s ", sources, source, name);
        at = strchr(at + 1, '\n');
    }
    same_text("show names the twelve sources, top first",
              "11 EXT_INT7 10 EXT_INT6 9 EXT_INT5 8 EXT_INT4 7 EXT_INT3 6 EXT_INT2 5 EXT_INT1 "
              "4 EXT_INT0 3 COP3_INT 2 COP2_INT 1 COP1_INT 0 COP0_INT ",
              sources);

    mode(0x00, "super user, 16-bit words, reads set 1, writes set 1, interrupts disabled");
    mode(0x01, "user, 16-bit words, reads set 1, writes set 1, interrupts disabled");
    mode(0x02, "super user, 16-bit words, reads set 2, writes set 1, interrupts disabled");
    mode(0x04, "super user, 16-bit words, reads set 1, writes set 2, interrupts disabled");
    mode(0x08, "super user, 32-bit words, reads set 1, writes set 1, interrupts disabled");
    mode(0x10, "super user, 16-bit words, reads set 1, writes set 1, interrupts enabled");
    mode(0x19, "user, 32-bit words, reads set 1, writes set 1, interrupts enabled");
    mode(0x1E, "super user, 32-bit words, reads set 2, writes set 2, interrupts enabled");
}

static void test_cells(void)
{
    section("cells");
    fresh();
    machine("m", 20);
    for (unsigned i = 0; i < 20; i++)
        set_word("m", CELLS + i, 0xA0000000 + i);
    ACCEPTED("all cells",
             "00000000  A0000000 A0000001 A0000002 A0000003 A0000004 A0000005 A0000006 A0000007\n"
             "00000008  A0000008 A0000009 A000000A A000000B A000000C A000000D A000000E A000000F\n"
             "00000010  A0000010 A0000011 A0000012 A0000013\n",
             "cells", "m");
    ACCEPTED("from a cell on", "00000011  A0000011 A0000012 A0000013\n", "cells", "m", "17");
    ACCEPTED("hexadecimal, a count", "00000011  A0000011 A0000012\n", "cells", "m", "11h", "2");
    ACCEPTED("hexadecimal with 0x", "00000011  A0000011\n", "cells", "m", "0x11", "0x1");
    ACCEPTED("no cell of many", "", "cells", "m", "0", "0");
    ACCEPTED("a count beyond the end", "00000013  A0000013\n", "cells", "m", "19", "99999999999");
    REFUSED("a cell beyond the end", "20: no such cell: the last one is 19 (13h)", "cells", "m",
            "20");
    REFUSED("FIRST that is no number", "1G: FIRST is neither decimal nor hexadecimal as 1F0h",
            "cells", "m", "1G");
    REFUSED("COUNT that is no number", "-1: COUNT is neither decimal nor hexadecimal as 1F0h",
            "cells", "m", "1", "-1");
    plain_image("plain");
    ACCEPTED("a plain image", "no cells\n", "cells", "--plain", "plain");
    /* The control block comes first at its 256 addresses (Manual 1.2). */
    machine("m", 520);
    set_word("m", CCB_BASE, 0x100);
    ACCEPTED("cells behind the control block",
             "000000FE  00000000 00000000 00000000 00000000 00000000 00000000 00000000 00000000"
             "  behind CCB_BASE to COP1_INT_VEC\n",
             "cells", "m", "FEh", "8");
    ACCEPTED("one cell behind it", "0000012C  00000000  behind CORE_VER_ID\n", "cells", "m",
             "12Ch", "1");
    ACCEPTED("cells behind its end",
             "000001FE  00000000 00000000 00000000  behind FEh to FFh\n", "cells", "m", "1FEh",
             "3");
}

/* Writes the longest program of words of so many bytes, prints it to a file, and compares that with
   its lines (Manual 11). In 32 bits the words are lli R0 0, lli R1 4 and so on, each with its own
   address as immediate; in 16 bits every cmpi, over and over. */
static void list_longest(const char *width, unsigned bytes)
{
    static uint8_t program[65536];
    static char lines[sizeof program / 2 * 48 + 1];
    bool wide = bytes == 4;
    char *end = lines;

    for (unsigned at = 0; at < sizeof program; at += bytes) {
        unsigned word = wide ? 0x88000000 | at / 4 % 32 << 16 | at : 0x8400 | at / 2 % 1024;
        unsigned target = wide ? at / 4 % 32 : 24 + word % 8;
        int immediate = wide ? (int)at : (int)((word >> 3 & 127) ^ 64) - 64;
        char digits[9], operands[32];

        for (unsigned i = 0; i < bytes; i++)
            program[at + i] = (uint8_t)(word >> 8 * (bytes - 1 - i));
        snprintf(digits, sizeof digits, "%0*X", 2 * (int)bytes, word);
        snprintf(operands, sizeof operands, "R%u %d", target, immediate);
        end += sprintf(end, "%08X %-8s        %-8s %-13s\n", at, digits, wide ? "lli" : "cmpi",
                       operands);
    }
    write_bytes("program", program, sizeof program);
    write_bytes("expected", lines, (size_t)(end - lines));
    setting.output = STORED;
    RUN("list", "program", (char *)width);
    check("the longest program: status 0, no complaint",
          outcome.status == 0 && outcome.err[0] == '\0');
    same_bytes(text("the longest program, %s-bit words", width), "expected", "out");
}

static void test_list(void)
{
    section("list");
    fresh();
    write_words("program", "881FFFFF 07C87FDD FDF87FFF 6C047FE0 A3E00000 EC001022");
    ACCEPTED("32-bit words",
             "00000000 881FFFFF        lli      R31 65535    \n"
             "00000004 07C87FDD egt C7 add      R31 R30 R29  \n"
             "00000008 FDF87FFF        exbfi    R31 R31 63 31\n"
             "0000000C 6C047FE0        ld       R31 R31 -256 \n"
             "00000010 A3E00000        bc       C7 -2097152  \n"
             "00000014 EC001022        conh     R4 R2 R1     \n",
             "list", "program", "32");
    write_words("program", "0C118800 8607A200 0000F018");
    ACCEPTED("16-bit words",
             "00000000 0C11            sub      R25 R26      \n"
             "00000002 8800            ?                     \n"
             "00000004 8607            cmpi     R31 -64      \n"
             "00000006 A200            bc       -512         \n"
             "00000008 0000            nop                   \n"
             "0000000A F018            exb      R24 3        \n",
             "list", "program", "16");
    write_bytes("program", "\x0C\x11", 2);
    ACCEPTED("one word", "00000000 0C11            sub      R25 R26      \n", "list", "program",
             "16");
    write_text("program", "");
    ACCEPTED("an empty program, 32-bit words", "", "list", "program", "32");
    ACCEPTED("an empty program, 16-bit words", "", "list", "program", "16");
    list_longest("32", 4);
    list_longest("16", 2);
    same_text("list leaves no other file", "expected out program", names_in("."));
}

/* A program that stops: cells, words, the line of steps, ending and PC, the line in words. */
static void stop(size_t cells, const char *words, const char *line, const char *in_words)
{
    write_words("program", words);
    machine("m", cells);
    ACCEPTED(text("run of %s: %s", words, line), text("%s\n%s\n", line, in_words), "run", "-v",
             "program", "m", "100");
    RUN("run", "--strict", "program", "m", "100");
    same_number("--strict gives 4", 4, (unsigned)outcome.status);
    same_text("--strict prints the line too", text("0%s\n", strchr(line, ' ')), outcome.out);
}

/* What a stop 11, and a stop 20, means in words, with no exception before it. */
#define NO_WORD \
    "a byte of the instruction word, or of a nop that must follow it, is outside program memory; " \
    "no exception entered"
#define NO_NOP \
    "another operation than nop where swm (two), scall, retu (one) or reti (three) wants nops; " \
    "no exception entered"

static void test_run(void)
{
    section("run");
    fresh();
    write_words("program", EXAMPLE);
    machine("m", 4096);
    ACCEPTED("the example", "3 0 00000000\n", "run", "program", "m", "3");
    /* PR2 is 4, C0 is 1, EXCEPTION_CS E3h; trap at 8 with PSR 0Eh. */
    machine("expected", 4096);
    set_words("expected", SET_2 + 1, "5 4");
    set_word("expected", C0, 1);
    set_words("expected", EXCEPTION_CS, "E3 8 E");
    same_bytes("the example: the machine left", "expected", "m");
    same_text("run leaves no other file", "expected m program", names_in("."));
    ACCEPTED("limit 0", "0 0 00000000\n", "run", "program", "m", "0");
    same_bytes("limit 0: the same machine", "expected", "m");
    ACCEPTED("--strict without a stop", "3 0 00000000\n", "run", "program", "--strict", "m", "3");
    ACCEPTED("steps with zeros before them", "3 0 00000000\n", "run", "program", "m",
             "000000000000000000000000000003");
    ACCEPTED("1,000,000 steps", "1000000 0 00000004\n", "run", "program", "m", "1000000");

    stop(1, "", "0 11 00000000", "stop 11 at 00000000: " NO_WORD);
    stop(1, "00000000", "1 11 00000004", "stop 11 at 00000004: " NO_WORD);
    stop(0, "6C000000", "0 12 00000000",
         "stop 12 at 00000000: a data address is neither in the control block nor a cell; "
         "no exception entered");
    stop(1, "90000002 90000002", "1 13 00000004",
         "stop 13 at 00000004: a control transfer in a branch slot; no exception entered");
    stop(1, "7C000000", "0 14 00000000",
         "stop 14 at 00000000: mulhi without a product from the step just before; "
         "no exception entered");
    stop(1, "C8000000 00000000 00000000 00000000", "0 15 00000000",
         "stop 15 at 00000000: reti with an empty stack; no exception entered");

    /* As long as they may be: nops from 0 to the end of 65,536 bytes are 16,384 steps. */
    write_zeros("program", 65536);
    machine("m", 65536);
    ACCEPTED("the longest program and data", "16384 11 00010000\n", "run", "program", "m",
             "1000000");
    machine("expected", 65536);
    set_word("expected", POSITION, 0x10000);
    same_bytes("the longest data keeps its cells", "expected", "m");

    /* Cells, high byte first: lli PR1, 1234h; lui PR1, 89ABh; st PR1 to PR0 + 1. */
    write_words("program", "88011234 8C0189AB 70000401");
    machine("m", 3);
    set_word("m", CELLS + 2, 0xFFFFFFFF);
    ACCEPTED("a store", "3 0 0000000C\n", "run", "program", "m", "3");
    same_text("the cells", "00000003 00000000 89AB1234 FFFFFFFF", words_of("m", CELL_COUNT, 4));
    write_words("program", "6C000801"); /* ld PR2 from PR0 + 1, then stop 11 */
    set_word("m", POSITION, 0);
    ACCEPTED("a load", "1 11 00000004\n", "run", "program", "m", "9");
    same_number("the register loaded", 0x89AB1234, word_at("m", SET_2 + 2));

    /* A plain image stays one. */
    write_words("program", EXAMPLE);
    plain_image("plain");
    ACCEPTED("a plain image", "3 0 00000000\n", "run", "--plain", "program", "plain", "3");
    plain_image("expected");
    set_words("expected", SET_2 + 1, "5 4");
    set_word("expected", C0, 1);
    set_words("expected", EXCEPTION_CS, "E3 8 E");
    same_bytes("a plain image is saved as one", "expected", "plain");
    machine("m", 0);
    RUN("run", "program", "m", "3");
    same_number("a machine with 0 cells is saved as one", 0, word_at("m", CELL_COUNT));
}

/* Programs where a word that must be a nop is another, addi PR2, PR1, -1 (4807883Fh), absent or
   protected (Manual 4.6). */
static void test_nops(void)
{
    section("required nops");
    fresh();
    stop(1, "D8000000 00000000 4807883F", "0 20 00000000", "stop 20 at 00000000: " NO_NOP);
    stop(1, "C0000000 4807883F", "0 20 00000000", "stop 20 at 00000000: " NO_NOP);
    stop(1, "C4000000 4807883F", "0 20 00000000", "stop 20 at 00000000: " NO_NOP);
    stop(1, "C8000000 00000000 00000000 4807883F", "0 20 00000000",
         "stop 20 at 00000000: " NO_NOP);
    stop(1, "00000000 D8000000 00000000", "1 11 00000004", "stop 11 at 00000004: " NO_WORD);

    /* lli PR1, 5; swm 0; nop; addi PR2, PR1, -1. */
    write_words("program", "88010005 D8000000 00000000 4807883F 0C110000");
    machine("m", 4);
    ACCEPTED("work in place of a nop", "1 20 00000004\n", "run", "program", "m", "100");
    machine("expected", 4);
    set_word("expected", SET_2 + 1, 5);
    set_word("expected", POSITION, 4);
    same_bytes("the machine before the stop is saved", "expected", "m");
    ACCEPTED("the same stop again", "0 20 00000004\n", "run", "program", "m", "100");
    same_bytes("and the same machine", "expected", "m");
    /* swm goes on at 16, in 16-bit words: sub PR25, PR26. */
    write_words("program", "88010005 D8000000 00000000 00000000 0C110000");
    ACCEPTED("with both nops the run goes on", "2 0 00000012\n", "run", "program", "m", "2");

    /* In user mode, byte 7 protected, the last one of the nop. */
    write_words("program", "C0000000 4807883F");
    machine("m", 4);
    set_word("m", PSR, 9);
    set_word("m", IMEM_BOUND_LO, 7);
    ACCEPTED("a protected nop",
             "1 0 00000000\nall steps done, next at 00000000; 1 exception entered, code 00h at "
             "00000000\n",
             "run", "-v", "program", "m", "1");
}

/* A machine that takes requests: IE 1, every source let through, service in super user mode,
   source 4 (EXT 0) at 20h. */
static void listening(const char *path)
{
    machine(path, 4);
    set_word(path, PSR, 0x1E);
    set_word(path, INT_MASK, 0xFFF);
    set_word(path, INT_MODE_UM, 0);
    set_word(path, EXT_INT0_VEC, 0x20);
}

static void test_in_words(void)
{
    section("run -v");
    fresh();
    write_words("program", EXAMPLE);
    machine("m", 4);
    ACCEPTED("no exception", "2 0 00000008\nall steps done, next at 00000008; no exception entered\n",
             "run", "-v", "program", "m", "2");
    ACCEPTED("one exception",
             "1 0 00000000\nall steps done, next at 00000000; 1 exception entered, code E3h at "
             "00000008\n",
             "run", "-v", "program", "m", "1");
    ACCEPTED("the same exception again",
             "3 0 00000000\nall steps done, next at 00000000; 1 exception entered, code E3h at "
             "00000008\n",
             "run", "-v", "program", "m", "3");
    ACCEPTED("many of the same",
             "300 0 00000000\nall steps done, next at 00000000; 100 exceptions entered, the last: "
             "code E3h at 00000008\n",
             "run", "-v", "program", "m", "300");
    /* A nop at EXCEPTION_PC, with EXCEP_ADDR next, leaves what the exception would leave. */
    write_words("program", "00000000 00000000 00000000 00000000");
    machine("m", 4);
    set_words("m", EXCEPTION_CS, "E3 8 E");
    set_word("m", EXCEP_ADDR, 0xC);
    set_word("m", POSITION, 8);
    ACCEPTED("a nop that looks like an exception",
             "1 0 0000000C\nall steps done, next at 0000000C; no exception entered\n", "run", "-v",
             "program", "m", "1");
    /* An interrupt is accepted at EXCEPTION_PC; the word there would store to cell 0. */
    write_words("program", "70000400 00000000");
    machine("m", 4);
    set_words("m", EXCEPTION_CS, "E3 0 1E");
    set_word("m", PSR, 0x1E);
    set_word("m", SET_2 + 1, 5);
    set_word("m", INT_MASK, 0xFFF);
    set_word("m", EXT_INT0_VEC, 4);
    write_text("requests", "10\n");
    ACCEPTED("an interrupt where an exception could be",
             "1 0 00000004\nall steps done, next at 00000004; no exception entered\n", "run", "-v",
             "program", "m", "1", "requests");
    same_number("nothing is stored", 0, word_at("m", CELLS + 4));
    /* 1,000,001 steps are not all watched: trap in the first one, then jmp to itself. */
    write_words("program", "DC000001 91FFFFFE 00000000");
    machine("m", 4);
    set_word("m", EXCEP_ADDR, 4);
    ACCEPTED("a long run",
             "1000001 0 00000004\nall steps done, next at 00000004; at least 1 exception entered, "
             "the last known: code E1h at 00000000\n",
             "run", "-v", "program", "m", "1000001");
    /* The last two steps are not watched: an interrupt is accepted, and its vector is misaligned. */
    write_words("program", "91FFFFFE 00000000");
    listening("m");
    set_word("m", EXT_INT0_VEC, 1);
    write_text("requests", "1000001: 10\n");
    ACCEPTED("a long run with an exception that shows",
             "1000002 0 00000000\nall steps done, next at 00000000; at least 1 exception entered, "
             "the last known: code 05h at 00000001\n",
             "run", "-v", "program", "m", "1000002", "requests");
}

/* However the steps are divided, the machine is that of one run. */
static void divided(const char *name, unsigned steps, const char *start, const char *const *lines)
{
    for (unsigned first = 0; first <= steps; first++) {
        char *before = text("%s", ""), *after = text("%s", "");

        copy(start, "m");
        for (unsigned i = 0; lines != NULL && lines[i] != NULL; i++) {
            if (i < first)
                before = text("%s%s\n", before, lines[i]);
            else
                after = text("%s%s\n", after, lines[i]);
        }
        write_text("first", before);
        write_text("rest", after);
        setting.quick = true;
        RUN("run", "program", "m", text("%u", first), "first");
        setting.quick = true;
        RUN("run", "program", "m", text("%u", steps - first), "rest");
        if (!same_files("m", "expected")) {
            fail(name, "differs with %u steps in the first run", first);
            return;
        }
    }
    pass(name);
}

/* A list with a request of source 4 in step 1; the next step is in service. */
static void written(const char *name, const char *list)
{
    write_text("requests", list);
    listening("m");
    ACCEPTED(name, "1 0 00000020\n", "run", "program", "m", "1", "requests");
}

static void test_resume(void)
{
    static const char *const lines[] = {"0", "0", "10", "0", "0", "0", "0", "0", "0", "0", "10",
                                        NULL};

    section("resume");
    /* Step 1 is lli, each seven steps from then on are one round, and step 23 is the fourth muli:
       -21 is FFFFFFFFFFFFFFEBh. PR5 is 3 after three rounds. */
    fresh();
    write_words("program", LOOP);
    machine("start", 4);
    copy("start", "m");
    ACCEPTED("23 steps at once", "23 0 00000008\n", "run", "program", "m", "23");
    same_text("cells after 23 steps", "00000000 FFFFFFEB 00000003 00000000",
              words_of("m", CELLS, 4));
    same_text("PR1 to PR6 after 23 steps",
              "00000007 FFFFFFEB FFFFFFFF FFFFFFEB 00000003 00000000",
              words_of("m", SET_2 + 1, 6));
    same_text("position after 23 steps",
              "00000008 00000000 00000000 00000001 FFFFFFFF FFFFFFEB",
              words_of("m", POSITION, 6));
    copy("m", "expected");
    divided("23 steps in two runs, divided anywhere", 23, "start", NULL);

    section("requests");
    /* The request of step 3 finds a product and mulhi next, so it is accepted in step 4, at 12;
       that of step 11 finds a slot, so it is accepted in step 12, at 4. Each service is two
       steps. */
    write_text("requests", "0\n0\n10\n0\n0\n0\n0\n0\n0\n0\n10\n");
    listening("start");
    copy("start", "m");
    ACCEPTED("12 steps with requests", "12 0 00000020\n", "run", "program", "m", "12",
             "requests");
    same_text("the entry on the stack: source 4, at 4, PSR 1Eh, C0 0",
              "00000001 00000004 00000004 0000001E 00000000", words_of("m", STACK_COUNT, 5));
    same_text("INT_SERV and INT_PEND", "00000010 00000000", words_of("m", INT_SERV, 2));
    same_text("the cells follow the longer image", "00000004 00000000 FFFFFFEB",
              words_of("m", CELL_COUNT + 4, 3));
    copy("start", "m");
    ACCEPTED("15 steps with requests", "15 0 00000008\n", "run", "program", "m", "15",
             "requests");
    same_number("two services are counted in PR6", 2, word_at("m", SET_2 + 6));
    same_number("the stack is empty", 0, word_at("m", STACK_COUNT));
    copy("m", "expected");
    divided("15 steps with requests in two runs, divided anywhere", 15, "start", lines);
    write_text("requests", "3: 10\n11: 10\n");
    copy("start", "m");
    RUN("run", "program", "m", "15", "requests");
    same_bytes("the same by lines with their steps", "expected", "m");
    write_text("requests", "2:0\n10\n10: 0\r\n00000010");
    copy("start", "m");
    RUN("run", "program", "m", "15", "requests");
    same_bytes("the same by lines of both kinds", "expected", "m");
    copy("start", "m");
    RUN("run", "-v", "program", "m", "15", "requests");
    same_bytes("the same with the steps watched", "expected", "m");

    written("a request", "10\n");
    written("a last line without its end", "10");
    written("eight digits", "00000010\n");
    written("a carriage return before the line's end", "10\r\n0\r\n");
    written("more requests than steps", "10\n10\nFFF\n");
    written("a request with its step", "1: 10\n");
    written("a request far beyond", "1: 10\n1000000000000: FFF\n");
    write_text("requests", "");
    listening("m");
    ACCEPTED("an empty list", "1 0 00000004\n", "run", "program", "m", "1", "requests");
    /* With INT_MASK 0 the requests of both steps stay pending. */
    write_words("program", "00000000 00000000");
    write_text("requests", "aB0\nC0f\n");
    machine("m", 0);
    ACCEPTED("digits of both cases", "2 0 00000008\n", "run", "program", "m", "2", "requests");
    same_number("requests add up in INT_PEND", 0xEBF, word_at("m", INT_PEND));
}

static void test_long(void)
{
    section("long runs");
    fresh();
    write_words("program", LOOP);
    write_text("requests", "3: 10\n999999: 10\n1000000: 10\n1000001: 10\n1000010: 10\n"
                           "2000000: 10\n2000001: 10\n2500000: 10\n2500001: 10\n");
    listening("start");
    copy("start", "m");
    RUN("run", "program", "m", "2500003", "requests");
    check("2,500,003 steps", strncmp(outcome.out, "2500003 0 ", 10) == 0);
    copy("m", "expected");
    /* The same by runs of other lengths, each list counted from its own first step. */
    copy("start", "m");
    write_text("requests", "3: 10\n999999: 10\n");
    RUN("run", "program", "m", "999999", "requests");
    write_text("requests", "10\n10\n11: 10\n");
    RUN("run", "program", "m", "500000", "requests");
    write_text("requests", "500001: 10\n10\n");
    RUN("run", "program", "m", "999998", "requests");
    write_text("requests", "3: 10\n4: 10\n");
    RUN("run", "program", "m", "6", "requests");
    same_bytes("the same by runs of other lengths", "expected", "m");
    /* A request in the step after another waits for the end of its service, and so do more of
       them, as one: 1 service, 2 for the next three, 1, 2 for two, 1 before the end. */
    same_number("requests were served", 7, word_at("m", SET_2 + 6));

    /* jmp to itself, with its slot. */
    write_words("program", "91FFFFFE 00000000");
    machine("m", 0);
    ACCEPTED("20,000,000 steps", "20000000 0 00000000\n", "run", "program", "m", "20000000");
    write_words("program", "00000000");
    machine("m", 0);
    ACCEPTED("a stop ends a run of 10^12 steps", "1 11 00000004\n", "run", "program", "m",
             "1000000000000");
}

/* A task of super user mode, one of user mode, and a service routine that returns to the second
   (Manual 6.3):
    0 addiu PR3, PR3, 1           4 jmp to 0            8 nop, the slot      12 nop
   16 (c, C0) addiu R2, R2, 1    20 jmp to 16          24 nop, the slot      28 nop
   32 st PR1 to RETI_ADDR        36 PR2 to RETI_PSR    40 PR2 to RETI_CR0
   44 reti, with its three nops */
#define TASKS "4C000C61 91FFFFFC 00000000 00000000 4E000841 91FFFFFC 00000000 00000000 " \
              "70008408 70008809 7000880A C8000000 00000000 00000000 00000000"

static void test_tasks(void)
{
    static const char *const lines[] = {"0", "10", NULL};

    section("a task switch");
    fresh();
    write_words("program", TASKS);
    write_text("requests", "2: 10\n");
    listening("start");
    set_words("start", SET_2, "10000 10 FFFFFFFF");
    set_word("start", IMEM_BOUND_LO, 0xFFFFFFFF);
    copy("start", "m");
    /* The first task is interrupted in step 2, at 4. Of FFFFFFFFh PSR keeps 19h and C0 7. */
    ACCEPTED("a task on the stack is replaced", "5 0 0000002C\n", "run", "program", "m", "5",
             "requests");
    RUN("show", "m");
    check("show of the stack",
          outcome.status == 0 &&
              strstr(outcome.out, "\n 4 EXT_INT0  00000010  00000019  1 1 1\n") != NULL);
    same_text("RETI_ shows its top", "00000010 00000019 00000007", words_of("m", RETI_ADDR, 3));
    ACCEPTED("the return to the other task", "1 0 00000010\n", "run", "program", "m", "1");
    same_number("its PSR", 0x19, word_at("m", PSR));
    same_number("its C0", 7, word_at("m", C0));
    ACCEPTED("the other task goes on", "4 0 00000014\n", "run", "program", "m", "4");
    same_number("the first task has counted", 1, word_at("m", SET_2 + 3));
    same_number("the other has counted, by the carry, once", 1, word_at("m", SET_1 + 2));
    copy("m", "expected");
    divided("10 steps with a task switch in two runs, divided anywhere", 10, "start", lines);
}

/* A machine whose timer 0 is set by TMR_CONF, and counts from 0 to a maximum. */
static void timed(const char *path, uint32_t conf, uint32_t maximum)
{
    machine(path, 4);
    set_word(path, TMR_CONF, conf);
    set_word(path, TMR0_MAX_CNT, maximum);
}

/* TMR_CONF's bits for timer 0 (Manual 7.1). */
enum { EN = 0x8000, CONT = 0x4000, GINT = 0x2000, WDOG = 0x1000 };

static void test_timers(void)
{
    section("timers");
    /* Timer 0 ticks with every third clock, timer 1 with every fifth. */
    fresh();
    write_words("program", "00000000 00000000 00000000 00000000");
    timed("m", (EN | 4u) << 16 | EN | 2, 9);
    ACCEPTED("four clocks", "4 0 00000010\n", "run", "program", "m", "4");
    same_text("four clocks: the dividers", "00000002 00000001 00000004",
              words_of("m", DIVIDER_COUNT, 3));
    same_text("four clocks: the counts", "00000001 00000009 00000000", words_of("m", TMR0_CNT, 3));
    RUN("show", "m");
    check("four clocks: show", strstr(outcome.out, "\n\ndividers\ntimer 0       00000001\n"
                                                   "timer 1       00000004\n") != NULL);
    ACCEPTED("a stop is no clock", "0 11 00000010\n", "run", "program", "m", "9");
    same_text("a stop is no clock: the dividers", "00000002 00000001 00000004",
              words_of("m", DIVIDER_COUNT, 3));

    /* A request of source 4 with clocks 6, 14, 22, 30 and 38. */
    write_words("program", LOOP);
    listening("start");
    set_word("start", TMR_CONF, EN | CONT | GINT | 1);
    set_word("start", TMR0_MAX_CNT, 3);
    copy("start", "m");
    RUN("run", "program", "m", "44");
    same_number("a timer's requests are served", 5, word_at("m", SET_2 + 6));
    copy("m", "expected");
    divided("44 steps with a timer in two runs, divided anywhere", 44, "start", NULL);
    copy("start", "m");
    RUN("run", "-v", "program", "m", "44");
    same_bytes("the same with the steps watched", "expected", "m");

    /* The core is reset with the third step, and the data kept. */
    timed("m", EN | WDOG, 3);
    set_words("m", CELLS, "A B C D");
    set_words("m", SET_1, "1 2 3");
    ACCEPTED("a watchdog", "3 0 00000000\n", "run", "program", "m", "3");
    machine("expected", 4);
    set_words("expected", CELLS, "A B C D");
    same_bytes("a watchdog leaves the machine at reset with its cells", "expected", "m");
    timed("m", EN | WDOG, 3);
    ACCEPTED("the steps go on after a watchdog", "5 0 00000008\n", "run", "program", "m", "5");
}

/* What run -v says of a program and a machine that is ready. */
static void in_words(const char *name, const char *words, char *steps, const char *line,
                     const char *exceptions)
{
    write_words("program", words);
    ACCEPTED(name, text("%s\nall steps done, next at %s; %s\n", line, strrchr(line, ' ') + 1,
                        exceptions),
             "run", "-v", "program", "m", steps);
}

/* A store of a number resets the core in its own step, which enters no exception. */
static void reset_by_store(const char *name, uint32_t address, uint32_t number)
{
    set_words("m", SET_2 + 1, text("%X %X", address, number));
    in_words(name, "70000820", "1", "1 0 00000000", "no exception entered");
    machine("expected", 4);
    same_bytes(text("%s: at reset", name), "expected", "m");
}

static void test_watched(void)
{
    section("run -v with a watchdog, which clears what an image tells of exceptions");
    fresh();
    timed("m", EN | WDOG, 3);
    set_word("m", EXCEP_ADDR, 4);
    in_words("an exception, then a reset", "DC000003 00000000 00000000", "3", "3 0 00000000",
             "1 exception entered, code E3h at 00000000");
    timed("m", EN | WDOG, 1);
    in_words("an exception in the step of a reset", "DC000003", "1", "1 0 00000000",
             "1 exception entered, code E3h at 00000000");
    timed("m", EN | WDOG, 1);
    set_words("m", EXCEPTION_CS, "E3 0 E");
    in_words("a reset without an exception", "00000000", "1", "1 0 00000000",
             "no exception entered");
    same_text("a reset clears the last exception", "00000000 00000000 00000000",
              words_of("m", EXCEPTION_CS, 3));
    /* The step makes its reset itself: st PR2 to TMR_CONF, and to TMR0_MAX_CNT. */
    timed("m", 0, 1);
    reset_by_store("the watchdog starts", 0x10027, EN | WDOG);
    timed("m", 0, 0);
    reset_by_store("the watchdog starts at its maximum", 0x10027, EN | CONT | WDOG);
    timed("m", EN | WDOG, 9);
    reset_by_store("the maximum comes down", 0x10024, 1);
    machine("m", 4);
    set_word("m", TMR1_MAX_CNT, 1);
    reset_by_store("the watchdog is timer 1", 0x10027, (EN | WDOG) * 0x10000u);
    /* The last step, which is not watched, has the reset; before it, jmp to itself. */
    timed("m", EN | WDOG, 1000001);
    set_word("m", EXCEP_ADDR, 4);
    in_words("a long run, an exception, then a reset", "DC000001 91FFFFFE 00000000", "1000001",
             "1000001 0 00000000",
             "at least 1 exception entered, the last known: code E1h at 00000000");
    timed("m", EN | WDOG, 1000001);
    set_words("m", EXCEPTION_CS, "E3 8 E");
    in_words("a long run, then a reset", "91FFFFFE 00000000", "1000001", "1000001 0 00000000",
             "no exception entered in the first 1,000,000 steps, none shows since");
}

static void test_import(void)
{
    section("import and export");
    fresh();
    plain_image("image");
    write_words("data", "1 2 FFFFFFFF");
    ACCEPTED("import", "", "import", "image", "data", "m");
    machine("expected", 3);
    set_words("expected", CELLS, "1 2 FFFFFFFF");
    same_bytes("the machine of image and cells", "expected", "m");
    ACCEPTED("export", "", "export", "m", "image2", "data2");
    same_bytes("the image again", "image", "image2");
    same_bytes("the cells again", "data", "data2");
    same_text("no other file", "data data2 expected image image2 m", names_in("."));
    REFUSED("import over a machine", "m: is there already; --replace replaces it", "import",
            "image", "data", "m");
    REFUSED("export over an image", "image: is there already; --replace replaces it", "export",
            "m", "image", "new");
    REFUSED("export over data", "data: is there already; --replace replaces it", "export", "m",
            "new", "data");
    stacked("image");
    write_text("data", "");
    ACCEPTED("import --replace", "", "import", "image", "data", "m", "--replace");
    ACCEPTED("export --replace", "", "export", "--replace", "m", "image2", "data2");
    same_bytes("the image with a stack", "image", "image2");
    same_bytes("no cells", "data", "data2");
    ACCEPTED("export of a plain image", "", "export", "--plain", "image", "image3", "data3");
    same_bytes("a plain image as it is", "image", "image3");
    same_bytes("without cells", "data", "data3");
}

static void test_help(void)
{
    section("help and version");
    fresh();
    RUN("--help");
    check("--help", outcome.status == 0 && outcome.err[0] == '\0' &&
                        strncmp(outcome.out, "usage: service new [--replace] MACHINE [CELLS]\n", 47) ==
                            0 &&
                        strstr(outcome.out, "service run [-v] [--strict] [--plain] PROGRAM MACHINE "
                                            "STEPS [REQUESTS]\n") != NULL);
    RUN("run", "--help");
    check("run --help", outcome.status == 0 && strncmp(outcome.out, "usage:", 6) == 0);
    RUN("list", "--help");
    check("list --help", outcome.status == 0 &&
                             strstr(outcome.out, "service list PROGRAM WIDTH\n") != NULL);
    RUN("encode", "--help");
    check("encode --help",
          outcome.status == 0 &&
              strstr(outcome.out, "service encode WIDTH [CONDITION Cn] NAME OPERAND..\n") != NULL);
    RUN("carry-over", "--help");
    check("carry-over --help",
          outcome.status == 0 &&
              strstr(outcome.out, "service carry-over [--replace] [--machine] OLD NEW\n") != NULL);
    ACCEPTED("--version", "service 2.2.0\n", "--version");
}

/* Names with blanks, in other folders, through links. */
static void test_names(void)
{
    section("names");
    fresh();
    mkdir("the folder", 0755);
    mkdir("the folder/inner", 0755);
    write_words("the program", EXAMPLE);
    machine("the folder/the machine", 16);
    check("links", symlink("the folder/inner/second", "link") == 0 &&
                       symlink("../the machine", "the folder/inner/second") == 0);
    chmod("the folder/the machine", 0604);
    ACCEPTED("a folder, blanks and two links", "3 0 00000000\n", "run", "the program", "link",
             "3");
    same_number("the file itself is replaced", 0xE3,
                word_at("the folder/the machine", EXCEPTION_CS));
    same_number("its rights stay", 0604, rights_of("the folder/the machine"));
    same_text("the links stay", "link the folder the program", names_in("."));
    same_text("the second link stays", "second", names_in("the folder/inner"));
    ACCEPTED("an absolute name", "3 0 00000000\n", "run", "the program",
             text("%s/the folder/the machine", here()), "3");
}

void test_commands(void)
{
    test_new();
    test_show();
    test_cells();
    test_list();
    test_run();
    test_nops();
    test_in_words();
    test_resume();
    test_long();
    test_tasks();
    test_timers();
    test_watched();
    test_import();
    test_help();
    test_names();
}
