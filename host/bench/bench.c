// Times the proved library against the same interpreter in plain C.
//
//     bench                     checks that both agree, then prints nanoseconds per step of each
//     bench scenes              prints the names of the scenes, in their order from 0
//     bench listing             prints the library's milliseconds for a listing of the longest program
//     bench encode              prints the library's nanoseconds for a word
//     bench reach               prints the library's milliseconds for a map of what can be reached in the longest
//                               program
//     bench SIDE N              one call of scene N on one side, library or baseline, for a profiler;
//                               SCENES is a call with limit 0
//
// Both run in one process, in turns, many times; the best time of each counts.
#include "baseline.h"
#include "programs.h"

#include <stdbool.h>
#include <stdio.h>
#include <stdlib.h>
#include <string.h>
#include <time.h>

// A run call of either side.
typedef struct coffee_answer run_call(
    const uint8_t *, size_t, uint32_t *, size_t, const uint8_t *, size_t, const uint32_t *, size_t,
    uint32_t, uint8_t *, size_t);

enum { LIBRARY, BASELINE, SIDES };

static run_call *const sides[SIDES] = { coffee_run, baseline_run };

// Rounds of timing, and calls with limit 0 in a round.
enum { ROUNDS = 40, SHORT_CALLS = 20000 };

// The buffer for the new image is longer than it need be.
enum { BUFFER = COFFEE_IMAGE_MAX + 60, FILLER = 0xA5 };

// What a call may change.
struct lent {
    uint32_t cells[CELLS];
    uint8_t buffer[BUFFER];
};

// The cells of a scene, and a buffer with nothing in it.
static void lend(const struct scene *s, struct lent *l)
{
    memcpy(l->cells, s->cells, sizeof l->cells);
    memset(l->buffer, FILLER, sizeof l->buffer);
}

// Runs a scene on one side.
static struct coffee_answer run(int side, const struct scene *s, uint32_t limit, struct lent *l)
{
    return sides[side](
        s->program, s->program_len, l->cells, CELLS, s->image, IMAGE_LENGTH, s->requests,
        s->requests_len, limit, l->buffer, BUFFER);
}

// ---- both sides agree

// Ends with a message.
static void fail(const struct scene *s, uint32_t limit, const char *what)
{
    fprintf(stderr, "bench: %s, %s, limit %u: %s\n", s->name, s->mode, limit, what);
    exit(1);
}

// Whether two answers are equal.
static bool same_answer(struct coffee_answer a, struct coffee_answer b)
{
    return a.refusal == b.refusal && a.steps == b.steps && a.ending == b.ending;
}

// Both sides give the same answer, cells and buffer, and do all of the steps, or all but a last one that is a
// stop. Gives back the new image.
static const uint8_t *check(const struct scene *s, uint32_t limit, uint32_t ending)
{
    static struct lent lents[SIDES];
    struct coffee_answer answers[SIDES];
    for (int side = 0; side < SIDES; side++) {
        lend(s, &lents[side]);
        answers[side] = run(side, s, limit, &lents[side]);
    }
    if (!same_answer(answers[LIBRARY], answers[BASELINE]))
        fail(s, limit, "the answers differ");
    if (memcmp(lents[LIBRARY].cells, lents[BASELINE].cells, sizeof lents[0].cells) != 0)
        fail(s, limit, "the cells differ");
    if (memcmp(lents[LIBRARY].buffer, lents[BASELINE].buffer, BUFFER) != 0)
        fail(s, limit, "the buffers differ");
    if (!same_answer(answers[LIBRARY], (struct coffee_answer){ 0, ending ? limit - 1 : limit, ending }))
        fail(s, limit, ending ? "not the stop that is due" : "not all of the steps are done");
    return lents[LIBRARY].buffer;
}

// A watchdog resets the core at this step: both sides then have the machine of coffee_reset, and go on.
static void check_watchdog(const struct scene *counting)
{
    enum { AT = 999 };
    static struct scene s;
    static struct lent l, at_reset;
    s = *counting;
    s.image[4 * (76 + 0x27) + 2] |= 0x10; // TMR_CONF: WDOG of timer 0
    static const uint32_t limits[] = { AT - 1, AT, AT + 1, STEPS };
    for (size_t i = 0; i < sizeof limits / sizeof *limits; i++)
        check(&s, limits[i], 0);

    lend(&s, &at_reset);
    coffee_reset(at_reset.buffer, BUFFER);
    for (int side = 0; side < SIDES; side++) {
        lend(&s, &l);
        run(side, &s, AT, &l);
        if (memcmp(l.buffer, at_reset.buffer, BUFFER) != 0)
            fail(&s, AT, "a watchdog does not reset the core");
    }
}

// Both timers' interrupts are accepted and served, each as often as its timer requests it before the last
// step (programs.c).
static void check_timer_interrupts(const struct scene *s)
{
    enum { EVERY = 200, SECOND_EVERY = 1010 };
    static struct lent l;
    lend(s, &l);
    run(LIBRARY, s, STEPS, &l);
    const uint8_t *n = l.buffer + 4 * COUNT_NUMBER;
    uint32_t second = (uint32_t)n[0] << 24 | (uint32_t)n[1] << 16 | (uint32_t)n[2] << 8 | n[3];
    if (l.cells[COUNT_CELL] - s->cells[COUNT_CELL] != (STEPS - 1) / EVERY ||
        second != 6 * ((STEPS - 1) / SECOND_EVERY))
        fail(s, STEPS, "not all of the timers' interrupts are accepted");
}

// A program with or without the nops that must follow swm (two), scall, retu (one) and reti (three). It is at
// 0: at the start, in a slot, or as the routine of an interrupt that the first step accepts. One byte is
// protected; 0: none. The ending and PC are what comes of it.
struct nop_case {
    const char *name;
    enum { START, SLOT, SERVICE } where;
    uint32_t psr, protected, ending, pc, length, words[4];
};

enum { USER_16 = 0x01, SUPER_16 = 0x06, USER = 0x09, SUPER = 0x0E };
enum { SYSTEM = 0x40, EXCEPTION = 0x80, RETURN = 0xC0 };
enum { ADDI = 0x4807883F };

static const struct nop_case nop_cases[] = {
    { "swm, nothing", START, SUPER, 0, 11, 0, 4, { 0xD8000000 } },
    { "swm, nop and half a word", START, SUPER, 0, 11, 0, 10, { 0xD8000000 } },
    { "swm, addi and nothing", START, SUPER, 0, 20, 0, 8, { 0xD8000000, ADDI } },
    { "swm, nop and addi", START, SUPER, 0, 20, 0, 12, { 0xD8000000, 0, ADDI } },
    { "swm, nop and protected addi", START, USER, 11, 0, EXCEPTION, 12, { 0xD8000000, 0, ADDI } },
    { "swm, protected nop", START, SUPER, 11, 0, 12, 12, { 0xD8000000 } },
    { "swm, nop, nothing protected", START, USER, 8, 0, EXCEPTION, 8, { 0xD8000000 } },
    { "swm, addi and protected nop", START, USER, 8, 20, 0, 12, { 0xD8000000, ADDI } },
    { "swm, nops, protected after", START, USER, 12, 0, 12, 16, { 0xD8000000, 0, 0, ADDI } },
    { "16-bit swm, nops and addi", START, SUPER_16, 0, 0, 6, 8, { 0xD8010000, 0x4807 } },
    { "scall, nothing", START, USER, 0, 11, 0, 4, { 0xC0000000 } },
    { "scall, nop of ones and addi", START, USER, 0, 0, SYSTEM, 12, { 0xC0000000, 0x03FFFFFF, ADDI } },
    { "scall, protected nop", START, USER, 7, 0, EXCEPTION, 8, { 0xC0000000 } },
    { "scall if eq, addi", START, USER, 5, 0, 4, 8, { 0xC2180000, ADDI } },
    { "scall if ne, addi", START, USER, 0, 20, 0, 8, { 0xC2300000, ADDI } },
    { "scall in a slot, addi", SLOT, SUPER, 0, 13, 0, 8, { 0xC0000000, ADDI } },
    { "16-bit scall, nop of ones", START, USER_16, 0, 0, SYSTEM, 4, { 0xC00003FF } },
    { "16-bit scall, protected nop", START, USER_16, 3, 0, EXCEPTION, 4, { 0xC0000000 } },
    { "retu, nothing", START, SUPER, 0, 11, 0, 4, { 0xC4000000 } },
    { "retu, nop and addi", START, SUPER, 4, 0, RETURN, 12, { 0xC4000000, 0, ADDI } },
    { "retu, addi", START, SUPER, 0, 20, 0, 8, { 0xC4000000, ADDI } },
    { "retu, protected addi", START, USER, 4, 0, EXCEPTION, 8, { 0xC4000000, ADDI } },
    { "reti, empty stack, nops", START, SUPER, 0, 15, 0, 16, { 0xC8000000 } },
    { "reti, empty stack, addi third", START, USER, 0, 20, 0, 16, { 0xC8000000, 0, 0, ADDI } },
    { "reti, nops", SERVICE, SUPER, 15, 0, RETURN, 16, { 0xC8000000 } },
    { "reti, nops and half a word", SERVICE, SUPER, 0, 11, 0, 14, { 0xC8000000 } },
    { "reti, addi first", SERVICE, SUPER, 0, 20, 0, 16, { 0xC8000000, ADDI } },
    { "reti, addi second", SERVICE, USER, 0, 20, 0, 16, { 0xC8000000, 0, ADDI } },
    { "reti, protected nop third", SERVICE, USER, 15, 0, EXCEPTION, 16, { 0xC8000000 } },
    { "16-bit reti, nops and addi", SERVICE, USER_16, 0, 0, RETURN, 12, { 0xC8000000, 0, ADDI } },
};

// Both sides agree on such a program, and have its ending and PC.
static void check_nops(const struct scene *counting, const struct nop_case *k)
{
    static struct scene s;
    static uint32_t request = 1;
    const uint32_t limit = k->where == SERVICE ? 2 : 1;
    const uint32_t numbers[][2] = {
        { 63, k->psr | 0x10 }, { 65, RETURN }, // PSR with IE, PR31
        { 76 + 0x10, k->psr >> 3 }, { 76 + 0x11, k->psr & 1 }, { 76 + 0x12, 1 }, // source 0: IL, UM, mask
        { 76 + 0x1C, k->protected ? k->protected : 1 }, { 76 + 0x1D, k->protected }, // IMEM_BOUND_LO, _HI
        { 76 + 0x1F, SYSTEM }, { 76 + 0x20, EXCEPTION }, // SYSTEM_ADDR, EXCEP_ADDR
        { 122, k->where == SERVICE ? RETURN : 0 }, { 123, k->where == SLOT }, // PC, slot
    };
    s = *counting;
    s.name = k->name;
    s.mode = k->psr & 1 ? "user" : "super user";
    s.program_len = k->length;
    s.requests = &request;
    s.requests_len = limit - 1;
    for (uint32_t i = 0; i < 4; i++)
        set(s.program, i, k->words[i]);
    for (size_t i = 0; i < sizeof numbers / sizeof *numbers; i++)
        set(s.image, numbers[i][0], numbers[i][1]);
    if (check(&s, limit, k->ending)[4 * 122 + 3] != k->pc)
        fail(&s, limit, "not the PC that is due");
}

// Calls that are refused: the number, and a byte of the image that is changed. The first byte is 0 as it
// is; then something else is changed.
struct refused {
    uint32_t refusal;
    size_t at;
    uint8_t byte;
};

static const struct refused refused[] = {
    { 1, 0, 0 },
    { 2, 0, 0 },
    { 2, 4 * 129 + 3, 3 }, // the count of dividers
    { 3, 4 * 76 + 3, 1 },  // CCB_BASE's low byte
    { 3, 4 * 130 + 2, 1 }, // the divider of timer 0: 256
    { 3, 4 * 131 + 2, 1 }, // the divider of timer 1: 256
    { 4, 4 * 63 + 3, 3 },  // PSR: user mode, registers read from set 2
    { 5, 4 * 95 + 3, 1 },  // INT_SERV with an empty stack
    { 6, 0, 0 },
    { 7, 0, 0 },
    { 8, 0, 0 },
};

// Both sides refuse a changed call with the same number and leave what is lent as it was.
static void check_refusal(const struct scene *s, const struct refused *r)
{
    static uint32_t cells[CELLS];
    static uint8_t buffer[BUFFER];
    uint8_t image[IMAGE_LENGTH];
    uint32_t refusal = r->refusal;
    uint32_t request = refusal == 6 ? 0x1000 : 0;
    memcpy(image, s->image, sizeof image);
    image[r->at] = r->byte;

    for (int side = 0; side < SIDES; side++) {
        memcpy(cells, s->cells, sizeof cells);
        memset(buffer, FILLER, sizeof buffer);
        struct coffee_answer answer = sides[side](
            s->program, refusal == 1 ? 65537 : PROGRAM_ROOM, cells, CELLS, image,
            refusal == 2 && r->at == 0 ? IMAGE_LENGTH - 1 : IMAGE_LENGTH, &request, 1,
            refusal == 7 ? STEPS + 1 : STEPS, buffer, refusal == 8 ? COFFEE_IMAGE_MAX - 1 : BUFFER);
        if (!same_answer(answer, (struct coffee_answer){ refusal, 0, 0 }))
            fail(s, refusal, "a refusal has the wrong number");
        bool same = memcmp(cells, s->cells, sizeof cells) == 0;
        for (size_t i = 0; i < BUFFER; i++)
            same = same && buffer[i] == FILLER;
        if (!same)
            fail(s, refusal, "a refusal changed lent memory");
    }
}

// ---- times

// Nanoseconds of this process.
static double now(void)
{
    struct timespec t;
    clock_gettime(CLOCK_PROCESS_CPUTIME_ID, &t);
    return (double)t.tv_sec * 1e9 + (double)t.tv_nsec;
}

// Times a scene on both sides in turns: the best nanoseconds per step of each.
static void measure(const struct scene *s, double best[SIDES])
{
    static struct lent l;
    best[LIBRARY] = best[BASELINE] = 1e30;
    for (int turn = 0; turn < ROUNDS * SIDES; turn++) {
        int side = turn % SIDES;
        lend(s, &l);
        double start = now();
        run(side, s, STEPS, &l);
        double time = (now() - start) / STEPS;
        if (time < best[side])
            best[side] = time;
    }
}

// Times calls with limit 0: the best nanoseconds per call of each.
static void measure_short(const struct scene *s, double best[SIDES])
{
    static struct lent l;
    best[LIBRARY] = best[BASELINE] = 1e30;
    lend(s, &l);
    for (int turn = 0; turn < ROUNDS * SIDES; turn++) {
        int side = turn % SIDES;
        double start = now();
        for (int i = 0; i < SHORT_CALLS; i++)
            run(side, s, 0, &l);
        double time = (now() - start) / SHORT_CALLS;
        if (time < best[side])
            best[side] = time;
    }
}

// Fills a program with random bytes.
static void fill_random(uint8_t *program, size_t len)
{
    uint32_t random = 1;
    for (size_t i = 0; i < len; i++) {
        random = random * 1664525 + 1013904223;
        program[i] = (uint8_t)(random >> 24);
    }
}

// Times listings of random words, as many as there can be, in each width: the best milliseconds.
static int measure_listing(void)
{
    static uint8_t program[COFFEE_MEMORY_MAX], text[COFFEE_MEMORY_MAX / 2 * COFFEE_LINE];
    fill_random(program, sizeof program);
    for (uint32_t wide = 0; wide <= 1; wide++) {
        double best = 1e30;
        for (int turn = 0; turn < ROUNDS; turn++) {
            double start = now();
            if (coffee_listing(program, sizeof program, wide, text, sizeof text) != 0)
                return 1;
            double time = now() - start;
            if (time < best)
                best = time;
        }
        printf("listing of 65,536 bytes, %s-bit words: %.2f ms\n", wide ? "32" : "16", best / 1e6);
    }
    return 0;
}

// Times words of all operations, 32 bits each, with operands 0: the best nanoseconds of one.
static int measure_encode(void)
{
    double best = 1e30;
    for (int turn = 0; turn < ROUNDS; turn++) {
        double start = now();
        for (uint32_t i = 0; i < SHORT_CALLS; i++) {
            if (coffee_encode(i % 64, 1, 0, 0, 0, 0, 0, 0, 0) >= COFFEE_REFUSED)
                return 1;
        }
        double time = (now() - start) / SHORT_CALLS;
        if (time < best)
            best = time;
    }
    printf("a word encoded: %.1f ns\n", best);
    return 0;
}

// Programs in which reachable words are searched: nops; random bytes; branches, each to one of the 256 words
// around it; and calls, each of the word in its slot (jal 0), so that a word leads to the next one as target and
// as slot, and to the one after it. From 0 every word of them is reached, but for random bytes.
enum { NOPS, RANDOM_BYTES, BRANCHES, CALLS, SEARCHES };

static const char *const search_names[SEARCHES] = { "nops", "random bytes", "branches", "calls" };

// Makes such a program, in words of so many bytes.
static void make_search(int kind, size_t bytes, uint8_t *program, size_t len)
{
    fill_random(program, len);
    if (kind == RANDOM_BYTES)
        return;
    for (size_t at = 0; at < len; at += bytes) {
        // An immediate counts in halves of a 32-bit word.
        uint32_t immediate = ((uint32_t)program[at] - 128) * (uint32_t)(bytes / 2);
        uint32_t branch = bytes == 4 ? 0xA0000000 | (immediate & 0x3FFFFF) : 0xA000 | (immediate & 0x3FF);
        uint32_t call = bytes == 4 ? 0x94000000 : 0x9400;
        uint32_t word = kind == BRANCHES ? branch : kind == CALLS ? call : 0;
        for (size_t i = 0; i < bytes; i++)
            program[at + i] = (uint8_t)(word >> 8 * (bytes - 1 - i));
    }
}

// Times maps of what can be reached from 0 in programs as long as there can be, in each width: the best
// milliseconds.
static int measure_reach(void)
{
    static uint8_t program[COFFEE_MEMORY_MAX], map[COFFEE_MEMORY_MAX];
    for (int search = 0; search < 2 * SEARCHES; search++) {
        int kind = search / 2;
        uint32_t wide = search % 2;
        size_t bytes = wide ? 4 : 2, reached = 0;
        double best = 1e30;
        make_search(kind, bytes, program, sizeof program);
        for (int turn = 0; turn < ROUNDS; turn++) {
            double start = now();
            if (coffee_reach(program, sizeof program, wide, 0, map, sizeof map) != 0)
                return 1;
            double time = now() - start;
            if (time < best)
                best = time;
        }
        for (size_t at = 0; at < sizeof map; at++)
            reached += map[at];
        if (kind != RANDOM_BYTES && reached != sizeof program / bytes)
            return 1;
        printf("reach in 65,536 bytes of %s, %s-bit words: %.3f ms, %zu words\n", search_names[kind],
            wide ? "32" : "16", best / 1e6, reached);
    }
    return 0;
}

// Prints a line of the table.
static void show(const char *name, const char *mode, const double best[SIDES])
{
    printf("%-28s %-11s %9.2f %9.2f %7.2f\n", name, mode, best[LIBRARY], best[BASELINE],
        best[LIBRARY] / best[BASELINE]);
    fflush(stdout);
}

// ---- the program

// Says what the program is called with.
static int usage(void)
{
    fprintf(stderr, "bench [scenes | listing | encode | reach | library|baseline 0..%d]\n", SCENES);
    return 2;
}

// Prints the names of the scenes.
static int list(void)
{
    for (int n = 0; n < SCENES; n++) {
        const struct scene *s = make_scene(n);
        printf("%s, %s\n", s->name, s->mode);
    }
    return 0;
}

// One call on one side.
static int once(const char *side, const char *number)
{
    static struct lent l;
    int n = atoi(number);
    if (n < 0 || n > SCENES || (strcmp(side, "library") != 0 && strcmp(side, "baseline") != 0))
        return usage();
    const struct scene *s = make_scene(n % SCENES);
    lend(s, &l);
    struct coffee_answer answer =
        run(strcmp(side, "library") == 0 ? LIBRARY : BASELINE, s, n < SCENES ? STEPS : 0, &l);
    return answer.refusal == 0 && answer.ending == 0 ? 0 : 1;
}

int main(int argc, char **argv)
{
    if (argc == 3)
        return once(argv[1], argv[2]);
    if (argc == 2 && strcmp(argv[1], "scenes") == 0)
        return list();
    if (argc == 2 && strcmp(argv[1], "listing") == 0)
        return measure_listing();
    if (argc == 2 && strcmp(argv[1], "encode") == 0)
        return measure_encode();
    if (argc == 2 && strcmp(argv[1], "reach") == 0)
        return measure_reach();
    if (argc != 1)
        return usage();

    static const uint32_t limits[] = { 0, 1, 2, 3, 1000, STEPS - 1, STEPS };
    const struct scene *scenes[SCENES];
    for (int n = 0; n < SCENES; n++) {
        scenes[n] = make_scene(n);
        for (size_t i = 0; i < sizeof limits / sizeof *limits; i++)
            check(scenes[n], limits[i], 0);
    }
    check_watchdog(scenes[2 * TIMERS]);
    check_watchdog(scenes[2 * TIMERS + 1]);
    check_timer_interrupts(scenes[2 * TIMER_INTERRUPTS]);
    check_timer_interrupts(scenes[2 * TIMER_INTERRUPTS + 1]);
    for (size_t i = 0; i < sizeof nop_cases / sizeof *nop_cases; i++)
        check_nops(scenes[2 * TIMERS], &nop_cases[i]);
    for (size_t i = 0; i < sizeof refused / sizeof *refused; i++)
        check_refusal(scenes[0], &refused[i]);

    double best[SIDES], sums[SIDES] = { 0, 0 };
    printf("%-28s %-11s %9s %9s %7s\n", "nanoseconds per step", "mode", "library", "baseline", "ratio");
    for (int n = 0; n < SCENES; n++) {
        measure(scenes[n], best);
        show(scenes[n]->name, scenes[n]->mode, best);
        for (int side = 0; side < SIDES; side++)
            sums[side] += best[side] / SCENES;
    }
    show("overall", "", sums);
    printf("\n%-28s %-11s %9s %9s %7s\n", "nanoseconds per call", "mode", "library", "baseline", "ratio");
    measure_short(scenes[0], best);
    show("call with limit 0", scenes[0]->mode, best);
    return 0;
}
