/* Many runs: killed at random moments, two at once, with names of every length. */
#include "faults.h"
#include "harness.h"
#include "places.h"

#include <coffee.h>
#include <dirent.h>
#include <fcntl.h>
#include <signal.h>
#include <stdio.h>
#include <stdlib.h>
#include <string.h>
#include <sys/prctl.h>
#include <sys/stat.h>
#include <time.h>
#include <unistd.h>

enum { KILLS = 3000, PAIRS = 1500, STEPS = 23, CELL_NUMBER = 4096, KILLED = 256 + SIGKILL };

/* A loop that counts in PR5 and in cell 2, and stores a product in cell 1 (commands.c). */
#define LOOP "88010007 5807883D 7C000C00 70000801 6C001001 4C0014A1 91FFFFF4 70001402"

/* A machine as the test itself has it. */
static uint8_t program[32], image[COFFEE_IMAGE_MIN];
static uint32_t cells[CELL_NUMBER];

/* Numbers that look random, the same in each test. */
static uint32_t random_number(void)
{
    static uint64_t state = 2026;

    state = state * 6364136223846793005u + 1442695040888963407u;
    return (uint32_t)(state >> 33);
}

/* Does what a run does to the test's own machine. */
static void advance(void)
{
    uint8_t buffer[COFFEE_IMAGE_MAX];

    coffee_run(program, sizeof program, cells, CELL_NUMBER, image, sizeof image, NULL, 0, STEPS,
               buffer, sizeof buffer);
    memcpy(image, buffer, sizeof image);
}

/* Whether the machine's file is the test's own machine. */
static bool is_machine(const uint8_t *file, size_t len)
{
    if (len != sizeof image + 4 + 4 * CELL_NUMBER || memcmp(file, image, sizeof image) != 0)
        return false;
    for (size_t i = 0; i < CELL_NUMBER; i++) {
        const uint8_t *at = file + sizeof image + 4 + 4 * i;

        if (((uint32_t)at[0] << 24 | (uint32_t)at[1] << 16 | (uint32_t)at[2] << 8 | at[3]) !=
            cells[i])
            return false;
    }
    return true;
}

/* Reads the machine's file. */
static size_t read_machine_file(uint8_t *bytes, size_t room)
{
    int file = open("files/m", O_RDONLY | O_CLOEXEC);
    ssize_t len = read(file, bytes, room);

    close(file);
    return len < 0 ? 0 : (size_t)len;
}

/* How many runs further the file is than the test's machine, which goes there; or -1 when it is
   none of so many. */
static int runs_further(int most)
{
    static uint8_t bytes[65536];
    size_t len = read_machine_file(bytes, sizeof bytes);

    for (int runs = 0; runs <= most; runs++) {
        if (runs > 0)
            advance();
        if (is_machine(bytes, len))
            return runs;
    }
    return -1;
}

static char *const run_machine[] = {"service", "run", "program", "files/m", "23", NULL};

static void prepare(void)
{
    uint8_t *file;

    fresh();
    mkdir("files", 0777);
    write_words("program", LOOP);
    memcpy(program, read_bytes("program", NULL), sizeof program);
    machine("files/m", CELL_NUMBER);
    file = read_bytes("files/m", NULL);
    memcpy(image, file, sizeof image);
    memset(cells, 0, sizeof cells);
    /* The last cell, which the program does not touch, has a value of its own. */
    cells[CELL_NUMBER - 1] = 0x01020304;
    set_word("files/m", CELLS + CELL_NUMBER - 1, cells[CELL_NUMBER - 1]);
}

/* Whether the machine is the only file. */
static bool alone(void)
{
    DIR *entries = opendir("files");
    struct dirent *entry;
    int count = 0;

    while ((entry = readdir(entries)) != NULL)
        count++;
    closedir(entries);
    return count == 3;
}

static double now(void)
{
    struct timespec time;

    clock_gettime(CLOCK_MONOTONIC, &time);
    return (double)time.tv_sec + 1e-9 * (double)time.tv_nsec;
}

/* Waits a part of this time, each part as likely. */
static void wait_within(double seconds)
{
    struct timespec pause = {0, (long)(1e9 * seconds * random_number() / 0x80000000u) % 1000000000};

    nanosleep(&pause, NULL);
}

static pid_t start_run(void)
{
    setting.quick = true;
    return start(run_machine);
}

/* Runs the machine once; gives the exit status. */
static int run_once(void)
{
    return wait_for(start_run());
}

/* The time of a run, the mean of many. */
static double time_of_run(void)
{
    double start_time = now();

    for (int i = 0; i < 40; i++) {
        run_once();
        advance();
    }
    return (now() - start_time) / 40;
}

void test_kills(void)
{
    unsigned before = 0, after = 0, ended = 0, left = 0;
    double most;

    section("runs killed at random moments, each followed by a run");
    prepare();
    most = time_of_run();
    /* Sleeps end as near to their time as the system can. */
    prctl(PR_SET_TIMERSLACK, 1);
    check("the runs before", runs_further(0) == 0);
    for (int i = 0; i < KILLS; i++) {
        pid_t child;
        int further;

        child = start_run();
        wait_within(most);
        kill(child, SIGKILL);
        /* Three of four are to be hit, however busy the computer is. */
        if (wait_for(child) == KILLED) {
            most *= 1.01;
        } else {
            most *= 0.97;
            ended++;
        }
        left += !alone();
        further = runs_further(1);
        if (further < 0) {
            fail("killed", "run %d: the machine is neither before nor after it", i);
            return;
        }
        before += further == 0;
        after += further == 1;
        if (run_once() != 0 || runs_further(1) != 1 || !alone()) {
            fail("killed", "the run after run %d; in the folder: %s", i, names_in("files"));
            return;
        }
    }
    printf("  %u before, %u after, %u not hit; %u left a file, which the next run removed\n",
           before, after, ended, left);
    pass("each machine whole, no file left over");
    check("most were hit, and some in their save", ended < KILLS / 2 && left > 0);
}

void test_pairs(void)
{
    unsigned both = 0, one = 0;
    double most;

    section("two runs at once");
    prepare();
    most = time_of_run();
    check("the runs before", runs_further(0) == 0);
    for (int i = 0; i < PAIRS; i++) {
        pid_t first = start_run(), second;
        int one_status, other_status, done;

        if (i % 2 == 0)
            wait_within(most);
        second = start_run();
        one_status = wait_for(first);
        other_status = wait_for(second);
        done = (one_status == 0) + (other_status == 0);
        both += done == 2;
        one += done == 1;
        if (one_status > 1 || other_status > 1 || done == 0 || runs_further(2) != done ||
            !alone()) {
            fail("two at once", "pair %d: status %d and %d; in the folder: %s", i, one_status,
                 other_status, names_in("files"));
            return;
        }
    }
    printf("  %u pairs with both done, %u with one refused\n", both, one);
    pass("every run with status 0 is in the file");
    check("pairs of both kinds", both > 0 && one > 0);

    section("names of every length");
    fresh();
    mkdir("files", 0777);
    write_words("program", LOOP);
    for (int len = 1; len <= 255; len++) {
        char *name = text("files/%0*d", len, 0);

        setting.quick = true;
        RUN("new", name, "4");
        if (outcome.status == 0) {
            setting.quick = true;
            RUN("run", "program", name, "23");
        }
        if (outcome.status != 0 || strcmp(names_in("files"), name + 6) != 0) {
            fail("names of every length", "%d: %s", len, outcome.err);
            return;
        }
        unlink(name);
    }
    pass("names of 1 to 255 characters");
    {
        char *path = text("%s", "files");

        for (int i = 0; i < 20; i++) {
            path = text("%s/%0*d", path, 199, 0);
            check("a folder", mkdir(path, 0777) == 0);
        }
        /* 5 + 20 * 200 = 4,005 characters; a path may have 4,095. */
        RUN("new", text("%s/%0*d", path, 89, 0));
        check("a path of 4,095 characters", outcome.status == 0 && outcome.err[0] == '\0');
        ACCEPTED("a run of a path of 4,095 characters", "23 0 00000008\n", "run", "program",
                 text("%s/%0*d", path, 89, 0), "23");
        RUN("new", text("%s/%0*d", path, 90, 0));
        same_text("a path of 4,096 characters",
                  text("service: %s/%0*d: File name too long\n", path, 90, 0), outcome.err);
        check("into the deepest folder", chdir(path) == 0);
        machine("deep", 4);
        machine(text("%0*d", 255, 0), 4);
        write_words("program", LOOP);
        ACCEPTED("a name beyond a path's length", "23 0 00000008\n", "run", "program",
                 text("%0*d", 255, 0), "23");
    }
}
