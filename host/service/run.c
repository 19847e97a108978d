/* The command run: loads a machine, runs it a number of steps, saves it, prints the answer. */
#include "call.h"
#include "commands.h"
#include "image.h"
#include "names.h"
#include "progress.h"
#include "save.h"

#include <inttypes.h>
#include <signal.h>
#include <stdio.h>

/* As many steps are watched for exceptions, one at a time, where the answer says them in words. */
enum { COUNTED_STEPS = 1000000 };

/* A run under way. */
struct run {
    struct call_words words;
    struct call call;
    struct save save;
    bool in_words;
    struct exceptions exceptions; /* entered in the steps that are watched */
    uint8_t watched[COFFEE_IMAGE_MAX]; /* the image after those */
};

/* ---- the steps */

/* Set by a signal that asks the program to end. */
static volatile sig_atomic_t asked_to_end;

static void ask_to_end(int number)
{
    (void)number;
    asked_to_end = 1;
}

/* Has these signals end the steps, but for those that the caller had ignored. */
static void watch_signals(void)
{
    static const int signals[] = {SIGINT, SIGTERM, SIGHUP};
    struct sigaction action = {.sa_handler = ask_to_end, .sa_flags = SA_RESTART}, old;

    for (size_t i = 0; i < sizeof signals / sizeof signals[0]; i++) {
        if (sigaction(signals[i], NULL, &old) == 0 && old.sa_handler != SIG_IGN)
            sigaction(signals[i], &action, NULL);
    }
}

/* The steps of the next piece. */
static uint32_t piece(const struct call *call)
{
    uint64_t left = call->steps - call->done;

    return left < COFFEE_STEPS_MAX ? (uint32_t)left : COFFEE_STEPS_MAX;
}

/* Does steps one at a time. */
static bool watch_steps(struct run *run, uint32_t steps)
{
    struct call *call = &run->call;

    for (uint32_t i = 0; i < steps && call->ending == 0; i++) {
        if (!call_counted_step(&run->words, call, &run->exceptions))
            return false;
    }
    for (size_t i = 0; i < image_length(call->image); i++)
        run->watched[i] = call->image[i];
    return true;
}

/* Does the next piece of the steps. */
static bool do_piece(struct run *run)
{
    struct call *call = &run->call;
    uint32_t steps = piece(call);

    return run->in_words && call->done < COUNTED_STEPS ? watch_steps(run, steps)
                                                       : call_steps(&run->words, call, steps);
}

/* Does all steps, up to a stop. */
static bool do_steps(struct run *run, struct progress *progress)
{
    struct call *call = &run->call;

    while (call->done < call->steps && call->ending == 0) {
        if (!do_piece(run))
            return false;
        show_progress(progress, call->done, call->steps);
        if (asked_to_end) {
            end_progress(progress);
            return complain(run->words.machine,
                            "a signal ended the run after %" PRIu64 " steps; nothing is changed",
                            call->done);
        }
    }
    return true;
}

/* ---- the answer */

/* Adds the last exception since the watched steps, if the image shows one: its registers have
   changed, and not to 0, as a reset has them. Code 0 is one of user mode, whose PSR is not 0. */
static void add_shown(const struct run *run, struct exceptions *exceptions)
{
    const uint8_t *image = run->call.image;
    bool changed = false, reset = true;

    for (size_t place = EXCEPTION_CS; place <= EXCEPTION_PSR; place++) {
        changed = changed || image_number(run->watched, place) != image_number(image, place);
        reset = reset && image_number(image, place) == 0;
    }
    if (changed && !reset)
        add_exception(exceptions, image);
}

/* Prints how many exceptions were entered, and the last one that is known. */
static void print_exceptions(const struct run *run)
{
    struct exceptions entered = run->exceptions;
    bool all = run->call.done <= COUNTED_STEPS;

    if (!all)
        add_shown(run, &entered);
    if (entered.count == 0) {
        printf("%s\n", all ? "no exception entered"
                           : "no exception entered in the first 1,000,000 steps, none shows since");
        return;
    }
    printf("%s%" PRIu64 " exception%s entered, %scode %02" PRIX32 "h at %08" PRIX32 "\n",
           all ? "" : "at least ", entered.count, entered.count == 1 ? "" : "s",
           !all ? "the last known: " : entered.count > 1 ? "the last: " : "", entered.code,
           entered.address);
}

/* Prints what the ending means, where, and the exceptions. */
static void print_in_words(const struct run *run)
{
    const struct call *call = &run->call;
    uint32_t pc = image_number(call->image, PC);

    if (call->ending == 0)
        printf("all steps done, next at %08" PRIX32 "; ", pc);
    else
        printf("stop %" PRIu32 " at %08" PRIX32 ": %s; ", call->ending, pc,
               stop_meaning(call->ending));
    print_exceptions(run);
}

/* Prints steps, ending and PC as the run program does. */
static bool print_answer(const struct run *run)
{
    const struct call *call = &run->call;

    printf("%" PRIu64 " %" PRIu32 " %08" PRIX32 "\n", call->done, call->ending,
           image_number(call->image, PC));
    if (run->in_words)
        print_in_words(run);
    return end_output();
}

/* ---- the command */

/* Writes the new file and prints the answer, before the old one is replaced. A line that cannot be
   printed so changes no file, and the exit status says whether the line holds. */
static bool fill_and_print(struct run *run)
{
    return fill_machine(&run->save, run->call.image, &run->call.machine) && print_answer(run);
}

/* Loads the machine and does the steps. */
static bool load_and_run(struct run *run)
{
    struct progress progress;
    bool done;

    if (!load_call(&run->words, run->save.old.file, &run->call))
        return false;
    watch_signals();
    begin_progress(&progress);
    done = do_steps(run, &progress);
    end_progress(&progress);
    return done;
}

enum status run_command(const struct arguments *arguments)
{
    const char *const *words = arguments->words;
    struct run run = {.words = {words[0], words[1], words[2], words[3], arguments->plain},
                      .in_words = arguments->words_too};
    enum status status;

    if (!begin_save(&run.save, run.words.machine, EXISTING))
        return FAILED;
    status = finish_save(&run.save, load_and_run(&run) && fill_and_print(&run));
    if (status == DONE && arguments->strict && run.call.ending != 0)
        status = STOPPED;
    free_call(&run.call);
    return status;
}
