/* What run calls take and give: loaded, asked and made in one place, for all commands that make
   them. */
#ifndef CALL_H
#define CALL_H

#include "machine.h"
#include "requests.h"

/* The words of a command line that name what a call takes; requests may be NULL. The machine may be
   said to be a plain image. */
struct call_words {
    const char *program, *machine, *steps, *requests;
    bool plain;
};

/* Exceptions that were entered: their number, and the last one. */
struct exceptions {
    uint64_t count;
    uint32_t code, address;
};

/* Adds the exception that an image shows. */
void add_exception(struct exceptions *exceptions, const uint8_t *image);

/* A run: calls of at most COFFEE_STEPS_MAX steps, one after another. */
struct call {
    struct bytes program;
    struct machine machine;
    struct requests requests;
    uint64_t steps; /* to be done */

    uint8_t images[2][COFFEE_IMAGE_MAX];
    uint8_t *image; /* the present one of the two */
    uint64_t done;  /* completed steps */
    uint32_t ending;
};

/* Loads all that a call takes; the machine from an open file. Asks the library all its questions
   by a call without a step, and complains of a refusal. */
bool load_call(const struct call_words *words, int machine, struct call *call);

/* Does at most this many steps, up to COFFEE_STEPS_MAX, by one library call. A refusal, which
   cannot come after load_call, is complained of. */
bool call_steps(const struct call_words *words, struct call *call, uint32_t steps);

/* Does one step, and counts an exception that it enters. */
bool call_counted_step(const struct call_words *words, struct call *call,
                       struct exceptions *exceptions);

void free_call(struct call *call);

#endif
