/* What run calls take and give. */
#include "call.h"

#include "image.h"
#include "program.h"
#include "text.h"

#include <inttypes.h>
#include <stdlib.h>
#include <string.h>

/* One library call from an image; the new image goes to the buffer. */
static struct coffee_answer library_call(const struct call *call, const uint8_t *image, size_t len,
                                         const uint32_t *list, size_t list_len, uint32_t limit,
                                         uint8_t buffer[COFFEE_IMAGE_MAX])
{
    return coffee_run(call->program.at, call->program.len, call->machine.cells,
                      call->machine.cell_count, image, len, list, list_len, limit, buffer,
                      COFFEE_IMAGE_MAX);
}

/* ---- loading and asking */

/* Complains of the first request above FFFh. */
static bool complain_of_request(const char *path, const struct requests *requests)
{
    size_t i = 0;

    while (i < requests->len && requests->at[i].flags <= 0xFFF)
        i++;
    if (i == requests->len)
        return complain_of_refusal(path, 6);
    return complain(path, "refused with 6: line %" PRIu32 " has %" PRIX32 ": a request is at most FFF",
                    requests->at[i].line, requests->at[i].flags);
}

/* Complains of a refusal, by the word that it is about. */
static bool complain_of_call(const struct call_words *words, const struct call *call,
                             uint32_t refusal)
{
    if (refusal == 1 && too_long(&call->program))
        return complain_of_length(words->program);
    if (refusal >= 1 && refusal <= 5)
        return complain_of_machine(words->machine, &call->machine, refusal);
    if (refusal == 6 && words->requests != NULL)
        return complain_of_request(words->requests, &call->requests);
    if (refusal == 7)
        return complain(words->steps, "refused with 7: more than 1,000,000,000,000 steps");
    return complain_of_refusal(words->machine, refusal);
}

/* Asks the library all questions: about every request, whatever its step, and about a step limit
   that it refuses where there are too many steps. */
static bool ask(const struct call_words *words, struct call *call)
{
    size_t len = call->requests.len;
    uint32_t *flags = calloc(len + 1, sizeof *flags);
    uint32_t refusal;

    if (flags == NULL)
        return complain_of_errno(words->machine);
    for (size_t i = 0; i < len; i++)
        flags[i] = call->requests.at[i].flags;
    refusal = library_call(call, call->machine.file.at, call->machine.image_len, flags, len,
                           call->steps > MOST_STEPS ? COFFEE_STEPS_MAX + 1 : 0, call->images[0])
                  .refusal;
    free(flags);
    call->image = call->images[0];
    return refusal == 0 || complain_of_call(words, call, refusal);
}

bool load_call(const struct call_words *words, int machine, struct call *call)
{
    *call = (struct call){0};
    if (!read_decimal(words->steps, &call->steps))
        return complain(words->steps, "STEPS is not a decimal number");
    return apart(words->machine, words->program) && apart(words->machine, words->requests) &&
           read_program(words->program, &call->program) &&
           read_open_machine(machine, words->machine, words->plain, &call->machine) &&
           read_requests(words->requests, &call->requests) && ask(words, call);
}

/* ---- steps */

/* The one of the two images that is not the present one. */
static uint8_t *other_image(struct call *call)
{
    return call->image == call->images[0] ? call->images[1] : call->images[0];
}

/* Makes the library call for the next steps, with this list of requests. */
static bool go_on(const struct call_words *words, struct call *call, size_t len, uint32_t steps)
{
    struct coffee_answer answer =
        library_call(call, call->image, image_length(call->image), call->requests.list, len, steps,
                     other_image(call));

    if (answer.refusal != 0)
        return complain_of_call(words, call, answer.refusal);
    call->image = other_image(call);
    call->done += answer.steps;
    call->ending = answer.ending;
    return true;
}

bool call_steps(const struct call_words *words, struct call *call, uint32_t steps)
{
    size_t len = make_list(&call->requests, call->done + 1, steps);
    bool done = go_on(words, call, len, steps);

    clear_list(&call->requests, len);
    return done;
}

/* A mark in EXCEPTION_PSR: no PSR is that large. */
enum { NO_PSR = 0xFF };

/* Marks an image so that one step from it takes the mark away just where it enters an exception: its
   timers are stopped and far from their maxima, so that there is no reset, even if the step starts
   them. */
static void mark(uint8_t *image)
{
    number_to(image + 4 * EXCEPTION_PSR, NO_PSR);
    number_to(image + 4 * TMR_CONF, 0);
    for (size_t i = 0; i < TIMERS; i++)
        number_to(image + 4 * (TMR0_MAX_CNT + 2 * i),
                  image_number(image, TMR0_CNT + 2 * i) ^ 0x80000000);
}

/* Does the last step, which had this list of requests, again from an image with a mark. If it
   stores, it stores the same number in the same cell. */
static bool step_again(const struct call_words *words, struct call *call, size_t len,
                       uint8_t left[COFFEE_IMAGE_MAX])
{
    const uint8_t *before = other_image(call);
    uint8_t marked[COFFEE_IMAGE_MAX];
    uint32_t refusal;

    memcpy(marked, before, image_length(before));
    mark(marked);
    refusal = library_call(call, marked, image_length(marked), call->requests.list, len, 1, left)
                  .refusal;
    return refusal == 0 || complain_of_call(words, call, refusal);
}

/* Whether the step between two images may have entered an exception, as far as they tell: it leaves
   address and PSR in the exception registers, but for a watchdog's reset, which leaves PC 0. */
static bool may_have_entered(const uint8_t *before, const uint8_t *after)
{
    return image_number(after, PC) == 0 ||
           (image_number(after, EXCEPTION_PC) == image_number(before, PC) &&
            image_number(after, EXCEPTION_PSR) == image_number(before, PSR));
}

void add_exception(struct exceptions *exceptions, const uint8_t *image)
{
    exceptions->count++;
    exceptions->code = image_number(image, EXCEPTION_CS);
    exceptions->address = image_number(image, EXCEPTION_PC);
}

bool call_counted_step(const struct call_words *words, struct call *call,
                       struct exceptions *exceptions)
{
    size_t len = make_list(&call->requests, call->done + 1, 1);
    bool done = go_on(words, call, len, 1);

    if (done && call->ending == 0 && may_have_entered(other_image(call), call->image)) {
        uint8_t left[COFFEE_IMAGE_MAX];

        done = step_again(words, call, len, left);
        if (done && image_number(left, EXCEPTION_PSR) != NO_PSR)
            add_exception(exceptions, left);
    }
    clear_list(&call->requests, len);
    return done;
}

void free_call(struct call *call)
{
    free(call->program.at);
    free_machine(&call->machine);
    free_requests(&call->requests);
}
