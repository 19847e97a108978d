/* The library's calls on different memories at the same time: eight threads, each with a machine
   of its own, get what one thread gets.  threads CALLS */
#include <coffee.h>
#include <pthread.h>
#include <stdbool.h>
#include <stdio.h>
#include <stdlib.h>
#include <string.h>

enum { THREADS = 8, PROGRAM = 32, CELLS = 64, STEPS = 1000 };

/* A machine, the answers of its calls added up, its program's lines, the map of its reached words,
   and its image carried over. */
struct job {
    pthread_t thread;
    long calls;
    uint8_t program[PROGRAM], images[2][COFFEE_IMAGE_MAX], lines[PROGRAM / 4 * COFFEE_LINE];
    uint8_t map[PROGRAM], carried[COFFEE_IMAGE_MAX];
    uint32_t cells[CELLS], requests[STEPS];
    uint64_t steps;
    long not_carried;
};

/* A loop that stores and loads, multiplies and is interrupted; the number is different in each. */
static void prepare(struct job *job, long calls, uint8_t number)
{
    static const uint8_t program[PROGRAM] = {
        0x88, 0x01, 0x00, 0x07, 0x58, 0x07, 0x88, 0x3D, 0x7C, 0x00, 0x0C, 0x00, 0x70, 0x00, 0x08,
        0x01, 0x6C, 0x00, 0x10, 0x01, 0x4C, 0x00, 0x14, 0xA1, 0x91, 0xFF, 0xFF, 0xF4, 0x70, 0x00,
        0x14, 0x02};

    memset(job, 0, sizeof *job);
    job->calls = calls;
    memcpy(job->program, program, sizeof program);
    job->program[3] = number;
    job->requests[number] = 0x10;
    coffee_reset(job->images[0], COFFEE_IMAGE_MAX);
}

/* The bytes of the entries of an image's stack. */
static size_t stack_bytes(const uint8_t *image)
{
    return (size_t)COFFEE_IMAGE_ENTRY * image[COFFEE_IMAGE_ENTRIES + 3];
}

/* Carries over what an image has in the earlier layout; whether that gives the image, whose
   dividers are 0. */
static bool carries_over(struct job *job, const uint8_t *image)
{
    return coffee_carry_over(image, COFFEE_EARLIER_IMAGE_MIN + stack_bytes(image), job->carried,
                             COFFEE_IMAGE_MAX) == 0 &&
           memcmp(job->carried, image, COFFEE_IMAGE_MIN + stack_bytes(image)) == 0;
}

static void *work(void *argument)
{
    struct job *job = argument;

    for (long i = 0; i < job->calls; i++) {
        uint8_t *image = job->images[i % 2], *left = job->images[(i + 1) % 2];
        struct coffee_answer answer =
            coffee_run(job->program, sizeof job->program, job->cells, CELLS, image,
                       COFFEE_IMAGE_MIN + stack_bytes(image), job->requests, STEPS, STEPS, left,
                       COFFEE_IMAGE_MAX);

        job->steps += answer.steps;
        coffee_listing(job->program, PROGRAM, 1, job->lines, sizeof job->lines);
        coffee_reach(job->program, PROGRAM, 1, 4 * (uint32_t)(i % 8), job->map, sizeof job->map);
        coffee_reset(image, COFFEE_IMAGE_MAX);
        job->not_carried += !carries_over(job, left);
    }
    return NULL;
}

int main(int count, char **words)
{
    static struct job alone[THREADS], together[THREADS];
    long calls = count > 1 ? atol(words[1]) : 100;

    for (uint8_t i = 0; i < THREADS; i++) {
        prepare(&alone[i], calls, (uint8_t)(i + 1));
        prepare(&together[i], calls, (uint8_t)(i + 1));
        work(&alone[i]);
    }
    for (int i = 0; i < THREADS; i++) {
        if (pthread_create(&together[i].thread, NULL, work, &together[i]) != 0)
            return 1;
    }
    for (int i = 0; i < THREADS; i++) {
        pthread_join(together[i].thread, NULL);
        together[i].thread = alone[i].thread;
        if (memcmp(&alone[i], &together[i], sizeof alone[i]) != 0 ||
            alone[i].steps != (uint64_t)calls * STEPS || alone[i].not_carried != 0) {
            printf("thread %d differs\n", i);
            return 1;
        }
    }
    return 0;
}
