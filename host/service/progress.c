/* The line on a terminal that counts the steps of a long run. */
#include "progress.h"

#include <inttypes.h>
#include <stdio.h>
#include <unistd.h>

void begin_progress(struct progress *progress)
{
    *progress = (struct progress){.on_terminal = isatty(STDERR_FILENO), .next = 1};
    clock_gettime(CLOCK_MONOTONIC, &progress->start);
}

/* Seconds since the start. */
static double elapsed(const struct progress *progress)
{
    struct timespec now;

    clock_gettime(CLOCK_MONOTONIC, &now);
    return (double)(now.tv_sec - progress->start.tv_sec) +
           1e-9 * (double)(now.tv_nsec - progress->start.tv_nsec);
}

void show_progress(struct progress *progress, uint64_t done, uint64_t steps)
{
    double seconds = progress->on_terminal ? elapsed(progress) : 0;

    if (seconds < progress->next)
        return;
    fprintf(stderr, "\r%" PRIu64 " of %" PRIu64 " steps, %.0f a second ", done, steps,
            (double)done / seconds);
    fflush(stderr);
    progress->shown = true;
    while (progress->next <= seconds)
        progress->next += 1;
}

void end_progress(struct progress *progress)
{
    if (progress->shown)
        fputc('\n', stderr);
    progress->shown = false;
}
