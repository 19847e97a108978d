/* The line on a terminal that counts the steps of a long run. */
#ifndef PROGRESS_H
#define PROGRESS_H

#include <stdbool.h>
#include <stdint.h>
#include <time.h>

struct progress {
    bool on_terminal, shown;
    struct timespec start;
    double next; /* seconds after the start when the line is due */
};

void begin_progress(struct progress *progress);

/* Shows the steps done so far, if a second has gone by since the last time. */
void show_progress(struct progress *progress, uint64_t done, uint64_t steps);

/* Ends the line, if there is one. */
void end_progress(struct progress *progress);

#endif
