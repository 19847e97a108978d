/* The interrupt requests of a run, by the number of the step that has them. */
#ifndef REQUESTS_H
#define REQUESTS_H

#include "files.h"

/* Most steps of a run. */
#define MOST_STEPS UINT64_C(1000000000000)

/* Requests of one step, not 0, and the line that has them. */
struct request {
    uint64_t step;
    uint32_t flags, line;
};

struct requests {
    struct request *at; /* steps rise */
    size_t len;
    size_t next;        /* the first one that no list has had */
    uint32_t *list;     /* room for the list of a call, all 0 */
};

/* Reads the requests of a file; without a path there are none. */
bool read_requests(const char *path, struct requests *requests);

/* Makes the list of the next call, which does so many steps from step `first` on; gives its
   length. Lists are made in the order of their steps. */
size_t make_list(struct requests *requests, uint64_t first, uint32_t steps);

/* Makes the list 0 again, after its call. */
void clear_list(struct requests *requests, size_t len);

void free_requests(struct requests *requests);

#endif
