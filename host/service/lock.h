/* The file that a save replaces, or that it is made from: found, locked, and still the same. A lock
   lies on the open file, so it does not depend on a name, and vanishes with its process. */
#ifndef LOCK_H
#define LOCK_H

#include "files.h"

/* Which files a save may replace: one that is there; none; either. */
enum target { EXISTING, ABSENT, ANY };

/* A file, open and locked, and its state then; or -1 for none. */
struct locked {
    const char *path; /* as typed */
    int file;
    struct stat state;
};

/* Locks an open file for this process, or fails at once. */
bool lock(int file);

/* Locks the file at a place, if there is one, or complains by the path that was typed. */
bool lock_target(const char *path, const struct place *place, enum target target,
                 struct locked *locked);

/* Locks the file of a path, which is only read and need not be writable, or complains. */
bool lock_source(const char *path, struct locked *locked);

/* Whether a locked file is where it was, and as it was. */
bool unchanged(const struct place *place, const struct locked *locked);

#endif
