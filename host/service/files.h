/* Files of the command line: reading one, and where one stands. Each function complains of what
   is wrong by the name that was typed. */
#ifndef FILES_H
#define FILES_H

#include <limits.h>
#include <stdbool.h>
#include <stddef.h>
#include <stdint.h>
#include <sys/stat.h>

struct bytes {
    uint8_t *at;
    size_t len;
};

/* Reads a plain file from its front, at most `most` bytes of it. */
bool read_file(const char *path, size_t most, struct bytes *bytes);

/* Reads an open file from its front, at most `most` bytes of it. */
bool read_open(int file, const char *path, size_t most, struct bytes *bytes);

/* Sees that this is a plain file. */
bool plain(const char *path, const struct stat *state);

/* Where a file stands: an open folder and a name in it, links followed. */
struct place {
    int folder;
    char name[NAME_MAX + 1];
};

/* Finds where the file of a path stands, or would stand. */
bool find_place(const char *path, struct place *place);

/* The state of the file at a place: 1, or 0 when nothing is there, or -1 and the reason. */
int state_at(const struct place *place, struct stat *state);

/* Whether two states are of one file. */
bool same_file(const struct stat *one, const struct stat *other);

/* Sees that two paths are not of one file; the other may be NULL. */
bool apart(const char *path, const char *other);

/* Closes a file that a failure left open, and keeps the reason of the failure. */
void close_failed(int file);

#endif
