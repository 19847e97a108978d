/* A program memory: read from its file, and refused for its length, in one place for all commands
   that take one. */
#ifndef PROGRAM_H
#define PROGRAM_H

#include "files.h"
#include "report.h"

/* Reads the program of a path. Any file is taken; the library is asked later. */
bool read_program(const char *path, struct bytes *program);

/* Whether a program is longer than the library takes, which refuses it with 1. */
bool too_long(const struct bytes *program);

/* Complains of such a program. */
bool complain_of_length(const char *path);

#endif
