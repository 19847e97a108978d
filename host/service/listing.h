/* The listing of a program: its lines made and printed, in one place for all commands that print
   some. */
#ifndef LISTING_H
#define LISTING_H

#include "files.h"

/* Makes the lines of a program with words of so many bytes, or complains. Their memory is the
   caller's to free, also after a complaint. */
bool make_lines(const char *path, const struct bytes *program, size_t word, struct bytes *lines);

/* Prints lines. */
bool print_lines(const struct bytes *lines);

#endif
