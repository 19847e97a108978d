/* A program memory: read from its file, and refused for its length. */
#include "program.h"

#include <coffee.h>

/* As much of a program as shows that it is too long. */
enum { READ_PROGRAM = COFFEE_MEMORY_MAX + 1 };

bool read_program(const char *path, struct bytes *program)
{
    return read_file(path, READ_PROGRAM, program);
}

bool too_long(const struct bytes *program)
{
    return program->len > COFFEE_MEMORY_MAX;
}

bool complain_of_length(const char *path)
{
    return complain(path, "refused with 1: more than 65,536 bytes of program");
}
