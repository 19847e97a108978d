/* The listing of a program: its lines made and printed. */
#include "listing.h"

#include "program.h"

#include <coffee.h>
#include <stdio.h>
#include <stdlib.h>

/* Complains of a refusal of a program with words of so many bytes. */
static bool complain_of_listing(const char *path, const struct bytes *program, size_t word,
                                uint32_t refusal)
{
    if (refusal == 1 && too_long(program))
        return complain_of_length(path);
    if (refusal == 16 && program->len % word != 0)
        return complain(path,
                        "refused with 16: its length in bytes is %zu: with %zu-bit words it must "
                        "be a multiple of %zu",
                        program->len, 8 * word, word);
    return complain_of_refusal(path, refusal);
}

bool make_lines(const char *path, const struct bytes *program, size_t word, struct bytes *lines)
{
    uint32_t refusal;

    lines->len = program->len / word * COFFEE_LINE;
    /* One more, so that malloc gives memory for an empty program too. */
    lines->at = malloc(lines->len + 1);
    if (lines->at == NULL)
        return complain_of_errno(path);
    refusal = coffee_listing(program->at, program->len, word == 4, lines->at, lines->len);
    return refusal == 0 || complain_of_listing(path, program, word, refusal);
}

bool print_lines(const struct bytes *lines)
{
    fwrite(lines->at, 1, lines->len, stdout);
    return end_output();
}
