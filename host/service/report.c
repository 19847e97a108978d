/* What the program says to its caller: complaints, and that its output went out. */
#include "report.h"

#include <ctype.h>
#include <errno.h>
#include <inttypes.h>
#include <stdarg.h>
#include <stddef.h>
#include <stdio.h>
#include <stdlib.h>
#include <string.h>

/* The library's refusals in words. */
static const char *const reasons[] = {
    [1] = "more than 65,536 bytes of program or 65,536 cells of data",
    [2] = "not exactly the sections and counts of a machine image",
    [3] = "an image with a number that its register cannot hold",
    [4] = "an image with a PSR of user mode that uses set 2",
    [5] = "an image whose stack, INT_SERV and RETI registers do not agree",
    [6] = "a request above FFFh",
    [7] = "a step limit above 1,000,000",
    [8] = "a buffer too short for an image",
    [16] = "a program that is no whole number of words",
    [17] = "a buffer too short for a listing",
    [19] = "an operand or a condition register that does not fit its bits",
    [27] = "a start address at which there is no word",
    [28] = "a map shorter than the program",
};

/* Prints a text; names in it may hold line ends, and a complaint stays one line. */
static void put_clean(const char *text)
{
    for (; *text != '\0'; text++)
        fputc(iscntrl((unsigned char)*text) ? '?' : *text, stderr);
}

bool complain(const char *name, const char *text, ...)
{
    va_list values;
    char *rest;

    va_start(values, text);
    if (vasprintf(&rest, text, values) < 0)
        rest = NULL;
    va_end(values);
    fputs("service: ", stderr);
    put_clean(name);
    fputs(": ", stderr);
    put_clean(rest == NULL ? text : rest);
    fputc('\n', stderr);
    fflush(stderr);
    free(rest);
    return false;
}

bool complain_of_errno(const char *name)
{
    return complain(name, "%s", strerror(errno));
}

bool complain_of_refusal(const char *name, uint32_t refusal)
{
    const char *reason = refusal < sizeof reasons / sizeof reasons[0] ? reasons[refusal] : NULL;

    return complain(name, "refused with %" PRIu32 ": %s", refusal,
                    reason != NULL ? reason : "no reason that is known here");
}

enum status misused(const char *name, const char *text)
{
    complain(name, "%s; 'service --help' tells more", text);
    return USAGE;
}

enum status misused_width(const char *width)
{
    return misused(width, "WIDTH is neither 16 nor 32");
}

bool end_output(void)
{
    if (fflush(stdout) == 0 && !ferror(stdout))
        return true;
    return complain("standard output", "%s; nothing is changed", strerror(errno));
}
