/* What the program says to its caller: exit status, complaints, and that its output went out. */
#ifndef REPORT_H
#define REPORT_H

#include <stdbool.h>
#include <stdint.h>

enum status {
    DONE = 0,
    /* Refused, or a file is bad or could not be saved: nothing is changed. */
    FAILED = 1,
    /* The command line is not one that the program knows. */
    USAGE = 2,
    /* Saved, but not confirmed by the disk, or only one file of two. */
    UNSURE = 3,
    /* A run that had to reach its limit ended in a stop. */
    STOPPED = 4
};

/* Prints "service: NAME: " and the text as one line on standard error; gives false. */
__attribute__((format(printf, 2, 3))) bool complain(const char *name, const char *text, ...);

/* Complains of the reason in errno. */
bool complain_of_errno(const char *name);

/* Complains of a refusal by the library, in general words. */
bool complain_of_refusal(const char *name, uint32_t refusal);

/* Complains of what is wrong with the command line; gives USAGE. */
enum status misused(const char *name, const char *text);

/* Complains of a WIDTH that there is not; gives USAGE. */
enum status misused_width(const char *width);

/* Sees that all that was printed went out, or complains. */
bool end_output(void);

#endif
