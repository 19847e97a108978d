/* Faults: in a child process, a call of the system or of the library goes wrong. */
#ifndef FAULTS_H
#define FAULTS_H

#include <stdbool.h>
#include <stdint.h>

enum kind {
    NONE,
    FAIL,  /* that call gives an error */
    DEAD,  /* that one and all after it do */
    CUT,   /* the program is killed there */
    WAIT,  /* the program says so on a pipe and waits there for ever */
    HOOK   /* a function is called there first */
};

extern struct fault_setting {
    enum kind kind;
    const char *call; /* the only call that is counted, or NULL for all; calloc and realloc are
                         counted as malloc */
    unsigned at;      /* counted from 1 */
    int error;        /* of FAIL and DEAD; 0 is EIO */
    void (*hook)(void);
    uint32_t refusal; /* with which the library refuses: every call, or the one that fails */
    uint32_t word;    /* in place of which coffee_encode answers `encoded` */
    uint64_t encoded; /* that answer, or 0 */
    long file_system; /* the kind that a folder is on, or 0 */
    int log;          /* gets a line for each call, if above 0 */
} fault_setting;

void no_fault(void);

/* Before a child is made: its fault has not yet come. */
void expect_fault(void);

/* In the child: faults come from here on, up to the end. */
void begin_fault(void);
void end_fault(void);

/* Whether the last child that ended had the fault, or that waits has come to it. */
bool fault_came(void);
void await_fault(void);

#endif
