/* The program's commands. */
#ifndef COMMANDS_H
#define COMMANDS_H

#include "lock.h"
#include "report.h"

#include <stddef.h>

/* More than an instruction has, so that encode can tell which one is too many. */
enum { MOST_WORDS = 16 };

/* The command line after the command's name: its words, NULL past the last one, and options. */
struct arguments {
    const char *words[MOST_WORDS];
    size_t count;
    enum target target; /* which files it may write */
    bool strict, words_too;
    bool plain;   /* MACHINE is a plain image */
    bool machine; /* OLD is a machine */
};

enum status run_command(const struct arguments *arguments);
enum status new_command(const struct arguments *arguments);
enum status import_command(const struct arguments *arguments);
enum status export_command(const struct arguments *arguments);
enum status carry_over_command(const struct arguments *arguments);
enum status show_command(const struct arguments *arguments);
enum status cells_command(const struct arguments *arguments);
enum status list_command(const struct arguments *arguments);
enum status reach_command(const struct arguments *arguments);
enum status encode_command(const struct arguments *arguments);

#endif
