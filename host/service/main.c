/* The service program: its command line. */
#include "commands.h"

#include <coffee.h>
#include <errno.h>
#include <fcntl.h>
#include <signal.h>
#include <stdio.h>
#include <string.h>
#include <unistd.h>

/* A command: the words that it takes, at least and at most, how many of them have a place of their
   own, and its options. */
static const struct command {
    const char *name, *options, *words, *purpose;
    size_t least, most, placed;
    enum status (*carry_out)(const struct arguments *arguments);
} commands[] = {
    {"new", "[--replace] ", "MACHINE [CELLS]",
     "writes a machine at reset with so many zero cells (4,096)", 1, 2, 2, new_command},
    {"run", "[-v] [--strict] [--plain] ", "PROGRAM MACHINE STEPS [REQUESTS]",
     "runs the machine on and saves it; prints steps, ending and PC", 3, 4, 4, run_command},
    {"show", "[--plain] ", "MACHINE", "prints mode, registers, position, stack and dividers", 1, 1,
     1, show_command},
    {"cells", "[--plain] ", "MACHINE [FIRST [COUNT]]", "prints cells of the data memory", 1, 3, 3,
     cells_command},
    {"list", "", "PROGRAM WIDTH", "prints a program, a line for each word", 2, 2, 2, list_command},
    {"reach", "", "PROGRAM WIDTH START",
     "prints those lines of list whose words can be reached from an address", 3, 3, 3,
     reach_command},
    {"encode", "", "WIDTH [CONDITION Cn] NAME OPERAND..",
     "prints the word of an instruction, typed as list prints it", 2, MOST_WORDS, 1,
     encode_command},
    {"import", "[--replace] ", "IMAGE DATA MACHINE", "makes a machine from a plain image and cells", 3,
     3, 3, import_command},
    {"export", "[--replace] [--plain] ", "MACHINE IMAGE DATA",
     "writes a machine as a plain image and cells", 3, 3, 3, export_command},
    {"carry-over", "[--replace] [--machine] ", "OLD NEW",
     "writes a machine or a plain image of the earlier layout in the present one", 2, 2, 2,
     carry_over_command},
};

static enum status help(void)
{
    for (size_t i = 0; i < sizeof commands / sizeof commands[0]; i++) {
        const struct command *command = &commands[i];

        printf("%s service %s %s%s\n            %s\n", i == 0 ? "usage:" : "      ",
               command->name, command->options, command->words, command->purpose);
    }
    puts("\n"
         "--replace  also replaces a file that is there\n"
         "-v         adds what happened, in words\n"
         "--strict   gives status 4 when a stop ended the run\n"
         "--plain    MACHINE is a plain image, without a data memory\n"
         "--machine  OLD is a machine, with a data memory\n"
         "\n"
         "MACHINE    a machine file: an image, then the data memory\n"
         "OLD        a machine file or a plain image from before version 2.0.0\n"
         "STEPS      decimal, at most 1,000,000,000,000\n"
         "WIDTH      bits of a word: 16 or 32\n"
         "START      the address of a word, hexadecimal as list prints it\n"
         "REQUESTS   a text: line n has the requests of step n in hexadecimal, or 'N: HEX'\n"
         "\n"
         "status: 0 done; 1 refused, nothing changed; 2 wrong command line;\n"
         "        3 saved, but the disk did not confirm it; 4 see --strict");
    return end_output() ? DONE : FAILED;
}

static enum status version(void)
{
    puts("service " COFFEE_VERSION);
    return end_output() ? DONE : FAILED;
}

/* Takes an option of the command; false when it has no such option. */
static bool take_option(const struct command *command, const char *option,
                        struct arguments *arguments)
{
    if (strstr(command->options, option) == NULL)
        return false;
    if (strcmp(option, "--replace") == 0)
        arguments->target = ANY;
    else if (strcmp(option, "--strict") == 0)
        arguments->strict = true;
    else if (strcmp(option, "--plain") == 0)
        arguments->plain = true;
    else if (strcmp(option, "--machine") == 0)
        arguments->machine = true;
    else if (strcmp(option, "-v") == 0)
        arguments->words_too = true;
    else
        return false;
    return true;
}

/* Whether a word looks like an option; -1 does not. */
static bool is_option(const char *word)
{
    return word[0] == '-' && word[1] != '\0' && strchr("0123456789.", word[1]) == NULL;
}

/* The name of a word, as the command's list has it, up to `len` bytes with its end. */
static void name_word(const struct command *command, size_t index, char *name, size_t len)
{
    const char *at = command->words;
    size_t used = 0;

    while (index-- > 0)
        at = strchr(at, ' ') + 1;
    for (; *at != '\0' && *at != ' ' && used + 1 < len; at++) {
        if (*at != '[' && *at != ']')
            name[used++] = *at;
    }
    name[used] = '\0';
}

/* Sees that no word with a place of its own is empty; of an instruction, an empty one is no part. */
static bool no_word_empty(const struct command *command, const struct arguments *arguments)
{
    char name[32];

    for (size_t i = 0; i < arguments->count && i < command->placed; i++) {
        if (*arguments->words[i] == '\0') {
            name_word(command, i, name, sizeof name);
            return complain(name, "is empty");
        }
    }
    return true;
}

/* Carries out a command with the words that follow it, up to NULL. */
static enum status carry_out(const struct command *command, char **words)
{
    struct arguments arguments = {.target = ABSENT};
    bool options = true;
    size_t count = 0;

    for (; *words != NULL; words++) {
        if (options && strcmp(*words, "--") == 0)
            options = false;
        else if (options && strcmp(*words, "--help") == 0)
            return help();
        else if (options && is_option(*words)) {
            if (!take_option(command, *words, &arguments))
                return misused(*words, "no such option");
        } else if (count++ < MOST_WORDS)
            arguments.words[arguments.count++] = *words;
    }
    if (count < command->least || count > command->most) {
        complain(command->name, "its words are %s; 'service --help' tells more", command->words);
        return USAGE;
    }
    return no_word_empty(command, &arguments) ? command->carry_out(&arguments) : FAILED;
}

/* Has every failed output be a failed call. Numbers 0 to 2 are taken, so that no file of ours gets
   one of them; writing to one that was closed fails. */
static void prepare_outputs(void)
{
    signal(SIGPIPE, SIG_IGN);
    signal(SIGXFSZ, SIG_IGN);
    while (fcntl(STDERR_FILENO, F_GETFD) < 0 || fcntl(STDOUT_FILENO, F_GETFD) < 0 ||
           fcntl(STDIN_FILENO, F_GETFD) < 0) {
        if (open("/dev/null", O_RDONLY) < 0)
            break;
    }
    /* One complaint is one write. */
    setvbuf(stderr, NULL, _IOFBF, BUFSIZ);
}

int main(int count, char **words)
{
    prepare_outputs();
    if (count < 2)
        return misused("no command", "a command is wanted");
    if (strcmp(words[1], "--help") == 0)
        return help();
    if (strcmp(words[1], "--version") == 0)
        return version();
    for (size_t i = 0; i < sizeof commands / sizeof commands[0]; i++) {
        if (strcmp(words[1], commands[i].name) == 0)
            return carry_out(&commands[i], words + 2);
    }
    return misused(words[1], "no such command");
}
