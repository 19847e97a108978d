/* The command list: prints a program memory, a line for each word. */
#include "commands.h"
#include "listing.h"
#include "program.h"
#include "text.h"

#include <stdlib.h>

enum status list_command(const struct arguments *arguments)
{
    const char *path = arguments->words[0], *width = arguments->words[1];
    size_t word = bytes_of_word(width);
    struct bytes program, lines = {NULL, 0};
    bool done;

    if (word == 0)
        return misused_width(width);
    done = read_program(path, &program) && make_lines(path, &program, word, &lines) &&
           print_lines(&lines);
    free(lines.at);
    free(program.at);
    return done ? DONE : FAILED;
}
