/* The command reach: prints the lines of the words of a program that can be reached from START. */
#include "commands.h"
#include "listing.h"
#include "program.h"
#include "text.h"

#include <coffee.h>
#include <stdio.h>
#include <stdlib.h>
#include <string.h>

/* A search: the program, the bytes of a word, and the address to start from, as typed too. */
struct search {
    const char *path, *typed;
    struct bytes program;
    size_t word;
    uint32_t start;
};

/* Complains of a program without a word, or of START, which the library refuses with 27. */
static bool complain_of_start(const struct search *search)
{
    size_t word = search->word, words = search->program.len / word;
    char start[sizeof "START 12345678"];

    if (words == 0)
        return complain(search->path, "refused with 27: it has no %zu-bit word", 8 * word);
    snprintf(start, sizeof start, "START %.8s", search->typed);
    if (search->start % word != 0)
        return complain(start,
                        "refused with 27: with %zu-bit words START must be a multiple of %zu",
                        8 * word, word);
    if (search->start / word >= words)
        return complain(start,
                        "refused with 27: no word is there: the program's last one is at %08zX",
                        (words - 1) * word);
    return complain_of_refusal(start, 27);
}

/* Complains of a refusal of a search. */
static bool complain_of_search(const struct search *search, uint32_t refusal)
{
    if (refusal == 1 && too_long(&search->program))
        return complain_of_length(search->path);
    return refusal == 27 ? complain_of_start(search)
                         : complain_of_refusal(search->path, refusal);
}

/* Keeps those lines whose words a map has, the bytes of a word being so many. */
static void keep_reached(struct bytes *lines, const uint8_t *map, size_t word)
{
    size_t kept = 0;

    for (size_t at = 0; at < lines->len; at += COFFEE_LINE) {
        if (map[at / COFFEE_LINE * word] == 1) {
            memmove(lines->at + kept, lines->at + at, COFFEE_LINE);
            kept += COFFEE_LINE;
        }
    }
    lines->len = kept;
}

/* Prints the lines of what is reached; of a search that is refused, none. */
static bool print_reached(const struct search *search)
{
    static uint8_t map[COFFEE_MEMORY_MAX];
    struct bytes program = search->program, lines = {NULL, 0};
    uint32_t refusal = coffee_reach(program.at, program.len, search->word == 4, search->start, map,
                                    sizeof map);
    bool done;

    if (refusal != 0)
        return complain_of_search(search, refusal);
    /* Bytes after the last whole word have no line. */
    program.len -= program.len % search->word;
    done = make_lines(search->path, &program, search->word, &lines);
    if (done) {
        keep_reached(&lines, map, search->word);
        done = print_lines(&lines);
    }
    free(lines.at);
    return done;
}

enum status reach_command(const struct arguments *arguments)
{
    const char *width = arguments->words[1];
    struct search search = {.path = arguments->words[0],
                            .typed = arguments->words[2],
                            .word = bytes_of_word(width)};
    bool done;

    if (search.word == 0)
        return misused_width(width);
    if (!read_hexadecimal(search.typed, strlen(search.typed), &search.start)) {
        complain(search.typed, "START is not 1 to 8 hexadecimal digits, as list prints addresses");
        return FAILED;
    }
    done = read_program(search.path, &search.program) && print_reached(&search);
    free(search.program.at);
    return done ? DONE : FAILED;
}
