/* The command encode: prints the word of an instruction that is typed as list prints it. */
#include "commands.h"
#include "instruction.h"
#include "text.h"

#include <inttypes.h>
#include <stdio.h>
#include <stdlib.h>
#include <string.h>

/* Joins the words after WIDTH to one text, blanks between them; or gives NULL, with errno set. */
static char *join_words(const struct arguments *arguments)
{
    size_t len = 1;
    char *text, *at;

    for (size_t i = 1; i < arguments->count; i++)
        len += strlen(arguments->words[i]) + 1;
    text = malloc(len);
    if (text == NULL)
        return NULL;
    at = text;
    for (size_t i = 1; i < arguments->count; i++) {
        at = stpcpy(at, arguments->words[i]);
        *at++ = ' ';
    }
    *at = '\0';
    return text;
}

/* Prints a word of so many bytes. */
static bool print_word(uint32_t word, size_t bytes)
{
    printf("%0*" PRIX32 "\n", 2 * (int)bytes, word);
    return end_output();
}

enum status encode_command(const struct arguments *arguments)
{
    const char *width = arguments->words[0];
    size_t bytes = bytes_of_word(width);
    uint32_t word;
    char *text;
    bool done;

    if (bytes == 0)
        return misused_width(width);
    text = join_words(arguments);
    done = text == NULL ? complain_of_errno("encode")
                        : encode_instruction(text, bytes == 4, &word) && print_word(word, bytes);
    free(text);
    return done ? DONE : FAILED;
}
