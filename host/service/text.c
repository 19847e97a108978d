/* Numbers that a person writes. */
#include "text.h"

#include <string.h>

/* Hexadecimal digits of 32 bits. */
enum { MOST_DIGITS = 8 };

/* The value of a digit, or 16 for any other byte. */
static unsigned digit_value(char byte)
{
    if (byte >= '0' && byte <= '9')
        return (unsigned)(byte - '0');
    if (byte >= 'A' && byte <= 'F')
        return (unsigned)(byte - 'A') + 10;
    if (byte >= 'a' && byte <= 'f')
        return (unsigned)(byte - 'a') + 10;
    return 16;
}

bool read_digits(const char *text, size_t len, unsigned base, uint64_t *number)
{
    *number = 0;
    for (size_t i = 0; i < len; i++) {
        unsigned value = digit_value(text[i]);

        if (value >= base)
            return false;
        *number = *number > (UINT64_MAX - value) / base ? UINT64_MAX : *number * base + value;
    }
    return len > 0;
}

bool read_decimal(const char *text, uint64_t *number)
{
    return read_digits(text, strlen(text), 10, number);
}

bool read_number(const char *text, uint64_t *number)
{
    size_t len = strlen(text);

    if (len > 0 && text[len - 1] == 'h')
        return read_digits(text, len - 1, 16, number);
    if (len > 2 && text[0] == '0' && text[1] == 'x')
        return read_digits(text + 2, len - 2, 16, number);
    return read_decimal(text, number);
}

bool read_hexadecimal(const char *text, size_t len, uint32_t *number)
{
    uint64_t digits;

    if (len > MOST_DIGITS || !read_digits(text, len, 16, &digits))
        return false;
    *number = (uint32_t)digits;
    return true;
}

size_t bytes_of_word(const char *width)
{
    return strcmp(width, "16") == 0 ? 2 : strcmp(width, "32") == 0 ? 4 : 0;
}
