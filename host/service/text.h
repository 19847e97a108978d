/* Numbers that a person writes. Those too large for 64 bits give the largest of 64 bits. */
#ifndef TEXT_H
#define TEXT_H

#include <stdbool.h>
#include <stddef.h>
#include <stdint.h>

/* Reads a number: `len` digits of this base, 10 or 16, at least one. */
bool read_digits(const char *text, size_t len, unsigned base, uint64_t *number);

/* Reads a decimal number. */
bool read_decimal(const char *text, uint64_t *number);

/* Reads a number that is decimal, or hexadecimal as 1F0h or 0x1F0. */
bool read_number(const char *text, uint64_t *number);

/* Reads a number of 32 bits: `len` hexadecimal digits, 1 to 8. */
bool read_hexadecimal(const char *text, size_t len, uint32_t *number);

/* The bytes of a word by WIDTH, or 0 where it is neither 16 nor 32. */
size_t bytes_of_word(const char *width);

#endif
