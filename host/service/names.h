/* The names of an image's numbers (Manual 5.1 and 8), and the bits that each can have: what show,
   cells and complaints say. */
#ifndef NAMES_H
#define NAMES_H

#include "image.h"

/* A control register: a number fits when its bits outside `free` are those of `fixed`. */
struct control {
    const char *name;
    uint32_t free, fixed;
};

/* The control registers by offset (Manual 5.1). */
extern const struct control control_registers[CONTROL_REGISTERS];

/* The numbers of the position. */
extern const char *const position_names[POSITION_NUMBERS];

/* The interrupt sources, as the names of their vectors have them. */
extern const char *const source_names[SOURCES];

/* What a stop means, 11 to 15 or 20. */
const char *stop_meaning(uint32_t stop);

enum { LONGEST_NAME = 64 };

/* Writes the name of the number at a place of an image with so many stack entries: "R5", "PSR",
   "CCB_BASE (00h)", "PSR of stack entry 2", "divider of timer 0"; entries are counted from 1, at
   the bottom. */
void name_number(size_t entries, size_t place, char name[LONGEST_NAME]);

#endif
