// The programs that the benchmark runs, each in super user and in user mode.
#ifndef PROGRAMS_H
#define PROGRAMS_H

#include "coffee.h"

#include <stddef.h>
#include <stdint.h>

enum { PROGRAM_ROOM = 4096, CELLS = 4096, IMAGE_LENGTH = COFFEE_IMAGE_MIN, STEPS = COFFEE_STEPS_MAX };

// All that a call lends, but for the buffer.
struct scene {
    const char *name;
    const char *mode;
    uint8_t program[PROGRAM_ROOM];
    uint32_t cells[CELLS];
    uint8_t image[IMAGE_LENGTH];
    uint32_t *requests;
    size_t requests_len;
    size_t program_len;
};

// Where the service routines of the timers' interrupts count: that of timer 0 in a cell, that of timer 1, by
// 6 each time, in a number of the image, PR23.
enum { COUNT_CELL = 0x101, COUNT_NUMBER = 34 + 23 };

// Kinds of programs. Scene 2 * kind runs in super user mode, the next one in user mode.
enum {
    ARITHMETIC, MEMORY, MEMORY_ONLY, INTERRUPTS, TIMERS, TIMER_INTERRUPTS, KINDS, SCENES = 2 * KINDS,
};

// Makes scene n, of 0 to SCENES - 1. Requests, if it has any, stay allocated.
struct scene *make_scene(int n);

// Sets number n of an image, or word n of a program.
void set(uint8_t *image, uint32_t n, uint32_t value);

#endif
