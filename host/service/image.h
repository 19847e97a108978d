/* The layout of a machine image (Manual 8): 32-bit numbers, high byte first, in seven sections,
   each after its count. Places are counted in numbers from the image's front. */
#ifndef IMAGE_H
#define IMAGE_H

#include <stddef.h>
#include <stdint.h>

enum {
    SET_REGISTERS = 32,
    CONDITIONS = 8,
    CONTROL_REGISTERS = 45,
    POSITION_NUMBERS = 6,
    ENTRY_NUMBERS = 4,
    SOURCES = 12,
    TIMERS = 2,
    DIVIDER_MOST = 255,

    /* Each section's first number stands after its count. */
    SET_1 = 1,
    SET_2 = SET_1 + SET_REGISTERS + 1,
    CONDITION = SET_2 + SET_REGISTERS + 1,
    CONTROL = CONDITION + CONDITIONS + 1,
    POSITION = CONTROL + CONTROL_REGISTERS + 1,
    STACK = POSITION + POSITION_NUMBERS + 1,
    STACK_COUNT = STACK - 1,

    /* Numbers that the program looks at by name. */
    PSR = SET_2 + 29,
    SPSR = SET_2 + 30,
    CCB_BASE = CONTROL + 0x00,
    INT_SERV = CONTROL + 0x13,
    EXCEPTION_CS = CONTROL + 0x17,
    EXCEPTION_PC = CONTROL + 0x18,
    EXCEPTION_PSR = CONTROL + 0x19,
    EXCEP_ADDR = CONTROL + 0x20,
    TMR0_CNT = CONTROL + 0x23, /* timer 1 has its count and maximum after these two */
    TMR0_MAX_CNT = CONTROL + 0x24,
    TMR_CONF = CONTROL + 0x27,
    RETI_ADDR = CONTROL + 0x28,
    PC = POSITION,

    /* The numbers of a stack entry. */
    ENTRY_SOURCE = 0,
    ENTRY_ADDRESS,
    ENTRY_PSR,
    ENTRY_C0
};

/* The present layout, and the earlier one, which has all sections but the last, the dividers. */
enum layout { PRESENT, EARLIER };

/* Bits of PSR. */
enum { UM = 1, RSRD = 2, RSWR = 4, IL = 8, IE = 16, PSR_MOST = 31 };

/* A number of 32 bits from four bytes, high byte first. */
uint32_t number_from(const uint8_t *bytes);

/* A number of 32 bits as four bytes, high byte first. */
void number_to(uint8_t *bytes, uint32_t number);

/* The number at a place of an image. */
uint32_t image_number(const uint8_t *image, size_t place);

/* The place of a number of a stack entry, counted from the bottom. */
size_t entry_place(size_t entry, size_t number);

/* The place of a timer's divider in an image with so many stack entries. */
size_t divider_place(size_t entries, size_t timer);

/* The length in bytes of an image that the library gave or accepted, of the present layout. */
size_t image_length(const uint8_t *image);

#endif
