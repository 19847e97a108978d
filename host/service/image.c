/* Numbers of a machine image. */
#include "image.h"

#include <coffee.h>

_Static_assert(4 * STACK_COUNT == COFFEE_IMAGE_ENTRIES && 4 * STACK == COFFEE_EARLIER_IMAGE_MIN &&
                   4 * (STACK + 1 + TIMERS) == COFFEE_IMAGE_MIN &&
                   4 * ENTRY_NUMBERS == COFFEE_IMAGE_ENTRY &&
                   COFFEE_IMAGE_MIN + COFFEE_IMAGE_ENTRY * SOURCES == COFFEE_IMAGE_MAX,
               "the layout here is the library's");

uint32_t number_from(const uint8_t *bytes)
{
    return (uint32_t)bytes[0] << 24 | (uint32_t)bytes[1] << 16 | (uint32_t)bytes[2] << 8 | bytes[3];
}

void number_to(uint8_t *bytes, uint32_t number)
{
    bytes[0] = (uint8_t)(number >> 24);
    bytes[1] = (uint8_t)(number >> 16);
    bytes[2] = (uint8_t)(number >> 8);
    bytes[3] = (uint8_t)number;
}

uint32_t image_number(const uint8_t *image, size_t place)
{
    return number_from(image + 4 * place);
}

size_t entry_place(size_t entry, size_t number)
{
    return STACK + ENTRY_NUMBERS * entry + number;
}

size_t divider_place(size_t entries, size_t timer)
{
    return entry_place(entries, 0) + 1 + timer;
}

size_t image_length(const uint8_t *image)
{
    return COFFEE_IMAGE_MIN + COFFEE_IMAGE_ENTRY * (size_t)image_number(image, STACK_COUNT);
}
