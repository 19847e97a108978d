/* The words of a refusal agree with the library: on images of either layout with a few numbers
   changed, check.c finds a fault of the question that the library answers no, and none where it
   accepts. */
#include "../check.h"
#include "harness.h"

#include <coffee.h>
#include <stdio.h>
#include <string.h>

enum { TRIES = 200000 };

static uint32_t random_number(void)
{
    static uint64_t state = 13;

    state = state * 6364136223846793005u + 1442695040888963407u;
    return (uint32_t)(state >> 32);
}

/* A number that is often near a rule's edge. */
static uint32_t random_value(void)
{
    uint32_t bit = 1u << random_number() % 32;

    switch (random_number() % 5) {
    case 0:
        return random_number();
    case 1:
        return bit;
    case 2:
        return bit - 1;
    case 3:
        return random_number() % 32;
    default:
        return random_number() % 3;
    }
}

/* The length of an image by its count of stack entries. */
static size_t length_by(enum layout layout, const uint8_t *bytes)
{
    return (layout == PRESENT ? COFFEE_IMAGE_MIN : COFFEE_EARLIER_IMAGE_MIN) +
           COFFEE_IMAGE_ENTRY * (size_t)image_number(bytes, STACK_COUNT);
}

/* A good image with up to 12 entries on its stack. */
static size_t good_image(enum layout layout, uint8_t *bytes)
{
    uint32_t entries = random_number() % 3 == 0 ? random_number() % 13 : random_number() % 3;
    uint32_t flags = 0, first = random_number() % 12;

    coffee_reset(bytes, COFFEE_IMAGE_MAX);
    number_to(bytes + 4 * STACK_COUNT, entries);
    for (uint32_t i = 0; i < entries; i++) {
        uint32_t source = (first + 5 * i) % 12;
        uint32_t numbers[] = {source, random_number(), random_number() % 32 & ~1u,
                              random_number() % 8};

        flags |= 1u << source;
        for (size_t j = 0; j < ENTRY_NUMBERS; j++) {
            number_to(bytes + 4 * entry_place(i, j), numbers[j]);
            if (j > 0)
                number_to(bytes + 4 * (RETI_ADDR + j - 1), numbers[j]);
        }
    }
    number_to(bytes + 4 * INT_SERV, flags);
    number_to(bytes + 4 * divider_place(entries, 0) - 4, TIMERS);
    for (size_t i = 0; i < TIMERS; i++)
        number_to(bytes + 4 * divider_place(entries, i), random_number() % 256);
    return length_by(layout, bytes);
}

/* What the library says of an image. */
static uint32_t refusal_of(enum layout layout, const uint8_t *bytes, size_t len)
{
    uint8_t buffer[COFFEE_IMAGE_MAX];

    if (layout == EARLIER)
        return coffee_carry_over(bytes, len, buffer, sizeof buffer);
    return coffee_run(NULL, 0, NULL, 0, bytes, len, NULL, 0, 0, buffer, sizeof buffer).refusal;
}

static void test_layout(enum layout layout)
{
    unsigned counts[6] = {0};

    for (int i = 0; i < TRIES; i++) {
        uint8_t bytes[COFFEE_IMAGE_MAX];
        struct bytes file = {bytes, good_image(layout, bytes)};
        struct fault fault = {0, ""};
        uint32_t refusal;

        for (uint32_t changes = random_number() % 4; changes > 0; changes--) {
            uint32_t place = random_number() % (uint32_t)(file.len / 4);

            if (random_number() % 3 == 0)
                place = POSITION + random_number() % (uint32_t)(file.len / 4 - POSITION);
            number_to(bytes + 4 * place, random_value());
        }
        if (random_number() % 50 == 0)
            file.len = random_number() % file.len;
        refusal = refusal_of(layout, bytes, file.len);
        /* A plain image with a shorter stack has a data memory; the library sees it as too long. */
        if (file.len > STACK_COUNT * 4 + 4 && image_number(bytes, STACK_COUNT) <= 12 &&
            length_by(layout, bytes) < file.len)
            continue;
        if (find_fault(&file, layout, &fault) != (refusal != 0) || fault.question != refusal) {
            fail("the question", "try %d: the library says %u, the words %u: %s", i, refusal,
                 fault.question, fault.text);
            return;
        }
        counts[refusal]++;
    }
    printf("  0: %u, 2: %u, 3: %u, 4: %u, 5: %u\n", counts[0], counts[2], counts[3], counts[4],
           counts[5]);
    pass("each question as the library answers it");
    for (uint32_t i = 0; i < 6; i++)
        check("each question came up", i == 1 || counts[i] > 300);
}

/* Writes a machine of the layout with so many cells, each a small number; gives its length. */
static size_t any_machine(enum layout layout, uint8_t *bytes, size_t cells)
{
    size_t len = good_image(layout, bytes);

    number_to(bytes + len, (uint32_t)cells);
    for (size_t i = 0; i < cells; i++)
        number_to(bytes + len + 4 + 4 * i, random_number() % 4);
    return len + 4 + 4 * cells;
}

/* But for an earlier machine of 2 cells, which is a plain image too, no file is of both layouts. */
static void test_apart(void)
{
    enum { CELLS = 20, EACH = 500 };

    section("the layouts are told apart");
    for (int i = 0; i < CELLS * EACH; i++) {
        uint8_t bytes[COFFEE_IMAGE_MAX + 4 + 4 * CELLS];
        enum layout layout = i % 2 == 0 ? PRESENT : EARLIER;
        bool is_plain = random_number() % 8 == 0;
        size_t cells = random_number() % CELLS;
        struct bytes file = {bytes, is_plain ? good_image(layout, bytes)
                                             : any_machine(layout, bytes, cells)};
        bool either = layout == PRESENT ? is_plain : !is_plain && cells == 2;
        struct sections sections;
        struct fault fault;

        if (!find_sections(&file, layout, &sections, &fault) || sections.has_cells == is_plain ||
            find_sections(&file, layout == PRESENT ? EARLIER : PRESENT, &sections, &fault) !=
                either) {
            fail("the layouts", "try %d: %zu bytes, %zu cells", i, file.len, cells);
            return;
        }
    }
    pass("the layouts");
}

void test_check(void)
{
    section("the words of a refusal and the library, on damaged images");
    test_layout(PRESENT);
    section("the same of the earlier layout");
    test_layout(EARLIER);
    test_apart();
}
