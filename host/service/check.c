/* The sections of a machine file, and its first number that is wrong, in words (Manual 8). */
#include "check.h"

#include "names.h"

#include <coffee.h>
#include <inttypes.h>
#include <stdarg.h>
#include <stdio.h>
#include <string.h>

/* A section whose count is always the same. */
struct fixed_section {
    const char *name;
    uint32_t count;
};

/* Those before the stack, and the one behind it. */
static const struct fixed_section before_stack[] = {
    {"set 1", SET_REGISTERS},
    {"set 2", SET_REGISTERS},
    {"the conditions", CONDITIONS},
    {"the control block", CONTROL_REGISTERS},
    {"the position", POSITION_NUMBERS},
};
static const struct fixed_section dividers = {"the dividers", TIMERS};

/* Writes a fault; gives false. */
__attribute__((format(printf, 3, 4))) static bool wrong(struct fault *fault, uint32_t question,
                                                        const char *text, ...)
{
    va_list values;

    fault->question = question;
    va_start(values, text);
    vsnprintf(fault->text, sizeof fault->text, text, values);
    va_end(values);
    return false;
}

/* ---- 1 and 2: the sections and their counts */

/* Sees that so many bytes stand at a place of the file. */
static bool reaches(const struct bytes *file, size_t at, size_t len, const char *part,
                    const char *name, struct fault *fault)
{
    if (file->len >= at && file->len - at >= len)
        return true;
    return wrong(fault, 2, "the file ends after %zu bytes, in %s%s", file->len, part, name);
}

/* Reads the count of a section. */
static bool read_count(const struct bytes *file, size_t at, const char *name, uint32_t *count,
                       struct fault *fault)
{
    if (!reaches(file, at, 4, "the count of ", name, fault))
        return false;
    *count = number_from(file->at + at);
    return true;
}

/* Reads a section with a fixed count; `at` goes on to the place after it. */
static bool read_fixed(const struct bytes *file, const struct fixed_section *section, size_t *at,
                       struct fault *fault)
{
    uint32_t count;

    if (!read_count(file, *at, section->name, &count, fault))
        return false;
    if (count != section->count)
        return wrong(fault, 2, "the count of %s is %08" PRIX32 ": it must be %08" PRIX32,
                     section->name, count, section->count);
    if (!reaches(file, *at + 4, 4 * (size_t)count, "", section->name, fault))
        return false;
    *at += 4 + 4 * (size_t)count;
    return true;
}

/* Reads the sections before the stack; `at` goes on to the place after them. */
static bool read_before_stack(const struct bytes *file, size_t *at, struct fault *fault)
{
    for (size_t i = 0; i < sizeof before_stack / sizeof before_stack[0]; i++) {
        if (!read_fixed(file, &before_stack[i], at, fault))
            return false;
    }
    return true;
}

/* Reads the stack; `at` goes on to the place after it. */
static bool read_stack(const struct bytes *file, size_t *at, struct fault *fault)
{
    const char *name = "the stack";
    uint32_t count;

    if (!read_count(file, *at, name, &count, fault))
        return false;
    if (count > SOURCES)
        return wrong(fault, 2, "the count of %s is %08" PRIX32 ": it must be at most %d", name,
                     count, SOURCES);
    if (!reaches(file, *at + 4, (size_t)COFFEE_IMAGE_ENTRY * count, "", name, fault))
        return false;
    *at += 4 + (size_t)COFFEE_IMAGE_ENTRY * count;
    return true;
}

/* Reads the dividers. A file that has none may be a damaged one of the earlier layout. */
static bool read_dividers(const struct bytes *file, size_t *at, struct fault *fault)
{
    size_t len;

    if (read_fixed(file, &dividers, at, fault))
        return true;
    len = strlen(fault->text);
    snprintf(fault->text + len, sizeof fault->text - len,
             "; a file of the earlier layout takes 'service carry-over'");
    return false;
}

/* Reads the data memory, which is the last section. */
static bool read_cells(const struct bytes *file, struct sections *sections, struct fault *fault)
{
    const char *name = "the data memory";
    size_t at = sections->image_len;
    uint32_t count;

    if (!read_count(file, at, name, &count, fault))
        return false;
    sections->cell_count = count;
    if (count > COFFEE_MEMORY_MAX)
        return wrong(fault, 1, "the count of %s is %08" PRIX32 ": it must be at most %08X", name,
                     count, COFFEE_MEMORY_MAX);
    if (!reaches(file, at + 4, 4 * (size_t)count, "", name, fault))
        return false;
    if (file->len - at - 4 > 4 * (size_t)count)
        return wrong(fault, 2, "bytes follow %s of %" PRIu32 " cells, the last section", name,
                     count);
    return true;
}

bool find_sections(const struct bytes *file, enum layout layout, struct sections *sections,
                   struct fault *fault)
{
    size_t at = 0;

    *sections = (struct sections){0, false, 0};
    if (!read_before_stack(file, &at, fault) || !read_stack(file, &at, fault) ||
        (layout == PRESENT && !read_dividers(file, &at, fault)))
        return false;
    sections->image_len = at;
    sections->has_cells = file->len > at;
    return !sections->has_cells || read_cells(file, sections, fault);
}

/* ---- 3 to 5: the numbers of an image with its sections and counts */

/* Complains of the number at a place by a rule. */
__attribute__((format(printf, 5, 6))) static bool wrong_number(struct fault *fault,
                                                               uint32_t question,
                                                               const uint8_t *image, size_t place,
                                                               const char *rule, ...)
{
    char name[LONGEST_NAME], text[120];
    va_list values;

    name_number(image_number(image, STACK_COUNT), place, name);
    va_start(values, rule);
    vsnprintf(text, sizeof text, rule, values);
    va_end(values);
    return wrong(fault, question, "%s is %08" PRIX32 ": %s", name, image_number(image, place),
                 text);
}

/* Sees that a number is not above another. */
static bool at_most(const uint8_t *image, size_t place, uint32_t most, struct fault *fault)
{
    return image_number(image, place) <= most ||
           wrong_number(fault, 3, image, place, "it must be at most %" PRIX32 "h", most);
}

/* Sees that a control register can hold its number. */
static bool control_fits(const uint8_t *image, size_t offset, struct fault *fault)
{
    const struct control *control = &control_registers[offset];
    size_t place = CONTROL + offset;

    if ((image_number(image, place) & ~control->free) == control->fixed)
        return true;
    if (control->free == 0)
        return wrong_number(fault, 3, image, place, "it must be %" PRIX32, control->fixed);
    if ((control->free & 1) == 0)
        return wrong_number(fault, 3, image, place, "its low byte must be 0");
    return at_most(image, place, control->free, fault);
}

/* Sees that a flag of the position is 0 or 1, and that the numbers after it are 0 if it is. */
static bool flag_fits(const uint8_t *image, size_t place, size_t numbers, struct fault *fault)
{
    uint32_t flag = image_number(image, place);

    if (flag > 1)
        return wrong_number(fault, 3, image, place, "it must be 0 or 1");
    for (size_t i = 1; flag == 0 && i <= numbers; i++) {
        if (image_number(image, place + i) != 0)
            return wrong_number(fault, 3, image, place + i, "it must be 0, as the %s is",
                                position_names[place - POSITION]);
    }
    return true;
}

/* Question 3, of the sections before the stack. */
static bool numbers_fit(const uint8_t *image, struct fault *fault)
{
    if (!at_most(image, PSR, PSR_MOST, fault))
        return false;
    for (size_t i = 0; i < CONDITIONS; i++) {
        if (!at_most(image, CONDITION + i, 7, fault))
            return false;
    }
    for (size_t i = 0; i < CONTROL_REGISTERS; i++) {
        if (!control_fits(image, i, fault))
            return false;
    }
    return flag_fits(image, POSITION + 1, 1, fault) && flag_fits(image, POSITION + 3, 2, fault);
}

/* Question 3, of the stack. */
static bool entries_fit(const uint8_t *image, size_t entries, struct fault *fault)
{
    for (size_t i = 0; i < entries; i++) {
        if (!at_most(image, entry_place(i, ENTRY_PSR), PSR_MOST, fault) ||
            !at_most(image, entry_place(i, ENTRY_C0), 7, fault))
            return false;
    }
    return true;
}

/* Question 3, of the dividers. */
static bool dividers_fit(const uint8_t *image, size_t entries, struct fault *fault)
{
    for (size_t i = 0; i < TIMERS; i++) {
        if (!at_most(image, divider_place(entries, i), DIVIDER_MOST, fault))
            return false;
    }
    return true;
}

/* Question 4, of one PSR. */
static bool sets_fit(const uint8_t *image, size_t place, struct fault *fault)
{
    uint32_t psr = image_number(image, place);

    return (psr & UM) == 0 || (psr & (RSRD | RSWR)) == 0 ||
           wrong_number(fault, 4, image, place, "in user mode both set bits must be 0");
}

/* Question 4. */
static bool modes_fit(const uint8_t *image, size_t entries, struct fault *fault)
{
    if (!sets_fit(image, PSR, fault))
        return false;
    for (size_t i = 0; i < entries; i++) {
        if (!sets_fit(image, entry_place(i, ENTRY_PSR), fault))
            return false;
    }
    return true;
}

/* Question 5, of the sources, and of INT_SERV. */
static bool sources_fit(const uint8_t *image, size_t entries, struct fault *fault)
{
    uint32_t flags = 0;

    for (size_t i = 0; i < entries; i++) {
        size_t place = entry_place(i, ENTRY_SOURCE);
        uint32_t source = image_number(image, place);

        if (source >= SOURCES)
            return wrong_number(fault, 5, image, place, "it must be below %d", SOURCES);
        if (flags & 1u << source)
            return wrong_number(fault, 5, image, place, "an entry below has it too");
        flags |= 1u << source;
    }
    return image_number(image, INT_SERV) == flags ||
           wrong_number(fault, 5, image, INT_SERV,
                        "it must be %08" PRIX32 ", the flags of the stack's sources", flags);
}

/* Question 5, of the RETI_ registers. */
static bool top_fits(const uint8_t *image, size_t entries, struct fault *fault)
{
    static const uint32_t empty[] = {1, 9, 0};

    for (size_t i = 0; i < sizeof empty / sizeof empty[0]; i++) {
        uint32_t shown = entries == 0
                             ? empty[i]
                             : image_number(image, entry_place(entries - 1, ENTRY_ADDRESS + i));

        if (image_number(image, RETI_ADDR + i) != shown)
            return wrong_number(fault, 5, image, RETI_ADDR + i, "it must be %08" PRIX32 ", %s",
                                shown,
                                entries == 0 ? "as the stack is empty" : "as in the top entry");
    }
    return true;
}

bool find_fault(const struct bytes *file, enum layout layout, struct fault *fault)
{
    struct sections sections;
    size_t entries;

    if (!find_sections(file, layout, &sections, fault))
        return true;
    entries = image_number(file->at, STACK_COUNT);
    return !(numbers_fit(file->at, fault) && entries_fit(file->at, entries, fault) &&
             (layout == EARLIER || dividers_fit(file->at, entries, fault)) &&
             modes_fit(file->at, entries, fault) && sources_fit(file->at, entries, fault) &&
             top_fits(file->at, entries, fault));
}
