/* The command show: prints a machine image in words and columns, with the names of the COFFEE
   core manual. An image that is not accepted may have any numbers, and end anywhere. */
#include "commands.h"
#include "image.h"
#include "machine.h"
#include "names.h"

#include <inttypes.h>
#include <stdio.h>

enum { SET_COLUMNS = 4, CONTROL_COLUMNS = 3 };

/* A place that no file has. */
#define NOWHERE SIZE_MAX

/* Whether the file has a number at this place. */
static bool has_number(const struct bytes *file, size_t place)
{
    return file->len / 4 > place;
}

/* The number at a place, or 0 where there is none. */
static uint32_t number_at(const struct bytes *file, size_t place)
{
    return has_number(file, place) ? image_number(file->at, place) : 0;
}

/* Prints the number at a place. */
static void put_number(const struct bytes *file, size_t place)
{
    if (has_number(file, place))
        printf("%08" PRIX32, image_number(file->at, place));
    else
        fputs("--------", stdout);
}

/* Ends a field of a row: a gap after it, or the line's end after the last one. */
static void end_field(size_t index, size_t columns, size_t count)
{
    fputs((index + 1) % columns == 0 || index + 1 == count ? "\n" : "  ", stdout);
}

/* Prints what PSR says in words. */
static void show_mode(const struct bytes *file)
{
    uint32_t psr = number_at(file, PSR);

    if (!has_number(file, PSR)) {
        puts("mode: --------");
        return;
    }
    printf("mode: %s, %s-bit words, reads set %s, writes set %s, interrupts %s\n",
           psr & UM ? "user" : "super user", psr & IL ? "32" : "16", psr & RSRD ? "2" : "1",
           psr & RSWR ? "2" : "1", psr & IE ? "enabled" : "disabled");
}

/* Prints the registers of set 1. */
static void show_set_1(const struct bytes *file)
{
    puts("\nset 1");
    for (size_t i = 0; i < SET_REGISTERS; i++) {
        printf("R%-8zu ", i);
        put_number(file, SET_1 + i);
        end_field(i, SET_COLUMNS, SET_REGISTERS);
    }
}

/* Prints the registers of set 2. */
static void show_set_2(const struct bytes *file)
{
    puts("\nset 2");
    for (size_t i = 0; i < SET_REGISTERS; i++) {
        printf("PR%-2zu %-4s ", i, SET_2 + i == PSR ? "PSR" : SET_2 + i == SPSR ? "SPSR" : "");
        put_number(file, SET_2 + i);
        end_field(i, SET_COLUMNS, SET_REGISTERS);
    }
}

/* Prints the three flags of a condition register, or the number where it is no such flags. */
static void show_flags(const struct bytes *file, size_t place)
{
    uint32_t flags = number_at(file, place);

    if (has_number(file, place) && flags <= 7) {
        printf("%d %d %d\n", (flags & 4) != 0, (flags & 2) != 0, (flags & 1) != 0);
        return;
    }
    put_number(file, place);
    putchar('\n');
}

/* Prints the condition registers. */
static void show_conditions(const struct bytes *file)
{
    puts("\nconditions\n    Z N C");
    for (size_t i = 0; i < CONDITIONS; i++) {
        printf("C%zu  ", i);
        show_flags(file, CONDITION + i);
    }
}

/* Prints the control registers, each with its offset. */
static void show_control(const struct bytes *file)
{
    puts("\ncontrol registers");
    for (size_t i = 0; i < CONTROL_REGISTERS; i++) {
        printf("%02zX %-13s ", i, control_registers[i].name);
        put_number(file, CONTROL + i);
        end_field(i, CONTROL_COLUMNS, CONTROL_REGISTERS);
    }
}

/* Prints the six numbers of the position. */
static void show_position(const struct bytes *file)
{
    puts("\nposition");
    for (size_t i = 0; i < POSITION_NUMBERS; i++) {
        printf("%-12s  ", position_names[i]);
        put_number(file, POSITION + i);
        putchar('\n');
    }
}

/* Prints one entry of the stack, counted from the bottom. */
static void show_entry(const struct bytes *file, size_t entry)
{
    size_t place = entry_place(entry, ENTRY_SOURCE);
    uint32_t source = number_at(file, place);

    if (has_number(file, place) && source < SOURCES) {
        printf("%2" PRIu32 " %s  ", source, source_names[source]);
    } else {
        put_number(file, place);
        fputs("     ", stdout);
    }
    put_number(file, entry_place(entry, ENTRY_ADDRESS));
    fputs("  ", stdout);
    put_number(file, entry_place(entry, ENTRY_PSR));
    fputs("  ", stdout);
    show_flags(file, entry_place(entry, ENTRY_C0));
}

/* Prints the stack, top first; an image has the top last. */
static void show_stack(const struct bytes *file)
{
    size_t entries = number_at(file, STACK_COUNT);

    if (entries == 0 || entries > SOURCES) {
        puts(!has_number(file, STACK_COUNT) ? "\nstack: --------"
             : entries == 0                 ? "\nstack: empty"
                                            : "\nstack: more than 12 entries");
        return;
    }
    puts("\nstack, top first\nsource       address   PSR       Z N C");
    while (entries-- > 0)
        show_entry(file, entries);
}

/* Prints the dividers, which are behind the stack. Where its count is wrong, they have no place. */
static void show_dividers(const struct bytes *file)
{
    size_t entries = number_at(file, STACK_COUNT);

    puts("\ndividers");
    for (size_t i = 0; i < TIMERS; i++) {
        printf("timer %-6zu  ", i);
        put_number(file, entries <= SOURCES ? divider_place(entries, i) : NOWHERE);
        putchar('\n');
    }
}

/* Prints all of an image. */
static void show_image(const struct bytes *file)
{
    show_mode(file);
    show_set_1(file);
    show_set_2(file);
    show_conditions(file);
    show_control(file);
    show_position(file);
    show_stack(file);
    show_dividers(file);
}

enum status show_command(const struct arguments *arguments)
{
    const char *path = arguments->words[0];
    struct machine machine;
    bool accepted = false, printed = false;

    if (read_machine(path, arguments->plain, &machine)) {
        accepted = accept_machine(path, &machine);
        if (!accepted)
            puts("NOT ACCEPTED: these are the numbers that the file has\n");
        show_image(&machine.file);
        printed = end_output();
    }
    free_machine(&machine);
    return accepted && printed ? DONE : FAILED;
}
