/* The command cells: prints cells of the data memory, eight to a line. */
#include "commands.h"
#include "image.h"
#include "machine.h"
#include "names.h"
#include "text.h"

#include <inttypes.h>
#include <stdio.h>

enum { CELLS_IN_LINE = 8, BLOCK = 256 };

/* A range of cells, the last one not in it. */
struct range {
    uint64_t first, end;
};

/* Reads FIRST and COUNT, each as a number if it is said. */
static bool read_range(const struct arguments *arguments, struct range *range)
{
    const char *first = arguments->words[1], *count = arguments->words[2];
    uint64_t number = UINT64_MAX;

    range->first = 0;
    if (first != NULL && !read_number(first, &range->first))
        return complain(first, "FIRST is neither decimal nor hexadecimal as 1F0h");
    if (count != NULL && !read_number(count, &number))
        return complain(count, "COUNT is neither decimal nor hexadecimal as 1F0h");
    range->end = number > UINT64_MAX - range->first ? UINT64_MAX : range->first + number;
    return true;
}

/* Prints the name of an address in the control block. */
static void put_control(uint64_t offset)
{
    if (offset < CONTROL_REGISTERS)
        fputs(control_registers[offset].name, stdout);
    else
        printf("%02" PRIX64 "h", offset);
}

/* Says which cells of a line cannot be reached, because their addresses are in the control
   block. */
static void put_hidden(uint32_t block, struct range line)
{
    uint64_t first = line.first > block ? line.first : block;
    uint64_t end = line.end < (uint64_t)block + BLOCK ? line.end : (uint64_t)block + BLOCK;

    if (first >= end)
        return;
    fputs("  behind ", stdout);
    put_control(first - block);
    if (end - first > 1) {
        fputs(" to ", stdout);
        put_control(end - 1 - block);
    }
}

/* Prints a line of cells. */
static void put_line(const struct machine *machine, struct range line)
{
    printf("%08" PRIX64 " ", line.first);
    for (uint64_t i = line.first; i < line.end; i++)
        printf(" %08" PRIX32, machine->cells[i]);
    put_hidden(image_number(machine->file.at, CCB_BASE), line);
    putchar('\n');
}

/* Prints a range of cells, which may go beyond the last one. */
static bool put_cells(const struct arguments *arguments, const struct machine *machine,
                      struct range range)
{
    if (machine->cell_count == 0)
        puts("no cells");
    else if (range.first >= machine->cell_count)
        return complain(arguments->words[1], "no such cell: the last one is %zu (%zXh)",
                        machine->cell_count - 1, machine->cell_count - 1);
    if (range.end > machine->cell_count)
        range.end = machine->cell_count;
    for (uint64_t i = range.first; i < range.end; i += CELLS_IN_LINE) {
        struct range line = {i, i + CELLS_IN_LINE < range.end ? i + CELLS_IN_LINE : range.end};

        put_line(machine, line);
    }
    return end_output();
}

enum status cells_command(const struct arguments *arguments)
{
    const char *path = arguments->words[0];
    struct machine machine;
    struct range range;
    bool done;

    if (!read_range(arguments, &range))
        return FAILED;
    done = read_machine(path, arguments->plain, &machine) && accept_machine(path, &machine) &&
           put_cells(arguments, &machine, range);
    free_machine(&machine);
    return done ? DONE : FAILED;
}
