/* The command new: writes a machine at reset. */
#include "commands.h"
#include "machine.h"
#include "save.h"
#include "text.h"

#include <inttypes.h>

enum { CELLS = 4096 };

/* Reads the number of cells. */
static bool read_cell_count(const char *text, uint64_t *count)
{
    *count = CELLS;
    if (text == NULL)
        return true;
    if (!read_decimal(text, count))
        return complain(text, "CELLS is not a decimal number");
    return *count <= COFFEE_MEMORY_MAX ||
           complain(text, "refused with 1: more than 65,536 cells of data");
}

/* Writes a new machine aside. */
static bool fill_new(struct save *save, size_t count)
{
    struct machine machine = {.has_cells = true};
    uint8_t image[COFFEE_IMAGE_MAX];
    uint32_t refusal = coffee_reset(image, sizeof image);
    bool done;

    if (refusal != 0)
        return complain_of_refusal(save->path, refusal);
    done = make_cells(save->path, &machine, count) && fill_machine(save, image, &machine);
    free_machine(&machine);
    return done;
}

enum status new_command(const struct arguments *arguments)
{
    struct save save;
    uint64_t count;

    if (!read_cell_count(arguments->words[1], &count) ||
        !begin_save(&save, arguments->words[0], arguments->target))
        return FAILED;
    return finish_save(&save, fill_new(&save, (size_t)count));
}
