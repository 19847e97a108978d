/* The command carry-over: writes a machine or a plain image of the earlier layout in the present
   one. */
#include "commands.h"
#include "machine.h"
#include "save.h"

#include <stdio.h>

/* Says what was carried over. */
static bool say_carried(const struct machine *machine)
{
    if (machine->has_cells)
        printf("a machine of %zu cell%s is carried over\n", machine->cell_count,
               machine->cell_count == 1 ? "" : "s");
    else
        puts("a plain image is carried over");
    return end_output();
}

enum status carry_over_command(const struct arguments *arguments)
{
    const char *path = arguments->words[0], *new = arguments->words[1];
    struct machine machine;
    enum status status;
    struct locked old;
    struct save save;

    /* No run of the old machine comes in between: its lock is held until the program ends. */
    if (!apart(path, new) || !lock_source(path, &old) ||
        !begin_save_from(&save, &old, new, arguments->target))
        return FAILED;
    status = finish_save(&save, read_earlier(old.file, path, arguments->machine, &machine) &&
                                    fill_machine(&save, machine.file.at, &machine) &&
                                    say_carried(&machine));
    free_machine(&machine);
    return status;
}
