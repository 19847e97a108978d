/* A machine: its image and its data memory, as one file has them. */
#include "machine.h"

#include "check.h"

#include <inttypes.h>
#include <stdlib.h>
#include <string.h>

bool make_cells(const char *path, struct machine *machine, size_t count)
{
    free(machine->cells);
    machine->cells = calloc(count + 1, sizeof *machine->cells);
    machine->cell_count = machine->cells == NULL ? 0 : count;
    return machine->cells != NULL || complain_of_errno(path);
}

bool cells_from(const char *path, struct machine *machine, const uint8_t *bytes, size_t count)
{
    if (!make_cells(path, machine, count))
        return false;
    for (size_t i = 0; i < count; i++)
        machine->cells[i] = number_from(bytes + 4 * i);
    return true;
}

void cells_to(uint8_t *bytes, const struct machine *machine)
{
    for (size_t i = 0; i < machine->cell_count; i++)
        number_to(bytes + 4 * i, machine->cells[i]);
}

/* Sees that a file is not of the earlier layout, and a plain image just where it is said to be one.
   A plain image has the sections of a machine of 2 cells in the earlier layout; but for that no
   file is of both layouts. */
static bool wanted(const char *path, bool plain, const struct bytes *file)
{
    struct sections sections;
    struct fault fault;
    bool earlier = find_sections(file, EARLIER, &sections, &fault);
    bool present = find_sections(file, PRESENT, &sections, &fault);

    if (present && plain)
        return !sections.has_cells ||
               complain(path, "has a data memory of its own; a plain image has none");
    if (present && earlier)
        return complain(path, "a plain image, which takes --plain, or a machine of 2 cells of the "
                              "earlier layout, which takes 'service carry-over --machine'");
    return !earlier || complain(path, "of the earlier layout; 'service carry-over' writes it in "
                                      "the present one");
}

/* Finds image and cells in the file that was read, by its layout. */
static bool split(const char *path, struct machine *machine)
{
    struct sections sections;
    struct fault fault;

    if (find_sections(&machine->file, machine->layout, &sections, &fault)) {
        machine->image_len = sections.image_len;
        machine->has_cells = sections.has_cells;
        return sections.has_cells ? cells_from(path, machine,
                                               machine->file.at + sections.image_len + 4,
                                               sections.cell_count)
                                  : make_cells(path, machine, 0);
    }
    /* Too many cells are then refused with 1, and the whole file, which is no image, with 2. */
    machine->image_len = machine->file.len;
    return make_cells(path, machine, fault.question == 1 ? COFFEE_MEMORY_MAX + 1 : 0);
}

bool read_open_machine(int file, const char *path, bool plain, struct machine *machine)
{
    *machine = (struct machine){.layout = PRESENT};
    return read_open(file, path, READ_MACHINE, &machine->file) &&
           wanted(path, plain, &machine->file) && split(path, machine);
}

bool read_machine(const char *path, bool plain, struct machine *machine)
{
    *machine = (struct machine){.layout = PRESENT};
    return read_file(path, READ_MACHINE, &machine->file) && wanted(path, plain, &machine->file) &&
           split(path, machine);
}

/* Makes the bytes of a file: an image and the machine's cells. */
static bool join(const char *path, const uint8_t *image, const struct machine *machine,
                 struct bytes *file)
{
    size_t image_len = image_length(image);

    file->len = image_len + (machine->has_cells ? 4 + 4 * machine->cell_count : 0);
    file->at = malloc(file->len);
    if (file->at == NULL)
        return complain_of_errno(path);
    memcpy(file->at, image, image_len);
    if (machine->has_cells) {
        number_to(file->at + image_len, (uint32_t)machine->cell_count);
        cells_to(file->at + image_len + 4, machine);
    }
    return true;
}

bool fill_machine(struct save *save, const uint8_t *image, const struct machine *machine)
{
    struct bytes file;
    bool done;

    if (!join(save->path, image, machine, &file))
        return false;
    done = fill_save(save, &file);
    free(file.at);
    return done;
}

bool complain_of_machine(const char *path, const struct machine *machine, uint32_t refusal)
{
    struct fault fault;

    if (find_fault(&machine->file, machine->layout, &fault) && fault.question == refusal)
        return complain(path, "refused with %" PRIu32 ": %s", refusal, fault.text);
    return complain_of_refusal(path, refusal);
}

bool accept_machine(const char *path, const struct machine *machine)
{
    uint8_t buffer[COFFEE_IMAGE_MAX];
    struct coffee_answer answer =
        coffee_run(NULL, 0, machine->cells, machine->cell_count, machine->file.at,
                   machine->image_len, NULL, 0, 0, buffer, sizeof buffer);

    return answer.refusal == 0 || complain_of_machine(path, machine, answer.refusal);
}

/* Replaces an image of the earlier layout by that of the same machine in the present one. */
static bool carry_over(const char *path, struct machine *machine)
{
    uint8_t *image = malloc(COFFEE_IMAGE_MAX);
    uint32_t refusal = 1; /* too many cells; the call asks none */

    if (image == NULL)
        return complain_of_errno(path);
    if (machine->cell_count <= COFFEE_MEMORY_MAX)
        refusal = coffee_carry_over(machine->file.at, machine->image_len, image, COFFEE_IMAGE_MAX);
    if (refusal != 0) {
        free(image);
        return complain_of_machine(path, machine, refusal);
    }
    free(machine->file.at);
    machine->layout = PRESENT;
    machine->image_len = image_length(image);
    machine->file = (struct bytes){image, machine->image_len};
    return true;
}

/* Finds image and cells in a file of the earlier layout, and carries it over. */
static bool split_earlier(const char *path, struct machine *machine)
{
    machine->layout = EARLIER;
    return split(path, machine) && carry_over(path, machine);
}

/* Sees that a file is not of the present layout, unless it is said to be a machine and may be one
   of 2 cells; and that what is said to be a machine has cells. */
static bool wanted_earlier(const char *path, bool is_machine, const struct bytes *file)
{
    struct sections sections;
    struct fault fault;

    if (find_sections(file, PRESENT, &sections, &fault)) {
        if (sections.has_cells)
            return complain(path, "of the present layout already");
        return is_machine ||
               complain(path, "a plain image of the present layout, or a machine of 2 cells of the "
                              "earlier one, which takes --machine");
    }
    return !is_machine || !find_sections(file, EARLIER, &sections, &fault) || sections.has_cells ||
           complain(path, "has no data memory; a machine has one");
}

bool read_earlier(int file, const char *path, bool is_machine, struct machine *machine)
{
    *machine = (struct machine){0};
    return read_open(file, path, READ_MACHINE, &machine->file) &&
           wanted_earlier(path, is_machine, &machine->file) && split_earlier(path, machine);
}

bool read_image(const char *path, struct machine *machine, bool *carried)
{
    struct sections sections;
    struct fault fault;

    *machine = (struct machine){0};
    if (!read_file(path, READ_MACHINE, &machine->file))
        return false;
    *carried = find_sections(&machine->file, EARLIER, &sections, &fault) && !sections.has_cells;
    return *carried ? split_earlier(path, machine)
                    : wanted(path, true, &machine->file) && split(path, machine) &&
                          accept_machine(path, machine);
}

void free_machine(struct machine *machine)
{
    free(machine->file.at);
    free(machine->cells);
}
