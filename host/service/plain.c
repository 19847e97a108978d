/* The commands import and export: a machine from a plain image and a file of cells, and back. */
#include "commands.h"
#include "image.h"
#include "machine.h"
#include "save.h"

#include <stdio.h>
#include <stdlib.h>
#include <string.h>

/* As much of a file of cells as shows that it is too long. */
enum { READ_CELLS = 4 * (COFFEE_MEMORY_MAX + 1) };

/* Reads the cells of a file as the machine's data memory. */
static bool import_cells(const char *path, struct machine *machine)
{
    struct bytes data;
    bool done;

    if (!read_file(path, READ_CELLS, &data))
        return false;
    machine->has_cells = true;
    if (data.len == READ_CELLS)
        done = complain(path, "refused with 1: more than 65,536 cells of data");
    else if (data.len % 4 != 0)
        done = complain(path, "its length, %zu bytes, is not in fours", data.len);
    else
        done = cells_from(path, machine, data.at, data.len / 4);
    free(data.at);
    return done;
}

/* Says that the image was of the earlier layout, if it was. */
static bool say_earlier(bool carried)
{
    if (!carried)
        return true;
    puts("the image is carried over from the earlier layout");
    return end_output();
}

enum status import_command(const struct arguments *arguments)
{
    const char *image = arguments->words[0], *data = arguments->words[1];
    const char *path = arguments->words[2];
    struct machine machine;
    enum status status;
    struct save save;
    bool carried;

    if (!apart(image, path) || !apart(data, path) || !begin_save(&save, path, arguments->target))
        return FAILED;
    status = finish_save(&save, read_image(image, &machine, &carried) &&
                                    import_cells(data, &machine) &&
                                    fill_machine(&save, machine.file.at, &machine) &&
                                    say_earlier(carried));
    free_machine(&machine);
    return status;
}

/* Writes both files aside. */
static bool fill_both(const struct machine *machine, struct save *image, struct save *data)
{
    struct bytes front = {machine->file.at, machine->image_len};
    struct bytes cells = {malloc(4 * machine->cell_count + 1), 4 * machine->cell_count};
    bool done;

    if (cells.at == NULL)
        return complain_of_errno(data->path);
    cells_to(cells.at, machine);
    done = fill_save(image, &front) && fill_save(data, &cells);
    free(cells.at);
    return done;
}

/* Puts both files in place. */
static enum status end_both(struct save *image, struct save *data)
{
    enum status first = end_save(image), second;

    if (first == FAILED) {
        drop_save(data);
        return FAILED;
    }
    second = end_save(data);
    if (second == FAILED)
        complain(image->path, "is written all the same");
    return first == DONE && second == DONE ? DONE : UNSURE;
}

/* Whether two files would have one name in one folder. */
static bool same_place(const struct save *one, const struct save *other)
{
    struct stat first, second;

    return strcmp(one->place.name, other->place.name) == 0 &&
           fstat(one->place.folder, &first) == 0 && fstat(other->place.folder, &second) == 0 &&
           same_file(&first, &second);
}

/* Exports to an image whose save has begun. */
static enum status export_to(const struct machine *machine, struct save *image, const char *path,
                             enum target target)
{
    struct save data;

    if (begin_save(&data, path, target)) {
        if (same_place(image, &data))
            complain(path, "given twice in this command");
        else if (fill_both(machine, image, &data))
            return end_both(image, &data);
        drop_save(&data);
    }
    drop_save(image);
    return FAILED;
}

enum status export_command(const struct arguments *arguments)
{
    const char *path = arguments->words[0];
    const char *image = arguments->words[1], *data = arguments->words[2];
    struct machine machine = {0};
    enum status status = FAILED;
    struct save save;

    if (apart(path, image) && apart(path, data) && apart(image, data) &&
        read_machine(path, arguments->plain, &machine) && accept_machine(path, &machine) &&
        begin_save(&save, image, arguments->target))
        status = export_to(&machine, &save, data, arguments->target);
    free_machine(&machine);
    return status;
}
