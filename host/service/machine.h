/* A machine: its image and its data memory, as one file has them (README.md, "The machine
   file"). */
#ifndef MACHINE_H
#define MACHINE_H

#include "files.h"
#include "image.h"
#include "report.h"
#include "save.h"

#include <coffee.h>

/* As much of a file as shows that it is too long. */
enum { READ_MACHINE = COFFEE_IMAGE_MAX + 4 + 4 * COFFEE_MEMORY_MAX + 1 };

struct machine {
    struct bytes file;  /* as it was read, or the image that it was carried over to; the image is
                           its front */
    enum layout layout; /* of that image */
    size_t image_len;   /* all of the file, where it has not the sections of a machine */
    bool has_cells;     /* false for a plain image */
    uint32_t *cells;    /* never NULL */
    size_t cell_count;
};

/* Reads the machine of a path; the library is asked later. Any file is taken but one of the earlier
   layout; and a plain image just where `plain` says that it is one, since a machine of 2 cells in
   the earlier layout may have the same bytes. */
bool read_machine(const char *path, bool plain, struct machine *machine);

/* Reads the machine of an open file. */
bool read_open_machine(int file, const char *path, bool plain, struct machine *machine);

/* Reads a machine or a plain image of the earlier layout from an open file and carries it over.
   One that may as well be a plain image of the present layout is taken just where `is_machine` says
   that it is a machine. */
bool read_earlier(int file, const char *path, bool is_machine, struct machine *machine);

/* Reads a plain image of either layout, asks the library about it, and tells whether it was carried
   over. */
bool read_image(const char *path, struct machine *machine, bool *carried);

/* Makes zero cells. */
bool make_cells(const char *path, struct machine *machine, size_t count);

/* Makes cells from bytes, high byte first. */
bool cells_from(const char *path, struct machine *machine, const uint8_t *bytes, size_t count);

/* Writes all cells as bytes, high byte first. */
void cells_to(uint8_t *bytes, const struct machine *machine);

/* Writes the new file of a save: an image and the machine's cells. */
bool fill_machine(struct save *save, const uint8_t *image, const struct machine *machine);

/* Asks the library about an image with these cells, by a call without a step, and complains of
   what it refuses. */
bool accept_machine(const char *path, const struct machine *machine);

/* Complains that the library refused a machine by a question from 1 to 5. */
bool complain_of_machine(const char *path, const struct machine *machine, uint32_t refusal);

void free_machine(struct machine *machine);

#endif
