/* The sections of a machine file, and its first number that is wrong, in words. The library decides
   what is accepted; the words only say why not. */
#ifndef CHECK_H
#define CHECK_H

#include "files.h"
#include "image.h"

/* What is wrong: the question that is answered no, 1 to 5, and a text. */
struct fault {
    uint32_t question;
    char text[200];
};

/* The sections of a machine file: bytes of the image, and the data memory, if there is one. */
struct sections {
    size_t image_len;
    bool has_cells;
    size_t cell_count;
};

/* Finds the sections of a file by a layout of its image; false when the file is not exactly these.
   Where only the count of cells is above 65,536, the sections are those that the file says. */
bool find_sections(const struct bytes *file, enum layout layout, struct sections *sections,
                   struct fault *fault);

/* Finds the first number that is wrong, by the order of the questions 1 to 5. */
bool find_fault(const struct bytes *file, enum layout layout, struct fault *fault);

#endif
