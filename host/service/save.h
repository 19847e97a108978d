/* Replacing a file so that its name is at any moment that of one whole file, and so that two at
   once do not replace the same one. README.md, "Saving", has the order and the reasons. */
#ifndef SAVE_H
#define SAVE_H

#include "lock.h"
#include "report.h"
#include "temporary.h"

/* A save under way. */
struct save {
    const char *path; /* as typed */
    struct place place;
    struct locked old; /* the file that is replaced, if there is one */
    int new;           /* the file that replaces it, locked */
    char temporary[TEMPORARY_LENGTH + 1]; /* the name of that one until then, or empty */
};

/* Locks the file that is to be replaced, and makes the new one beside it with the same owner,
   group and rights. Complains when that cannot be, and then leaves nothing to do. */
bool begin_save(struct save *save, const char *path, enum target target);

/* The same; where no file is replaced, the new one gets owner, group and rights of the source. */
bool begin_save_from(struct save *save, const struct locked *source, const char *path,
                     enum target target);

/* Writes the new file's bytes to the disk. */
bool fill_save(struct save *save, const struct bytes *bytes);

/* Puts the new file in place of the old one. The locks are held until the program ends. */
enum status end_save(struct save *save);

/* Removes the new file, if it has not yet replaced the old one. */
void drop_save(struct save *save);

/* Ends the save if all before it went well, and drops it otherwise. */
enum status finish_save(struct save *save, bool well);

#endif
