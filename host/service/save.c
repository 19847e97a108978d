/* Replacing a file so that its name is at any moment that of one whole file. */
#include "save.h"

#include "rights.h"

#include <errno.h>
#include <stdio.h>
#include <string.h>
#include <unistd.h>

/* Complains that a folder takes no file, by the reason in errno. */
static bool cannot_save(const struct save *save)
{
    int reason = errno;
    char entry[32], folder[PATH_MAX];
    ssize_t len;

    snprintf(entry, sizeof entry, "/proc/self/fd/%d", save->place.folder);
    len = readlink(entry, folder, sizeof folder - 1);
    folder[len < 0 ? 0 : len] = '\0';
    return complain(save->path, "cannot save in %s: %s; nothing is changed",
                    len > 0 ? folder : "its folder", strerror(reason));
}

/* Makes the new file, with owner, group and rights of the old one, or of the source, if there is
   one. */
static bool make_new(struct save *save, const struct locked *source)
{
    const struct locked *model = save->old.file >= 0 ? &save->old : source;

    remove_left_overs(save->place.folder);
    save->new = make_temporary(save->place.folder, model == NULL ? 0666 : 0600, save->temporary);
    if (save->new < 0) {
        save->temporary[0] = '\0';
        return cannot_save(save);
    }
    if (model == NULL || copy_rights(model->file, &model->state, save->new))
        return true;
    return complain(model->path,
                    "its owner, group and rights cannot be kept: %s; nothing is changed",
                    strerror(errno));
}

bool begin_save_from(struct save *save, const struct locked *source, const char *path,
                     enum target target)
{
    *save = (struct save){.path = path, .old.file = -1, .new = -1};
    if (find_place(path, &save->place) &&
        lock_target(path, &save->place, target, &save->old) && make_new(save, source))
        return true;
    drop_save(save);
    return false;
}

bool begin_save(struct save *save, const char *path, enum target target)
{
    return begin_save_from(save, NULL, path, target);
}

/* Writes all bytes to an open file. */
static bool write_all(int file, const uint8_t *bytes, size_t len)
{
    while (len > 0) {
        ssize_t put = write(file, bytes, len);

        if (put >= 0) {
            bytes += put;
            len -= (size_t)put;
        } else if (errno != EINTR) {
            return false;
        }
    }
    return true;
}

bool fill_save(struct save *save, const struct bytes *bytes)
{
    return (write_all(save->new, bytes->at, bytes->len) && fsync(save->new) == 0) ||
           cannot_save(save);
}

/* Renames the new file; with RENAME_NOREPLACE to a name that nothing has. Where the file system
   cannot see to that, the program does. */
static bool rename_new(const struct save *save, unsigned flags)
{
    int folder = save->place.folder;
    struct stat state;

    if (renameat2(folder, save->temporary, folder, save->place.name, flags) == 0)
        return true;
    if (errno != EINVAL && errno != ENOSYS)
        return false;
    if (flags != 0 && state_at(&save->place, &state) != 0) {
        errno = EEXIST;
        return false;
    }
    return renameat(folder, save->temporary, folder, save->place.name) == 0;
}

/* Puts the new file in place, or complains. */
static bool put_in_place(const struct save *save)
{
    if (save->old.file >= 0 && !unchanged(&save->place, &save->old))
        return complain(save->path, "another program has changed it meanwhile; it is left so");
    if (rename_new(save, save->old.file < 0 ? RENAME_NOREPLACE : 0))
        return true;
    return errno == EEXIST ? complain(save->path, "is there already; nothing is changed")
                           : cannot_save(save);
}

enum status end_save(struct save *save)
{
    if (!put_in_place(save)) {
        drop_save(save);
        return FAILED;
    }
    save->temporary[0] = '\0';
    /* Some file systems cannot flush a folder, and say EINVAL. */
    if (fsync(save->place.folder) == 0 || errno == EINVAL)
        return DONE;
    complain(save->path, "saved, but the disk does not confirm it: %s", strerror(errno));
    return UNSURE;
}

void drop_save(struct save *save)
{
    if (save->temporary[0] != '\0')
        unlinkat(save->place.folder, save->temporary, 0);
    save->temporary[0] = '\0';
    close_failed(save->new);
    close_failed(save->old.file);
    close_failed(save->place.folder);
    save->new = save->old.file = save->place.folder = -1;
}

enum status finish_save(struct save *save, bool well)
{
    if (well)
        return end_save(save);
    drop_save(save);
    return FAILED;
}
