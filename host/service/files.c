/* Files of the command line: reading one, and where one stands. */
#include "files.h"

#include "report.h"

#include <errno.h>
#include <fcntl.h>
#include <stdlib.h>
#include <string.h>
#include <unistd.h>

enum { MOST_LINKS = 40 };

void close_failed(int file)
{
    int reason = errno;

    if (file >= 0)
        close(file);
    errno = reason;
}

/* ---- reading */

/* Makes room for more bytes, at most `most`. */
static bool grow(struct bytes *bytes, size_t *room, size_t most)
{
    size_t more = *room < 32768 ? 65536 : 2 * *room;
    uint8_t *at;

    if (more > most)
        more = most;
    at = realloc(bytes->at, more);
    if (at == NULL)
        return false;
    bytes->at = at;
    *room = more;
    return true;
}

/* Reads to the file's end, or until there are `most` bytes. */
static bool read_on(int file, size_t most, struct bytes *bytes)
{
    size_t room = 0;

    while (bytes->len < most) {
        ssize_t got;

        if (bytes->len == room && !grow(bytes, &room, most))
            return false;
        got = read(file, bytes->at + bytes->len, room - bytes->len);
        if (got == 0)
            return true;
        if (got > 0)
            bytes->len += (size_t)got;
        else if (errno != EINTR)
            return false;
    }
    return true;
}

bool read_open(int file, const char *path, size_t most, struct bytes *bytes)
{
    *bytes = (struct bytes){NULL, 0};
    if (read_on(file, most, bytes))
        return true;
    complain_of_errno(path);
    free(bytes->at);
    *bytes = (struct bytes){NULL, 0};
    return false;
}

bool plain(const char *path, const struct stat *state)
{
    if (S_ISREG(state->st_mode))
        return true;
    return complain(path, S_ISDIR(state->st_mode) ? "a folder, not a file" : "not a plain file");
}

bool read_file(const char *path, size_t most, struct bytes *bytes)
{
    struct stat state;
    bool done;
    int file;

    *bytes = (struct bytes){NULL, 0};
    if (stat(path, &state) != 0)
        return complain_of_errno(path);
    if (!plain(path, &state))
        return false;
    /* Should a pipe have come in its place, this does not wait for it. */
    file = open(path, O_RDONLY | O_NONBLOCK | O_CLOEXEC);
    if (file < 0)
        return complain_of_errno(path);
    done = read_open(file, path, most, bytes);
    close(file);
    return done;
}

/* ---- where a file stands */

/* Opens the folder of a path, which is relative to `base`, and takes its last part as name. */
static bool open_folder(int base, char *path, struct place *place)
{
    char *slash = strrchr(path, '/');
    const char *name = slash == NULL ? path : slash + 1;
    const char *folder = slash == NULL ? "." : slash == path ? "/" : path;

    if (strlen(name) > NAME_MAX) {
        errno = ENAMETOOLONG;
        return false;
    }
    strcpy(place->name, *name == '\0' ? "." : name);
    if (slash != NULL && slash != path)
        *slash = '\0';
    place->folder = openat(base, folder, O_RDONLY | O_DIRECTORY | O_CLOEXEC);
    return place->folder >= 0;
}

/* Replaces the path by what the link at a place names; 0 when there is no link, or -1. */
static int follow(const struct place *place, char path[PATH_MAX])
{
    ssize_t len = readlinkat(place->folder, place->name, path, PATH_MAX);

    if (len < 0)
        return errno == EINVAL || errno == ENOENT ? 0 : -1;
    if (len == PATH_MAX) {
        errno = ENAMETOOLONG;
        return -1;
    }
    path[len] = '\0';
    return 1;
}

/* Goes from folder to folder as long as there are links. */
static bool walk(char path[PATH_MAX], struct place *place)
{
    int base = AT_FDCWD;

    for (int links = 0; links <= MOST_LINKS; links++) {
        bool opened = open_folder(base, path, place);
        int followed;

        close_failed(base);
        if (!opened)
            return false;
        followed = follow(place, path);
        if (followed == 0)
            return true;
        base = place->folder;
        if (followed < 0) {
            close_failed(base);
            return false;
        }
    }
    close(base);
    errno = ELOOP;
    return false;
}

bool find_place(const char *path, struct place *place)
{
    char text[PATH_MAX];

    place->folder = -1;
    if (strlen(path) >= sizeof text) {
        errno = ENAMETOOLONG;
        return complain_of_errno(path);
    }
    strcpy(text, path);
    if (walk(text, place))
        return true;
    place->folder = -1;
    return complain_of_errno(path);
}

int state_at(const struct place *place, struct stat *state)
{
    if (fstatat(place->folder, place->name, state, AT_SYMLINK_NOFOLLOW) == 0)
        return 1;
    return errno == ENOENT ? 0 : -1;
}

bool same_file(const struct stat *one, const struct stat *other)
{
    return one->st_dev == other->st_dev && one->st_ino == other->st_ino;
}

bool apart(const char *path, const char *other)
{
    struct stat one, two;

    if (other == NULL)
        return true;
    if (strcmp(path, other) != 0 &&
        !(stat(path, &one) == 0 && stat(other, &two) == 0 && same_file(&one, &two)))
        return true;
    return complain(other, "given twice in this command");
}
