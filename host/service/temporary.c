/* Temporary files. */
#include "temporary.h"

#include "lock.h"

#include <dirent.h>
#include <errno.h>
#include <fcntl.h>
#include <inttypes.h>
#include <stdio.h>
#include <string.h>
#include <time.h>
#include <unistd.h>

/* What temporary names begin with; 16 hexadecimal digits follow. */
#define FRONT ".service-"
enum { FRONT_LENGTH = sizeof FRONT - 1 };
_Static_assert(FRONT_LENGTH + 16 == TEMPORARY_LENGTH, "the length of a temporary name");

/* Makes a name from the time and the process. */
static void make_name(char name[TEMPORARY_LENGTH + 1])
{
    struct timespec now;
    uint64_t number;

    clock_gettime(CLOCK_REALTIME, &now);
    number = (uint64_t)now.tv_sec * 1000000000u + (uint64_t)now.tv_nsec;
    snprintf(name, TEMPORARY_LENGTH + 1, FRONT "%016" PRIx64, number ^ (uint64_t)getpid() << 40);
}

/* Whether a name is one that make_name makes. */
static bool is_temporary(const char *name)
{
    return strlen(name) == TEMPORARY_LENGTH && strncmp(name, FRONT, FRONT_LENGTH) == 0 &&
           strspn(name + FRONT_LENGTH, "0123456789abcdef") == TEMPORARY_LENGTH - FRONT_LENGTH;
}

/* Whether an open file still has a name. */
static bool named(int file)
{
    struct stat state;

    return fstat(file, &state) == 0 && state.st_nlink > 0;
}

int make_temporary(int folder, mode_t rights, char name[TEMPORARY_LENGTH + 1])
{
    for (;;) {
        int file;

        make_name(name);
        file = openat(folder, name, O_RDWR | O_CREAT | O_EXCL | O_CLOEXEC, rights);
        if (file < 0 && errno == EEXIST)
            continue;
        if (file < 0)
            return -1;
        /* Until it is locked another run can take it for one that was left over, and remove it;
           then another is made. */
        if (lock(file)) {
            if (named(file))
                return file;
        } else if (errno != EWOULDBLOCK) {
            close_failed(file);
            unlinkat(folder, name, 0);
            return -1;
        }
        close(file);
    }
}

/* Removes a temporary file that no process has locked. */
static void remove_left_over(int folder, const char *name)
{
    int file = openat(folder, name, O_RDONLY | O_NOFOLLOW | O_NONBLOCK | O_CLOEXEC);
    struct stat opened, there;

    if (file < 0)
        return;
    /* It may have been renamed since it was opened. */
    if (fstat(file, &opened) == 0 && S_ISREG(opened.st_mode) && lock(file) &&
        fstatat(folder, name, &there, AT_SYMLINK_NOFOLLOW) == 0 && same_file(&opened, &there))
        unlinkat(folder, name, 0);
    close(file);
}

void remove_left_overs(int folder)
{
    int copy = openat(folder, ".", O_RDONLY | O_DIRECTORY | O_CLOEXEC);
    DIR *entries = copy < 0 ? NULL : fdopendir(copy);
    struct dirent *entry;

    if (entries == NULL) {
        close_failed(copy);
        return;
    }
    while ((entry = readdir(entries)) != NULL) {
        if (is_temporary(entry->d_name))
            remove_left_over(folder, entry->d_name);
    }
    closedir(entries);
}
