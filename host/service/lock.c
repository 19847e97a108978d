/* The file that a save replaces, or that it is made from: found, locked, and still the same. */
#include "lock.h"

#include "report.h"

#include <errno.h>
#include <fcntl.h>
#include <string.h>
#include <sys/file.h>
#include <sys/vfs.h>
#include <unistd.h>

bool lock(int file)
{
    return flock(file, LOCK_EX | LOCK_NB) == 0;
}

/* Whether a folder is one that other computers write to as well. */
static bool on_network(int folder)
{
    static const uint32_t kinds[] = {0x6969, 0x517B, 0xFF534D42, 0xFE534D42}; /* NFS, SMB */
    struct statfs state;

    if (fstatfs(folder, &state) != 0)
        return false;
    for (size_t i = 0; i < sizeof kinds / sizeof kinds[0]; i++) {
        if ((uint32_t)state.f_type == kinds[i])
            return true;
    }
    return false;
}

/* Whether the file at a place is the locked one. */
static bool in_place(const struct place *place, const struct locked *locked)
{
    struct stat now;

    return state_at(place, &now) == 1 && same_file(&now, &locked->state);
}

/* Opens the file at a place, to be written or only read, and locks it. */
static bool open_locked(const char *path, const struct place *place, int access,
                        struct locked *locked)
{
    locked->file =
        openat(place->folder, place->name, access | O_NOFOLLOW | O_NONBLOCK | O_CLOEXEC);
    if (locked->file < 0)
        return complain_of_errno(path);
    if (lock(locked->file))
        return fstat(locked->file, &locked->state) == 0 || complain_of_errno(path);
    if (errno == EWOULDBLOCK)
        return complain(path, "another run is using it");
    return complain(path, "cannot be locked: %s", strerror(errno));
}

/* Sees that a file is there, or not, as it must be: 1 or 0; or complains: -1. */
static int find_target(const char *path, const struct place *place, enum target target)
{
    struct stat state;
    int there = state_at(place, &state);
    bool fits;

    if (there == 1)
        fits = plain(path, &state) &&
               (target != ABSENT || complain(path, "is there already; --replace replaces it"));
    else
        fits = (there == 0 && target != EXISTING) || complain_of_errno(path);
    return fits ? there : -1;
}

/* Locks the file at a place, if there is one. */
static bool lock_at(const char *path, const struct place *place, enum target target, int access,
                    struct locked *locked)
{
    int there;

    *locked = (struct locked){.path = path, .file = -1};
    if (on_network(place->folder))
        return complain(path, "on a network file system, where a lock cannot be trusted; "
                              "use a copy on a disk of this computer");
    /* A file that was replaced between its opening and its locking is not the one to lock. */
    while ((there = find_target(path, place, target)) == 1) {
        if (!open_locked(path, place, access, locked))
            return false;
        if (in_place(place, locked))
            return true;
        close(locked->file);
        locked->file = -1;
    }
    return there == 0;
}

bool lock_target(const char *path, const struct place *place, enum target target,
                 struct locked *locked)
{
    return lock_at(path, place, target, O_RDWR, locked);
}

bool lock_source(const char *path, struct locked *locked)
{
    struct place place;
    bool done = find_place(path, &place) && lock_at(path, &place, EXISTING, O_RDONLY, locked);

    close_failed(place.folder);
    return done;
}

bool unchanged(const struct place *place, const struct locked *locked)
{
    struct stat now;

    return fstat(locked->file, &now) == 0 && now.st_size == locked->state.st_size &&
           now.st_mtim.tv_sec == locked->state.st_mtim.tv_sec &&
           now.st_mtim.tv_nsec == locked->state.st_mtim.tv_nsec && in_place(place, locked);
}
