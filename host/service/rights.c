/* Who may use a file: owner, group, rights and access list. */
#include "rights.h"

#include <errno.h>
#include <sys/xattr.h>
#include <unistd.h>

#define ACCESS_LIST "system.posix_acl_access"

/* Whether the reason in errno is that there is no access list. */
static bool no_list(void)
{
    return errno == ENODATA || errno == ENOTSUP;
}

/* Copies the access list, or takes away one that the folder gave. */
static bool copy_list(int from, int to)
{
    char list[4096];
    ssize_t len = fgetxattr(from, ACCESS_LIST, list, sizeof list);

    if (len >= 0)
        return fsetxattr(to, ACCESS_LIST, list, (size_t)len, 0) == 0;
    return no_list() && (fremovexattr(to, ACCESS_LIST) == 0 || no_list());
}

/* Copies owner and group, where they differ. */
static bool copy_owner(const struct stat *state, int to)
{
    struct stat now;

    if (fstat(to, &now) != 0)
        return false;
    return (now.st_uid == state->st_uid && now.st_gid == state->st_gid) ||
           fchown(to, state->st_uid, state->st_gid) == 0;
}

bool copy_rights(int from, const struct stat *state, int to)
{
    struct stat now;

    if (!copy_owner(state, to) || !copy_list(from, to) ||
        fchmod(to, state->st_mode & 07777) != 0 || fstat(to, &now) != 0)
        return false;
    errno = EPERM;
    return now.st_uid == state->st_uid && now.st_gid == state->st_gid &&
           now.st_mode == state->st_mode;
}
