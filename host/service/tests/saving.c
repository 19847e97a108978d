/* Saves that fail, that are cut off, that others disturb: the machine is the old or the new one,
   whole, and no other file is there. */
#include "faults.h"
#include "harness.h"
#include "places.h"

#include <errno.h>
#include <fcntl.h>
#include <signal.h>
#include <stdio.h>
#include <stdlib.h>
#include <string.h>
#include <sys/file.h>
#include <sys/mount.h>
#include <sys/stat.h>
#include <sys/xattr.h>
#include <time.h>
#include <unistd.h>

enum { OWNER = 60001, OTHER = 60002, SHARED = 60010, KILLED = 256 + SIGKILL };

/* A machine before a run of 3 steps, and after it: lli PR1, 5; st PR1 to PR0 + 1; trap 3. Another
   of the earlier layout, twice, and carried over. */
static void before_and_after(void)
{
    fresh();
    mkdir("kept", 0777);
    mkdir("files", 0777);
    chmod("files", 0777);
    write_words("kept/program", "88010005 70000401 DC000003");
    machine("kept/old", 4);
    machine("kept/new", 4);
    set_word("kept/new", SET_2 + 1, 5);
    set_word("kept/new", EXCEPTION_CS, 0xE3);
    set_word("kept/new", EXCEPTION_PC, 8);
    set_word("kept/new", EXCEPTION_PSR, 0xE);
    set_word("kept/new", CELLS + 1, 5);
    copy("kept/old", "files/m");
    earlier_machine("kept/earlier", 4);
    set_word("kept/earlier", EARLIER_CELLS + 1, 7);
    copy("kept/earlier", "kept/same");
    machine("kept/carried", 4);
    set_word("kept/carried", CELLS + 1, 7);
}

/* The same where the machine is to be replaced by the one that is carried over. */
static void before_carry(void)
{
    before_and_after();
    copy("kept/carried", "kept/new");
}

/* Which machine is there, old or new, and any other file. */
static const char *found(void)
{
    const char *names = names_in("files");

    if (strcmp(names, "m") != 0)
        return names;
    return same_files("files/m", "kept/old") ? "old" : same_files("files/m", "kept/new") ? "new"
                                                                                         : "mixed";
}

#define CARRY "carry-over", "kept/earlier", "files/n"
#define CARRY_M "carry-over", "--replace", "kept/earlier", "files/m"
#define CARRIED "a machine of 4 cells is carried over\n"
#define RUN_M "run", "kept/program", "files/m", "3"
#define LIST "list", "kept/program", "32"
#define LIST_MOST "list", "kept/longest", "16"

static char *const run_m[] = {"service", RUN_M, NULL};
static char *const carry[] = {"service", CARRY, NULL};
static char *const carry_m[] = {"service", CARRY_M, NULL};

/* A save fails with this reason, and nothing is changed. */
static void cannot_save(const char *name, const char *reason)
{
    REFUSED(name, text("files/m: cannot save in %s/files: %s; nothing is changed", here(), reason),
            RUN_M);
}

/* The same of carry-over to a new file. */
static void cannot_carry(const char *name, const char *reason)
{
    REFUSED(name, text("files/n: cannot save in %s/files: %s; nothing is changed", here(), reason),
            CARRY);
}

static void test_outputs(void)
{
    section("outputs that fail");
    before_and_after();
    ACCEPTED("the run itself", "3 0 00000000\n", RUN_M);
    same_text("the run itself: the machine", "new", found());
    before_and_after();
    setting.output = FULL;
    REFUSED("run to a full output",
            "standard output: No space left on device; nothing is changed", RUN_M);
    setting.output = FULL;
    REFUSED("show to a full output",
            "standard output: No space left on device; nothing is changed", "show", "files/m");
    setting.output = FULL;
    REFUSED("help to a full output",
            "standard output: No space left on device; nothing is changed", "--help");
    setting.output = CLOSED;
    REFUSED("run to no output", "standard output: Bad file descriptor; nothing is changed", RUN_M);
    /* No file of the program may get the number of an output. */
    setting.output = CLOSED;
    setting.no_input = true;
    REFUSED("run to no output, with no input",
            "standard output: Bad file descriptor; nothing is changed", RUN_M);
    setting.output = CLOSED;
    REFUSED("cells to no output", "standard output: Bad file descriptor; nothing is changed",
            "cells", "files/m");
    setting.output = CLOSED;
    ACCEPTED("new needs no output", "", "new", "files/n");
    setting.output = BROKEN;
    REFUSED("run to a broken pipe", "standard output: Broken pipe; nothing is changed", RUN_M);
    before_and_after();
    setting.output = FULL;
    REFUSED("carry-over to a full output",
            "standard output: No space left on device; nothing is changed", CARRY);
    setting.output = CLOSED;
    REFUSED("carry-over to no output", "standard output: Bad file descriptor; nothing is changed",
            CARRY_M);
    setting.output = BROKEN;
    REFUSED("carry-over to a broken pipe", "standard output: Broken pipe; nothing is changed",
            CARRY_M);
    earlier_image("kept/image");
    write_words("kept/data", "1");
    setting.output = FULL;
    REFUSED("import of the earlier layout to a full output",
            "standard output: No space left on device; nothing is changed", "import", "kept/image",
            "kept/data", "files/n");
    plain_image("kept/image");
    setting.output = CLOSED;
    ACCEPTED("import of the present layout needs no output", "", "import", "kept/image",
             "kept/data", "files/n");
    UNPRINTED("list", LIST);
    /* Its lines are 1,572,864 bytes. */
    write_zeros("kept/longest", 65536);
    UNPRINTED("the longest list", LIST_MOST);
    CUT_OFF("the longest list", LIST_MOST);
}

static void test_full(void)
{
    section("disks that are full, or may not be written");
    before_and_after();
    setting.file_limit = 1;
    cannot_save("no file may grow", "File too large");
    setting.file_limit = 1 + 500;
    cannot_save("files may grow to 500 bytes", "File too large");
    setting.file_limit = 1;
    REFUSED("no file may grow: new",
            text("files/n: cannot save in %s/files: File too large; nothing is changed",
                 here()),
            "new", "files/n");
    mkdir("files/a\nb", 0777);
    setting.file_limit = 1;
    REFUSED("a line end in a folder's name",
            text("files/a?b/n: cannot save in %s/files/a?b: File too large; nothing is changed",
                 here()),
            "new", "files/a\nb/n");
    before_and_after();
    setting.file_limit = 1;
    cannot_carry("no file may grow: carry-over", "File too large");
    setting.file_limit = 1 + 547;
    cannot_carry("files may grow to a byte less than carry-over wants", "File too large");
    setting.file_limit = 1 + 548;
    ACCEPTED("files may grow as far as carry-over wants", CARRIED, CARRY);
    same_bytes("files may grow as far as carry-over wants: the file", "kept/carried", "files/n");
    before_and_after();
    if (mount("service-test", "files", "tmpfs", 0, "size=8k,mode=777") != 0) {
        skip("a full disk and a read-only disk: no file system can be mounted here");
        return;
    }
    /* Pages are 4 KB: one for the folder's machine, one more is wanted. */
    copy("kept/old", "files/m");
    write_text("files/other", "a full page");
    cannot_save("a full disk", "No space left on device");
    cannot_carry("a full disk: carry-over", "No space left on device");
    unlink("files/other");
    ACCEPTED("a disk with just enough room: carry-over", CARRIED, CARRY_M);
    same_bytes("a disk with just enough room: carried over", "kept/carried", "files/m");
    copy("kept/old", "files/m");
    ACCEPTED("a disk with just enough room", "3 0 00000000\n", RUN_M);
    same_text("a disk with just enough room: the machine", "new", found());
    check("read-only", mount("service-test", "files", "tmpfs", MS_REMOUNT | MS_RDONLY, NULL) == 0);
    REFUSED("a read-only disk", "files/m: Read-only file system", RUN_M);
    REFUSED("a read-only disk: new",
            text("files/n: cannot save in %s/files: Read-only file system; nothing is changed",
                 here()),
            "new", "files/n");
    cannot_carry("a read-only disk: carry-over", "Read-only file system");
    REFUSED("a read-only disk: carry-over --replace", "files/m: Read-only file system", CARRY_M);
    ACCEPTED("a read-only disk: cells", "00000000  00000000 00000005 00000000 00000000\n", "cells",
             "files/m");
    check("unmount", umount("files") == 0);
}

/* Owner, group and rights of a file. */
static const char *owner(const char *path)
{
    struct stat state;

    if (stat(path, &state) != 0)
        return "none";
    return text("%u %u %o", state.st_uid, state.st_gid, state.st_mode & 07777);
}

/* Gives the machine owner, group and rights. */
static void own(uid_t user, gid_t group, mode_t rights)
{
    before_and_after();
    check("owner and rights",
          chown("files/m", user, group) == 0 && chmod("files/m", rights) == 0);
}

/* The same of the machine of the earlier layout. */
static void own_earlier(uid_t user, gid_t group, mode_t rights)
{
    before_and_after();
    check("owner and rights of the earlier one", chown("kept/earlier", user, group) == 0 &&
                                                     chmod("kept/earlier", rights) == 0);
}

#define NOT_KEPT_LINE \
    ": its owner, group and rights cannot be kept: Operation not permitted; nothing is changed"
#define NOT_KEPT "files/m" NOT_KEPT_LINE

#define ACCESS_LIST "system.posix_acl_access"

static void test_rights(void)
{
    /* An access list: owner and group read and write, user 60002 reads, mask and others none. */
    static const uint8_t list[] = {2, 0, 0, 0, 1, 0, 6, 0, 255, 255, 255, 255, 2, 0, 4, 0,
                                   OTHER % 256, OTHER / 256, 0, 0, 4, 0, 6, 0, 255, 255, 255, 255,
                                   16, 0, 6, 0, 255, 255, 255, 255, 32, 0, 0, 0, 255, 255, 255,
                                   255};
    uint8_t left[sizeof list];

    section("owner, group and rights");
    before_and_after();
    chmod("files/m", 0624);
    ACCEPTED("rights", "3 0 00000000\n", RUN_M);
    check("rights stay", strstr(owner("files/m"), " 624") != NULL);
    if (getuid() != 0) {
        skip("other owners: not run as root");
        return;
    }
    own(OWNER, SHARED, 02660);
    ACCEPTED("root runs a user's machine", "3 0 00000000\n", RUN_M);
    same_text("it stays the user's", "60001 60010 2660", owner("files/m"));

    own(OWNER, SHARED, 0660);
    setting.user = OWNER;
    setting.more = SHARED;
    ACCEPTED("the owner, of the group", "3 0 00000000\n", RUN_M);
    same_text("it stays shared by the group", "60001 60010 660", owner("files/m"));
    setting.user = OTHER;
    setting.more = SHARED;
    REFUSED("another of the group", NOT_KEPT, RUN_M);
    setting.user = OTHER;
    setting.group = SHARED;
    REFUSED("another whose group it is", NOT_KEPT, RUN_M);
    setting.user = OTHER;
    setting.more = SHARED;
    REFUSED("another of the group: new --replace", NOT_KEPT, "new", "--replace", "files/m");
    setting.user = OWNER;
    REFUSED("the owner, no longer of the group", NOT_KEPT, RUN_M);
    setting.user = OTHER;
    REFUSED("a stranger", "files/m: Permission denied", RUN_M);
    setting.user = OTHER;
    REFUSED("a stranger: show", "files/m: Permission denied", "show", "files/m");

    own(OWNER, OWNER, 0644);
    chown("files", OWNER, OWNER);
    chmod("files", 0555);
    setting.user = OWNER;
    cannot_save("a folder that may not be written", "Permission denied");
    chown("files", OTHER, OTHER);
    chmod("files", 0755);
    setting.user = OWNER;
    cannot_save("a folder of another", "Permission denied");
    chmod("files", 0777);
    setting.user = OWNER;
    ACCEPTED("a folder of another that may be written", "3 0 00000000\n", RUN_M);
    same_text("owner and rights there", "60001 60001 644", owner("files/m"));
    own(OWNER, OWNER, 0444);
    setting.user = OWNER;
    REFUSED("a machine that may not be written", "files/m: Permission denied", RUN_M);
    chmod("kept/program", 0);
    own(OWNER, OWNER, 0644);
    chmod("kept/program", 0200);
    setting.user = OWNER;
    REFUSED("a program that may not be read", "kept/program: Permission denied", RUN_M);
    setting.user = OWNER;
    REFUSED("a program that may not be read: list", "kept/program: Permission denied", LIST);

    before_and_after();
    chmod("kept/earlier", 0600);
    setting.user = OWNER;
    REFUSED("carry-over of what may not be read", "kept/earlier: Permission denied", CARRY);
    own_earlier(OWNER, OWNER, 0444);
    chmod("kept", 0555);
    setting.user = OWNER;
    ACCEPTED("carry-over of what may not be written", CARRIED, CARRY);
    same_bytes("carry-over of what may not be written: the file", "kept/carried", "files/n");
    same_bytes("carry-over of what may not be written: the old one", "kept/same", "kept/earlier");
    same_text("carry-over of what may not be written: its rights", "60001 60001 444",
              owner("files/n"));
    unlink("files/n");
    setting.user = OTHER;
    REFUSED("carry-over of a machine of another", "kept/earlier" NOT_KEPT_LINE, CARRY);
    own_earlier(OWNER, SHARED, 02660);
    setting.user = OTHER;
    setting.group = SHARED;
    REFUSED("carry-over of a machine that a group shares", "kept/earlier" NOT_KEPT_LINE, CARRY);
    setting.user = OWNER;
    REFUSED("carry-over by the owner, no longer of the group", "kept/earlier" NOT_KEPT_LINE, CARRY);
    setting.user = OWNER;
    setting.more = SHARED;
    ACCEPTED("carry-over by the owner, of the group", CARRIED, CARRY);
    same_text("what is carried over stays shared", "60001 60010 2660", owner("files/n"));
    unlink("files/n");
    ACCEPTED("root carries a user's machine over", CARRIED, CARRY);
    same_text("what root carries over stays the user's", "60001 60010 2660", owner("files/n"));
    before_and_after();
    setting.user = OWNER;
    REFUSED("carry-over to a machine of another", "files/m: Permission denied", CARRY_M);
    chmod("files/m", 0666);
    setting.user = OWNER;
    REFUSED("carry-over to a machine of another that may be written", NOT_KEPT, CARRY_M);
    chmod("files", 0555);
    setting.user = OWNER;
    cannot_carry("carry-over to a folder that may not be written", "Permission denied");
    own(OWNER, SHARED, 0640);
    ACCEPTED("root carries over to a user's machine", CARRIED, CARRY_M);
    same_text("that stays the user's", "60001 60010 640", owner("files/m"));
    chmod("files/m", 0666);
    chown("files/m", OTHER, OTHER);
    setting.user = OTHER;
    ACCEPTED("carry-over of a machine of another to one's own", CARRIED, CARRY_M);
    same_text("that stays one's own", "60002 60002 666", owner("files/m"));

    before_and_after();
    if (setxattr("files/m", ACCESS_LIST, list, sizeof list, 0) != 0) {
        skip("access lists: none on this file system");
        return;
    }
    ACCEPTED("an access list", "3 0 00000000\n", RUN_M);
    check("the access list stays",
          getxattr("files/m", ACCESS_LIST, left, sizeof left) == (ssize_t)sizeof list &&
              memcmp(left, list, sizeof list) == 0);
    check("an access list of the earlier one",
          setxattr("kept/earlier", ACCESS_LIST, list, sizeof list, 0) == 0);
    memset(left, 0, sizeof left);
    ACCEPTED("carry-over with an access list", CARRIED, CARRY);
    check("the access list is carried over",
          getxattr("files/n", ACCESS_LIST, left, sizeof left) == (ssize_t)sizeof list &&
              memcmp(left, list, sizeof list) == 0);
    before_and_after();
    check("a list that the folder gives",
          setxattr("files", "system.posix_acl_default", list, sizeof list, 0) == 0);
    ACCEPTED("a folder with an access list", "3 0 00000000\n", RUN_M);
    check("the machine gets none",
          getxattr("files/m", ACCESS_LIST, left, sizeof left) < 0 && errno == ENODATA);
}

/* The calls of a command. */
static const char *calls_of(char *const *words)
{
    static char calls[4096];
    int log[2];
    ssize_t len;

    before_and_after();
    check("a pipe", pipe(log) == 0);
    fault_setting.log = log[1];
    run_words(words);
    close(log[1]);
    len = read(log[0], calls, sizeof calls - 1);
    calls[len < 0 ? 0 : len] = '\0';
    close(log[0]);
    return calls;
}

static void test_order_of_calls(void)
{
#define NEW_CALLS \
    "flock TEMPORARY\nwrite TEMPORARY\nwrite TEMPORARY\nfsync TEMPORARY\nrename TEMPORARY\n" \
    "fsync files\n"
    section("the order of a save");
    same_text("the calls of a save", "flock m\n" NEW_CALLS, calls_of(run_m));
    same_text("the calls of carry-over", "flock earlier\n" NEW_CALLS, calls_of(carry));
    same_text("the calls of carry-over --replace", "flock earlier\nflock m\n" NEW_CALLS,
              calls_of(carry_m));
}

/* A command with a fault at each of its calls in turn, the files made anew each time. The machine
   is as the status says: 1 old, 0 and 3 new; after a cut old, and from some call on new. A next run
   ends all well. */
static void every(const char *name, enum kind kind, void (*prepare)(void), char *const *words)
{
    bool renamed = false;

    for (unsigned at = 1;; at++) {
        const char *there;

        prepare();
        fault_setting.kind = kind;
        fault_setting.at = at;
        setting.quick = true;
        run_words(words);
        if (!fault_came()) {
            check(text("%s: each of %u calls", name, at - 1), at > 7);
            return;
        }
        there = same_files("files/m", "kept/old") ? "old" : "new";
        renamed = renamed || strcmp(there, "new") == 0;
        if (strcmp(there, "new") == 0 && !same_files("files/m", "kept/new"))
            fail(name, "mixed at call %u", at);
        if (outcome.status == KILLED ? renamed != (strcmp(there, "new") == 0)
            : outcome.status == 1    ? strcmp(there, "old") != 0
                                     : strcmp(there, "new") != 0)
            fail(name, "at call %u: status %d, the machine is %s", at, outcome.status, there);
        if (kind == FAIL && strcmp(names_in("files"), "m") != 0)
            fail(name, "at call %u: %s in the folder", at, names_in("files"));
        if (strstr(outcome.err, ".service-") != NULL)
            fail(name, "at call %u: a temporary name: %s", at, outcome.err);
        if (outcome.status == 1 && (strchr(outcome.err, '\n') == NULL ||
                                    strchr(outcome.err, '\n')[1] != '\0'))
            fail(name, "at call %u: not one line: %s", at, outcome.err);
        setting.quick = true;
        RUN("run", "kept/program", "files/m", "0");
        if (outcome.status != 0 || strcmp(found(), there) != 0)
            fail(name, "at call %u: then %s%s", at, found(), outcome.err);
    }
}

/* Carry-over to a new file with a fault at each of its calls in turn: the new file is there as the
   status says, whole, and not there otherwise; the old one stays. A next one ends all well. */
static void every_new(const char *name, enum kind kind)
{
    bool renamed = false;

    for (unsigned at = 1;; at++) {
        bool there;

        before_carry();
        unlink("files/m");
        fault_setting.kind = kind;
        fault_setting.at = at;
        setting.quick = true;
        RUN("carry-over", "kept/earlier", "files/m");
        if (!fault_came()) {
            check(text("%s: each of %u calls", name, at - 1), at > 7);
            return;
        }
        there = access("files/m", F_OK) == 0;
        renamed = renamed || there;
        if (there && !same_files("files/m", "kept/new"))
            fail(name, "mixed at call %u", at);
        if (there != (outcome.status == KILLED ? renamed : outcome.status != 1))
            fail(name, "at call %u: status %d, the new file is %sthere", at, outcome.status,
                 there ? "" : "not ");
        if (kind == FAIL && strcmp(names_in("files"), there ? "m" : "") != 0)
            fail(name, "at call %u: %s in the folder", at, names_in("files"));
        if (!same_files("kept/earlier", "kept/same"))
            fail(name, "at call %u: the old file is changed", at);
        setting.quick = true;
        RUN(CARRY_M);
        if (outcome.status != 0 || strcmp(found(), "new") != 0)
            fail(name, "at call %u: then %s%s", at, found(), outcome.err);
    }
}

/* A command saves the file of this path in a folder that cannot be flushed. */
static void not_flushed(const char *name, const char *path, char *const *words)
{
    before_and_after();
    fault_setting.kind = FAIL;
    fault_setting.call = "fsync";
    fault_setting.at = 2;
    run_words(words);
    check(text("%s: status 3 when the folder cannot be flushed", name), outcome.status == 3);
    same_text(text("%s: status 3: the line", name),
              text("service: %s: saved, but the disk does not confirm it: Input/output error\n",
                   path),
              outcome.err);
}

static void test_faults(void)
{
    section("each call of the system fails, or the program is killed there");
    every("run, a call fails", FAIL, before_and_after, run_m);
    every("run, all calls fail from one on", DEAD, before_and_after, run_m);
    every("run, killed", CUT, before_and_after, run_m);
    every("carry-over --replace, a call fails", FAIL, before_carry, carry_m);
    every("carry-over --replace, all calls fail from one on", DEAD, before_carry, carry_m);
    every("carry-over --replace, killed", CUT, before_carry, carry_m);
    every_new("carry-over, a call fails", FAIL);
    every_new("carry-over, all calls fail from one on", DEAD);
    every_new("carry-over, killed", CUT);
    not_flushed("carry-over", "files/n", carry);
    same_bytes("carry-over: status 3: the file", "kept/carried", "files/n");
    not_flushed("run", "files/m", run_m);
    same_text("run: status 3: the machine", "new", found());
    before_and_after();
    fault_setting.kind = FAIL;
    fault_setting.call = "fsync";
    fault_setting.at = 2;
    fault_setting.error = EINVAL;
    ACCEPTED("a folder that is never flushed", "3 0 00000000\n", RUN_M);
    fault_setting.kind = FAIL;
    fault_setting.call = "rename";
    fault_setting.at = 1;
    fault_setting.error = EINVAL;
    ACCEPTED("a file system that cannot see to new names", "", "new", "files/n");
    fault_setting.kind = FAIL;
    fault_setting.call = "rename";
    fault_setting.at = 2;
    RUN("export", "files/m", "files/image", "files/data");
    check("an export of one file", outcome.status == 3);
    same_text("an export of one file: the files", "image m n", names_in("files"));
}

/* Holds a file's lock as another program. */
static int hold(const char *path)
{
    int file = open(path, O_RDWR | O_CLOEXEC);

    check("a lock", flock(file, LOCK_EX | LOCK_NB) == 0);
    return file;
}

/* A command that waits at a call; it has to be killed. */
static pid_t waiting_at(const char *call, unsigned at, char *const *words)
{
    pid_t child;

    fault_setting = (struct fault_setting){.kind = WAIT, .call = call, .at = at};
    child = start(words);
    await_fault();
    no_fault();
    check("the command waits", fault_came());
    return child;
}

/* While a run waits at a call another is refused; when it is killed the next is accepted, on the
   old machine or the new one, and leaves no other file. */
static void beside(const char *name, const char *call, unsigned at, const char *then)
{
    pid_t child;

    before_and_after();
    child = waiting_at(call, at, run_m);
    REFUSED(text("%s: a second run", name), "files/m: another run is using it", RUN_M);
    REFUSED(text("%s: new --replace", name), "files/m: another run is using it", "new",
            "--replace", "files/m");
    RUN("cells", "files/m");
    check("a reader is let through", outcome.status == 0);
    ACCEPTED(text("%s: another machine", name), "", "new", "files/n");
    unlink("files/n");
    kill(child, SIGKILL);
    check("killed", wait_for(child) == KILLED);
    ACCEPTED(text("%s: the next run", name), text("0 0 0000000%c\n", '0'), "run", "kept/program",
             "files/m", "0");
    same_text(text("%s: the machine", name), then, found());
}

/* While a machine is carried over, nothing else can use it; when that is killed, it can. */
static void beside_carry(void)
{
    pid_t child;
    int file;

    before_and_after();
    child = waiting_at("write", 1, carry);
    REFUSED("carry-over: a second one", "kept/earlier: another run is using it", "carry-over",
            "kept/earlier", "files/other");
    REFUSED("carry-over: new --replace", "kept/earlier: another run is using it", "new",
            "--replace", "kept/earlier");
    kill(child, SIGKILL);
    check("killed", wait_for(child) == KILLED);
    file = hold("kept/earlier");
    REFUSED("carry-over of a machine in use", "kept/earlier: another run is using it", CARRY);
    REFUSED("carry-over --replace of a machine in use", "kept/earlier: another run is using it",
            CARRY_M);
    close(file);
    ACCEPTED("carry-over of a machine no longer in use", CARRIED, CARRY);
    same_bytes("carry-over of a machine no longer in use: the file", "kept/carried", "files/n");
    same_text("carry-over: no other file", "m n", names_in("files"));
    unlink("files/n");
    fault_setting = (struct fault_setting){.kind = FAIL, .call = "flock", .at = 1, .error = ENOLCK};
    REFUSED("carry-over: no locks", "kept/earlier: cannot be locked: No locks available", CARRY);
}

/* Of two carry-overs to one new file at once, of one old file or of two, one writes it and the
   other is refused. */
static void carry_pairs(void)
{
    char *const other_old[] = {"service", "carry-over", "kept/same", "files/n", NULL};

    before_and_after();
    for (int i = 0; i < 100; i++) {
        pid_t first, second;
        int one, other;

        unlink("files/n");
        setting.quick = true;
        first = start(carry);
        second = start(i % 2 == 0 ? carry : other_old);
        one = wait_for(first);
        other = wait_for(second);
        if (one + other != 1 || !same_files("files/n", "kept/carried") ||
            strcmp(names_in("files"), "m n") != 0) {
            fail("two carry-overs at once", "pair %d: status %d and %d; in the folder: %s", i, one,
                 other, names_in("files"));
            return;
        }
    }
    pass("two carry-overs at once");
}

static void test_locks(void)
{
    int file;

    section("two at once");
    before_and_after();
    file = hold("files/m");
    REFUSED("a machine in use", "files/m: another run is using it", RUN_M);
    close(file);
    ACCEPTED("a machine no longer in use", "3 0 00000000\n", RUN_M);
    before_and_after();
    file = hold("files/m");
    REFUSED("carry-over to a machine in use", "files/m: another run is using it", CARRY_M);
    close(file);
    beside_carry();
    beside("before the steps", "coffee_run", 1, "old");
    beside("before the save", "write", 1, "old");
    beside("in the save", "write", 2, "old");
    beside("before the rename", "rename", 1, "old");
    beside("after the rename", "fsync", 2, "new");
    before_and_after();
    fault_setting = (struct fault_setting){.kind = FAIL, .call = "flock", .at = 1, .error = ENOLCK};
    REFUSED("no locks", "files/m: cannot be locked: No locks available", RUN_M);
    fault_setting.file_system = 0x6969;
    REFUSED("NFS",
            "files/m: on a network file system, where a lock cannot be trusted; use a copy on a "
            "disk of this computer",
            RUN_M);
    fault_setting.file_system = 0xFF534D42;
    REFUSED("SMB",
            "files/n: on a network file system, where a lock cannot be trusted; use a copy on a "
            "disk of this computer",
            "new", "files/n");
    fault_setting.file_system = 0xFE534D42;
    REFUSED("SMB: carry-over",
            "kept/earlier: on a network file system, where a lock cannot be trusted; use a copy on "
            "a disk of this computer",
            CARRY);
    carry_pairs();
}

/* What another program does to the machine during a run. */
static void restore_by_rename(void)
{
    copy("kept/other", "files/backup");
    rename("files/backup", "files/m");
}

static void restore_in_place(void)
{
    copy("kept/other", "files/m");
}

static void take_away(void)
{
    unlink("files/m");
}

static void replace_machine(void)
{
    copy("kept/new", "files/next");
    rename("files/next", "files/m");
}

static void replace_earlier(void)
{
    rename("kept/same", "kept/earlier");
}

/* Another program changes the machine while a run is under way; the run is not saved. */
static void disturbed(const char *name, void (*change)(void), const char *names)
{
    before_and_after();
    machine("kept/other", 9);
    fault_setting.kind = HOOK;
    fault_setting.call = "write";
    fault_setting.at = 1;
    fault_setting.hook = change;
    RUN(RUN_M);
    check(text("%s: status 1", name), outcome.status == 1);
    same_text(text("%s: the line", name),
              "service: files/m: another program has changed it meanwhile; it is left so\n",
              outcome.err);
    same_text(text("%s: the files", name), names, names_in("files"));
    if (*names != '\0')
        same_bytes(text("%s: left alone", name), "kept/other", "files/m");
}

/* Another machine in the same folder is made and run meanwhile. */
static void use_other(void)
{
    fault_setting.kind = NONE;
    wait_for(start((char *[]){"service", "new", "files/n", NULL}));
    wait_for(start((char *[]){"service", "run", "kept/program", "files/n", "3", NULL}));
}

static void make_machine(void)
{
    copy("kept/new", "files/n");
}

static void test_others(void)
{
    pid_t child;

    section("backups, and other programs");
    disturbed("a backup moved to its name", restore_by_rename, "m");
    disturbed("a backup copied over it", restore_in_place, "m");
    disturbed("a machine taken away", take_away, "");

    /* A backup restored after a cut is left alone: by move and by copy. */
    for (int moved = 0; moved < 2; moved++) {
        before_and_after();
        machine("kept/other", 9);
        child = waiting_at("rename", 1, run_m);
        kill(child, SIGKILL);
        wait_for(child);
        check("a cut leaves the temporary file", strcmp(names_in("files"), "m") != 0);
        if (moved)
            restore_by_rename();
        else
            restore_in_place();
        ACCEPTED("a run after the restored backup", "0 0 00000000\n", "run", "kept/program",
                 "files/m", "0");
        same_bytes("the backup is left alone", "kept/other", "files/m");
        same_text("and no other file is there", "m", names_in("files"));
    }
    /* The machine is replaced between its opening and its locking: the new one is run. */
    before_and_after();
    fault_setting.kind = HOOK;
    fault_setting.call = "flock";
    fault_setting.at = 1;
    fault_setting.hook = replace_machine;
    ACCEPTED("replaced before the lock", "0 0 00000000\n", "run", "kept/program", "files/m", "0");
    same_text("replaced before the lock: the machine", "new", found());
    before_and_after();
    set_word("kept/earlier", EARLIER_CELLS + 1, 8);
    fault_setting.kind = HOOK;
    fault_setting.call = "flock";
    fault_setting.at = 1;
    fault_setting.hook = replace_earlier;
    ACCEPTED("replaced before the lock: carry-over", CARRIED, CARRY);
    same_bytes("replaced before the lock: the one carried over", "kept/carried", "files/n");
    /* A file comes by the name of a new machine. */
    before_and_after();
    fault_setting.kind = HOOK;
    fault_setting.call = "rename";
    fault_setting.at = 1;
    fault_setting.hook = make_machine;
    RUN("new", "files/n");
    same_text("a file that comes by the name of a new one",
              "service: files/n: is there already; nothing is changed\n", outcome.err);
    same_bytes("that file is left alone", "kept/new", "files/n");
    before_and_after();
    fault_setting.kind = HOOK;
    fault_setting.call = "rename";
    fault_setting.at = 1;
    fault_setting.hook = make_machine;
    RUN(CARRY);
    check("a file that comes by the name of carry-over's", outcome.status == 1);
    same_text("a file that comes by the name of carry-over's: the line",
              "service: files/n: is there already; nothing is changed\n", outcome.err);
    same_bytes("a file that comes by the name of carry-over's is left alone", "kept/new", "files/n");
    /* The temporary file of a run under way is no left over. */
    before_and_after();
    fault_setting.kind = HOOK;
    fault_setting.call = "write";
    fault_setting.at = 2;
    fault_setting.hook = use_other;
    ACCEPTED("another machine in the folder meanwhile", "3 0 00000000\n", RUN_M);
    same_text("both machines", "m n", names_in("files"));
    same_bytes("this one", "kept/new", "files/m");
    same_number("the other one", 5, word_at("files/n", CELLS + 1));
    /* Files with names almost like a temporary one are no left overs. */
    before_and_after();
    write_text("files/.service-0123456789abcde", "");
    write_text("files/.service-0123456789abcdefg", "");
    write_text("files/.service-0123456789abcdeF", "");
    write_text("files/.service-0123456789abcdef", "");
    mkdir("files/.service-0123456789abcdee", 0777);
    check("a link", symlink("m", "files/.service-0123456789abcded") == 0);
    RUN(RUN_M);
    same_text("only left overs are removed",
              ".service-0123456789abcde .service-0123456789abcdeF .service-0123456789abcded "
              ".service-0123456789abcdee .service-0123456789abcdefg m",
              names_in("files"));
    /* Other hard links keep the state before. */
    before_and_after();
    check("a hard link", link("files/m", "kept/second") == 0);
    ACCEPTED("a machine with two names", "3 0 00000000\n", RUN_M);
    same_bytes("the other name has the old one", "kept/old", "kept/second");
}

static void interrupt(void)
{
    raise(SIGTERM);
}

static void test_signals(void)
{
    section("signals");
    before_and_after();
    fault_setting.kind = HOOK;
    fault_setting.call = "coffee_run";
    fault_setting.at = 3;
    fault_setting.hook = interrupt;
    REFUSED("SIGTERM during the steps",
            "files/m: a signal ended the run after 2000000 steps; nothing is changed", "run",
            "kept/program", "files/m", "9000000");
    fault_setting.kind = HOOK;
    fault_setting.call = "write";
    fault_setting.at = 1;
    fault_setting.hook = interrupt;
    ACCEPTED("SIGTERM during the save", "3 0 00000000\n", RUN_M);
    same_text("SIGTERM during the save: the machine", "new", found());
}

/* On a terminal a line counts the steps, once a second. */
static void test_terminal(void)
{
    int terminal = posix_openpt(O_RDWR | O_NOCTTY | O_CLOEXEC), slave;
    struct timespec pause = {2, 300000000};
    char shown[4096] = "", *at = shown;
    unsigned long long done, steps, rate;
    unsigned lines = 0;
    ssize_t len;
    pid_t child;

    section("the line on a terminal");
    before_and_after();
    if (terminal < 0 || grantpt(terminal) != 0 || unlockpt(terminal) != 0 ||
        (slave = open(ptsname(terminal), O_RDWR | O_NOCTTY | O_CLOEXEC)) < 0) {
        skip("a terminal: none can be had");
        return;
    }
    child = start_to(
        (char *[]){"service", "run", "kept/program", "files/m", "1000000000000", NULL}, slave,
        slave);
    nanosleep(&pause, NULL);
    kill(child, SIGINT);
    check("Ctrl-C gives status 1", wait_for(child) == 1);
    len = read(terminal, shown, sizeof shown - 1);
    shown[len < 0 ? 0 : len] = '\0';
    for (; sscanf(at, "\r%llu of %llu steps, %llu a second ", &done, &steps, &rate) == 3; lines++)
        at = strstr(at, "a second ") + strlen("a second ");
    check("one line a second", lines >= 1 && lines <= 3 && steps == 1000000000000);
    check("then the end", strncmp(at, "\r\nservice: files/m: a signal ended the run after ", 48) == 0);
    same_text("the machine is as it was", "old", found());
    close(slave);
    close(terminal);
}

void test_saving(void)
{
    test_outputs();
    test_full();
    test_rights();
    test_order_of_calls();
    test_faults();
    test_locks();
    test_others();
    test_signals();
    test_terminal();
}
