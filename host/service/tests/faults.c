/* Faults: stand-ins for calls of the system and of the library, by the linker's --wrap. */
#include "faults.h"

#include <coffee.h>
#include <errno.h>
#include <fcntl.h>
#include <signal.h>
#include <stdarg.h>
#include <stdio.h>
#include <string.h>
#include <sys/file.h>
#include <sys/mman.h>
#include <sys/vfs.h>
#include <time.h>
#include <unistd.h>

int __real_openat(int folder, const char *path, int flags, ...);
ssize_t __real_read(int file, void *bytes, size_t len);
ssize_t __real_write(int file, const void *bytes, size_t len);
int __real_fsync(int file);
int __real_flock(int file, int what);
int __real_fchmod(int file, mode_t mode);
int __real_renameat2(int from, const char *old, int to, const char *new, unsigned flags);
int __real_unlinkat(int folder, const char *path, int flags);
int __real_fstatfs(int file, struct statfs *state);
void *__real_malloc(size_t len);
void *__real_calloc(size_t count, size_t len);
void *__real_realloc(void *at, size_t len);
struct coffee_answer __real_coffee_run(const uint8_t *program, size_t program_bytes,
                                       uint32_t *cells, size_t cell_count, const uint8_t *image,
                                       size_t image_bytes, const uint32_t *requests,
                                       size_t request_count, uint32_t limit, uint8_t *buffer,
                                       size_t buffer_bytes);
uint32_t __real_coffee_reset(uint8_t *buffer, size_t buffer_bytes);
uint32_t __real_coffee_carry_over(const uint8_t *image, size_t image_bytes, uint8_t *buffer,
                                  size_t buffer_bytes);
uint32_t __real_coffee_listing(const uint8_t *program, size_t program_bytes, uint32_t wide,
                               uint8_t *text, size_t text_bytes);
uint64_t __real_coffee_encode(uint32_t operation, uint32_t wide, uint32_t conditional,
                              uint32_t creg, uint32_t condition, int32_t a, int32_t b, int32_t c,
                              int32_t d);
uint32_t __real_coffee_reach(const uint8_t *program, size_t program_bytes, uint32_t wide,
                             uint32_t start, uint8_t *map, size_t map_bytes);

struct fault_setting fault_setting;

/* In a child, between begin_fault and end_fault. */
static bool in_child;

/* Shared with the child: whether the fault has come. */
static volatile int *came;

void no_fault(void)
{
    fault_setting = (struct fault_setting){0};
    if (came == NULL)
        came = mmap(NULL, sizeof *came, PROT_READ | PROT_WRITE, MAP_SHARED | MAP_ANONYMOUS, -1, 0);
}

void expect_fault(void)
{
    *came = 0;
}

void begin_fault(void)
{
    in_child = true;
}

void end_fault(void)
{
    in_child = false;
}

bool fault_came(void)
{
    return *came != 0;
}

void await_fault(void)
{
    struct timespec pause = {0, 100000};

    for (int i = 0; i < 100000 && !fault_came(); i++)
        nanosleep(&pause, NULL);
}

/* Adds a call to the log. */
static void log_call(const char *call, const char *name)
{
    char line[400];
    int len;

    if (fault_setting.log <= 0)
        return;
    if (strncmp(name, ".service-", 9) == 0)
        name = "TEMPORARY";
    len = snprintf(line, sizeof line, "%s %s\n", call, name);
    if (__real_write(fault_setting.log, line, (size_t)len) != len)
        _exit(98);
}

/* The last part of an open file's path. */
static const char *name_of(int file)
{
    static char path[4096];
    char entry[64];
    ssize_t len;
    char *slash;

    snprintf(entry, sizeof entry, "/proc/self/fd/%d", file);
    len = readlink(entry, path, sizeof path - 1);
    path[len < 0 ? 0 : len] = '\0';
    slash = strrchr(path, '/');
    return slash == NULL ? path : slash + 1;
}

/* Has the fault come, if this is the call; tells whether the call fails. */
static bool goes_wrong(const char *call)
{
    static unsigned calls;
    const struct fault_setting *set = &fault_setting;

    if (!in_child || set->kind == NONE || (set->call != NULL && strcmp(set->call, call) != 0))
        return false;
    calls++;
    if (calls < set->at || (calls > set->at && set->kind != DEAD))
        return false;
    *came = 1;
    if (set->kind == CUT)
        kill(getpid(), SIGKILL);
    while (set->kind == WAIT)
        pause();
    if (set->kind == HOOK) {
        in_child = false;
        set->hook();
        in_child = true;
        return false;
    }
    errno = set->error != 0 ? set->error : EIO;
    return true;
}

/* Whether the library refuses a call: as every one, or as the one that fails. */
static bool is_refused(const char *call)
{
    bool wrong = goes_wrong(call);

    return in_child && fault_setting.refusal != 0 && (wrong || fault_setting.kind == NONE);
}

int __wrap_openat(int folder, const char *path, int flags, ...)
{
    va_list rest;
    mode_t mode = 0;

    if (goes_wrong("openat"))
        return -1;
    if (flags & O_CREAT) {
        va_start(rest, flags);
        mode = va_arg(rest, mode_t);
        va_end(rest);
    }
    return __real_openat(folder, path, flags, mode);
}

ssize_t __wrap_read(int file, void *bytes, size_t len)
{
    return goes_wrong("read") ? -1 : __real_read(file, bytes, len);
}

/* Writes to a file in two calls: half of the bytes, then the rest. */
ssize_t __wrap_write(int file, const void *bytes, size_t len)
{
    static bool half;

    if (!in_child)
        return __real_write(file, bytes, len);
    log_call("write", name_of(file));
    if (goes_wrong("write"))
        return -1;
    half = !half;
    return __real_write(file, bytes, half ? (len + 1) / 2 : len);
}

int __wrap_fsync(int file)
{
    if (in_child)
        log_call("fsync", name_of(file));
    return goes_wrong("fsync") ? -1 : __real_fsync(file);
}

int __wrap_flock(int file, int what)
{
    if (in_child)
        log_call("flock", name_of(file));
    return goes_wrong("flock") ? -1 : __real_flock(file, what);
}

int __wrap_fchmod(int file, mode_t mode)
{
    return goes_wrong("fchmod") ? -1 : __real_fchmod(file, mode);
}

int __wrap_renameat2(int from, const char *old, int to, const char *new, unsigned flags)
{
    if (in_child)
        log_call("rename", old);
    return goes_wrong("rename") ? -1 : __real_renameat2(from, old, to, new, flags);
}

int __wrap_unlinkat(int folder, const char *path, int flags)
{
    if (in_child)
        log_call("unlink", path);
    return goes_wrong("unlink") ? -1 : __real_unlinkat(folder, path, flags);
}

int __wrap_fstatfs(int file, struct statfs *state)
{
    int done = __real_fstatfs(file, state);

    if (in_child && fault_setting.file_system != 0)
        state->f_type = fault_setting.file_system;
    return done;
}

void *__wrap_malloc(size_t len)
{
    return goes_wrong("malloc") ? NULL : __real_malloc(len);
}

void *__wrap_calloc(size_t count, size_t len)
{
    return goes_wrong("malloc") ? NULL : __real_calloc(count, len);
}

void *__wrap_realloc(void *at, size_t len)
{
    return goes_wrong("malloc") ? NULL : __real_realloc(at, len);
}

struct coffee_answer __wrap_coffee_run(const uint8_t *program, size_t program_bytes,
                                       uint32_t *cells, size_t cell_count, const uint8_t *image,
                                       size_t image_bytes, const uint32_t *requests,
                                       size_t request_count, uint32_t limit, uint8_t *buffer,
                                       size_t buffer_bytes)
{
    if (is_refused("coffee_run"))
        return (struct coffee_answer){fault_setting.refusal, 0, 0};
    return __real_coffee_run(program, program_bytes, cells, cell_count, image, image_bytes,
                             requests, request_count, limit, buffer, buffer_bytes);
}

uint32_t __wrap_coffee_reset(uint8_t *buffer, size_t buffer_bytes)
{
    if (in_child && fault_setting.refusal != 0)
        return fault_setting.refusal;
    return __real_coffee_reset(buffer, buffer_bytes);
}

uint32_t __wrap_coffee_carry_over(const uint8_t *image, size_t image_bytes, uint8_t *buffer,
                                  size_t buffer_bytes)
{
    if (in_child && fault_setting.refusal != 0)
        return fault_setting.refusal;
    return __real_coffee_carry_over(image, image_bytes, buffer, buffer_bytes);
}

uint32_t __wrap_coffee_listing(const uint8_t *program, size_t program_bytes, uint32_t wide,
                               uint8_t *text, size_t text_bytes)
{
    if (is_refused("coffee_listing"))
        return fault_setting.refusal;
    return __real_coffee_listing(program, program_bytes, wide, text, text_bytes);
}

uint32_t __wrap_coffee_reach(const uint8_t *program, size_t program_bytes, uint32_t wide,
                             uint32_t start, uint8_t *map, size_t map_bytes)
{
    if (is_refused("coffee_reach"))
        return fault_setting.refusal;
    return __real_coffee_reach(program, program_bytes, wide, start, map, map_bytes);
}

uint64_t __wrap_coffee_encode(uint32_t operation, uint32_t wide, uint32_t conditional,
                              uint32_t creg, uint32_t condition, int32_t a, int32_t b, int32_t c,
                              int32_t d)
{
    uint64_t answer = __real_coffee_encode(operation, wide, conditional, creg, condition, a, b, c,
                                           d);

    if (in_child && fault_setting.encoded != 0 && answer == fault_setting.word)
        return fault_setting.encoded;
    return answer;
}
