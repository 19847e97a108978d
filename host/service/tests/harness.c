/* What the tests share. */
#include "harness.h"

#include "faults.h"

#include <dirent.h>
#include <errno.h>
#include <fcntl.h>
#include <grp.h>
#include <signal.h>
#include <stdarg.h>
#include <stdio.h>
#include <stdlib.h>
#include <string.h>
#include <sys/resource.h>
#include <sys/stat.h>
#include <sys/wait.h>
#include <unistd.h>

int service_main(int count, char **words);

/* Little memory is kept, so that children are made fast. */
const char *__asan_default_options(void);
const char *__asan_default_options(void)
{
    return "quarantine_size_mb=1:malloc_context_size=6";
}

const char *test_folder;
struct setting setting;
struct outcome outcome;

static unsigned passed, failed, skipped;
static char folder[200];
static pid_t tester;
static void *kept[100000];
static size_t kept_count;

/* ---- checks */

void section(const char *name)
{
    printf("%s\n", name);
    fflush(stdout);
}

void pass(const char *name)
{
    (void)name;
    passed++;
}

void fail(const char *name, const char *format, ...)
{
    va_list values;

    failed++;
    printf("  FAILED  %s: ", name);
    va_start(values, format);
    vprintf(format, values);
    va_end(values);
    printf("\n");
    fflush(stdout);
}

void skip(const char *name)
{
    skipped++;
    printf("  skipped %s\n", name);
}

bool check(const char *name, bool condition)
{
    if (condition)
        pass(name);
    else
        fail(name, "is not so");
    return condition;
}

void same_number(const char *name, uint64_t expected, uint64_t found)
{
    if (expected == found)
        pass(name);
    else
        fail(name, "expected %llX, found %llX", (unsigned long long)expected,
             (unsigned long long)found);
}

void same_text(const char *name, const char *expected, const char *found)
{
    if (strcmp(expected, found) == 0)
        pass(name);
    else
        fail(name, "\n    expected %s\n    found    %s", expected, found);
}

/* Ends the tests where they cannot go on. */
static void need(bool condition, const char *what)
{
    if (condition)
        return;
    printf("cannot go on: %s: %s\n", what, strerror(errno));
    if (getpid() == tester)
        remove_folder();
    exit(1);
}

/* ---- files */

/* Keeps an allocation until the next fresh(). */
static void *keep(void *at)
{
    need(at != NULL && kept_count < sizeof kept / sizeof kept[0], "memory");
    kept[kept_count++] = at;
    return at;
}

static void forget(void)
{
    while (kept_count > 0)
        free(kept[--kept_count]);
}

/* Removes a folder with all in it. */
static void remove_tree(int parent, const char *name)
{
    int here = openat(parent, name, O_RDONLY | O_DIRECTORY | O_NOFOLLOW | O_CLOEXEC);
    DIR *entries = here < 0 ? NULL : fdopendir(here);
    struct dirent *entry;

    if (entries != NULL) {
        fchmod(here, 0700);
        while ((entry = readdir(entries)) != NULL) {
            if (strcmp(entry->d_name, ".") != 0 && strcmp(entry->d_name, "..") != 0 &&
                unlinkat(here, entry->d_name, 0) != 0)
                remove_tree(here, entry->d_name);
        }
        closedir(entries);
    }
    unlinkat(parent, name, AT_REMOVEDIR);
}

const char *here(void)
{
    return folder;
}

void remove_folder(void)
{
    if (folder[0] != '\0' && chdir("/") == 0)
        remove_tree(AT_FDCWD, folder);
}

void fresh(void)
{
    const char *parent = getenv("TMPDIR");

    forget();
    setting = (struct setting){0};
    no_fault();
    /* In memory where it can be, since a save waits for the disk. */
    if (parent == NULL)
        parent = access("/dev/shm", W_OK) == 0 ? "/dev/shm" : "/tmp";
    if (folder[0] == '\0')
        snprintf(folder, sizeof folder, "%s/service-test-%d", parent, (int)getpid());
    remove_folder();
    need(mkdir(folder, 0777) == 0 && chdir(folder) == 0 && chmod(".", 0777) == 0, folder);
}

char *text(const char *format, ...)
{
    va_list values;
    char *made;

    va_start(values, format);
    need(vasprintf(&made, format, values) >= 0, "memory");
    va_end(values);
    return keep(made);
}

void write_bytes(const char *path, const void *bytes, size_t len)
{
    int file = open(path, O_WRONLY | O_CREAT | O_TRUNC | O_CLOEXEC, 0644);

    need(file >= 0, path);
    for (size_t at = 0; at < len;) {
        ssize_t put = write(file, (const char *)bytes + at, len - at);

        need(put > 0, path);
        at += (size_t)put;
    }
    close(file);
}

void write_text(const char *path, const char *content)
{
    write_bytes(path, content, strlen(content));
}

void write_zeros(const char *path, size_t len)
{
    write_bytes(path, "", 0);
    need(truncate(path, (off_t)len) == 0, path);
}

/* Puts a word of so many bytes, high byte first. */
static void put_word(uint8_t *at, size_t bytes, uint32_t word)
{
    for (size_t i = 0; i < bytes; i++)
        at[i] = (uint8_t)(word >> 8 * (bytes - 1 - i));
}

bool take_number(const char **words, uint32_t *number)
{
    char *end;

    *number = (uint32_t)strtoul(*words, &end, 16);
    if (end == *words)
        return false;
    *words = end;
    return true;
}

size_t put_words(uint8_t *at, size_t bytes, const char *words)
{
    size_t len = 0;
    uint32_t word;

    for (; take_number(&words, &word); len += bytes)
        put_word(at + len, bytes, word);
    return len;
}

void write_words(const char *path, const char *words)
{
    uint8_t bytes[8192];

    write_bytes(path, bytes, put_words(bytes, 4, words));
}

uint8_t *read_bytes(const char *path, size_t *len)
{
    int file = open(path, O_RDONLY | O_CLOEXEC);
    struct stat state;
    uint8_t *bytes;

    need(file >= 0 && fstat(file, &state) == 0, path);
    bytes = keep(malloc((size_t)state.st_size + 1));
    need(read(file, bytes, (size_t)state.st_size) == state.st_size, path);
    bytes[state.st_size] = '\0';
    close(file);
    if (len != NULL)
        *len = (size_t)state.st_size;
    return bytes;
}

uint32_t word_at(const char *path, size_t place)
{
    size_t len;
    const uint8_t *at = read_bytes(path, &len) + 4 * place;

    if (len < 4 * place + 4)
        return 0xBAD0BAD0;
    return (uint32_t)at[0] << 24 | (uint32_t)at[1] << 16 | (uint32_t)at[2] << 8 | at[3];
}

void set_word(const char *path, size_t place, uint32_t word)
{
    uint8_t bytes[4];
    int file = open(path, O_WRONLY | O_CLOEXEC);

    put_word(bytes, 4, word);
    need(file >= 0 && pwrite(file, bytes, 4, (off_t)(4 * place)) == 4, path);
    close(file);
}

void set_words(const char *path, size_t place, const char *words)
{
    uint32_t word;

    while (take_number(&words, &word))
        set_word(path, place++, word);
}

char *words_of(const char *path, size_t first, size_t count)
{
    char *words = text("%s", "");

    for (size_t i = 0; i < count; i++)
        words = text("%s%s%08X", words, i == 0 ? "" : " ", word_at(path, first + i));
    return words;
}

void copy(const char *from, const char *to)
{
    size_t len;
    uint8_t *bytes = read_bytes(from, &len);

    write_bytes(to, bytes, len);
}

bool same_files(const char *one, const char *other)
{
    size_t len, other_len;
    uint8_t *bytes = read_bytes(one, &len), *other_bytes = read_bytes(other, &other_len);

    return len == other_len && memcmp(bytes, other_bytes, len) == 0;
}

void same_bytes(const char *name, const char *expected, const char *found)
{
    if (same_files(expected, found))
        pass(name);
    else
        fail(name, "%s and %s differ", expected, found);
}

unsigned rights_of(const char *path)
{
    struct stat state;

    return stat(path, &state) == 0 ? state.st_mode & 07777 : 0;
}

char *names_in(const char *path)
{
    struct dirent **entries;
    int count = scandir(path, &entries, NULL, alphasort);
    char *names = text("%s", "");

    need(count >= 0, path);
    for (int i = 0; i < count; i++) {
        if (strcmp(entries[i]->d_name, ".") != 0 && strcmp(entries[i]->d_name, "..") != 0)
            names = text("%s%s%s", names, *names == '\0' ? "" : " ", entries[i]->d_name);
        free(entries[i]);
    }
    free(entries);
    return names;
}

/* A number that differs for different bytes. */
static uint64_t digest(const uint8_t *bytes, size_t len)
{
    uint64_t number = 14695981039346656037u;

    for (size_t i = 0; i < len; i++)
        number = (number ^ bytes[i]) * 1099511628211u;
    return number;
}

/* Adds all in a folder to a text. */
static char *add_folder(char *all, const char *path)
{
    struct dirent **entries;
    int count = scandir(path, &entries, NULL, alphasort);

    for (int i = 0; i < count; i++) {
        char *name = text("%s/%s", path, entries[i]->d_name);
        struct stat state;
        size_t len = 0;

        need(lstat(name, &state) == 0, name);
        if (strcmp(entries[i]->d_name, ".") != 0 && strcmp(entries[i]->d_name, "..") != 0) {
            uint8_t *bytes = S_ISREG(state.st_mode) ? read_bytes(name, &len) : NULL;

            /* A folder's time is that of the last name in it, a temporary one too. */
            if (S_ISDIR(state.st_mode))
                state.st_mtim = (struct timespec){0, 0};
            all = text("%s%s %o %u %u %llu %lld.%09ld %llx\n", all, name, state.st_mode,
                       state.st_uid, state.st_gid, (unsigned long long)state.st_ino,
                       (long long)state.st_mtim.tv_sec, state.st_mtim.tv_nsec,
                       (unsigned long long)digest(bytes, len));
            if (S_ISDIR(state.st_mode))
                all = add_folder(all, name);
        }
        free(entries[i]);
    }
    if (count >= 0)
        free(entries);
    return all;
}

char *snapshot(void)
{
    return add_folder(text("%s", ""), ".");
}

/* The words of a file that the tests keep, comments left out. */
static size_t stored_words(const char *name, uint8_t *bytes)
{
    const char *at = (const char *)read_bytes(text("%s/%s", test_folder, name), NULL);
    size_t len = 0;

    while (*at != '\0') {
        if (*at == '#') {
            at += strcspn(at, "\n");
        } else if (strchr(" \n", *at) != NULL) {
            at++;
        } else {
            put_word(bytes + len, 4, (uint32_t)strtoul(at, NULL, 16));
            at += 8;
            len += 4;
        }
    }
    return len;
}

void stored(const char *path, const char *name)
{
    uint8_t bytes[1024];

    write_bytes(path, bytes, stored_words(name, bytes));
}

#define RESET "expected/reset.words"

/* The dividers and their count, which the earlier layout has not. */
enum { DIVIDER_BYTES = 12 };

void plain_image(const char *path)
{
    stored(path, RESET);
}

void earlier_image(const char *path)
{
    uint8_t bytes[1024];

    write_bytes(path, bytes, stored_words(RESET, bytes) - DIVIDER_BYTES);
}

/* Writes the image at reset, but for its last bytes, and so many zero cells. */
static void with_cells(const char *path, size_t left_out, size_t cells)
{
    uint8_t *bytes = keep(calloc(1, 1024 + 4 * cells));
    size_t len = stored_words(RESET, bytes) - left_out;

    put_word(bytes + len, 4, (uint32_t)cells);
    memset(bytes + len + 4, 0, 4 * cells);
    write_bytes(path, bytes, len + 4 + 4 * cells);
}

void machine(const char *path, size_t cells)
{
    with_cells(path, 0, cells);
}

void earlier_machine(const char *path, size_t cells)
{
    with_cells(path, DIVIDER_BYTES, cells);
}

/* ---- the service program */

/* Where the child's outputs are read. */
static int out_reader = -1, err_reader = -1;

/* Closes both in the child, which else would wait for itself when nobody reads on. */
static void close_readers(void)
{
    close(out_reader);
    close(err_reader);
    out_reader = err_reader = -1;
}

/* Makes the child's output what the setting says. */
static void set_output(int out, int err)
{
    int broken[2];

    dup2(err, STDERR_FILENO);
    if (setting.no_input)
        close(STDIN_FILENO);
    switch (setting.output) {
    case CAPTURED:
        dup2(out, STDOUT_FILENO);
        break;
    case CLOSED:
        close(STDOUT_FILENO);
        break;
    case FULL:
        dup2(open("/dev/full", O_WRONLY | O_CLOEXEC), STDOUT_FILENO);
        break;
    case BROKEN:
        need(pipe2(broken, O_CLOEXEC) == 0, "a pipe");
        dup2(broken[1], STDOUT_FILENO);
        close(broken[0]);
        close(broken[1]);
        break;
    case STORED:
        dup2(open("out", O_WRONLY | O_CREAT | O_TRUNC | O_CLOEXEC, 0644), STDOUT_FILENO);
        break;
    }
}

/* Makes the child another user, if the setting says so. */
static void set_user(void)
{
    gid_t group = setting.group != 0 ? setting.group : setting.user;

    if (setting.user == 0)
        return;
    need(setgroups(setting.more != 0, &setting.more) == 0 && setgid(group) == 0 &&
             setuid(setting.user) == 0,
         "another user");
}

/* Is the program. */
static void be_service(char *const *words)
{
    struct rlimit limit = {(rlim_t)setting.file_limit - 1, (rlim_t)setting.file_limit - 1};
    int count = 0, status;

    while (words[count] != NULL)
        count++;
    if (setting.file_limit > 0)
        setrlimit(RLIMIT_FSIZE, &limit);
    set_user();
    begin_fault();
    status = service_main(count, (char **)words);
    end_fault();
    fflush(stdout);
    if (setting.quick)
        _exit(status);
    exit(status);
}

pid_t start_to(char *const *words, int out, int err)
{
    pid_t child;

    fflush(stdout);
    expect_fault();
    child = fork();
    need(child >= 0, "fork");
    if (child != 0)
        return child;
    signal(SIGINT, SIG_DFL);
    close_readers();
    set_output(out, err);
    be_service(words);
    return 0;
}

pid_t start(char *const *words)
{
    static int nothing = -1;

    if (nothing < 0)
        nothing = open("/dev/null", O_WRONLY | O_CLOEXEC);
    return start_to(words, nothing, nothing);
}

int wait_for(pid_t child)
{
    int state;

    need(waitpid(child, &state, 0) == child, "wait");
    return WIFEXITED(state) ? WEXITSTATUS(state) : 256 + WTERMSIG(state);
}

/* Reads a pipe to its end. */
static void drain(int from, char *at, size_t room)
{
    size_t len = 0;
    ssize_t got;

    while (len + 1 < room && (got = read(from, at + len, room - len - 1)) > 0)
        len += (size_t)got;
    at[len] = '\0';
    close(from);
}

void run_words(char *const *words)
{
    int out[2], err[2];
    pid_t child;

    need(pipe2(out, O_CLOEXEC) == 0 && pipe2(err, O_CLOEXEC) == 0, "a pipe");
    out_reader = out[0];
    err_reader = err[0];
    child = start_to(words, out[1], err[1]);
    close(out[1]);
    close(err[1]);
    drain(out_reader, outcome.out, sizeof outcome.out);
    drain(err_reader, outcome.err, sizeof outcome.err);
    out_reader = err_reader = -1;
    outcome.status = wait_for(child);
    setting = (struct setting){0};
    no_fault();
}

void accepted_words(const char *name, const char *out, char *const *words)
{
    run_words(words);
    if (outcome.status == 0 && strcmp(outcome.out, out) == 0 && outcome.err[0] == '\0')
        pass(name);
    else
        fail(name, "status %d, expected 0\n    expected %s    found    %s    error    %s",
             outcome.status, out, outcome.out, outcome.err);
}

void refused_words(const char *name, int status, const char *err, char *const *words)
{
    char *before = snapshot();

    run_words(words);
    if (outcome.status != status || outcome.out[0] != '\0')
        fail(name, "status %d, expected %d: %s%s", outcome.status, status, outcome.out,
             outcome.err);
    else if (strcmp(outcome.err, text("service: %s\n", err)) != 0)
        fail(name, "\n    expected service: %s\n    found    %s", err, outcome.err);
    else if (strcmp(before, snapshot()) != 0)
        fail(name, "the folder has changed\n%s%s", before, snapshot());
    else
        pass(name);
}

/* The line on standard error when an output fails. */
static char *output_failed(const char *reason)
{
    return text("standard output: %s; nothing is changed", reason);
}

void unprinted_words(const char *name, char *const *words)
{
    setting.output = FULL;
    refused_words(text("%s to a full output", name), 1, output_failed("No space left on device"),
                  words);
    setting.output = CLOSED;
    refused_words(text("%s to no output", name), 1, output_failed("Bad file descriptor"), words);
    setting.output = BROKEN;
    refused_words(text("%s to a broken pipe", name), 1, output_failed("Broken pipe"), words);
}

/* The program has status 1 and this reason, whatever part of its output has gone out. */
static void cut_off(const char *name, const char *reason, char *const *words)
{
    run_words(words);
    same_number(text("%s: status", name), 1, (uint64_t)outcome.status);
    same_text(text("%s: the line", name), text("service: %s\n", output_failed(reason)),
              outcome.err);
}

void cut_off_words(const char *name, char *const *words)
{
    /* The outcome has room for less than the lines, and its pipe is closed then. */
    cut_off(text("%s to a reader that goes away", name), "Broken pipe", words);
    setting.output = STORED;
    setting.file_limit = 1 + 1000000;
    cut_off(text("%s to a file that may grow to 1,000,000 bytes", name), "File too large", words);
}

/* ---- all tests */

static const struct {
    const char *name;
    void (*test)(void);
} parts[] = {
    {"commands", test_commands}, {"messages", test_messages}, {"encode", test_encode},
    {"reach", test_reach},       {"carry", test_carry},       {"saving", test_saving},
    {"kills", test_kills},       {"pairs", test_pairs},       {"check", test_check},
};

/* tests FOLDER PART..: runs parts of the tests; the last line is 'N passed, N failed'. */
int main(int count, char **words)
{
    tester = getpid();
    need(count > 1 && (test_folder = realpath(words[1], NULL)) != NULL, "the tests' folder");
    for (int i = 2; i < count; i++) {
        for (size_t j = 0; j < sizeof parts / sizeof parts[0]; j++) {
            if (strcmp(words[i], parts[j].name) == 0)
                parts[j].test();
        }
    }
    remove_folder();
    forget();
    free((char *)test_folder);
    if (skipped > 0)
        printf("%u skipped\n", skipped);
    printf("%u passed, %u failed\n", passed, failed);
    return failed == 0 ? 0 : 1;
}
