/* What the tests share: the service program as a child process, files made from words, checks and
   their count. Every test works in a folder of its own, with nothing else in it. */
#ifndef HARNESS_H
#define HARNESS_H

#include <stdbool.h>
#include <stddef.h>
#include <stdint.h>
#include <sys/types.h>

/* ---- checks */

void section(const char *name);
void pass(const char *name);
__attribute__((format(printf, 2, 3))) void fail(const char *name, const char *text, ...);
void skip(const char *name);

/* Passes or fails; gives the condition. */
bool check(const char *name, bool condition);
void same_number(const char *name, uint64_t expected, uint64_t found);
void same_text(const char *name, const char *expected, const char *found);

/* ---- files */

/* Where the tests' own files are, as expected/reset.words. */
extern const char *test_folder;

/* Makes the folder of tests anew and goes there. */
void fresh(void);

/* The path of that folder. */
const char *here(void);

/* Removes the folder of tests. */
void remove_folder(void);

/* Text on a heap that is freed with the next fresh(). */
__attribute__((format(printf, 1, 2))) char *text(const char *format, ...);

void write_bytes(const char *path, const void *bytes, size_t len);
void write_text(const char *path, const char *content);

/* Takes the next number of hexadecimal text; false at its end. */
bool take_number(const char **words, uint32_t *number);

/* Puts words of so many bytes, high byte first, from hexadecimal text; gives their length. */
size_t put_words(uint8_t *at, size_t bytes, const char *words);

/* A file of 32-bit words, from such text. */
void write_words(const char *path, const char *words);

/* A file of zeros. */
void write_zeros(const char *path, size_t len);

/* A file's bytes, freed with the next fresh(); len may be NULL. Fails when there is none. */
uint8_t *read_bytes(const char *path, size_t *len);

/* The 32-bit word at a place, counted in words. */
uint32_t word_at(const char *path, size_t place);
void set_word(const char *path, size_t place, uint32_t word);

/* Sets words from a place on, from hexadecimal text. */
void set_words(const char *path, size_t place, const char *words);

/* Words of a file as hexadecimal text with single blanks. */
char *words_of(const char *path, size_t first, size_t count);

void copy(const char *from, const char *to);
bool same_files(const char *one, const char *other);
void same_bytes(const char *name, const char *expected, const char *found);

/* The rights of a file, or 0 where there is none. */
unsigned rights_of(const char *path);

/* The names in a folder, sorted, with single blanks. */
char *names_in(const char *path);

/* Names, owners, rights, times and contents of all in the folder of tests. */
char *snapshot(void);

/* Writes a file of 32-bit words that the tests keep, as expected/reset.words. */
void stored(const char *path, const char *name);

/* Writes the image at reset as a plain image, and as a machine with so many zero cells. */
void plain_image(const char *path);
void machine(const char *path, size_t cells);

/* The same in the earlier layout. */
void earlier_image(const char *path);
void earlier_machine(const char *path, size_t cells);

/* ---- the service program */

/* STORED is in the file 'out'. */
enum output { CAPTURED, CLOSED, FULL, BROKEN, STORED };

/* How the next child is run; fresh() and each run make it all 0 again. */
extern struct setting {
    enum output output;
    uid_t user;         /* and group; 0: the tests' own */
    gid_t group, more;  /* 0: that of the user; a further group */
    long file_limit;    /* longest file plus 1, or 0 */
    bool quick;         /* without a search for leaks */
    bool no_input;      /* standard input is closed */
} setting;

/* What came of a run. */
extern struct outcome {
    int status; /* exit status, or 256 and the signal */
    char out[70000], err[8192];
} outcome;

/* Starts the program with these outputs, or with none; the words end with NULL. */
pid_t start_to(char *const *words, int out, int err);
pid_t start(char *const *words);

/* Waits for a child; gives exit status, or 256 and the signal. */
int wait_for(pid_t child);

/* Runs the program with these words. */
void run_words(char *const *words);
#define RUN(...) run_words((char *[]){"service", __VA_ARGS__, NULL})

/* The program has status 0, this output, and nothing on standard error. */
void accepted_words(const char *name, const char *out, char *const *words);
#define ACCEPTED(name, out, ...) accepted_words(name, out, (char *[]){"service", __VA_ARGS__, NULL})

/* The program has this status, no output, this line on standard error, and the folder is as it
   was. */
void refused_words(const char *name, int status, const char *err, char *const *words);
#define REFUSED(name, err, ...) \
    refused_words(name, 1, err, (char *[]){"service", __VA_ARGS__, NULL})
#define MISUSED(name, err, ...) \
    refused_words(name, 2, err, (char *[]){"service", __VA_ARGS__, NULL})

/* The program prints to a full output, to none and to a broken pipe: each time it has status 1, one
   line tells why, and the folder is as it was. */
void unprinted_words(const char *name, char *const *words);
#define UNPRINTED(name, ...) unprinted_words(name, (char *[]){"service", __VA_ARGS__, NULL})

/* The program prints more than 1,000,000 bytes to a reader that goes away, and to a file that may
   not grow so far: it has status 1, and one line tells why. */
void cut_off_words(const char *name, char *const *words);
#define CUT_OFF(name, ...) cut_off_words(name, (char *[]){"service", __VA_ARGS__, NULL})

/* ---- parts of the tests */

void test_commands(void);
void test_messages(void);
void test_encode(void);
void test_reach(void);
void test_carry(void);
void test_saving(void);
void test_kills(void);
void test_pairs(void);
void test_check(void);

#endif
