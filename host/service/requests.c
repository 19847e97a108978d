/* The interrupt requests of a run, by the number of the step that has them. */
#include "requests.h"

#include "report.h"
#include "text.h"

#include <coffee.h>
#include <inttypes.h>
#include <stdlib.h>
#include <string.h>

enum { LONGEST_TEXT = 10000000 };

/* Splits a line `N: HEX`; gives the length of N, or 0 when there is no colon. */
static size_t number_length(const char *line, size_t len)
{
    const char *colon = memchr(line, ':', len);

    return colon == NULL ? 0 : (size_t)(colon - line);
}

/* Reads a line without its end. The step is that after the line before, if the line says none. */
static bool read_line(const char *line, size_t len, uint64_t *step, uint32_t *flags)
{
    size_t digits = number_length(line, len);

    if (digits > 0) {
        if (!read_digits(line, digits, 10, step))
            return false;
        line += digits + 1;
        len -= digits + 1;
        for (; len > 0 && *line == ' '; len--)
            line++;
    }
    return read_hexadecimal(line, len, flags);
}

/* Adds the requests of a step. */
static bool add(const char *path, struct requests *requests, struct request request)
{
    size_t len = requests->len;

    /* Room is doubled at 0, 1, 2, 4, .. */
    if ((len & (len - 1)) == 0) {
        struct request *at =
            realloc(requests->at, (len == 0 ? 1 : 2 * len) * sizeof *requests->at);

        if (at == NULL)
            return complain_of_errno(path);
        requests->at = at;
    }
    requests->at[requests->len++] = request;
    return true;
}

/* Reads one line; `last` is the step of the line before, and becomes that of this one. */
static bool take_line(const char *path, const char *text, size_t len, uint32_t line,
                      uint64_t *last, struct requests *requests)
{
    struct request request = {*last + 1, 0, line};

    if (len > 0 && text[len - 1] == '\r')
        len--;
    if (!read_line(text, len, &request.step, &request.flags))
        return complain(path, "line %" PRIu32 " is neither HEX, 1 to 8 hexadecimal digits, nor N: HEX",
                        line);
    if (request.step == 0)
        return complain(path, "line %" PRIu32 ": steps are counted from 1", line);
    if (request.step > MOST_STEPS)
        return complain(path, "line %" PRIu32 ": a step above 1,000,000,000,000", line);
    if (request.step <= *last)
        return complain(path, "line %" PRIu32 ": step %" PRIu64 " does not come after step %" PRIu64,
                        line, request.step, *last);
    *last = request.step;
    return request.flags == 0 || add(path, requests, request);
}

/* Reads all lines of a text. */
static bool take_text(const char *path, const struct bytes *bytes, struct requests *requests)
{
    const char *text = (const char *)bytes->at;
    uint64_t last = 0;
    uint32_t line = 0;

    for (size_t at = 0; at < bytes->len;) {
        const char *end = memchr(text + at, '\n', bytes->len - at);
        size_t len = end == NULL ? bytes->len - at : (size_t)(end - text) - at;

        if (!take_line(path, text + at, len, ++line, &last, requests))
            return false;
        at += len + 1;
    }
    return true;
}

/* Reads the text of a file. */
static bool read_text(const char *path, struct requests *requests)
{
    struct bytes text;
    bool done;

    if (!read_file(path, LONGEST_TEXT + 1, &text))
        return false;
    done = text.len <= LONGEST_TEXT ? take_text(path, &text, requests)
                                    : complain(path, "longer than 10,000,000 bytes");
    free(text.at);
    return done;
}

bool read_requests(const char *path, struct requests *requests)
{
    *requests = (struct requests){0};
    if (path == NULL)
        return true;
    if (!read_text(path, requests))
        return false;
    if (requests->len == 0)
        return true;
    requests->list = calloc(COFFEE_STEPS_MAX, sizeof *requests->list);
    return requests->list != NULL || complain_of_errno(path);
}

size_t make_list(struct requests *requests, uint64_t first, uint32_t steps)
{
    size_t len = 0;

    while (requests->next < requests->len && requests->at[requests->next].step - first < steps) {
        const struct request *request = &requests->at[requests->next++];

        len = (size_t)(request->step - first) + 1;
        requests->list[len - 1] = request->flags;
    }
    return len;
}

void clear_list(struct requests *requests, size_t len)
{
    if (len > 0)
        memset(requests->list, 0, len * sizeof *requests->list);
}

void free_requests(struct requests *requests)
{
    free(requests->at);
    free(requests->list);
}
