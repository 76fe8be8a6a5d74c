#define _POSIX_C_SOURCE 200809L
#include "output.h"

#include "message.h"

#include <errno.h>
#include <stdlib.h>
#include <string.h>
#include <sys/stat.h>

static int is_standard(const char *name)
{
    return !name || strcmp(name, "-") == 0;
}

void check_against(const char *name, const char *input)
{
    struct stat out, in;

    if (!input || is_standard(name) || stat(name, &out) != 0 || !S_ISREG(out.st_mode))
        return;
    if ((is_standard(input) ? fstat(0, &in) : stat(input, &in)) != 0)
        return;
    if (in.st_dev == out.st_dev && in.st_ino == out.st_ino)
        stop("-o %s: it is read, and is not overwritten", shown(name));
}

void check_output(const char *name, char **inputs, size_t count)
{
    size_t at;

    for (at = 0; at < count; at++)
        check_against(name, inputs[at]);
}

FILE *open_output(const char *name)
{
    FILE *to = is_standard(name) ? stdout : fopen(name, "wb");
    if (!to)
        stop("%s: cannot be written: %s", shown(name), strerror(errno));
    return to;
}

void close_output(FILE *to, const char *name)
{
    int failed = ferror(to);

    if (fclose(to) || failed)
        stop("%s: cannot be written: %s", is_standard(name) ? "standard output" : shown(name),
             strerror(errno));
}

void gather(gathered *into, const void *bytes, size_t length)
{
    if (length > into->room - into->length) {
        into->room = 2 * (into->room + length);
        into->bytes = realloc(into->bytes, into->room);
        if (!into->bytes)
            stop("no memory: %s", strerror(errno));
    }
    if (length)
        memcpy(into->bytes + into->length, bytes, length);
    into->length += length;
}

void begin_draft(draft *made)
{
    made->text = NULL;
    made->length = 0;
    made->to = open_memstream(&made->text, &made->length);
    if (!made->to)
        stop("no memory: %s", strerror(errno));
}

void end_draft(draft *made)
{
    int failed = ferror(made->to);

    if (fclose(made->to) || failed)
        stop("no memory: %s", strerror(errno));
    made->to = NULL;
}
