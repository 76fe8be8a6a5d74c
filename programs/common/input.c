#include "input.h"

#include "message.h"

#include <errno.h>
#include <stdlib.h>
#include <string.h>

#define WINDOW (2 * INPUT_AHEAD)

int try_input(input *in, const char *name)
{
    *in = input_of(name, NULL, 0);
    in->file = strcmp(name, "-") == 0 ? stdin : fopen(name, "rb");
    in->window = in->file ? malloc(WINDOW) : NULL;
    return in->window ? 0 : errno;
}

int open_input(input *in, const char *name)
{
    int why = try_input(in, name);

    if (why)
        tell("%s: cannot be read: %s", shown(name), strerror(why));
    return !why;
}

input input_of(const char *name, const uint8_t *bytes, size_t length)
{
    input made = {NULL, 0, NULL, 0, NULL, 0, NULL};
    made.name = name;
    made.next = bytes;
    made.left = length;
    return made;
}

size_t look(input *in, size_t wanted)
{
    if (in->left >= wanted || !in->file)
        return in->left;
    if (in->left)
        memmove(in->window, in->next, in->left);
    in->next = in->window;
    in->left += fread(in->window + in->left, 1, WINDOW - in->left, in->file);
    if (in->left < WINDOW) {
        in->failed = ferror(in->file) ? errno : 0;
        if (in->file != stdin)
            fclose(in->file);
        in->file = NULL;
    }
    return in->left;
}

void pass(input *in, size_t count)
{
    in->next += count;
    in->left -= count;
    in->place += count;
}

int end_input(input *in)
{
    if (in->file && in->file != stdin)
        fclose(in->file);
    in->file = NULL;
    free(in->window);
    in->window = NULL;
    return in->failed;
}

int close_input(input *in)
{
    int why = end_input(in);

    if (why)
        tell("%s: cannot be read: %s", shown(in->name), strerror(why));
    return !why;
}
