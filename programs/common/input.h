/* Files that programs read, in pieces: a part of the file stands in memory, and the place that is
 * read next is in it. */
#ifndef INPUT_H
#define INPUT_H

#include <stddef.h>
#include <stdint.h>
#include <stdio.h>

#define INPUT_AHEAD 65536 /* how many bytes can be looked at from a place on */

typedef struct {
    const char *name;   /* as messages show it */
    uint64_t place;     /* of the next byte, counted from 0 */
    const uint8_t *next;
    size_t left;        /* bytes from the next on that stand in memory */
    FILE *file;         /* NULL for bytes in memory, and at the end */
    int failed;         /* the errno of a read that failed */
    uint8_t *window;
} input;

/* Opens a file, "-" for standard input; 0 and a message if it cannot be opened. */
int open_input(input *in, const char *name);

/* The same without a message: answers 0, or the errno if it cannot be opened. */
int try_input(input *in, const char *name);

/* Bytes in memory as an input. */
input input_of(const char *name, const uint8_t *bytes, size_t length);

/* Answers how many bytes from the next on stand in memory: at least as many as are wanted, up to
 * INPUT_AHEAD, if the file has them. */
size_t look(input *in, size_t wanted);

/* Goes past bytes that were looked at. */
void pass(input *in, size_t count);

/* Closes it; 0 and a message if a read failed. */
int close_input(input *in);

/* The same without a message: answers 0, or the errno of a read that failed. */
int end_input(input *in);

#endif
