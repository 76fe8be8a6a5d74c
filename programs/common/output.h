/* Files that programs write. */
#ifndef OUTPUT_H
#define OUTPUT_H

#include <stddef.h>
#include <stdio.h>

/* Stops if a file to write is one of those that are read, by whatever name. No name, and "-", are
 * standard output, which is not looked at. */
void check_output(const char *name, char **inputs, size_t count);

/* The same for one that is read, if it has a name. */
void check_against(const char *name, const char *input);

/* Opens a file to write; standard output without a name or with "-". To be called once there is
 * something to write, so that a program that stops before leaves an older file as it was. */
FILE *open_output(const char *name);

/* Closes it, and stops if a write failed, also one that comes only now: a program's last step. */
void close_output(FILE *to, const char *name);

/* Bytes that are gathered before they are written. */
typedef struct {
    unsigned char *bytes;
    size_t length, room;
} gathered;

void gather(gathered *into, const void *bytes, size_t length);

/* A text in memory that is written as a file is. */
typedef struct {
    FILE *to;
    char *text; /* once it is ended */
    size_t length;
} draft;

/* The draft stays where it is between the two. */
void begin_draft(draft *made);
void end_draft(draft *made);

#endif
