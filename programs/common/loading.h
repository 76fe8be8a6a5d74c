/* Fonts in a store, loaded from files of font streams, with a message for each command that was not
 * taken and each stretch that was skipped. */
#ifndef LOADING_H
#define LOADING_H

#include "input.h"
#include "marlinfold-text.h"

/* The store in use. */
extern uint8_t store[MF_STORE_MAX];

#define OWN_NUMBERS MFT_OWN_NUMBERS

/* Whether a stream is read on after a broken place, as mf_salvage_stream does: 0 or 1. */
extern long salvage;

#define SALVAGE_OPTION \
    {FLAG, "--salvage", NULL, &salvage, 1, 0, \
     "after a broken place go on at the next ESC *c#D, and tell each stretch\n" \
     "that is skipped"}

/* Characters that found no font, told in one message. */
typedef struct {
    uint64_t place; /* of the first */
    uint32_t font;
    long numbered;  /* as it is kept, or -1 */
    unsigned count;
    uint8_t codes[MF_CODE_MAX + 1];
} passed_over;

/* A loading of files under way. */
typedef struct {
    uint32_t next;    /* what the next font met is numbered, or OWN_NUMBERS */
    const char *file; /* the file that is read */
    uint64_t place;   /* where it ended, or is broken */
    int torn;         /* a stretch of it was skipped */
    passed_over passed;
    unsigned long done, refused;
    unsigned long broken; /* places */
    unsigned long padded;   /* broken by no more than padding at the end */
    unsigned long stretches; /* skipped, without padding */
    uint64_t skipped;       /* bytes in them */
    unsigned long fontless; /* files without any font */
    mft_loading of;
} loading;

/* Where each kept font comes from. */
typedef struct {
    const char *file; /* NULL if there is no such font */
    uint32_t number;  /* there */
} font_origin;
extern font_origin origin[MF_FONT_MAX + 1];

/* Makes the store fresh. */
void fresh_store(void);

/* Loads a stream up to its end or, without salvage, its broken place, and tells what was not
 * taken. */
void load_stream(loading *into, input *from);

/* Loads a file; 0 and a message if it cannot be read. */
int load_file(loading *into, const char *name);

/* COMPLETE if all was taken. */
int load_status(const loading *of);

/* Loads files into a fresh store, each font under its own number, and stops where one cannot be
 * read. Answers the exit status so far. */
int load_files(char **names, size_t count);

#endif
