/* A BDF font, read from a file of version 2.1 or 2.2. */
#ifndef BDF_READ_H
#define BDF_READ_H

#include "bdf_fields.h"
#include "marlinfold.h"

#define NOT_SAID (-1000000L) /* what a number is that the file does not have; out of any range */
#define BDF_WORD 80          /* the room of a string that is kept */
#define BDF_DOTS_MAX 8192    /* the greatest DWIDTH */
/* A picture of more bytes is not kept: in any orientation it is too large for the library. */
#define BDF_PICTURE_MAX (2 * MF_PICTURE_MAX)

typedef struct {
    unsigned long line;    /* of its STARTCHAR; 0 if the font has none of this code */
    uint32_t width, height; /* dots, 0..MF_SIDE_MAX */
    int32_t left, below;   /* dots from the cursor to its left column, and up to its lowest row
                            * from a row that stands on the baseline */
    uint32_t dots;         /* its DWIDTH */
    uint8_t *rows;         /* NULL if it has none, or more than BDF_PICTURE_MAX bytes of them */
} bdf_character;

typedef struct {
    const char *file;
    long points, across, down; /* of SIZE: its height, and dots to the inch */
    long box[4];               /* of FONTBOUNDINGBOX: width, height, left, below */
    long ascent, descent, pixels, resolution_x, resolution_y; /* properties, or NOT_SAID */
    char spacing[BDF_WORD], weight[BDF_WORD], slant[BDF_WORD], family[BDF_WORD];
    char registry[BDF_WORD], encoding[BDF_WORD]; /* properties, or empty */
    char font_weight[BDF_WORD]; /* of FONT, if that is an X Logical Font Description; empty if it
                                 * leaves the weight open */
    long number;               /* these by the private properties, or NOT_SAID */
    long fields[CARRIED];
    long delta_x[MF_CODE_MAX + 1];
    int named;                 /* name is given by one */
    uint8_t name[16];
    bdf_character characters[MF_CODE_MAX + 1];
    unsigned long count;       /* of the characters that are kept */
    unsigned long outside;     /* characters whose codes are not 0..MF_CODE_MAX */
    unsigned long outside_line; /* of the first of them */
    long outside_code;
    unsigned long again;       /* characters of a code that came before; each is told */
} bdf_font;

/* Reads a file, - for standard input. Stops where it is not BDF, with the line and the reason. */
void read_bdf(bdf_font *made, const char *name);

/* Frees the pictures. */
void free_bdf(bdf_font *made);

#endif
