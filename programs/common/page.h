/* A page of dots that is written as a picture. */
#ifndef PAGE_H
#define PAGE_H

#include "marlinfold-text.h"

#include <stdio.h>

/* How to look at a page, for --help. */
#define PAGE_HELP \
    "The picture is PBM, or PNG. Of a PBM, pnmtopng FILE.pbm >FILE.png (of netpbm) and\n" \
    "ImageMagick's convert FILE.pbm FILE.png make PNG too.\n"

/* Dots in rows of whole bytes, highest bit leftmost, 1 is black: both what the
 * library draws and what PBM holds. */
typedef struct {
    long width, height;
    size_t row_bytes;
    uint8_t *dots;
} page;

page new_page(long width, long height);

void blacken(page *on, long x, long y);

/* The page as the text layer has it, of so many dots to the inch. */
mft_page page_of(const page *on, uint32_t resolution);

/* Draws a kept character with its upper left corner at a place. */
void place(page *on, uint32_t font, uint32_t code, const mf_character_fields *told, long left,
           long top);

/* The page turned clockwise by 1 to 3 quarters, in the place of the one that is given. Its sides
 * have at most MF_SIDE_MAX dots. */
page turn_page(page from, uint32_t quarters);

/* PBM, PBM in plain digits, PNG. */
enum page_form { PBM, PLAIN_PBM, PNG };

/* The form that options ask for, or PNG by the ending of the file's name. Stops if two are asked
 * for, and at PNG if it cannot be written. */
enum page_form form_asked(int plain, int png, const char *name);

/* Writes a page of so many dots to the inch to an open file. */
void write_page(FILE *to, const page *from, enum page_form form, uint32_t resolution);

#endif
