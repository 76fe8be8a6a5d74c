/* A catalogue of a folder's fonts: one HTML page, which needs nothing else. Its sums stand before
 * the files, and so the files' parts are kept in a temporary file until all are read. */
#ifndef CATALOGUE_H
#define CATALOGUE_H

#include "folder.h"
#include "marlinfold.h"

#include <stdio.h>

typedef struct {
    FILE *body; /* the files' parts */
    unsigned long entries; /* parts in it */
    unsigned long files, whole, damaged, fontless, unreadable;
    unsigned long folders; /* that cannot be read */
    unsigned long links;   /* to folders, not gone into */
    unsigned long fonts, closed, fit; /* fit: for spine labels */
    unsigned long undrawn; /* fonts without a picture, since it is too large */
} catalogue;

/* ---- catalogue_file.c ---- */

/* Reads a file and adds its part. */
void catalogue_file(catalogue *into, const found_file *each);

/* ---- catalogue_font.c ---- */

/* Writes the part of a font that the store keeps. */
void catalogue_font(catalogue *into, FILE *to, uint32_t number);

/* Whether a weight is that of a closed series: bold, or heavier. */
int is_closed(int32_t weight);

/* The font's codes that something holds for, as "33 to 126, 160"; answers how many there are. */
unsigned write_codes(FILE *to, uint32_t font, int (*holds)(uint32_t font, uint32_t code));

/* ---- catalogue_equal.c ---- */

/* Fonts that are listed from now on are of this file, which the page has as the so-manieth. */
void begin_equal(unsigned long file, const char *name);

/* Lists a kept font. If one that came before has the same dots, says so in a paragraph. */
void note_equal(FILE *to, uint32_t number, int32_t weight);

/* Writes the groups of fonts that have the same dots. */
void write_equal(FILE *to);

void forget_equal(void);

/* ---- catalogue_figures.c ---- */

/* Adds the characters of the store in use to the figures of the folder. */
void figure_store(void);

/* Writes the figures of all stores that were added: a chart and a table by code. */
void write_figures(FILE *to, const catalogue *of);

/* ---- catalogue_page.c ---- */

/* What every catalogue begins with. */
extern const char catalogue_begins[];

void write_catalogue(FILE *to, const catalogue *of, const char *folder);

#endif
