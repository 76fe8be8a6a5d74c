/* A sheet of every character of a kept font: sixteen codes to a line, by rising code, lines
 * without characters left out. A code without a character stays empty. */
#ifndef SHEET_H
#define SHEET_H

#include "page.h"

/* A field that takes every character around one point, the lines that have any, and what lies
 * between the fields; all in dots of the font, so that a sheet is as large in print at any
 * resolution. */
typedef struct {
    long left, above, right, below, lines;
    int used[16];
    long gap, scale; /* scale: dots to a dot of the letters that a sheet has beside */
} sheet_field;

sheet_field measure_sheet(uint32_t number, uint32_t resolution);

/* A sheet with the font's number, set, pitch, height and weight above, and beside each line its
 * first code. */
page draw_sheet(uint32_t number, const mf_font_fields *font, const sheet_field *of);

/* A sheet with its code above each character, and its size. */
void size_coded_sheet(const sheet_field *of, long *width, long *height);
page draw_coded_sheet(uint32_t number, const sheet_field *of);

#endif
