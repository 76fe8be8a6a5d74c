/* A line of text in a kept font, set as a printer sets it. */
#ifndef LINE_H
#define LINE_H

#include "page.h"
#include "text.h"

/* The line that is set, and the paper that it needs around the cursor's first place. */
typedef struct {
    text words;
    uint32_t number;
    mf_font_fields font;
    int64_t blank; /* what a missing character leaves free, in 256ths of a quarter-dot */
    long left, top, right, bottom;
} line;

/* How a letter of the line stands in the font: mft_state. */
uint32_t letter_state(const line *of, size_t at);

/* Whether a font has every letter of a text; a space needs no character. */
int has_all(uint32_t font, const text *words);

/* Gives the line the width of a blank, and answers where it comes from: mft_blank_kind. That is the
 * pitch where no letter is missing. */
uint32_t take_blank(line *of);

/* Takes in the paper that the line's dots need. */
void measure_line(line *of);

/* Takes in the font's cell, across the line: as far above the baseline and below it as every
 * line of this font. Answers how many dots the line then takes across. */
long take_cell(line *of);

/* The size of a label that takes the line with a margin, and the line on it. */
void size_line(const line *of, long *width, long *height);
page draw_line(line *of);

#endif
