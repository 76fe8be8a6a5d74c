/* Figures a second time, without mf_add_figures: the characters one by one, as the other calls
 * tell and draw them. */
#ifndef DRAWN_H
#define DRAWN_H

#include "marlinfold.h"

#include <stdlib.h>
#include <string.h>

#define DRAWN_NUMBERS 7

typedef struct {
    uint64_t stores;
    uint64_t of[MF_CODE_MAX + 1][DRAWN_NUMBERS]; /* in the order of mf_figure_number */
} drawn_figures;

/* The black dots of a picture, looked at one by one. */
static uint64_t drawn_dots(const uint8_t *picture, uint32_t width, uint32_t height)
{
    uint64_t black = 0;
    uint32_t dot;

    for (dot = 0; dot < width * height; dot++) {
        const uint8_t *row = picture + dot / width * mf_row_bytes(width);
        black += row[dot % width / 8] >> (7 - dot % width % 8) & 1;
    }
    return black;
}

/* One character more of a code. */
static void drawn_join(uint64_t of[DRAWN_NUMBERS], uint64_t dots, uint64_t width, uint64_t delta_x)
{
    of[0] += 1;
    of[1] += dots;
    if (of[2] == 0 || width < of[2])
        of[2] = width;
    if (width > of[3])
        of[3] = width;
    of[4] += delta_x;
    of[5] = of[4] / of[0];
    of[6] = of[4] % of[0];
}

static void drawn_character(drawn_figures *figures, const uint8_t *store, size_t length,
                            uint32_t font, uint32_t code)
{
    static uint8_t picture[MF_PICTURE_MAX];
    uint8_t kept[MF_CHARACTER_BYTES];
    mf_character_fields letter;

    if (mf_tell_character(store, length, kept, sizeof kept, font, code).refusal ||
        mf_draw_picture(store, length, picture, sizeof picture, font, code))
        abort();
    letter = mf_character_fields_of(kept);
    drawn_join(figures->of[code], drawn_dots(picture, letter.width, letter.height), letter.width,
               letter.delta_x);
}

/* Adds the characters of a store: its records of kind 3, with the font's number and code next. */
static void drawn_add(drawn_figures *figures, const uint8_t *store, size_t length)
{
    size_t at = 0, step;

    figures->stores++;
    while ((step = mf_record_length(store + at, length - at)) != 0) {
        const uint8_t *record = store + at;
        if (record[4] == 3)
            drawn_character(figures, store, length, (uint32_t)record[6] | (uint32_t)record[7] << 8,
                            record[8]);
        at += step;
    }
}

#endif
