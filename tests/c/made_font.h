/* Fonts and characters for the tests of the text layer, by their fields. */
#ifndef MADE_FONT_H
#define MADE_FONT_H

#include "marlinfold-text.h"

#include <string.h>

typedef struct {
    uint32_t orientation, spacing, pitch, extended, resolution, baseline, cell_width, cell_height;
} made_font;

static void put_field(uint8_t *at, int32_t value)
{
    at[0] = (uint8_t)((uint32_t)value >> 8 & 255);
    at[1] = (uint8_t)((uint32_t)value & 255);
}

/* A format 20 header. */
static uint32_t download_made(uint8_t *store, size_t store_len, const made_font *of,
                              uint32_t number)
{
    uint8_t block[MF_FONT_BYTES] = {0, MF_FONT_BYTES, 20};

    put_field(block + 6, (int32_t)of->baseline);
    put_field(block + 8, (int32_t)of->cell_width);
    put_field(block + 10, (int32_t)of->cell_height);
    block[12] = (uint8_t)of->orientation;
    block[13] = (uint8_t)of->spacing;
    put_field(block + 14, MF_ROMAN_8);
    put_field(block + 16, (int32_t)of->pitch);
    block[40] = (uint8_t)of->extended;
    put_field(block + 64, (int32_t)of->resolution);
    put_field(block + 66, (int32_t)of->resolution);
    return mf_download_font(store, store_len, block, sizeof block, number);
}

/* A character with these data, of at most the bytes that one block has. */
static uint32_t download_letter(uint8_t *store, size_t store_len, uint32_t number, uint32_t code,
                                const mf_character_fields *as, const uint8_t *data, size_t length)
{
    static uint8_t block[MF_BLOCK_MAX];

    memset(block, 0, MF_CHARACTER_BYTES);
    block[0] = 4;
    block[2] = 14;
    block[3] = (uint8_t)as->class_;
    block[4] = (uint8_t)as->orientation;
    put_field(block + 6, as->left);
    put_field(block + 8, as->top);
    put_field(block + 10, (int32_t)as->width);
    put_field(block + 12, (int32_t)as->height);
    put_field(block + 14, (int32_t)as->delta_x);
    memcpy(block + MF_CHARACTER_BYTES, data, length);
    return mf_download_character(store, store_len, block, MF_CHARACTER_BYTES + length, number,
                                 code).refusal;
}

#endif
