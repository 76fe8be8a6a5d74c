/* bdf_freetype BDF FILE FONT: whether FreeType draws from a BDF file the font FONT of the stream
 * FILE: the same codes, and of each the same advance, the same bearings and the same dots, where
 * the file has a turned font upright. Prints what differs and ends with 1, or prints how many
 * characters there are. */
#include "marlinfold.h"

#include <ft2build.h>
#include FT_FREETYPE_H

#include <stdio.h>
#include <stdlib.h>

static uint8_t store[MF_STORE_MAX], picture[MF_PICTURE_MAX];

static int differs(const char *what, uint32_t code)
{
    printf("%s differs, code %u\n", what, (unsigned)code);
    return 1;
}

static int load(const char *name, uint32_t number, mf_font_fields *font)
{
    static uint8_t bytes[1 << 18], kept[MF_FONT_BYTES];
    FILE *file = fopen(name, "rb");
    size_t length = file ? fread(bytes, 1, sizeof bytes, file) : 0;
    mf_stream_read read;

    if (file)
        fclose(file);
    mf_make_fresh(store, sizeof store);
    read = mf_read_stream(store, sizeof store, bytes, length);
    if (!length || read.refusal || read.refused ||
        mf_tell_font(store, sizeof store, kept, sizeof kept, number).refusal)
        return 0;
    *font = mf_font_fields_of(kept);
    return 1;
}

/* Whether the library draws black so many dots to the right of the cursor and up from it. */
static int black(const mf_character_fields *told, long right, long up)
{
    long column = right - told->left, row = told->top - up;

    if (column < 0 || column >= (long)told->width || row < 0 || row >= (long)told->height)
        return 0;
    return picture[(size_t)row * mf_row_bytes(told->width) + (size_t)column / 8] >>
           (7 - column % 8) & 1;
}

/* The same in an upright character: along the line, and up from it. */
static int upright(const mf_character_fields *told, long along, long up)
{
    switch (told->orientation) {
    case MF_PORTRAIT: return black(told, along, up);
    case MF_LANDSCAPE: return black(told, -up, along);
    case MF_REVERSE_PORTRAIT: return black(told, -along, -up);
    default: return black(told, up, -along);
    }
}

static long count_black(const mf_character_fields *told)
{
    size_t at, length = mf_picture_bytes(told->width, told->height);
    long count = 0, bit;

    for (at = 0; at < length; at++)
        for (bit = 0; bit < 8; bit++)
            count += picture[at] >> bit & 1;
    return count;
}

static int dots_differ(const FT_GlyphSlot slot, const mf_character_fields *told)
{
    const FT_Bitmap *made = &slot->bitmap;
    long x, y, found = 0;

    for (y = 0; y < (long)made->rows; y++)
        for (x = 0; x < (long)made->width; x++) {
            int dot = made->buffer[y * made->pitch + x / 8] >> (7 - x % 8) & 1;
            found += dot;
            if (dot != upright(told, slot->bitmap_left + x, slot->bitmap_top - 1 - y))
                return 1;
        }
    return found != count_black(told);
}

static int character_differs(FT_Face face, const mf_font_fields *font, uint32_t number,
                             uint32_t code, int *there)
{
    uint8_t kept[MF_CHARACTER_BYTES];
    uint32_t refusal = mf_tell_character(store, sizeof store, kept, sizeof kept, number,
                                         code).refusal;
    FT_UInt glyph = FT_Get_Char_Index(face, code);
    mf_character_fields told;
    uint64_t move;
    int turned;

    *there = !refusal;
    if (!refusal != (glyph != 0))
        return differs("whether it is there", code);
    if (refusal)
        return 0;
    told = mf_character_fields_of(kept);
    turned = told.orientation % 2;
    mf_draw_picture(store, sizeof store, picture, sizeof picture, number, code);
    if (FT_Load_Glyph(face, glyph, FT_LOAD_DEFAULT))
        return differs("whether it is drawn", code);
    move = font->spacing == MF_FIXED ? 256 * (uint64_t)font->pitch + font->pitch_extended
                                     : 256 * (uint64_t)told.delta_x;
    if (face->glyph->advance.x != (FT_Pos)(64 * ((move + 512) / 1024)))
        return differs("the advance", code);
    if (face->glyph->bitmap.width != (turned ? told.height : told.width) ||
        face->glyph->bitmap.rows != (turned ? told.width : told.height))
        return differs("the size", code);
    if (told.orientation == MF_PORTRAIT &&
        (face->glyph->bitmap_left != told.left || face->glyph->bitmap_top != told.top + 1))
        return differs("the bearing", code);
    return dots_differ(face->glyph, &told) ? differs("the picture", code) : 0;
}

int main(int argc, char **argv)
{
    FT_Library library;
    FT_Face face;
    mf_font_fields font;
    uint32_t number = argc == 4 ? (uint32_t)atol(argv[3]) : 0, code;
    int count = 0, different = 0, there = 0;

    if (argc != 4 || !load(argv[2], number, &font) || FT_Init_FreeType(&library))
        return 2;
    if (FT_New_Face(library, argv[1], 0, &face) || face->num_charmaps < 1 ||
        FT_Set_Charmap(face, face->charmaps[0]) || FT_Select_Size(face, 0)) {
        printf("%s: FreeType does not take it\n", argv[1]);
        return 1;
    }
    if (face->available_sizes[0].height != (FT_Short)font.cell_height)
        different = differs("the cell's height", 0);
    for (code = 0; code <= MF_CODE_MAX; code++, count += there)
        different |= character_differs(face, &font, number, code, &there);
    printf("%d characters\n", count);
    FT_Done_Face(face);
    FT_Done_FreeType(library);
    return different;
}
