/* stores CARTRIDGE FILE: holds the programs' two stores to the library. Of each font whose number
 * is in both, what is told and drawn is of the store in use, however often that changes: the test
 * reads the files into stores of its own and asks those. Prints how many characters were compared;
 * that no two of one number and code differ is a failure, since nothing was tried then. */
#include "cartridge.h"
#include "kept.h"

#include <stdio.h>
#include <string.h>

static uint8_t soft[MF_STORE_MAX], cartridge[MF_STORE_MAX];
static unsigned long compared, differed;

static int read_into(uint8_t *into, const char *name)
{
    static uint8_t stream[MF_STORE_MAX];
    FILE *from = fopen(name, "rb");
    size_t length;

    if (!from)
        return 0;
    length = fread(stream, 1, sizeof stream, from);
    fclose(from);
    mf_make_fresh(into, MF_STORE_MAX);
    return !mf_read_stream(into, MF_STORE_MAX, stream, length).refusal;
}

/* Whether a character is the same in the store in use and in one of the test. */
static int is_same(const uint8_t *other, uint32_t font, uint32_t code)
{
    static uint8_t picture[MF_PICTURE_MAX];
    uint8_t kept[MF_CHARACTER_BYTES];
    mf_character_fields told, of;
    int there = tell_character(font, code, &told);

    if (mf_tell_character(other, MF_STORE_MAX, kept, sizeof kept, font, code).refusal || !there)
        return !there;
    of = mf_character_fields_of(kept);
    return told.width == of.width && told.height == of.height && told.left == of.left &&
           told.top == of.top && told.delta_x == of.delta_x &&
           !mf_draw_picture(other, MF_STORE_MAX, picture, sizeof picture, font, code) &&
           !memcmp(picture_of(font, code), picture, mf_picture_bytes(of.width, of.height));
}

/* Takes a store into use and compares the characters of a font. */
static int holds(uint32_t which, uint32_t font)
{
    uint32_t code;

    use_store(which);
    for (code = 0; code <= MF_CODE_MAX; code++, compared++) {
        if (!is_same(which == MF_SOFT ? soft : cartridge, font, code))
            return 0;
        differed += !is_same(which == MF_SOFT ? cartridge : soft, font, code);
    }
    return store_in_use() == which;
}

static int compare(uint32_t font)
{
    static const uint32_t order[] = {MF_SOFT, MF_CARTRIDGE, MF_SOFT, MF_SOFT, MF_CARTRIDGE};
    size_t at;

    if (mf_next_font(cartridge, sizeof cartridge, font) != font)
        return 1;
    for (at = 0; at < sizeof order / sizeof *order; at++)
        if (!holds(order[at], font)) {
            printf("font %u, use %lu: not of store %u\n", (unsigned)font, (unsigned long)at,
                   (unsigned)order[at]);
            return 0;
        }
    return 1;
}

int main(int argc, char **argv)
{
    uint32_t font;

    if (argc != 3 || !read_into(cartridge, argv[1]) || !read_into(soft, argv[2]) ||
        load_both(argv[1], argv + 2, 1))
        return 1;
    for (font = mf_next_font(soft, sizeof soft, 0); font <= MF_FONT_MAX;
         font = mf_next_font(soft, sizeof soft, font + 1))
        if (!compare(font))
            return 1;
    forget_kept();
    printf("%lu codes of both stores, %lu that differ\n", compared, differed);
    return !differed;
}
