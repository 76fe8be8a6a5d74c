#include "looks.h"

#include "kept.h"
#include "loading.h"

#include <stdio.h>
#include <string.h>

/* Two sums of bytes, each of which changes with every byte and its place. */
static void add_bytes(uint64_t sums[2], const uint8_t *bytes, size_t length)
{
    for (; length--; bytes++) {
        sums[0] = (sums[0] ^ *bytes) * 0x100000001B3u;
        sums[1] = (sums[1] + *bytes + 1) * 0x9E3779B97F4A7C15u;
        sums[1] ^= sums[1] >> 29;
    }
}

static void add_character(looks *to, uint32_t font, uint32_t code, const mf_character_fields *told)
{
    char words[80];
    int length = snprintf(words, sizeof words, "%u %d %d %u %u", (unsigned)code, (int)told->left,
                          (int)told->top, (unsigned)told->width, (unsigned)told->height);

    add_bytes(to->dots, (const uint8_t *)words, (size_t)length);
    add_bytes(to->dots, picture_of(font, code), mf_picture_bytes(told->width, told->height));
    length = snprintf(words, sizeof words, "%u %u", (unsigned)code, (unsigned)told->delta_x);
    add_bytes(to->fields, (const uint8_t *)words, (size_t)length);
}

looks looks_of(uint32_t font)
{
    looks made = {{0xCBF29CE484222325u, 1}, {0xCBF29CE484222325u, 1}};
    uint8_t kept[MF_FONT_BYTES];
    mf_character_fields told;
    uint32_t code;

    mf_tell_font(store, sizeof store, kept, sizeof kept, font);
    add_bytes(made.fields, kept, sizeof kept);
    for (code = 0; code <= MF_CODE_MAX; code++)
        if (tell_character(font, code, &told))
            add_character(&made, font, code, &told);
    return made;
}

int same_dots(const looks *a, const looks *b)
{
    return memcmp(a->dots, b->dots, sizeof a->dots) == 0;
}

int same_fields(const looks *a, const looks *b)
{
    return memcmp(a->fields, b->fields, sizeof a->fields) == 0;
}
