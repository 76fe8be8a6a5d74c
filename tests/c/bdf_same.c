/* bdf_same FILE FONT MADE NUMBER: whether the stream MADE has under NUMBER the font FONT of the
 * stream FILE: the same header to the byte, and the same characters with the same places, widths
 * and drawn rows, whatever their classes. Prints what differs and ends with 1, or prints how many
 * characters there are. */
#include "marlinfold.h"

#include <stdio.h>
#include <stdlib.h>
#include <string.h>

typedef struct {
    uint8_t store[MF_STORE_MAX];
    uint32_t font;
    const char *name;
} kept_font;

static void load(kept_font *made, const char *name, uint32_t font)
{
    static uint8_t bytes[1 << 18];
    FILE *file = fopen(name, "rb");
    size_t length;
    mf_stream_read read;

    if (!file) {
        perror(name);
        exit(2);
    }
    length = fread(bytes, 1, sizeof bytes, file);
    fclose(file);
    mf_make_fresh(made->store, sizeof made->store);
    read = mf_read_stream(made->store, sizeof made->store, bytes, length);
    if (read.refusal || read.refused) {
        printf("%s: %s, %u refused\n", name, mf_refusal_name(read.refusal),
               (unsigned)read.refused);
        exit(1);
    }
    made->font = font;
    made->name = name;
}

static int differs(const char *what, long code)
{
    printf("%s differs, code %ld\n", what, code);
    return 1;
}

static int character_differs(const kept_font *a, const kept_font *b, uint32_t code, int *there)
{
    static uint8_t one[MF_PICTURE_MAX], two[MF_PICTURE_MAX];
    uint8_t first[MF_CHARACTER_BYTES], second[MF_CHARACTER_BYTES];
    mf_character_fields fields;
    uint32_t refusal = mf_tell_character(a->store, sizeof a->store, first, sizeof first, a->font,
                                         code).refusal;

    if (mf_tell_character(b->store, sizeof b->store, second, sizeof second, b->font, code).refusal
        != refusal)
        return differs("whether it is there", (long)code);
    *there = !refusal;
    if (refusal)
        return 0;
    if (second[3] != 1)
        return differs("class 1", (long)code);
    first[3] = second[3];
    if (memcmp(first, second, sizeof first) != 0)
        return differs("the descriptor", (long)code);
    fields = mf_character_fields_of(first);
    if (mf_draw_picture(a->store, sizeof a->store, one, sizeof one, a->font, code) ||
        mf_draw_picture(b->store, sizeof b->store, two, sizeof two, b->font, code) ||
        memcmp(one, two, mf_picture_bytes(fields.width, fields.height)) != 0)
        return differs("the picture", (long)code);
    return 0;
}

int main(int argc, char **argv)
{
    static kept_font a, b;
    uint8_t first[MF_FONT_BYTES], second[MF_FONT_BYTES];
    uint32_t code;
    int count = 0, there = 0, different = 0;

    if (argc != 5)
        return 2;
    load(&a, argv[1], (uint32_t)atol(argv[2]));
    load(&b, argv[3], (uint32_t)atol(argv[4]));
    if (mf_tell_font(a.store, sizeof a.store, first, sizeof first, a.font).refusal ||
        mf_tell_font(b.store, sizeof b.store, second, sizeof second, b.font).refusal)
        return differs("whether the font is there", -1);
    if (memcmp(first, second, sizeof first) != 0)
        different = differs("the header", -1);
    for (code = 0; code <= MF_CODE_MAX; code++, count += there)
        different |= character_differs(&a, &b, code, &there);
    printf("%d characters\n", count);
    return different;
}
