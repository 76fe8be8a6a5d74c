/* Why the library refuses a block, in words: its checks a second time, in its order. */
#include "marlinfold-text.h"

#include <stdio.h>

#define FORMAT_0_BYTES 64
#define FORMAT_20_BYTES 68

/* Whether a number is outside its limits; then this is the reason. */
static int outside(mft_judgement *made, const char *name, long value, long low, long high)
{
    if (value >= low && value <= high)
        return 0;
    made->refusal = MF_FIELD_VALUE;
    snprintf(made->why, sizeof made->why, "%s %ld, allowed %ld to %ld", name, value, low, high);
    return 1;
}

/* The same for a length and for a descriptor's size, of which there is a least one. */
static int too_short(mft_judgement *made, uint32_t refusal, const char *name, size_t value,
                     size_t low, size_t high)
{
    if (value >= low && value <= high)
        return 0;
    made->refusal = refusal;
    snprintf(made->why, sizeof made->why, "%s %lu, expected %lu to %lu", name,
             (unsigned long)value, (unsigned long)low, (unsigned long)high);
    return 1;
}

/* And for a byte that says what a block is. */
static int another(mft_judgement *made, const char *name, unsigned value, const char *expected)
{
    made->refusal = MF_NOT_TAKEN;
    snprintf(made->why, sizeof made->why, "%s %u, expected %s", name, value, expected);
    return 1;
}

static int bad_resolution(mft_judgement *made, const uint8_t *block)
{
    unsigned across = mf_field(block, 64), down = mf_field(block, 66);

    if (across == down && (across == 300 || across == 600))
        return 0;
    made->refusal = MF_FIELD_VALUE;
    snprintf(made->why, sizeof made->why,
             "resolution %u by %u, allowed 300 by 300 and 600 by 600", across, down);
    return 1;
}

static int bad_fields(mft_judgement *made, const uint8_t *block)
{
    long high = (long)mf_field(block, 10);

    return outside(made, "font type", block[3], 0, 2) ||
           outside(made, "style word", 256L * block[4] + block[23], 0, 1023) ||
           outside(made, "cell width", (long)mf_field(block, 8), 1, 65535) ||
           outside(made, "cell height", high, 1, 65535) ||
           outside(made, "baseline", (long)mf_field(block, 6), 0, high - 1) ||
           outside(made, "orientation", block[12], 0, 3) ||
           outside(made, "spacing", block[13], 0, 1) ||
           outside(made, "symbol set", (long)mf_field(block, 14), 0, 2047) ||
           outside(made, "stroke weight", mf_signed_byte(block, 24), MF_ULTRA_THIN,
                   MF_ULTRA_BLACK);
}

void mft_judge_font(mft_judgement *made, const uint8_t *block, size_t length)
{
    size_t least = length > 2 && block[2] == 20 ? FORMAT_20_BYTES : FORMAT_0_BYTES;

    made->refusal = MF_DONE;
    made->why[0] = '\0';
    if (too_short(made, MF_BLOCK_LENGTH, "block length", length, least, MF_BLOCK_MAX))
        return;
    if (block[2] != 0 && block[2] != 20)
        another(made, "header format", block[2], "0 or 20");
    else if (!too_short(made, MF_NOT_TAKEN, "descriptor size", mf_field(block, 0), least, length) &&
             !bad_fields(made, block) && least == FORMAT_20_BYTES)
        bad_resolution(made, block);
}

/* A character's own fields, in the library's order. */
static int bad_character(mft_judgement *made, const uint8_t *block, uint32_t orientation)
{
    if (block[4] != orientation) {
        made->refusal = MF_FIELD_VALUE;
        snprintf(made->why, sizeof made->why, "orientation %u, the font's is %u", block[4],
                 (unsigned)orientation);
        return 1;
    }
    return outside(made, "left offset", mf_signed_field(block, 6), -MF_SIDE_MAX, MF_SIDE_MAX) ||
           outside(made, "top offset", mf_signed_field(block, 8), -MF_SIDE_MAX, MF_SIDE_MAX) ||
           outside(made, "width", (long)mf_field(block, 10), 1, MF_SIDE_MAX) ||
           outside(made, "height", (long)mf_field(block, 12), 1, MF_SIDE_MAX);
}

static void judge_first(mft_judgement *made, const uint8_t *block, size_t length,
                        uint32_t orientation)
{
    size_t picture;

    if (too_short(made, MF_BLOCK_LENGTH, "first block length", length, MF_CHARACTER_BYTES,
                  MF_BLOCK_MAX))
        return;
    if (block[2] != 14)
        another(made, "descriptor size", block[2], "14");
    else if (block[3] != 1 && block[3] != 2)
        another(made, "character class", block[3], "1 or 2");
    else if (!bad_character(made, block, orientation)) {
        picture = mf_picture_bytes(mf_field(block, 10), mf_field(block, 12));
        if (picture <= MF_PICTURE_MAX)
            return;
        made->refusal = MF_TOO_LARGE;
        snprintf(made->why, sizeof made->why, "a picture of %lu bytes, allowed are %u",
                 (unsigned long)picture, MF_PICTURE_MAX);
    }
}

void mft_judge_character(mft_judgement *made, const uint8_t *block, size_t length,
                         uint32_t orientation)
{
    made->refusal = MF_DONE;
    made->why[0] = '\0';
    if (too_short(made, MF_BLOCK_LENGTH, "block length", length, 2, MF_BLOCK_MAX))
        return;
    if (orientation == MFT_NO_HEADER) {
        made->refusal = MF_NO_FONT;
        snprintf(made->why, sizeof made->why, "%s", mf_refusal_name(MF_NO_FONT));
    } else if (block[0] != 4)
        another(made, "character format", block[0], "4");
    else if (block[1] == 0)
        judge_first(made, block, length, orientation);
}
