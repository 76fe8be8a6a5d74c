/* Calls the functions of document 01 from C and prints what its listing example
 * and its trials say; tests/run compares it with calls.expected. The sheet has its
 * own program, sheet.c. */
#include "marlinfold.h"

#include <stdio.h>
#include <string.h>

static uint8_t store[16384];
static uint8_t out[MF_PICTURE_MAX];

/* The fields that the trials vary; cell sizes as a usual font has them. */
static void header(uint8_t block[64], unsigned set, unsigned spacing, unsigned height,
                   int weight, unsigned face, unsigned orientation)
{
    memset(block, 0, 64);
    block[1] = 64;
    block[7] = 35;
    block[9] = 30;
    block[11] = 50;
    block[12] = (uint8_t)orientation;
    block[13] = (uint8_t)spacing;
    block[14] = (uint8_t)(set / 256);
    block[15] = (uint8_t)(set % 256);
    block[17] = 120;
    block[18] = (uint8_t)(height / 256);
    block[19] = (uint8_t)(height % 256);
    block[24] = (uint8_t)weight;
    block[25] = (uint8_t)face;
}

/* Document 01's fonts, by their numbers. */
static void named(uint8_t block[64], unsigned font)
{
    header(block, 277, MF_FIXED, 200, 0, 3, MF_PORTRAIT);
    if (font == 2)
        header(block, 277, MF_FIXED, 200, 3, 3, MF_PORTRAIT);
    if (font == 9)
        header(block, 277, MF_FIXED, 200, 0, 3, MF_LANDSCAPE);
    if (font == 7)
        header(block, 341, MF_PROPORTIONAL, 150, 0, 4, MF_PORTRAIT);
}

static void answer(const char *name, uint32_t refusal)
{
    printf("%s: %u\n", name, (unsigned)refusal);
}

static uint32_t download(unsigned font)
{
    uint8_t block[64];
    named(block, font);
    return mf_download_font(store, sizeof store, block, sizeof block, font);
}

/* A portrait first block with its data; its length. */
static size_t first_block(uint8_t *block, unsigned class_, unsigned width, unsigned height,
                          const uint8_t *data, size_t length)
{
    const uint8_t head[16] = {4, 0, 14, (uint8_t)class_, 0, 0, 0, 2, 0, 22,
                              (uint8_t)(width / 256), (uint8_t)(width % 256),
                              (uint8_t)(height / 256), (uint8_t)(height % 256), 0, 120};
    memcpy(block, head, 16);
    memcpy(block + 16, data, length);
    return 16 + length;
}

static size_t append(uint8_t *stream, size_t at, const void *bytes, size_t length)
{
    memcpy(stream + at, bytes, length);
    return at + length;
}

/* "For ESC*c5D, header A, ESC*c65E, an 18-byte character of one dot row 10 wide,
 * ESC*c2D, header B" */
static void listing(void)
{
    const uint8_t row[2] = {0xFF, 0xC0};
    uint8_t stream[512], block[64], kept[MF_FONT_BYTES];
    size_t length = 0;
    mf_stream_read read;
    uint32_t font;

    length = append(stream, length, "\x1b*c5D\x1b)s64W", 11);
    named(block, 5);
    length = append(stream, length, block, 64);
    length = append(stream, length, "\x1b*c65E\x1b(s18W", 12);
    length = append(stream, length, block, first_block(block, 1, 10, 1, row, 2));
    length = append(stream, length, "\x1b*c2D\x1b)s64W", 11);
    named(block, 2);
    length = append(stream, length, block, 64);

    mf_make_fresh(store, sizeof store);
    read = mf_read_stream(store, sizeof store, stream, length);
    puts("id set spacing pitch height style weight face chars");
    for (font = 0; font <= MF_FONT_MAX; font++) {
        mf_told told = mf_tell_font(store, sizeof store, kept, sizeof kept, font);
        if (told.refusal == MF_DONE)
            printf("%u %u %u %u %u %u %d %u %u\n", (unsigned)font, (unsigned)mf_field(kept, 14),
                   kept[13], (unsigned)mf_field(kept, 16), (unsigned)mf_field(kept, 18),
                   kept[4] * 256u + kept[23], kept[24] < 128 ? kept[24] : kept[24] - 256,
                   kept[26] * 256u + kept[25], (unsigned)told.count);
    }
    printf("done %u refused %u", (unsigned)read.done, (unsigned)read.refused);
    if (read.refusal == MF_STREAM_BROKEN)
        printf(" stopped %u", (unsigned)read.place);
    puts("");

    /* Cut within the last command: 13 at its ESC. */
    mf_make_fresh(store, sizeof store);
    read = mf_read_stream(store, sizeof store, stream, length - 1);
    printf("cut: refusal %u done %u refused %u place %u\n", (unsigned)read.refusal,
           (unsigned)read.done, (unsigned)read.refused, (unsigned)read.place);
}

static void choose(const char *name, uint32_t set, int32_t weight, uint32_t orientation)
{
    mf_chosen chosen = mf_choose(store, sizeof store, set, MF_FIXED, 1000, 1200, 0, weight, 3,
                                 orientation, MF_MODE_300);
    if (chosen.refusal == MF_DONE)
        printf("%s: %u\n", name, (unsigned)chosen.font);
    else
        printf("%s: refusal %u, font %u\n", name, (unsigned)chosen.refusal,
               (unsigned)chosen.font);
}

static void choosing(void)
{
    mf_make_fresh(store, sizeof store);
    answer("A", download(5));
    answer("B", download(2));
    answer("C", download(9));
    answer("D", download(7));
    choose("P1 weight 3", 277, 3, MF_PORTRAIT);
    choose("P2 weight 0", 277, 0, MF_PORTRAIT);
    choose("P2 landscape page", 277, 0, MF_LANDSCAPE);
    choose("P3 weight 1", 277, 1, MF_PORTRAIT);
    choose("P4 weight -1", 277, -1, MF_PORTRAIT);
    choose("P5 set 85", 85, 0, MF_PORTRAIT);
    choose("P6 set 341", 341, 0, MF_PORTRAIT);
    answer("A removed", mf_remove_font(store, sizeof store, 5));
    answer("B removed", mf_remove_font(store, sizeof store, 2));
    answer("C removed", mf_remove_font(store, sizeof store, 9));
    choose("P7 only D, set 85", 85, 0, MF_PORTRAIT);
    choose("weight 8", 277, 8, MF_PORTRAIT);
    choose("weight -8", 277, -8, MF_PORTRAIT);
}

/* Font with this pitch, height and their extended bytes, else as A. */
static void extended(uint32_t font, unsigned pitch, unsigned pitch_byte, unsigned height,
                     unsigned height_byte)
{
    uint8_t block[64];
    header(block, 277, MF_FIXED, height, 0, 3, MF_PORTRAIT);
    block[16] = (uint8_t)(pitch / 256);
    block[17] = (uint8_t)(pitch % 256);
    block[40] = (uint8_t)pitch_byte;
    block[41] = (uint8_t)height_byte;
    if (mf_download_font(store, sizeof store, block, sizeof block, font))
        puts("refused");
}

static void choose_size(const char *name, uint32_t pitch, uint32_t height)
{
    mf_chosen chosen = mf_choose(store, sizeof store, 277, MF_FIXED, pitch, height, 0, 0, 3,
                                 MF_PORTRAIT, MF_MODE_300);
    printf("%s: refusal %u, font %u\n", name, (unsigned)chosen.refusal, (unsigned)chosen.font);
}

static void tell_extended(const char *name, uint32_t font)
{
    uint8_t kept[MF_FONT_BYTES];
    mf_tell_font(store, sizeof store, kept, sizeof kept, font);
    printf("%s: pitch %u %u, height %u %u\n", name, (unsigned)mf_field(kept, 16), kept[40],
           (unsigned)mf_field(kept, 18), kept[41]);
}

/* Document 02, W-202: "At R 1700, 70 with 150 (18,070) qualifies and goes before 70
 * with 0 (17,920)", whichever has the lower number; what is kept of a cut field; P8
 * and P9 as they stand. */
static void seventeen(void)
{
    mf_make_fresh(store, sizeof store);
    extended(1, 70, 150, 200, 0);
    extended(2, 70, 0, 200, 0);
    choose_size("W-202 R 1700, 70 with 150 is 1", 1700, 1200);
    extended(1, 70, 0, 200, 0);
    extended(2, 70, 150, 200, 0);
    choose_size("W-202 R 1700, 70 with 150 is 2", 1700, 1200);
    extended(1, 70, 151, 200, 0);
    choose_size("W-202 R 1700, 70 with 151 is 1", 1700, 1200);
    extended(1, 70, 0, 204, 43);
    extended(2, 70, 0, 204, 42);
    choose_size("W-202 H 1200, 204 with 42 is 2", 1700, 1200);
    extended(1, 16801, 150, 10923, 7);
    extended(2, 16800, 150, 10922, 7);
    tell_extended("cut", 1);
    tell_extended("at the limits", 2);
    choose_size("W-202 R 0, 16800 with 150 is 2", 0, 1200);
    extended(1, 120, 0, 200, 0);
    extended(2, 72, 0, 200, 0);
    choose_size("P8 R 1200", 1200, 1200);
    choose_size("P8 R 1700", 1700, 1200);
    extended(1, 120, 0, 204, 0);
    extended(2, 120, 0, 200, 0);
    choose_size("P9 204 is level", 1000, 1200);
    extended(1, 120, 0, 205, 0);
    choose_size("P9 205 isn't", 1000, 1200);
}

static uint32_t character(unsigned class_, unsigned width, unsigned height, const uint8_t *data,
                          size_t length)
{
    uint8_t block[64];
    length = first_block(block, class_, width, height, data, length);
    return mf_download_character(store, sizeof store, block, length, 5, 65).refusal;
}

static void bytes(const char *name, uint32_t refusal, const uint8_t *from, size_t length)
{
    size_t at;
    printf("%s: %u,", name, (unsigned)refusal);
    for (at = 0; at < length; at++)
        printf(" %u", from[at]);
    puts("");
}

static void drawing(void)
{
    const uint8_t p10[] = {1, 2, 3, 5, 0, 0, 10};
    const uint8_t p11[] = {0, 255, 0, 45};
    const uint8_t p12[] = {0, 4, 7};
    const uint8_t more[] = {4, 1, 0, 0, 10};
    const uint8_t padded[] = {0xFF, 0xFF};
    uint8_t kept[MF_CHARACTER_BYTES];
    size_t size = mf_picture_bytes(10, 3);
    mf_told told;
    uint32_t row;

    mf_make_fresh(store, sizeof store);
    download(5);
    answer("P10", character(2, 10, 3, p10, sizeof p10));
    bytes("P10 picture", mf_draw_picture(store, sizeof store, out, size, 5, 65), out, size);
    for (row = 0; row < 4; row++) {
        memset(out, 9, 2);
        bytes("P10 row", mf_draw_row(store, sizeof store, out, 2, 5, 65, row), out, 2);
    }
    answer("picture, output short", mf_draw_picture(store, sizeof store, out, size - 1, 5, 65));
    answer("row, output short", mf_draw_row(store, sizeof store, out, 1, 5, 65, 0));
    told = mf_tell_character(store, sizeof store, kept, sizeof kept, 5, 65);
    printf("told: %u, %u data bytes, left %d top %d width %u height %u delta %u\n",
           (unsigned)told.refusal, (unsigned)told.count, (int)mf_signed_field(kept, 6),
           (int)mf_signed_field(kept, 8), (unsigned)mf_field(kept, 10),
           (unsigned)mf_field(kept, 12), (unsigned)mf_field(kept, 14));
    /* All but the last row; then that. */
    answer("incomplete", character(2, 10, 3, p10, 4));
    answer("continuation",
           mf_download_character(store, sizeof store, more, sizeof more, 5, 65).refusal);
    answer("closed by it",
           mf_download_character(store, sizeof store, more, sizeof more, 5, 65).refusal);
    bytes("joined picture", mf_draw_picture(store, sizeof store, out, size, 5, 65), out, size);
    answer("P11", character(2, 300, 1, p11, sizeof p11));
    bytes("P11 row", mf_draw_row(store, sizeof store, out, sizeof out, 5, 65, 0), out,
          mf_row_bytes(300));
    answer("P12", character(2, 10, 1, p12, sizeof p12));
    answer("padding", character(1, 10, 1, padded, sizeof padded));
    bytes("padding not drawn", mf_draw_picture(store, sizeof store, out, 2, 5, 65), out, 2);
    answer("1024 by 256", character(1, 1024, 256, padded, 0));
    answer("1024 by 257", character(1, 1024, 257, padded, 0));
    answer("removed", mf_remove_character(store, sizeof store, 5, 65));
    answer("removed again", mf_remove_character(store, sizeof store, 5, 65));
}

static void writing(void)
{
    const uint8_t row[2] = {0xFF, 0xC0};
    static uint8_t stream[MF_WRITTEN_MAX(sizeof store)];
    static uint8_t again[sizeof store];
    mf_written written;
    mf_stream_read read;

    mf_make_fresh(store, sizeof store);
    download(5);
    character(1, 10, 1, row, sizeof row);
    written = mf_write_font(store, sizeof store, stream, sizeof stream, 5);
    printf("written: %u, %u bytes", (unsigned)written.refusal, (unsigned)written.length);
    mf_make_fresh(again, sizeof again);
    read = mf_read_stream(again, sizeof again, stream, written.length);
    printf(", read again: %u, done %u refused %u, the same store: %s\n", (unsigned)read.refusal,
           (unsigned)read.done, (unsigned)read.refused,
           memcmp(store, again, sizeof store) == 0 ? "yes" : "no");
    written = mf_write_font(store, sizeof store, stream, written.length - 1, 5);
    printf("one byte short: %u, %u\n", (unsigned)written.refusal, (unsigned)written.length);
}

static void show_rows(const uint8_t *rows, unsigned width, unsigned height)
{
    unsigned x, y;
    for (y = 0; y < height; y++) {
        for (x = 0; x < mf_row_bytes(width) * 8; x++)
            putchar(rows[y * mf_row_bytes(width) + x / 8] & 0x80 >> x % 8 ? '#' : '.');
        putchar('\n');
    }
}

/* W-203: an F of 5 x 7 dots, black beyond its width, turned each way; then refusals,
 * which leave the output. Rows are shown with their padding. */
static void turning(void)
{
    const uint8_t letter[8] = {0xFF, 0x87, 0x87, 0xF7, 0x87, 0x87, 0x87, 0xFF};
    uint8_t turned[8];
    unsigned turn;
    for (turn = 1; turn <= 3; turn++) {
        memset(turned, 0x55, sizeof turned);
        printf("turn %u: %u\n", turn,
               (unsigned)mf_turn_picture(letter, 7, turned, sizeof turned, 5, 7, turn));
        show_rows(turned, 8, 8);
    }
    memset(turned, 0x55, sizeof turned);
#define TURN(length, room, width, height, by) \
    printf("turn %d of %d x %d, %d bytes into %d: %u\n", by, width, height, length, room, \
           (unsigned)mf_turn_picture(letter, length, turned, room, width, height, by))
    TURN(7, 7, 5, 7, 0);
    TURN(7, 7, 5, 7, 4);
    TURN(7, 7, 0, 7, 1);
    TURN(7, 7, MF_SIDE_MAX + 1, 7, 1);
    TURN(7, 7, 5, 0, 1);
    TURN(7, 7, 5, MF_SIDE_MAX + 1, 1);
    TURN(6, 7, 5, 7, 2);
    TURN(6, 0, 5, 7, 2);
    TURN(7, 6, 5, 7, 2);
    TURN(7, 4, 5, 7, 1);
    TURN(8, 7, 9, 4, 3);
    show_rows(turned, 8, 1);
    TURN(8, 5, 5, 7, 3);
}

static void tell_count(const char *name)
{
    mf_told told = mf_tell_font(store, sizeof store, out, sizeof out, 5);
    printf("%s: refusal %u, %u characters\n", name, (unsigned)told.refusal,
           (unsigned)told.count);
}

/* W-205: the count beside the font after each kind of call; a store with a count or
 * a sum that is untrue, and one with font records of 78 bytes, as they were before W-206.
 * Font 5's record begins at byte 12, with its numbers at bytes 20 and 22. */
static void counting(void)
{
    const uint8_t rows[] = {1, 2, 3};
    const uint8_t more[] = {4, 1, 9};
    unsigned at;

    mf_make_fresh(store, sizeof store);
    download(5);
    tell_count("no character");
    character(1, 8, 3, rows, 2);
    tell_count("first block");
    mf_download_character(store, sizeof store, more, sizeof more, 5, 65);
    tell_count("continuation");
    character(1, 8, 1, rows, 1);
    tell_count("replaced");
    for (at = 20; at < 26; at++) {
        store[at] ^= 1;
        printf("byte %u: ", at);
        tell_count("untrue");
        store[at] ^= 1;
    }
    tell_count("true again");
    mf_remove_character(store, sizeof store, 5, 65);
    tell_count("removed");
    memmove(store + 12 + 78, store + 12 + 82, sizeof store - 12 - 82);
    store[12] = 78;
    tell_count("the version before");
}

/* Document 01's font A as a format 20 block of so many bytes, with this descriptor
 * size and resolutions. */
static uint32_t fine(uint32_t font, size_t length, unsigned size, unsigned x, unsigned y)
{
    uint8_t block[72] = {0};
    header(block, 277, MF_FIXED, 400, 0, 3, MF_PORTRAIT);
    block[1] = (uint8_t)size;
    block[2] = 20;
    block[17] = 240;
    block[64] = (uint8_t)(x / 256);
    block[65] = (uint8_t)(x % 256);
    block[66] = (uint8_t)(y / 256);
    block[67] = (uint8_t)(y % 256);
    return mf_download_font(store, sizeof store, block, length, font);
}

static void choose_mode(const char *name, uint32_t set, uint32_t orientation, uint32_t mode)
{
    mf_chosen chosen =
        mf_choose(store, sizeof store, set, MF_FIXED, 1000, 1200, 0, 0, 3, orientation, mode);
    printf("%s, mode %u: refusal %u, font %u\n", name, (unsigned)mode, (unsigned)chosen.refusal,
           (unsigned)chosen.font);
}

/* A font told, written, and read again. */
static void show_fine(uint32_t font)
{
    uint8_t stream[128], again[256];
    mf_told told = mf_tell_font(store, sizeof store, out, MF_FONT_BYTES, font);
    mf_written written = mf_write_font(store, sizeof store, stream, sizeof stream, font);
    mf_stream_read read;

    printf("font %u: %u, size %u, format %u, resolutions %u %u; written %u, %u bytes", (unsigned)font,
           (unsigned)told.refusal, (unsigned)mf_field(out, 0), out[2], (unsigned)mf_field(out, 64),
           (unsigned)mf_field(out, 66), (unsigned)written.refusal, (unsigned)written.length);
    mf_make_fresh(again, sizeof again);
    read = mf_read_stream(again, sizeof again, stream, written.length);
    mf_tell_font(again, sizeof again, stream, sizeof stream, font);
    printf(", read again: done %u, the same: %s\n", (unsigned)read.done,
           memcmp(out, stream, MF_FONT_BYTES) == 0 ? "yes" : "no");
}

/* W-206: font 3 of 600 dots to the inch beside A, 5, of 300. */
static void resolutions(void)
{
    size_t length;
    unsigned size;

    mf_make_fresh(store, sizeof store);
    for (length = 64; length <= 68; length++)
        printf("format 20 of %u bytes: %u\n", (unsigned)length,
               (unsigned)fine(3, length, (unsigned)length, 600, 600));
    for (size = 64; size <= 70; size++)
        printf("format 20, descriptor size %u: %u\n", size, (unsigned)fine(3, 69, size, 300, 300));
    printf("300 and 600: %u\n", (unsigned)fine(3, 68, 68, 300, 600));
    printf("600 and 300: %u\n", (unsigned)fine(3, 68, 68, 600, 300));
    printf("1200 and 1200: %u\n", (unsigned)fine(3, 68, 68, 1200, 1200));
    show_fine(3);
    fine(3, 68, 68, 600, 600);
    show_fine(3);
    choose_mode("600 dpi alone", 277, MF_PORTRAIT, MF_MODE_300);
    choose_mode("600 dpi alone", 277, MF_PORTRAIT, MF_MODE_600);
    download(5);
    show_fine(5);
    choose_mode("beside A", 277, MF_PORTRAIT, MF_MODE_300);
    choose_mode("beside A", 277, MF_PORTRAIT, MF_MODE_600);
    choose_mode("beside A", 277, MF_PORTRAIT, 0);
    choose_mode("beside A", 277, MF_PORTRAIT, 301);
    choose_mode("beside A", 277, MF_PORTRAIT, 65836);
    download(9);
    mf_remove_font(store, sizeof store, 5);
    choose_mode("beside C, landscape page", 277, MF_LANDSCAPE, MF_MODE_600);
    download(7);
    choose_mode("beside D, its set", 341, MF_PORTRAIT, MF_MODE_600);
}

/* The header's names against the numbers answered; document 01's edges. */
static void refusals(void)
{
    uint8_t block[64];
    mf_make_fresh(store, sizeof store);
    named(block, 5);
#define SHOW(name, call) printf(#name " %d: %u\n", name, (unsigned)(call))
    SHOW(MF_NOT_A_STORE, mf_make_fresh(store, MF_STORE_MIN - 1));
    SHOW(MF_OUT_OF_RANGE, download(MF_FONT_MAX + 1));
    SHOW(MF_BLOCK_LENGTH, mf_download_font(store, sizeof store, block, 63, 5));
    SHOW(MF_BLOCK_LENGTH, mf_download_font(store, sizeof store, block, 0, 5));
    block[2] = 1;
    SHOW(MF_NOT_TAKEN, mf_download_font(store, sizeof store, block, 64, 5));
    block[2] = 0;
    block[24] = 248;
    SHOW(MF_FIELD_VALUE, mf_download_font(store, sizeof store, block, 64, 5));
    SHOW(MF_NO_FONT, mf_remove_font(store, sizeof store, 5));
    block[24] = 249;
    SHOW(MF_DONE, mf_download_font(store, sizeof store, block, 64, 5));
    SHOW(MF_NO_CHARACTER, mf_draw_row(store, sizeof store, out, sizeof out, 5, 65, 0));
    SHOW(MF_RUN_PAST_ROW, character(2, 10, 1, (const uint8_t *)"\0\4\7", 3));
    SHOW(MF_TOO_LARGE, character(1, 1024, 257, block, 0));
    mf_make_fresh(store, sizeof store);
    SHOW(MF_NONE_TO_CHOOSE, mf_choose(store, sizeof store, 277, 0, 0, 0, 0, 0, 0, 0, 300).refusal);
    SHOW(MF_STREAM_BROKEN,
         mf_read_stream(store, sizeof store, (const uint8_t *)"?", 1).refusal);
    download(5);
    SHOW(MF_OUTPUT_SHORT, mf_tell_font(store, sizeof store, out, MF_FONT_BYTES - 1, 5).refusal);
    named(block, 5);
#define ONE_FONT (MF_STORE_MIN + MF_FONT_ROOM)
    mf_make_fresh(store, ONE_FONT);
    printf("font in %d bytes: %u\n", ONE_FONT,
           (unsigned)mf_download_font(store, ONE_FONT, block, 64, 5));
    mf_make_fresh(store, ONE_FONT - 1);
    SHOW(MF_NO_ROOM, mf_download_font(store, ONE_FONT - 1, block, 64, 5));
}

int main(void)
{
    listing();
    choosing();
    seventeen();
    drawing();
    writing();
    turning();
    counting();
    resolutions();
    refusals();
    return 0;
}
