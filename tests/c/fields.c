/* The header's own functions: fields of told bytes, conversions, the fonts along a store, the
 * room left, and its example of a line of text. Then what it says in words about lengths,
 * streams and incomplete characters. tests/header compares what this prints with
 * fields.expected. */
#include "marlinfold.h"

#include <stdio.h>
#include <stdlib.h>
#include <string.h>

#define PAGE_WIDTH 40
#define PAGE_HEIGHT 7
#define LENGTH 4096

static uint8_t store[LENGTH], copy[LENGTH];
static char page[PAGE_HEIGHT][PAGE_WIDTH + 1];

static void high(uint8_t *at, int value)
{
    at[0] = (uint8_t)((unsigned)value >> 8 & 255);
    at[1] = (uint8_t)((unsigned)value & 255);
}

/* A format 0 header that the library takes, bold, fixed, of 10 characters to the inch. */
static void header(uint8_t block[MF_FONT_BYTES])
{
    memset(block, 0, MF_FONT_BYTES);
    high(block, 64);
    block[9] = 30;
    high(block + 6, 35);
    high(block + 10, 50);
    high(block + 14, MF_ROMAN_8);
    high(block + 16, 120);
    high(block + 18, 200);
    block[24] = MF_BOLD;
    block[25] = 3;
}

/* The same in format 20, so that it has a resolution. */
static void header_20(uint8_t block[MF_FONT_BYTES], int resolution)
{
    header(block);
    high(block, MF_FONT_BYTES);
    block[2] = 20;
    high(block + 64, resolution);
    high(block + 66, resolution);
}

static void put_font(uint32_t font, const uint8_t *block)
{
    uint32_t refusal =
        mf_download_font(store, sizeof store, block, block[2] ? MF_FONT_BYTES : 64, font);
    if (refusal)
        printf("font %u: %s\n", (unsigned)font, mf_refusal_name(refusal));
}

/* A portrait first block with its data; its length. */
static size_t first_block(uint8_t *block, unsigned class_, int width, int height,
                          const uint8_t *data, size_t length)
{
    memset(block, 0, 16);
    block[0] = 4;
    block[2] = 14;
    block[3] = (uint8_t)class_;
    high(block + 10, width);
    high(block + 12, height);
    if (length)
        memcpy(block + 16, data, length);
    return 16 + length;
}

static uint32_t put_character(uint32_t font, uint32_t code, unsigned class_, int width, int height,
                              const uint8_t *data, size_t length)
{
    uint8_t block[64];
    length = first_block(block, class_, width, height, data, length);
    return mf_download_character(store, sizeof store, block, length, font, code).refusal;
}

static mf_font_fields told_font(uint32_t font)
{
    uint8_t kept[MF_FONT_BYTES] = {0};
    uint32_t refusal = mf_tell_font(store, sizeof store, kept, sizeof kept, font).refusal;
    if (refusal)
        printf("font %u: %s\n", (unsigned)font, mf_refusal_name(refusal));
    return mf_font_fields_of(kept);
}

#define SHOW(of, field) printf(" " #field " %ld", (long)(of)->field)

static void show_font(const mf_font_fields *font)
{
    SHOW(font, format);
    SHOW(font, type);
    SHOW(font, style);
    SHOW(font, baseline);
    SHOW(font, cell_width);
    SHOW(font, cell_height);
    SHOW(font, orientation);
    SHOW(font, spacing);
    SHOW(font, symbol_set);
    SHOW(font, pitch);
    SHOW(font, height);
    SHOW(font, pitch_extended);
    SHOW(font, height_extended);
    SHOW(font, weight);
    SHOW(font, typeface);
    SHOW(font, resolution);
    SHOW(font, x_height);
    SHOW(font, width_type);
    SHOW(font, serif_style);
    SHOW(font, quality);
    SHOW(font, placement);
    SHOW(font, underline_position);
    SHOW(font, underline_thickness);
    SHOW(font, text_height);
    SHOW(font, text_width);
    SHOW(font, first_code);
    SHOW(font, last_code);
    SHOW(font, cap_height);
    SHOW(font, maker_number);
    printf(" name [%s]\n", font->name);
}

static void told(uint32_t number)
{
    mf_font_fields font = told_font(number);
    printf("font %u:", (unsigned)number);
    show_font(&font);
}

/* Every field otherwise, through a store: where any byte is allowed, byte i is 3 x i or such that
 * it is below 0. */
static void fonts(void)
{
    static const uint8_t any[] = {20, 21, 25, 26, 27, 28, 29, 31, 32, 33, 34, 35, 36,
                                  37, 38, 39, 40, 41, 42, 43, 44, 45, 46, 47};
    uint8_t block[MF_FONT_BYTES];
    size_t at;

    header_20(block, 600);
    for (at = 0; at < sizeof any; at++)
        block[any[at]] = (uint8_t)(3 * any[at]);
    block[3] = 2;
    block[4] = 3;
    block[12] = MF_REVERSE_LANDSCAPE;
    block[13] = MF_PROPORTIONAL;
    high(block + 14, MF_SYMBOL_SET(10, 'U'));
    block[22] = 254;
    block[23] = 129;
    block[24] = 249;
    block[29] = 255;
    block[30] = 251;
    memcpy(block + 48, "Sixteen letters!", 16);
    mf_make_fresh(store, sizeof store);
    put_font(7, block);
    told(7);
    header(block);
    memcpy(block + 48, "Short", 5);
    put_font(8, block);
    told(8);
}

/* The same of a character of font 7. */
static void one_character(void)
{
    uint8_t block[16], kept[MF_CHARACTER_BYTES] = {0};
    mf_character_fields letter;

    first_block(block, 2, 300, 17, NULL, 0);
    block[4] = MF_REVERSE_LANDSCAPE;
    high(block + 6, -5);
    high(block + 8, 16384);
    high(block + 14, 32767);
    mf_download_character(store, sizeof store, block, sizeof block, 7, 65);
    mf_tell_character(store, sizeof store, kept, sizeof kept, 7, 65);
    letter = mf_character_fields_of(kept);
    printf("character:");
    SHOW(&letter, class_);
    SHOW(&letter, orientation);
    SHOW(&letter, left);
    SHOW(&letter, top);
    SHOW(&letter, width);
    SHOW(&letter, height);
    SHOW(&letter, delta_x);
    puts("");
}

static void names(void)
{
    printf("version %s, %d\n", MF_VERSION, MF_VERSION_NUMBER);
    printf("8U %u, Roman-8 %u, 0D %u, 1D %u, 10U %u\n", (unsigned)MF_SYMBOL_SET(8, 'U'),
           (unsigned)MF_ROMAN_8, (unsigned)MF_SYMBOL_SET(0, 'D'), (unsigned)MF_SYMBOL_SET(1, 'D'),
           (unsigned)MF_SYMBOL_SET(10, 'U'));
    printf("weights %d %d %d %d %d %d %d, %d, %d %d %d %d %d %d %d\n", MF_ULTRA_THIN,
           MF_EXTRA_THIN, MF_THIN, MF_EXTRA_LIGHT, MF_LIGHT, MF_DEMI_LIGHT, MF_SEMI_LIGHT,
           MF_MEDIUM, MF_SEMI_BOLD, MF_DEMI_BOLD, MF_BOLD, MF_EXTRA_BOLD, MF_BLACK,
           MF_EXTRA_BLACK, MF_ULTRA_BLACK);
}

static mf_font_fields sized(uint32_t resolution, uint32_t size, uint32_t extended)
{
    mf_font_fields font;
    memset(&font, 0, sizeof font);
    font.resolution = resolution;
    font.pitch = font.height = size;
    font.pitch_extended = font.height_extended = extended;
    return font;
}

/* Whether n / by is nearest to top / bottom; all numbers are far below 2^63. */
static int nearest(uint64_t n, uint64_t bottom, uint64_t top)
{
    uint64_t product = n * bottom;
    return 2 * (product < top ? top - product : product - top) <= bottom;
}

/* Every pitch and height that a font may have, each with some extended bytes. */
static unsigned wrong_sizes(uint32_t resolution)
{
    static const uint32_t extended[] = {0, 1, 44, 127, 128, 150, 255};
    unsigned wrong = 0;
    uint32_t size;
    size_t at;

    for (size = 0; size <= 16800; size++)
        for (at = 0; at < sizeof extended / sizeof *extended; at++) {
            mf_font_fields font = sized(resolution, size, extended[at]);
            uint64_t fine = 256 * (uint64_t)size + extended[at];
            uint32_t pitch = mf_pitch_of(&font);
            /* 256ths of a quarter-dot to the inch, a hundred times */
            wrong += fine == 0 ? pitch != 0 : !nearest(pitch, fine, 102400 * (uint64_t)resolution);
            /* an inch has 7200 hundredths of a point */
            wrong += !nearest(mf_height_of(&font), 1024 * (uint64_t)resolution, 7200 * fine);
        }
    return wrong;
}

/* Every pitch and height that a request may have. */
static unsigned wrong_requests(uint32_t resolution)
{
    unsigned wrong = mf_pitch_quarter_dots(0, resolution) != 0;
    uint32_t asked;

    for (asked = 1; asked <= 57600; asked++)
        wrong += !nearest(mf_pitch_quarter_dots(asked, resolution), asked,
                          400 * (uint64_t)resolution);
    for (asked = 0; asked <= 99975; asked++)
        wrong += !nearest(mf_height_quarter_dots(asked, resolution), 7200,
                          4 * (uint64_t)resolution * asked);
    return wrong;
}

static void show_size(uint32_t resolution, uint32_t size, uint32_t extended)
{
    mf_font_fields font = sized(resolution, size, extended);
    printf("%u with %u at %u: pitch %u, height %u\n", (unsigned)size, (unsigned)extended,
           (unsigned)resolution, (unsigned)mf_pitch_of(&font), (unsigned)mf_height_of(&font));
}

static void conversions(void)
{
    uint32_t dots, at;

    show_size(300, 120, 0);
    show_size(600, 240, 0);
    show_size(300, 70, 150);
    show_size(600, 141, 44);
    show_size(300, 72, 0);
    show_size(300, 200, 0);
    show_size(300, 166, 170);
    show_size(600, 16800, 255);
    show_size(300, 0, 0);
    show_size(300, 0, 1);
    printf("wrong: %u %u %u %u\n", wrong_sizes(300), wrong_sizes(600), wrong_requests(300),
           wrong_requests(600));
    printf("10 to the inch %u %u, 12 points %u %u\n", (unsigned)mf_pitch_quarter_dots(1000, 300),
           (unsigned)mf_pitch_quarter_dots(1000, 600), (unsigned)mf_height_quarter_dots(1200, 300),
           (unsigned)mf_height_quarter_dots(1200, 600));
    printf("dots:");
    for (at = 0; at < 9; at++)
        printf(" %u", (unsigned)mf_dots(at));
    dots = mf_dots(4294967295u);
    printf(" %u\n", (unsigned)dots);
}

/* Font 1 has 72 quarter-dots, 16.67 characters to the inch rounded up, and font 2 has more. */
static void rounded_up(void)
{
    uint8_t block[MF_FONT_BYTES];
    mf_font_fields font;
    uint32_t asked;

    mf_make_fresh(store, sizeof store);
    header(block);
    high(block + 16, 72);
    put_font(1, block);
    high(block + 16, 60);
    put_font(2, block);
    font = told_font(1);
    for (asked = mf_pitch_of(&font); asked + 2 > mf_pitch_of(&font); asked--)
        printf("asked for %u: font %u\n", (unsigned)asked,
               (unsigned)mf_choose(store, sizeof store, MF_ROMAN_8, MF_FIXED, asked, 1200, 0,
                                   MF_BOLD, 3, MF_PORTRAIT, MF_MODE_300)
                   .font);
}

/* Whether both functions say what the calls say, at every number. */
static void walk(const char *name, uint8_t *from, size_t length)
{
    uint8_t kept[MF_FONT_BYTES], block[MF_FONT_BYTES];
    size_t room = mf_room_left(from, length);
    uint32_t number, next = MF_FONT_MAX + 1, wrong = mf_next_font(from, length, next) != next;

    printf("%s:", name);
    for (number = MF_FONT_MAX + 1; number-- > 0;) {
        if (mf_tell_font(from, length, kept, sizeof kept, number).refusal == MF_DONE)
            next = number;
        wrong += mf_next_font(from, length, number) != next;
    }
    for (number = mf_next_font(from, length, 0); number <= MF_FONT_MAX;
         number = mf_next_font(from, length, number + 1))
        printf(" %u", (unsigned)number);
    header(block);
    number = mf_download_font(from, length, block, 64, 12345);
    printf("; wrong %u; room %u, a font more: %s\n", (unsigned)wrong, (unsigned)room,
           mf_refusal_name(number));
}

/* A character of so many bytes more than the room that one font leaves. */
static void fill(size_t length, size_t more)
{
    static uint8_t block[16 + LENGTH];
    uint8_t *lent = (uint8_t *)malloc(length);
    size_t room;

    if (!lent)
        return;
    mf_make_fresh(lent, length);
    header(block);
    mf_download_font(lent, length, block, 64, 9);
    room = mf_room_left(lent, length);
    first_block(block, 1, 1024, 256, NULL, 0);
    printf("%u bytes, room %u, a character of %u", (unsigned)length, (unsigned)room,
           (unsigned)(room + more));
    printf(": %s, ", mf_refusal_name(mf_download_character(lent, length, block,
                                                           16 + room + more - MF_CHARACTER_ROOM,
                                                           9, 65)
                                         .refusal));
    printf("room %u\n", (unsigned)mf_room_left(lent, length));
    free(lent);
}

/* Fonts 1 and 2, each with one character. */
#define WITH_CHARACTER (MF_FONT_ROOM + MF_CHARACTER_ROOM + 3)

static void build_two(void)
{
    const uint8_t rows[] = {1, 2, 3};
    uint8_t block[MF_FONT_BYTES];

    mf_make_fresh(store, sizeof store);
    header(block);
    put_font(1, block);
    put_font(2, block);
    put_character(1, 65, 1, 8, 3, rows, 3);
    put_character(2, 65, 1, 8, 3, rows, 3);
}

static void kept_fonts(void)
{
    const uint8_t rows[] = {1, 2, 3};
    uint8_t block[MF_FONT_BYTES];

    mf_make_fresh(store, sizeof store);
    walk("fresh", store, sizeof store);
    mf_make_fresh(store, sizeof store);
    header(block);
    put_font(0, block);
    put_font(300, block);
    put_font(MF_FONT_MAX, block);
    put_font(299, block);
    put_character(300, 2, 1, 8, 3, rows, 3);
    put_character(300, 0, 1, 8, 3, rows, 2);
    put_character(0, 255, 1, 8, 3, rows, 0);
    walk("four fonts", store, sizeof store);
    mf_remove_font(store, sizeof store, 12345);
    mf_remove_font(store, sizeof store, 0);
    walk("three", store, sizeof store);
    store[4] = 9;
    walk("no store", store, sizeof store);
    fill(MF_STORE_MIN + MF_FONT_ROOM, MF_CHARACTER_ROOM);
    fill(MF_STORE_MIN + MF_FONT_ROOM + MF_CHARACTER_ROOM - 1, 1);
    fill(MF_STORE_MIN + MF_FONT_ROOM + MF_CHARACTER_ROOM, 0);
    fill(MF_STORE_MIN + MF_FONT_ROOM + MF_CHARACTER_ROOM, 1);
    fill(LENGTH, 0);
    fill(LENGTH, 1);
}

/* Two fonts with a character each, and any bit changed, in memory of just that length: the
 * functions say what the calls say. */
static void changed(void)
{
    size_t length = MF_STORE_MIN + 2 * WITH_CHARACTER + 20, at;
    uint8_t *lent = (uint8_t *)malloc(length), kept[MF_FONT_BYTES];
    unsigned bit, stores = 0, wrong = 0;

    build_two();
    for (at = 0; lent && at < length; at++)
        for (bit = 0; bit < 8; bit++) {
            uint32_t refusal;
            memcpy(lent, store, length);
            lent[at] = (uint8_t)(lent[at] ^ 1u << bit);
            refusal = mf_tell_font(lent, length, kept, sizeof kept, 2).refusal;
            stores += refusal != MF_NOT_A_STORE;
            wrong += mf_room_left(lent, length) != (refusal == MF_NOT_A_STORE ? 0u : 20u);
            wrong += (mf_next_font(lent, length, 2) == 2) != (refusal == MF_DONE);
        }
    printf("%u changes: %u stores, wrong %u\n", 8 * (unsigned)length, stores, wrong);
    free(lent);
}

static void put(const uint8_t *picture, uint32_t width, uint32_t height, long x, long y)
{
    uint32_t row, column;
    for (row = 0; row < height; row++)
        for (column = 0; column < width; column++)
            if (picture[row * mf_row_bytes(width) + column / 8] & 0x80 >> column % 8)
                page[y + (long)row][x + (long)column] = '#';
}

/* The header's example, which tests/header holds equal to it: */
int set_line(const uint8_t *file, size_t file_len, const unsigned char *text, long x, long y)
{
    static uint8_t store[MF_STORE_MAX], kept[MF_FONT_BYTES], picture[MF_PICTURE_MAX];
    mf_request asked = {MF_ROMAN_8, MF_FIXED, 1000,        1200,       0,
                        MF_BOLD,    3,        MF_PORTRAIT, MF_MODE_300};
    mf_stream_read read;
    mf_chosen chosen;
    mf_font_fields font;
    uint64_t pitch, along = 0;

    mf_make_fresh(store, sizeof store);
    read = mf_read_stream(store, sizeof store, file, file_len);
    chosen = mf_choose_request(store, sizeof store, &asked);
    if (read.refusal || read.refused || chosen.refusal)
        return 0;
    mf_tell_font(store, sizeof store, kept, sizeof kept, chosen.font);
    font = mf_font_fields_of(kept);
    if (font.orientation != asked.orientation || font.resolution != asked.mode)
        return 0;
    pitch = 256 * (uint64_t)font.pitch + font.pitch_extended;
    for (; *text; text++) {
        uint32_t refusal = mf_tell_character(store, sizeof store, kept, sizeof kept,
                                             chosen.font, *text).refusal;
        mf_character_fields letter = mf_character_fields_of(kept);
        if (refusal) {
            along += pitch;
            continue;
        }
        mf_draw_picture(store, sizeof store, picture, sizeof picture, chosen.font, *text);
        put(picture, letter.width, letter.height,
            x + (long)((along + 512) / 1024) + letter.left, y - letter.top);
        along += font.spacing == MF_FIXED ? pitch : 256 * (uint64_t)letter.delta_x;
    }
    return 1;
}
/* so far. */

/* An L of four rows that ends on the baseline, row 4 of the page, and a p of five, of which the
 * last is below it; no space. The pitch is 6 1/2 dots and so many 1024ths of one. Of a landscape
 * font no line is set, since its pictures lie otherwise. */
static void line(int spacing, int extended, int orientation)
{
    const uint8_t l[] = {0x80, 0x80, 0x80, 0xF0}, p[] = {0xE0, 0x90, 0xE0, 0x80, 0x80};
    uint8_t block[MF_FONT_BYTES], stream[256];
    size_t length;
    int y, set;

    mf_make_fresh(store, sizeof store);
    header(block);
    block[12] = (uint8_t)orientation;
    block[13] = (uint8_t)spacing;
    high(block + 16, 26);
    block[40] = (uint8_t)extended;
    put_font(3, block);
    length = first_block(block, 1, 4, 4, l, 4);
    block[4] = (uint8_t)orientation;
    high(block + 6, 1);
    high(block + 8, 3);
    high(block + 14, 20);
    mf_download_character(store, sizeof store, block, length, 3, 'L');
    length = first_block(block, 1, 4, 5, p, 5);
    block[4] = (uint8_t)orientation;
    high(block + 6, -1);
    high(block + 8, 3);
    high(block + 14, 16);
    mf_download_character(store, sizeof store, block, length, 3, 'p');
    memset(page, '.', sizeof page);
    for (y = 0; y < PAGE_HEIGHT; y++)
        page[y][PAGE_WIDTH] = '\0';
    length = mf_write_font(store, sizeof store, stream, sizeof stream, 3).length;
    set = set_line(stream, length, (const unsigned char *)"LpL Lp", 0, 4);
    printf("spacing %d, extended byte %d, orientation %d: %s; one byte less: %s\n", spacing,
           extended, orientation, set ? "set" : "not set",
           set_line(stream, length - 1, (const unsigned char *)"", 0, 4) ? "set" : "not set");
    for (y = 0; y < PAGE_HEIGHT; y++)
        puts(page[y]);
}

/* The same two in a store of another length. */
static void lengths(void)
{
    size_t used = MF_STORE_MIN + 2 * WITH_CHARACTER, length;
    unsigned stores = 0;

    build_two();
    for (length = 0; length <= used; length++) {
        memcpy(copy, store, sizeof store);
        if (mf_remove_font(copy, length, 3) != MF_NOT_A_STORE)
            printf("%u bytes: fonts %u %u\n", (unsigned)length,
                   (unsigned)mf_next_font(store, length, 0),
                   (unsigned)mf_next_font(store, length, 2));
    }
    for (; length <= sizeof store; length++)
        stores += mf_next_font(store, length, 2) == 2 &&
                  mf_room_left(store, length) == length - used;
    printf("with part of the room: %u of %u\n", stores, (unsigned)(sizeof store - used));
    mf_remove_font(store, MF_STORE_MIN + WITH_CHARACTER, 1);
    printf("font 1 removed from the shorter one, the longer is: %s\n",
           mf_refusal_name(mf_remove_font(store, sizeof store, 2)));
}

/* A request in a record gets what a sheet of that record gets: each field in turn has a value that
 * no other may have, and one that decides between two fonts. */
static void requests(void)
{
    static const mf_request tried[] = {
        {277, 0, 1000, 1200, 0, 3, 3, 0, 300}, {2048, 0, 1000, 1200, 0, 3, 3, 0, 300},
        {277, 2, 1000, 1200, 0, 3, 3, 0, 300}, {277, 0, 57601, 1200, 0, 3, 3, 0, 300},
        {277, 0, 1000, 99976, 0, 3, 3, 0, 300}, {277, 0, 1000, 60000, 0, 3, 3, 0, 300},
        {277, 0, 1000, 1200, 1024, 3, 3, 0, 300}, {277, 0, 1000, 1200, 0, -8, 3, 0, 300},
        {277, 0, 1000, 1200, 0, -7, 3, 0, 300}, {277, 0, 1000, 1200, 0, 3, 65535, 0, 300},
        {277, 0, 1000, 1200, 0, 3, 65536, 0, 300}, {277, 0, 1000, 1200, 0, 3, 3, 4, 300},
        {277, 0, 1000, 1200, 0, 3, 3, 2, 300}, {277, 0, 1000, 1200, 0, 3, 3, 0, 600},
        {277, 0, 1000, 1200, 0, 3, 3, 0, 301}, {277, 1, 1000, 1200, 0, 3, 3, 0, 300}};
    enum { TRIED = sizeof tried / sizeof *tried };
    mf_answer answers[TRIED];
    unsigned same = 0, done = 0, at;

    build_two();
    mf_choose_sheet(store, sizeof store, tried, TRIED, answers, TRIED);
    for (at = 0; at < TRIED; at++) {
        mf_chosen chosen = mf_choose_request(store, sizeof store, &tried[at]);
        same += chosen.refusal == answers[at].refusal && chosen.font == answers[at].font;
        done += chosen.refusal == MF_DONE;
    }
    printf("requests in a record: %u of %u as in a sheet, %u done\n", same, (unsigned)TRIED, done);
}

/* What the header says about streams: font 1 of one character is replaced, the stream cut
 * between two commands, and a copy brings the store back. */
static void streams(void)
{
    uint8_t block[MF_FONT_BYTES], stream[256];
    size_t length;
    mf_stream_read read;

    mf_make_fresh(store, sizeof store);
    header(block);
    put_font(1, block);
    put_character(1, 65, 1, 8, 1, block, 1);
    memcpy(copy, store, sizeof store);
    length = (size_t)sprintf((char *)stream, "\x1b*c1D\x1b)s64W");
    memcpy(stream + length, block, 64);
    length += 64;
    length += (size_t)sprintf((char *)stream + length, "\x1b*c256E\x1b(s0W");
    for (length += 1; --length > 0;) {
        memcpy(store, copy, sizeof store);
        read = mf_read_stream(store, sizeof store, stream, length);
        if (read.refusal == MF_DONE)
            printf("%u bytes: done %u refused %u, the store %s\n", (unsigned)length,
                   (unsigned)read.done, (unsigned)read.refused,
                   memcmp(store, copy, sizeof store) ? "changed" : "as it was");
    }
    mf_read_stream(store, sizeof store, stream, 75);
    printf("characters of font 1: %u\n",
           (unsigned)mf_tell_font(store, sizeof store, stream, sizeof stream, 1).count);
    /* nothing, at the store's own address */
    read = mf_read_stream(store, sizeof store, store, 0);
    printf("empty stream: %s, done %u; empty block: %s; empty output: %s\n",
           mf_refusal_name(read.refusal), (unsigned)read.done,
           mf_refusal_name(mf_download_font(store, sizeof store, store, 0, 1)),
           mf_refusal_name(mf_tell_font(store, sizeof store, store, 0, 1).refusal));
}

/* A continuation without data, for a character just downloaded: the answer, and that nothing
 * changes. */
static void probe(const char *name, uint32_t code)
{
    const uint8_t empty[] = {4, 1};
    uint8_t kept[MF_CHARACTER_BYTES];
    mf_told told = mf_tell_character(store, sizeof store, kept, sizeof kept, 1, code);
    mf_character_fields letter = mf_character_fields_of(kept);
    uint32_t refusal;

    memcpy(copy, store, sizeof store);
    refusal = mf_download_character(store, sizeof store, empty, sizeof empty, 1, code).refusal;
    printf("%s: class %u, %u of %u bytes, %s, store %s\n", name, (unsigned)letter.class_,
           (unsigned)told.count, (unsigned)mf_picture_bytes(letter.width, letter.height),
           mf_refusal_name(refusal), memcmp(store, copy, sizeof store) ? "changed" : "as it was");
}

static void incomplete(void)
{
    const uint8_t rows[] = {9, 9, 9}, runs[] = {1, 2, 3, 3, 0, 0, 8};
    const uint8_t rest[] = {4, 1, 0, 0, 8};
    uint8_t block[MF_FONT_BYTES];
    uint32_t code;
    mf_profile profile;

    mf_make_fresh(store, sizeof store);
    header(block);
    put_font(1, block);
    put_character(1, 32, 1, 8, 3, rows, 3);
    probe("class 1, complete", 32);
    put_character(1, 33, 1, 8, 3, rows, 2);
    probe("class 1, incomplete", 33);
    put_character(1, 34, 2, 8, 3, runs, 7);
    probe("class 2, complete", 34);
    put_character(1, 35, 2, 8, 3, runs, 4);
    probe("class 2, incomplete", 35);
    put_character(1, 36, 1, 8, 1, rows, 1);
    probe("the same, not open any more", 35);
    put_character(1, 35, 2, 8, 3, runs, 4);
    mf_download_character(store, sizeof store, rest, sizeof rest, 1, 35);
    probe("continued", 35);
    put_character(1, 33, 1, 8, 3, rows, 3);
    put_character(1, 34, 2, 8, 3, runs, 4);
    for (code = 37; code <= 127; code++)
        put_character(1, code, 1, 8, 1, rows, 1);
    profile = mf_check_profile(store, sizeof store, 1);
    printf("profile: rule %u, code %u\n", (unsigned)profile.rule, (unsigned)profile.code);
}

int main(void)
{
    fonts();
    one_character();
    names();
    conversions();
    rounded_up();
    kept_fonts();
    changed();
    requests();
    line(MF_FIXED, 0, MF_PORTRAIT);
    line(MF_FIXED, 128, MF_PORTRAIT);
    line(MF_FIXED, 0, MF_LANDSCAPE);
    line(MF_PROPORTIONAL, 128, MF_PORTRAIT);
    lengths();
    streams();
    incomplete();
    return 0;
}
