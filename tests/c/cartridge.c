/* The choice from two stores from C: which font, of which store, and the record at its place;
 * how each step looks at both; what is refused, and in which order. tests/run and tests/header
 * compare what it prints with cartridge.expected. A chosen font is followed by its record's
 * length, kind, number, characters and data bytes. */
#include "marlinfold.h"

#include <stdio.h>
#include <stdlib.h>
#include <string.h>

#define LENGTH 2048
#define OTHER_SET 341

/* Both stores, by MF_SOFT and MF_CARTRIDGE. */
static const char *const names[] = {"none", "soft", "cartridge"};
static uint8_t stores[3][LENGTH];
static size_t lengths[3];

/* Document 01's base request, and those that ask for something else. */
static const mf_request base = {MF_ROMAN_8, MF_FIXED, 1000,        1200,       0,
                                MF_MEDIUM,  3,        MF_PORTRAIT, MF_MODE_300};
static mf_request landscape, other_set, fine_mode;

static void make_requests(void)
{
    landscape = other_set = fine_mode = base;
    landscape.orientation = MF_LANDSCAPE;
    other_set.symbol_set = OTHER_SET;
    fine_mode.mode = MF_MODE_600;
}

static void fresh(uint32_t which, size_t length)
{
    lengths[which] = length;
    if (mf_make_fresh(stores[which], length))
        printf("%s: not made fresh\n", names[which]);
}

static void both_fresh(void)
{
    fresh(MF_SOFT, LENGTH);
    fresh(MF_CARTRIDGE, LENGTH - 500);
}

static void high(uint8_t *at, unsigned value)
{
    at[0] = (uint8_t)(value / 256);
    at[1] = (uint8_t)(value % 256);
}

/* A format 20 header that fits the base request, as large at either resolution. */
static void header(uint8_t block[68], unsigned resolution)
{
    memset(block, 0, 68);
    high(block, 68);
    block[2] = 20;
    block[9] = 30;
    block[11] = 50;
    high(block + 14, MF_ROMAN_8);
    high(block + 16, 120 * resolution / 300);
    high(block + 18, 200 * resolution / 300);
    block[25] = 3;
    high(block + 64, resolution);
    high(block + 66, resolution);
}

static void download(uint32_t which, uint32_t font, const uint8_t block[68])
{
    uint32_t refusal = mf_download_font(stores[which], lengths[which], block, 68, font);
    if (refusal)
        printf("%s, font %u: refusal %u\n", names[which], (unsigned)font, (unsigned)refusal);
}

static void put(uint32_t which, uint32_t font)
{
    uint8_t block[68];
    header(block, 300);
    download(which, font, block);
}

/* The same with one byte of the header otherwise: its place is said by these names. */
enum { ORIENTATION = 12, SPACING = 13, SET = 15, PITCH = 17, HEIGHT = 19, STYLE = 23, WEIGHT = 24,
       FACE = 25 };

static void put_other(uint32_t which, uint32_t font, size_t at, unsigned byte)
{
    uint8_t block[68];
    header(block, 300);
    block[at] = (uint8_t)byte;
    download(which, font, block);
}

static void put_fine(uint32_t which, uint32_t font)
{
    uint8_t block[68];
    header(block, 600);
    download(which, font, block);
}

/* A portrait character of one row, with so many bytes of it. */
static void put_character(uint32_t which, uint32_t font, uint32_t code, unsigned bytes)
{
    uint8_t block[64] = {4, 0, 14, 1, 0, 0, 0, 0, 0, 0, 0, 0, 0, 1, 0, 120};
    high(block + 10, 8 * bytes);
    memset(block + 16, 0xA5, bytes);
    if (mf_download_character(stores[which], lengths[which], block, 16 + bytes, font, code)
            .refusal)
        printf("%s, code %u: refused\n", names[which], (unsigned)code);
}

/* A number of a record, low byte first. */
static unsigned low(const uint8_t *at, size_t bytes)
{
    unsigned number = 0;
    while (bytes--)
        number = number << 8 | at[bytes];
    return number;
}

/* Prints the numbers of the record, and what in it is not as the calls tell it. */
static void show_record(const uint8_t *store, size_t length, const uint8_t *record, uint32_t font)
{
    uint8_t kept[MF_FONT_BYTES];
    mf_told told = mf_tell_font(store, length, kept, sizeof kept, font);
    uint32_t code, data = 0;

    printf(", record %u %u %u %u %u", low(record, 4), low(record + 4, 2), low(record + 6, 2),
           low(record + 8, 2), low(record + 10, 4));
    if (memcmp(record + MF_FONT_KEPT_AT, kept, sizeof kept) || told.refusal)
        printf(", kept bytes not as told");
    for (code = 0; code <= MF_CODE_MAX; code++) {
        uint8_t bytes[MF_CHARACTER_BYTES];
        data += mf_tell_character(store, length, bytes, sizeof bytes, font, code).count;
    }
    if (told.count != low(record + 8, 2) || data != low(record + 10, 4))
        printf(", counts not as told");
}

/* The bytes of a store in memory of just its length, so that valgrind sees what is read beyond. */
static uint8_t *exact(uint32_t which)
{
    uint8_t *made = (uint8_t *)malloc(lengths[which] ? lengths[which] : 1);
    if (!made)
        exit(2);
    memcpy(made, stores[which], lengths[which]);
    return made;
}

static int changed(uint32_t which, const uint8_t *bytes)
{
    return memcmp(bytes, stores[which], lengths[which]) != 0;
}

static mf_chosen_record ask(const uint8_t *soft, size_t soft_len, const uint8_t *cartridge,
                            size_t cartridge_len, const mf_request *asked)
{
    return mf_choose_from_two(soft, soft_len, cartridge, cartridge_len, asked->symbol_set,
                              asked->spacing, asked->pitch, asked->height, asked->style,
                              asked->weight, asked->typeface, asked->orientation, asked->mode);
}

/* Prints the answer, with the record where the header's function finds it. */
static void show(const uint8_t *soft, size_t soft_len, const uint8_t *cartridge,
                 size_t cartridge_len, mf_chosen_record chosen)
{
    const uint8_t *record = mf_record_of(soft, cartridge, chosen);
    const uint8_t *store = chosen.which == MF_CARTRIDGE ? cartridge : soft;

    if (chosen.refusal) {
        printf("refusal %u, font %u, which %u, place %lu", (unsigned)chosen.refusal,
               (unsigned)chosen.font, (unsigned)chosen.which, (unsigned long)chosen.place);
        printf(", record %s", record == soft ? "soft" : "elsewhere");
        return;
    }
    printf("font %u, which %u (%s), place %lu", (unsigned)chosen.font, (unsigned)chosen.which,
           names[chosen.which <= 2 ? chosen.which : 0], (unsigned long)chosen.place);
    if (record != store + chosen.place)
        printf(", record elsewhere");
    show_record(store, store == soft ? soft_len : cartridge_len, record, chosen.font);
}

static void choose(const char *name, const mf_request *asked)
{
    uint8_t *soft = exact(MF_SOFT), *cartridge = exact(MF_CARTRIDGE);
    size_t soft_len = lengths[MF_SOFT], cartridge_len = lengths[MF_CARTRIDGE];

    printf("%s: ", name);
    show(soft, soft_len, cartridge, cartridge_len,
         ask(soft, soft_len, cartridge, cartridge_len, asked));
    puts(changed(MF_SOFT, soft) || changed(MF_CARTRIDGE, cartridge) ? ", a store changed" : "");
    free(soft);
    free(cartridge);
}

/* The soft store before the cartridge, whatever the orientation and the number. */
static void soft_first(void)
{
    both_fresh();
    put(MF_SOFT, 5);
    put(MF_CARTRIDGE, 5);
    choose("the same number", &base);
    put_other(MF_SOFT, 7, WEIGHT, 3);
    put_other(MF_CARTRIDGE, 7, WEIGHT, 3);
    choose("the same fonts", &base);
    both_fresh();
    put(MF_SOFT, 1);
    put_other(MF_CARTRIDGE, 9, ORIENTATION, MF_LANDSCAPE);
    choose("the orientation in the cartridge", &landscape);
    both_fresh();
    put(MF_SOFT, 9);
    put_other(MF_CARTRIDGE, 1, ORIENTATION, MF_LANDSCAPE);
    choose("orientation and lower number in the cartridge", &landscape);
    put(MF_CARTRIDGE, 0);
    choose("lower number in the cartridge", &base);
    put(MF_SOFT, 8);
    put_other(MF_SOFT, 10, ORIENTATION, MF_LANDSCAPE);
    choose("orientation among the soft fonts", &landscape);
    choose("number among the soft fonts", &base);
}

/* Of the cartridge's fonts, once the soft ones have lost by the typeface. */
static void in_the_cartridge(void)
{
    both_fresh();
    put_other(MF_SOFT, 1, FACE, 4);
    put(MF_CARTRIDGE, 7);
    put(MF_CARTRIDGE, 6);
    put_other(MF_CARTRIDGE, 9, ORIENTATION, MF_LANDSCAPE);
    choose("number among the cartridge's fonts", &base);
    choose("orientation among the cartridge's fonts", &landscape);
}

/* A soft font that differs in one field, and one of the cartridge that fits; then the other way
 * round, where the soft font has the higher number. */
static void one_step(const char *name, size_t at, unsigned byte)
{
    both_fresh();
    put_other(MF_SOFT, 1, at, byte);
    put(MF_CARTRIDGE, 2);
    choose(name, &base);
    both_fresh();
    put_other(MF_CARTRIDGE, 1, at, byte);
    put(MF_SOFT, 2);
    choose(name, &base);
}

static void each_step(void)
{
    one_step("step 1, set", SET, OTHER_SET % 256);
    one_step("step 2, spacing", SPACING, MF_PROPORTIONAL);
    one_step("step 3, pitch", PITCH, 100);
    one_step("step 4, height", HEIGHT, 150);
    one_step("step 5, style", STYLE, 1);
    one_step("step 6, weight", WEIGHT, MF_BOLD);
    one_step("step 7, typeface", FACE, 4);
}

static void sets(void)
{
    both_fresh();
    put(MF_SOFT, 1);
    put_other(MF_CARTRIDGE, 2, SET, OTHER_SET % 256);
    choose("the set in the cartridge, Roman-8 in the soft store", &other_set);
    choose("Roman-8 in the soft store alone", &base);
    both_fresh();
    put_other(MF_SOFT, 1, SET, OTHER_SET % 256);
    put(MF_CARTRIDGE, 2);
    choose("the set in the soft store, Roman-8 in the cartridge", &other_set);
    choose("Roman-8 in the cartridge alone", &base);
    both_fresh();
    put_other(MF_SOFT, 1, SET, OTHER_SET % 256);
    put_other(MF_CARTRIDGE, 2, SET, OTHER_SET % 256);
    choose("neither the set nor Roman-8", &base);
}

static void empty(void)
{
    both_fresh();
    choose("both without fonts", &base);
    put(MF_SOFT, 3);
    choose("the cartridge without fonts", &base);
    fresh(MF_CARTRIDGE, MF_STORE_MIN);
    choose("a cartridge of 12 bytes", &base);
    fresh(MF_SOFT, MF_STORE_MIN);
    choose("both of 12 bytes", &base);
    fresh(MF_CARTRIDGE, MF_STORE_MIN + MF_FONT_ROOM);
    put(MF_CARTRIDGE, 4);
    choose("the soft store without fonts, a full cartridge", &base);
}

/* Mode 300 leaves out the fonts of 600 dots to the inch of either store; mode 600 takes them
 * before it looks which store they are in. */
static void modes(void)
{
    both_fresh();
    put_fine(MF_SOFT, 1);
    choose("mode 300, a fine soft font alone", &base);
    choose("mode 600, a fine soft font alone", &fine_mode);
    put(MF_CARTRIDGE, 2);
    choose("mode 300, fine soft, coarse cartridge", &base);
    choose("mode 600, fine soft, coarse cartridge", &fine_mode);
    both_fresh();
    put_fine(MF_CARTRIDGE, 1);
    choose("mode 300, a fine cartridge font alone", &base);
    choose("mode 600, a fine cartridge font alone", &fine_mode);
    put(MF_SOFT, 2);
    choose("mode 300, coarse soft, fine cartridge", &base);
    choose("mode 600, coarse soft, fine cartridge", &fine_mode);
    put_fine(MF_SOFT, 3);
    choose("mode 300, both in the soft store", &base);
    choose("mode 600, fine in both", &fine_mode);
}

/* Records after others, with characters between them. */
static void places(void)
{
    both_fresh();
    put_other(MF_SOFT, 1, WEIGHT, 3);
    put_character(MF_SOFT, 1, 65, 3);
    put(MF_SOFT, 300);
    put_character(MF_SOFT, 300, 32, 7);
    put_character(MF_SOFT, 300, 255, 9);
    put_other(MF_CARTRIDGE, 0, FACE, 4);
    put_character(MF_CARTRIDGE, 0, 0, 1);
    put_character(MF_CARTRIDGE, 0, 1, 2);
    put_other(MF_CARTRIDGE, MF_FONT_MAX, SPACING, MF_PROPORTIONAL);
    put_character(MF_CARTRIDGE, MF_FONT_MAX, 128, 11);
    choose("after a character of 3 bytes", &base);
    mf_remove_font(stores[MF_SOFT], lengths[MF_SOFT], 1);
    choose("after that font is gone", &base);
    landscape.spacing = MF_PROPORTIONAL;
    choose("after characters of 1 and 2 bytes", &landscape);
    landscape.spacing = MF_FIXED;
}

/* One number out of range at a time: 2, with fonts and without. */
static void out_of_range(void)
{
    mf_request wrong;
    unsigned refused = 0;

#define OUT(field, value) \
    wrong = base; \
    wrong.field = value; \
    refused += ask(stores[MF_SOFT], lengths[MF_SOFT], stores[MF_CARTRIDGE], \
                   lengths[MF_CARTRIDGE], &wrong).refusal == MF_OUT_OF_RANGE
    OUT(symbol_set, 2048);
    OUT(spacing, 2);
    OUT(pitch, 57601);
    OUT(height, 99976);
    OUT(style, 1024);
    OUT(weight, MF_ULTRA_THIN - 1);
    OUT(weight, MF_ULTRA_BLACK + 1);
    OUT(typeface, 65536);
    OUT(orientation, 4);
    OUT(mode, 450);
    printf("10 out of range: %u refused\n", refused);
}

/* 1 for either store, before 2, and 2 before 11. */
static void refusals(void)
{
    mf_request wrong = base;

    wrong.weight = 8;
    both_fresh();
    out_of_range();
    choose("out of range, no fonts", &wrong);
    put(MF_SOFT, 1);
    put(MF_CARTRIDGE, 1);
    out_of_range();
    choose("out of range", &wrong);
    stores[MF_SOFT][4] = 9;
    choose("soft not a store", &base);
    choose("soft not a store, out of range", &wrong);
    stores[MF_CARTRIDGE][4] = 9;
    choose("neither a store", &base);
    stores[MF_SOFT][4] = 1;
    choose("cartridge not a store", &base);
    choose("cartridge not a store, out of range", &wrong);
    stores[MF_CARTRIDGE][4] = 1;
    choose("both stores again", &base);
    lengths[MF_SOFT] = 0;
    choose("soft of 0 bytes", &base);
    lengths[MF_SOFT] = MF_STORE_MIN - 1;
    choose("soft of 11 bytes", &base);
    lengths[MF_SOFT] = LENGTH;
    lengths[MF_CARTRIDGE] = 0;
    choose("cartridge of 0 bytes", &base);
    lengths[MF_SOFT] = 0;
    choose("both of 0 bytes", &base);
}

/* One buffer as both stores. */
static void one_buffer(void)
{
    uint8_t *both;

    both_fresh();
    put(MF_SOFT, 6);
    put_other(MF_SOFT, 2, ORIENTATION, MF_LANDSCAPE);
    both = exact(MF_SOFT);
    printf("one buffer: ");
    show(both, LENGTH, both, LENGTH, ask(both, LENGTH, both, LENGTH, &base));
    printf("\none buffer, landscape: ");
    show(both, LENGTH, both, LENGTH, ask(both, LENGTH, both, LENGTH, &landscape));
    puts(changed(MF_SOFT, both) ? ", changed" : "");
    mf_make_fresh(both, LENGTH);
    printf("one buffer without fonts: ");
    show(both, LENGTH, both, LENGTH, ask(both, LENGTH, both, LENGTH, &base));
    both[0] = 0;
    printf("\none buffer, not a store: ");
    show(both, LENGTH, both, LENGTH, ask(both, LENGTH, both, LENGTH, &base));
    puts("");
    free(both);
}

/* Whether one store, beside a cartridge without fonts and as both stores, gives one font. */
static int as_alone(const mf_request *asked)
{
    const uint8_t *soft = stores[MF_SOFT];
    mf_chosen alone = mf_choose(soft, LENGTH, asked->symbol_set, asked->spacing, asked->pitch,
                                asked->height, asked->style, asked->weight, asked->typeface,
                                asked->orientation, asked->mode);
    mf_chosen_record beside =
        ask(soft, LENGTH, stores[MF_CARTRIDGE], lengths[MF_CARTRIDGE], asked);
    mf_chosen_record twice = ask(soft, LENGTH, soft, LENGTH, asked);

    return alone.refusal == MF_DONE && beside.refusal == MF_DONE && twice.refusal == MF_DONE &&
           beside.which == MF_SOFT && twice.which == MF_SOFT && beside.font == alone.font &&
           twice.font == alone.font && beside.place == twice.place;
}

#define REQUESTS (15 * 2 * 2 * 4 * 2)

static void as_one_store(void)
{
    mf_request asked = base;
    uint32_t at;
    unsigned same = 0;

    both_fresh();
    put_other(MF_SOFT, 1, WEIGHT, 3);
    put_other(MF_SOFT, 2, WEIGHT, 253);
    put_other(MF_SOFT, 3, SPACING, MF_PROPORTIONAL);
    put_other(MF_SOFT, 4, ORIENTATION, MF_LANDSCAPE);
    put_other(MF_SOFT, 5, FACE, 4);
    put_fine(MF_SOFT, 6);
    for (at = 0; at < REQUESTS; at++) {
        asked.weight = (int32_t)(at % 15) - 7;
        asked.spacing = at / 15 % 2;
        asked.typeface = 3 + at / 30 % 2;
        asked.orientation = at / 60 % 4;
        asked.mode = at < REQUESTS / 2 ? MF_MODE_300 : MF_MODE_600;
        same += (unsigned)as_alone(&asked);
    }
    printf("as mf_choose: %u of %u\n", same, (unsigned)REQUESTS);
}

static void use(const uint8_t *dots, const mf_font_fields *font)
{
    printf("example: %02X %02X, weight %d\n", dots[0], dots[1], (int)font->weight);
}

/* The header's example; tests/header compares the two. */
static void example(void)
{
    static uint8_t soft[LENGTH], cartridge[LENGTH / 2], picture[MF_PICTURE_MAX];
    size_t cartridge_len = sizeof cartridge;

    fresh(MF_SOFT, sizeof soft);
    fresh(MF_CARTRIDGE, cartridge_len);
    put(MF_SOFT, 1);
    put_other(MF_CARTRIDGE, 2, WEIGHT, MF_BOLD);
    put_character(MF_CARTRIDGE, 2, 'A', 2);
    memcpy(soft, stores[MF_SOFT], sizeof soft);
    memcpy(cartridge, stores[MF_CARTRIDGE], cartridge_len);

    mf_chosen_record chosen =
        mf_choose_from_two(soft, sizeof soft, cartridge, cartridge_len, MF_ROMAN_8, MF_FIXED,
                           1000, 1200, 0, MF_BOLD, 3, MF_PORTRAIT, MF_MODE_300);
    if (chosen.refusal == MF_DONE) {
        const uint8_t *store = chosen.which == MF_SOFT ? soft : cartridge;
        size_t store_len = chosen.which == MF_SOFT ? sizeof soft : cartridge_len;
        const uint8_t *record = mf_record_of(soft, cartridge, chosen);
        mf_font_fields font = mf_font_fields_of(record + MF_FONT_KEPT_AT);
        if (mf_draw_picture(store, store_len, picture, sizeof picture, chosen.font, 'A')
            == MF_DONE)
            use(picture, &font);
    }
}

int main(void)
{
    make_requests();
    printf("MF_SOFT %d, MF_CARTRIDGE %d, MF_FONT_RECORD_BYTES %d, MF_FONT_ROOM %d\n", MF_SOFT,
           MF_CARTRIDGE, MF_FONT_RECORD_BYTES, MF_FONT_ROOM);
    soft_first();
    in_the_cartridge();
    each_step();
    sets();
    empty();
    modes();
    places();
    refusals();
    one_buffer();
    as_one_store();
    example();
    return 0;
}
