/* The profile's two calls from C: a font that meets it, fonts that break a rule, and
 * refusals. tests/run compares what it prints with profile.expected; with a number it
 * writes such a font's stream, for the specimen example. */
#include "marlinfold.h"

#include <stdio.h>
#include <stdlib.h>
#include <string.h>

#define FONT 7
#define HALF 8 /* as rule 3, by a character that is incomplete */

static uint8_t store[8192];
static uint8_t out[MF_WRITTEN_MAX(sizeof store)], plain[sizeof out], untouched[sizeof out];

/* A cell of 30 x 50 dots and pitch 120. */
static void put_font(unsigned type, unsigned spacing)
{
    uint8_t block[64] = {0, 64, 0};
    block[3] = (uint8_t)type;
    block[9] = 30;
    block[11] = 50;
    block[13] = (uint8_t)spacing;
    block[14] = 277 / 256;
    block[15] = 277 % 256;
    block[17] = 120;
    block[19] = 200;
    if (mf_download_font(store, sizeof store, block, sizeof block, FONT))
        puts("font refused");
}

/* Eight dots wide, with so many of its rows' bytes. */
static void put(uint32_t code, int left, unsigned height, unsigned delta, unsigned length)
{
    uint8_t block[16 + 64] = {4, 0, 14, 1};
    block[6] = (uint8_t)(left < 0 ? 255 : 0);
    block[7] = (uint8_t)(left < 0 ? 256 + left : left);
    block[11] = 8;
    block[13] = (uint8_t)height;
    block[15] = (uint8_t)delta;
    memset(block + 16, 0x5A, length);
    if (mf_download_character(store, sizeof store, block, 16 + length, FONT, code).refusal)
        puts("character refused");
}

/* A store with a font that breaks this rule alone, 0 for none. */
static void build(unsigned rule)
{
    uint32_t code;

    mf_make_fresh(store, sizeof store);
    put_font(rule == 1 ? 2 : 0, rule == 2 ? MF_PROPORTIONAL : MF_FIXED);
    for (code = 32; code <= 127; code++)
        if (rule != 3 || code != 64)
            put(code, 2, 1, 120, 1);
    put(200, 22, 50, 120, 50); /* just fills the cell */
    switch (rule) {
    case 4: put(31, -1, 1, 120, 1); break;
    case 5: put(65, 23, 1, 120, 1); break;
    case 6: put(200, 0, 51, 120, 51); break;
    case 7: put(127, 2, 1, 119, 1); break;
    case HALF: put(64, 2, 2, 120, 1); break;
    }
}

/* What both calls answer; that the second writes what mf_write_font does, or nothing. */
static void show(const char *name, uint32_t font)
{
    mf_profile profile = mf_check_profile(store, sizeof store, font);
    mf_written written, full = mf_write_font(store, sizeof store, plain, sizeof plain, font);
    size_t length;

    memset(out, 0x55, sizeof out);
    written = mf_write_profiled(store, sizeof store, out, sizeof out, font);
    length = written.length;
    printf("%s: %u, rule %u, code %u; written: %u, %s", name, (unsigned)profile.refusal,
           (unsigned)profile.rule, (unsigned)profile.code, (unsigned)written.refusal,
           length == 0                                                   ? "nothing"
           : length == full.length && memcmp(out, plain, length) == 0 ? "all"
                                                                         : "something else");
    printf(", the rest %s", memcmp(out + length, untouched, sizeof out - length) ? "changed" : "kept");
    memset(out, 0x55, sizeof out);
    length = full.length ? full.length - 1 : 0;
    written = mf_write_profiled(store, sizeof store, out, length, font);
    printf("; a byte short: %u, %s\n", (unsigned)written.refusal,
           memcmp(out, untouched, sizeof out) ? "changed" : "kept");
}

static void rules(void)
{
    static const char *const names[] = {
        "meets it", "type", "spacing", "code missing", "left offset", "width", "height", "delta X",
        "code incomplete"};
    unsigned rule;
    for (rule = 0; rule <= HALF; rule++) {
        build(rule);
        show(names[rule], FONT);
    }
}

/* The first rule, then its lowest code. */
static void order(void)
{
    build(0);
    put(33, 2, 1, 119, 1);
    show("delta X of 33", FONT);
    put(199, 2, 51, 120, 51);
    show("and height of 199", FONT);
    put(198, 2, 51, 120, 51);
    show("and of 198", FONT);
    put(255, -1, 1, 120, 1);
    show("and left offset of 255", FONT);
    mf_remove_character(store, sizeof store, FONT, 127);
    show("and no 127", FONT);
    mf_remove_character(store, sizeof store, FONT, 32);
    show("and no 32", FONT);
}

/* What is written meets the profile where it is read. */
static void again(void)
{
    mf_written written;

    build(0);
    written = mf_write_profiled(store, sizeof store, out, sizeof out, FONT);
    mf_make_fresh(store, sizeof store);
    mf_read_stream(store, sizeof store, out, written.length);
    show("read again", FONT);
}

static void refusals(void)
{
    build(0);
    show("number out of range", MF_FONT_MAX + 1);
    show("no such font", FONT + 1);
    store[0] = 13;
    show("not a store", FONT);
    printf("%d: %s\n", MF_OUTSIDE_PROFILE, mf_refusal_name(MF_OUTSIDE_PROFILE));
}

int main(int count, char **words)
{
    if (count > 1) {
        mf_written written;
        build((unsigned)atoi(words[1]));
        written = mf_write_font(store, sizeof store, out, sizeof out, FONT);
        fwrite(out, 1, written.length, stdout);
        return 0;
    }
    memset(untouched, 0x55, sizeof untouched);
    rules();
    order();
    again();
    refusals();
    return 0;
}
