/* The sheet's call from C: that its records lie as the header says and the library
 * has them, what each entry gets, and how a whole sheet is refused. tests/run
 * compares what it prints with sheet.expected. */
#include "marlinfold.h"

#include <stdio.h>
#include <string.h>

#define ANSWERS (MF_SHEET_MAX + 6)

static uint8_t store[8192];
static mf_request requests[MF_SHEET_MAX + 1];
static mf_answer answers[ANSWERS], before[ANSWERS];

/* Document 01's base request. */
static const mf_request base = {MF_ROMAN_8, MF_FIXED, 1000, 1200, 0,
                                0,          3,        MF_PORTRAIT, MF_MODE_300};

/* The header of a font that fits the base request: in format 20, of 300 dots to the
 * inch, so that its resolution can be changed. */
static void header(uint8_t block[68])
{
    memset(block, 0, 68);
    block[1] = 68;
    block[2] = 20;
    block[64] = block[66] = 300 / 256;
    block[65] = block[67] = 300 % 256;
    block[9] = 30;
    block[11] = 50;
    block[14] = 277 / 256;
    block[15] = 277 % 256;
    block[17] = 120;
    block[19] = 200;
    block[25] = 3;
}

static void download(uint32_t font, const uint8_t block[68])
{
    uint32_t refusal = mf_download_font(store, sizeof store, block, 68, font);
    if (refusal)
        printf("font %u: refusal %u\n", (unsigned)font, (unsigned)refusal);
}

/* Answers that nobody has written yet, each one otherwise. */
static void unwritten(void)
{
    size_t at;
    for (at = 0; at < sizeof answers; at++)
        ((uint8_t *)answers)[at] = (uint8_t)(0x80 + at % 101);
    memcpy(before, answers, sizeof answers);
}

/* Makes the call; prints its refusal, the first answers as font/refusal, and whether
 * all that it must not write is as it was. */
static void sheet(const char *name, size_t count, size_t room)
{
    size_t at, written;
    uint32_t refusal;

    unwritten();
    refusal = mf_choose_sheet(store, sizeof store, requests, count, answers, room);
    written = refusal == MF_DONE ? count : 0;
    printf("%s: %u;", name, (unsigned)refusal);
    for (at = 0; at < written && at < 5; at++)
        printf(" %u/%u", (unsigned)answers[at].font, (unsigned)answers[at].refusal);
    at = (ANSWERS - written) * sizeof *answers;
    printf(" others %s\n", memcmp(answers + written, before + written, at) ? "changed" : "kept");
}

static void layout(void)
{
    printf("mf_request %u:", (unsigned)sizeof(mf_request));
#define AT(field) printf(" " #field " %u", (unsigned)offsetof(mf_request, field))
    AT(symbol_set);
    AT(spacing);
    AT(pitch);
    AT(height);
    AT(style);
    AT(weight);
    AT(typeface);
    AT(orientation);
    AT(mode);
    printf("\nmf_answer %u: font %u refusal %u\n", (unsigned)sizeof(mf_answer),
           (unsigned)offsetof(mf_answer, font), (unsigned)offsetof(mf_answer, refusal));
}

/* Two fonts that differ in the header bytes of one field, 1 as the base request
 * has it and 2 with this byte: the choice follows that field of the request, in
 * each entry, and only an entry that has it out of range is refused. */
static void follows(const char *field, const mf_request *other, const mf_request *wrong, size_t at,
                    unsigned byte)
{
    uint8_t block[68];

    mf_make_fresh(store, sizeof store);
    header(block);
    download(1, block);
    block[at] = (uint8_t)byte;
    download(2, block);
    requests[0] = base;
    requests[1] = *other;
    requests[2] = *wrong;
    requests[3] = *other;
    requests[4] = base;
    sheet(field, 5, 5);
}

static void fields(void)
{
    mf_request other, wrong;
#define FOLLOWS(field, value, beyond, at, byte) \
    other = wrong = base; \
    other.field = value; \
    wrong.field = beyond; \
    follows(#field, &other, &wrong, at, byte)
    FOLLOWS(symbol_set, 341, 2048, 15, 341 % 256);
    FOLLOWS(spacing, MF_PROPORTIONAL, 2, 13, 1);
    FOLLOWS(pitch, 1700, 57601, 17, 72);
    FOLLOWS(height, 900, 99976, 19, 150);
    FOLLOWS(style, 255, 1024, 23, 255);
    FOLLOWS(weight, -3, -8, 24, 253);
    FOLLOWS(weight, 7, 8, 24, 7);
    FOLLOWS(typeface, 259, 65536, 26, 1);
    FOLLOWS(orientation, MF_LANDSCAPE, 4, 12, 1);
    FOLLOWS(orientation, MF_REVERSE_LANDSCAPE, 4, 12, 3);
}

/* The same of the mode, for which font 2 is as large at 600 dots to the inch. */
static void modes(void)
{
    uint8_t block[68];

    mf_make_fresh(store, sizeof store);
    header(block);
    download(1, block);
    block[17] = 240;
    block[18] = 400 / 256;
    block[19] = 400 % 256;
    block[64] = block[66] = 600 / 256;
    block[65] = block[67] = 600 % 256;
    download(2, block);
    requests[0] = requests[1] = requests[2] = requests[3] = requests[4] = base;
    requests[1].mode = requests[3].mode = MF_MODE_600;
    requests[2].mode = 450;
    sheet("mode", 5, 5);
    mf_remove_font(store, sizeof store, 1);
    sheet("mode, 600 alone", 5, 5);
}

/* Fonts 100, 101, .. of heights 100, 110, .., and a sheet that asks for them from
 * the highest down. */
static void full(void)
{
    uint8_t block[68];
    unsigned at, right = 0;

    mf_make_fresh(store, sizeof store);
    header(block);
    for (at = 0; at < MF_SHEET_MAX; at++) {
        block[18] = (uint8_t)((100 + 10 * at) / 256);
        block[19] = (uint8_t)((100 + 10 * at) % 256);
        download(100 + at, block);
    }
    for (at = 0; at <= MF_SHEET_MAX; at++) {
        requests[at] = base;
        requests[at].height = 6 * (100 + 10 * (MF_SHEET_MAX - 1 - at % MF_SHEET_MAX));
    }
    sheet("64 requests", MF_SHEET_MAX, ANSWERS);
    for (at = 0; at < MF_SHEET_MAX; at++) {
        mf_chosen alone = mf_choose(store, sizeof store, base.symbol_set, base.spacing, base.pitch,
                                    requests[at].height, base.style, base.weight, base.typeface,
                                    base.orientation, base.mode);
        right += answers[at].refusal == MF_DONE && answers[at].font == alone.font &&
                 answers[at].font == 100 + MF_SHEET_MAX - 1 - at;
    }
    printf("each its own font: %u\n", right);
    sheet("64 requests, 64 answers", MF_SHEET_MAX, MF_SHEET_MAX);
    sheet("64 requests, 63 answers", MF_SHEET_MAX, MF_SHEET_MAX - 1);
    sheet("65 requests", MF_SHEET_MAX + 1, ANSWERS);
    sheet("65 requests, 64 answers", MF_SHEET_MAX + 1, MF_SHEET_MAX);
    sheet("65 requests, no answers", MF_SHEET_MAX + 1, 0);
    sheet("1 request, no answers", 1, 0);
    sheet("0 requests", 0, ANSWERS);
    sheet("0 requests, no answers", 0, 0);
}

/* Refused entries beside others; a sheet on a store without fonts, and on what is
 * no store. */
static void refusals(void)
{
    uint8_t block[68];

    requests[0] = requests[1] = requests[2] = base;
    requests[1].symbol_set = 85;
    mf_make_fresh(store, sizeof store);
    sheet("no fonts", 3, 3);
    header(block);
    block[15] = 341 % 256;
    download(7, block);
    requests[0].symbol_set = requests[2].symbol_set = 341;
    sheet("none to choose for one", 3, 3);
    store[0] = 13;
    sheet("not a store", 3, 3);
    sheet("not a store, 65 requests, no answers", MF_SHEET_MAX + 1, 0);
    sheet("not a store, 0 requests", 0, 0);
}

int main(void)
{
    layout();
    fields();
    modes();
    full();
    refusals();
    return 0;
}
