/* That every field of what calls answer and take stands where the header has it: calls of the
 * archive whose answers have different numbers in their fields, and a sheet whose requests
 * differ in one field each. Lines that begin with mf_ have the layout, the others what the
 * archive answered; tests/header compares both with layout.expected. */
#include "marlinfold.h"

#include <stdio.h>
#include <string.h>

#define FITTING 50

static uint8_t store[4096], out[MF_WRITTEN_MAX(sizeof store)], empty[MF_STORE_MIN];

#define SIZE(type) printf(#type " %u:", (unsigned)sizeof(type))
#define AT(type, field) printf(" " #field " %u", (unsigned)offsetof(type, field))

static void layout(void)
{
    SIZE(mf_chosen);
    AT(mf_chosen, refusal);
    AT(mf_chosen, font);
    puts("");
    SIZE(mf_chosen_record);
    AT(mf_chosen_record, refusal);
    AT(mf_chosen_record, font);
    AT(mf_chosen_record, which);
    AT(mf_chosen_record, place);
    puts("");
    SIZE(mf_told);
    AT(mf_told, refusal);
    AT(mf_told, count);
    puts("");
    SIZE(mf_written);
    AT(mf_written, refusal);
    AT(mf_written, length);
    puts("");
    SIZE(mf_downloaded);
    AT(mf_downloaded, refusal);
    AT(mf_downloaded, row);
    AT(mf_downloaded, filled);
    AT(mf_downloaded, run);
    puts("");
    SIZE(mf_profile);
    AT(mf_profile, refusal);
    AT(mf_profile, rule);
    AT(mf_profile, code);
    puts("");
    SIZE(mf_stream_read);
    AT(mf_stream_read, refusal);
    AT(mf_stream_read, done);
    AT(mf_stream_read, refused);
    AT(mf_stream_read, place);
    AT(mf_stream_read, row);
    AT(mf_stream_read, filled);
    AT(mf_stream_read, run);
    puts("");
    SIZE(mf_salvaged);
    AT(mf_salvaged, refusal);
    AT(mf_salvaged, stretches);
    AT(mf_salvaged, done);
    AT(mf_salvaged, refused);
    puts("");
}

static void layout_of_sheet(void)
{
    SIZE(mf_request);
    AT(mf_request, symbol_set);
    AT(mf_request, spacing);
    AT(mf_request, pitch);
    AT(mf_request, height);
    AT(mf_request, style);
    AT(mf_request, weight);
    AT(mf_request, typeface);
    AT(mf_request, orientation);
    AT(mf_request, mode);
    puts("");
    SIZE(mf_answer);
    AT(mf_answer, font);
    AT(mf_answer, refusal);
    puts("");
}

static void high(uint8_t *at, unsigned value)
{
    at[0] = (uint8_t)(value / 256);
    at[1] = (uint8_t)(value % 256);
}

/* A header that fits the request asked below in all. */
static void header(uint8_t block[68])
{
    memset(block, 0, 68);
    block[1] = 68;
    block[2] = 20;
    block[9] = 30;
    block[11] = 50;
    block[12] = MF_LANDSCAPE;
    high(block + 14, MF_ROMAN_8);
    high(block + 16, 240);
    high(block + 18, 400);
    block[23] = 5;
    block[24] = MF_BOLD;
    block[25] = 7;
    high(block + 64, 600);
    high(block + 66, 600);
}

static void download(uint32_t font, const uint8_t block[68])
{
    uint32_t refusal = mf_download_font(store, sizeof store, block, 68, font);
    if (refusal)
        printf("font %u: refusal %u\n", (unsigned)font, (unsigned)refusal);
}

/* Fonts 41 to 49 differ from 50 in what the fields of a request ask for, one each. */
static void build(void)
{
    uint8_t block[68];

    mf_make_fresh(store, sizeof store);
#define DIFFERENT(font, change) \
    header(block); \
    change; \
    download(font, block)
    DIFFERENT(41, high(block + 14, MF_SYMBOL_SET(10, 'U')));
    DIFFERENT(42, block[13] = MF_PROPORTIONAL);
    DIFFERENT(43, high(block + 16, 200));
    DIFFERENT(44, high(block + 18, 800));
    DIFFERENT(45, block[23] = 1);
    DIFFERENT(46, block[24] = 253);
    DIFFERENT(47, block[25] = 4);
    DIFFERENT(48, block[12] = MF_PORTRAIT);
    DIFFERENT(49, (high(block + 16, 120), high(block + 18, 200), high(block + 64, 300),
                   high(block + 66, 300)));
    DIFFERENT(FITTING, (void)0);
}

/* The request that font 50 fits; then each of its fields as fonts 41 to 49 have it; then two
 * that are refused. */
static void sheet(void)
{
    static const mf_request asked = {MF_ROMAN_8, MF_FIXED, 1000,         1200,       5,
                                     MF_BOLD,    7,        MF_LANDSCAPE, MF_MODE_600};
    mf_request requests[12];
    mf_answer answers[12];
    size_t at;

    for (at = 0; at < 12; at++)
        requests[at] = asked;
    requests[1].symbol_set = MF_SYMBOL_SET(10, 'U');
    requests[2].spacing = MF_PROPORTIONAL;
    requests[3].pitch = 1200;
    requests[4].height = 2400;
    requests[5].style = 1;
    requests[6].weight = MF_LIGHT;
    requests[7].typeface = 4;
    requests[8].orientation = MF_PORTRAIT;
    requests[9].mode = MF_MODE_300;
    requests[10].weight = MF_ULTRA_BLACK + 1;
    requests[11].weight = MF_ULTRA_THIN - 1;
    memset(answers, 0x55, sizeof answers);
    printf("sheet: %u;",
           (unsigned)mf_choose_sheet(store, sizeof store, requests, 12, answers, 12));
    for (at = 0; at < 12; at++)
        printf(" %u/%u", (unsigned)answers[at].font, (unsigned)answers[at].refusal);
    puts("");
}

static void chosen(void)
{
    mf_chosen chosen = mf_choose(store, sizeof store, MF_ROMAN_8, MF_FIXED, 1000, 1200, 5, MF_BOLD,
                                 7, MF_LANDSCAPE, MF_MODE_600);
    printf("chosen: refusal %u font %u\n", (unsigned)chosen.refusal, (unsigned)chosen.font);
    chosen = mf_choose(store, sizeof store, MF_ROMAN_8, MF_FIXED, 1000, 1200, 5, MF_BOLD, 7,
                       MF_LANDSCAPE, 301);
    printf("chosen: refusal %u font %u\n", (unsigned)chosen.refusal, (unsigned)chosen.font);
}

/* The same from a soft store without fonts and this one as the cartridge. */
static void chosen_from_two(uint32_t mode)
{
    mf_chosen_record chosen =
        mf_choose_from_two(empty, sizeof empty, store, sizeof store, MF_ROMAN_8, MF_FIXED, 1000,
                           1200, 5, MF_BOLD, 7, MF_LANDSCAPE, mode);
    printf("chosen record: refusal %u font %u which %u place %lu\n", (unsigned)chosen.refusal,
           (unsigned)chosen.font, (unsigned)chosen.which, (unsigned long)chosen.place);
}

/* Codes 32 to 127, of which 65 is too wide for the cell. */
static void put_characters(void)
{
    uint8_t block[16 + 4] = {4, 0, 14, 1, MF_LANDSCAPE, 0, 0, 0, 0, 0, 0, 8, 0, 1, 0, 240};
    uint32_t code;
    for (code = 32; code <= 127; code++) {
        block[11] = (uint8_t)(code == 65 ? 31 : 8);
        mf_download_character(store, sizeof store, block, code == 65 ? 20 : 17, FITTING, code);
    }
}

static void show_told(mf_told told)
{
    printf("told: refusal %u count %u\n", (unsigned)told.refusal, (unsigned)told.count);
}

static void show_downloaded(mf_downloaded sent)
{
    printf("downloaded: refusal %u row %u filled %u run %u\n", (unsigned)sent.refusal,
           (unsigned)sent.row, (unsigned)sent.filled, (unsigned)sent.run);
}

static void show_written(mf_written written)
{
    printf("written: refusal %u length %u\n", (unsigned)written.refusal,
           (unsigned)written.length);
}

static void show_profile(mf_profile profile)
{
    printf("profile: refusal %u rule %u code %u\n", (unsigned)profile.refusal,
           (unsigned)profile.rule, (unsigned)profile.code);
}

static void show_read(const char *stream, size_t length)
{
    mf_stream_read read =
        mf_read_stream(store, sizeof store, (const uint8_t *)stream, length);
    printf("read: refusal %u done %lu refused %lu place %lu row %u filled %u run %u\n",
           (unsigned)read.refusal, (unsigned long)read.done, (unsigned long)read.refused,
           (unsigned long)read.place, (unsigned)read.row, (unsigned)read.filled,
           (unsigned)read.run);
}

static void show_salvaged(const char *stream, size_t length, size_t list_len)
{
    mf_salvaged read = mf_salvage_stream(store, sizeof store, (const uint8_t *)stream, length, out,
                                         list_len);
    printf("salvaged: refusal %u stretches %lu done %lu refused %lu\n", (unsigned)read.refusal,
           (unsigned long)read.stretches, (unsigned long)read.done, (unsigned long)read.refused);
}

int main(void)
{
    static const char stream[] = "\x1b*c5D\x1b*c65E\x1b*c66E\x1b*c40000D\x1b)s1W!?";
    /* 10 by 4 dots for font 50: a row that is drawn twice, then 4 and 7 dots */
    static const char bad_row[] = "\x1b*c50D\x1b(s21W\4\0\16\2\1\0\0\0\0\0\0\12\0\4\0\0"
                                  "\1\12\0\4\7?";
    layout();
    layout_of_sheet();
    build();
    sheet();
    chosen();
    mf_make_fresh(empty, sizeof empty);
    chosen_from_two(MF_MODE_600);
    chosen_from_two(301);
    put_characters();
    show_downloaded(mf_download_character(store, sizeof store, (const uint8_t *)bad_row + 12, 21,
                                          FITTING, 65));
    show_downloaded(mf_download_character(store, sizeof store, (const uint8_t *)bad_row + 12, 21,
                                          FITTING, 256));
    show_told(mf_tell_font(store, sizeof store, out, sizeof out, FITTING));
    show_told(mf_tell_character(store, sizeof store, out, sizeof out, FITTING, 65));
    show_told(mf_tell_font(store, sizeof store, out, sizeof out, 1));
    show_written(mf_write_font(store, sizeof store, out, sizeof out, 41));
    show_written(mf_write_profiled(store, sizeof store, out, sizeof out, FITTING));
    show_profile(mf_check_profile(store, sizeof store, FITTING));
    show_profile(mf_check_profile(store, sizeof store, 1));
    show_read(stream, sizeof stream - 1);
    show_read(stream, sizeof stream - 2);
    show_read(bad_row, sizeof bad_row - 1);
    show_read(bad_row, sizeof bad_row - 2);
    show_salvaged(stream, sizeof stream - 1, MF_STRETCH_BYTES);
    show_salvaged(stream, sizeof stream - 1, MF_STRETCH_BYTES - 1);
    return 0;
}
