/* Prints which font each label of a sheet gets.
 *
 *     sheet FILE < REQUESTS
 *
 * reads a soft font stream, and from standard input one request a line: the nine numbers of
 * mf_request in its order, as
 *
 *     277 0 1000 1200 0 0 3 0 300
 *
 * All of them are handed to the library in one call. Each gets a line: the number of the font
 * chosen, or the refusal. */
#include "marlinfold.h"

#include <errno.h>
#include <stdio.h>
#include <stdlib.h>
#include <string.h>

static uint8_t store[MF_STORE_MAX], stream[4 * MF_STORE_MAX];

/* One more than a sheet has, so that the library is seen to refuse it. */
static mf_request requests[MF_SHEET_MAX + 1];
static mf_answer answers[MF_SHEET_MAX];

static int fail(const char *what, const char *why)
{
    fprintf(stderr, "sheet: %s: %s\n", what, why);
    return 1;
}

/* Reads a file into the store; answers 0 if all of it was taken. */
static int read_fonts(const char *name)
{
    FILE *file = fopen(name, "rb");
    size_t length;
    mf_stream_read read;

    if (!file)
        return fail(name, strerror(errno));
    length = fread(stream, 1, sizeof stream, file);
    if (ferror(file) || getc(file) != EOF)
        return fail(name, ferror(file) ? strerror(errno) : "too long");
    fclose(file);
    mf_make_fresh(store, sizeof store);
    read = mf_read_stream(store, sizeof store, stream, length);
    if (read.refusal || read.refused)
        return fail(name, "not all of it was taken; marlinfold-fonts says what was not");
    return 0;
}

/* A line's request; 0 if it is none. */
static int read_request(const char *line, mf_request *asked)
{
    long of[9] = {0};
    char more;
    int count = sscanf(line, "%ld %ld %ld %ld %ld %ld %ld %ld %ld %c", &of[0], &of[1], &of[2],
                       &of[3], &of[4], &of[5], &of[6], &of[7], &of[8], &more);

    asked->symbol_set = (uint32_t)of[0];
    asked->spacing = (uint32_t)of[1];
    asked->pitch = (uint32_t)of[2];
    asked->height = (uint32_t)of[3];
    asked->style = (uint32_t)of[4];
    asked->weight = (int32_t)of[5];
    asked->typeface = (uint32_t)of[6];
    asked->orientation = (uint32_t)of[7];
    asked->mode = (uint32_t)of[8];
    return count == 9;
}

static void print_answer(size_t number, const mf_answer *got)
{
    uint8_t kept[MF_FONT_BYTES];
    mf_font_fields font;

    if (got->refusal) {
        printf("%u: refusal %u, %s\n", (unsigned)number, (unsigned)got->refusal,
               mf_refusal_name(got->refusal));
        return;
    }
    mf_tell_font(store, sizeof store, kept, sizeof kept, got->font);
    font = mf_font_fields_of(kept);
    printf("%u: font %u, pitch %.2f, height %.2f, weight %d, %u dpi\n", (unsigned)number,
           (unsigned)got->font, mf_pitch_of(&font) / 100.0, mf_height_of(&font) / 100.0,
           (int)font.weight, (unsigned)font.resolution);
}

int main(int argc, char **argv)
{
    char line[200];
    size_t count = 0, at;
    uint32_t refusal;

    if (argc != 2)
        return fail("usage", "sheet FILE < REQUESTS");
    if (read_fonts(argv[1]))
        return 1;
    while (count < MF_SHEET_MAX + 1 && fgets(line, sizeof line, stdin))
        if (!read_request(line, &requests[count++]))
            return fail(line, "not the nine numbers of a request");
    refusal = mf_choose_sheet(store, sizeof store, requests, count, answers, MF_SHEET_MAX);
    if (refusal)
        return fail("sheet", mf_refusal_name(refusal));
    for (at = 0; at < count; at++)
        print_answer(at + 1, &answers[at]);
    if (ferror(stdout) || fclose(stdout))
        return fail("standard output", strerror(errno));
    return 0;
}
