/* torn FILE...: what is saved of torn streams. Each FILE is a stream of one font. Streams of one
 * font, and of all of them in an order by chance, are torn at 300 places each in three ways, by a
 * fixed seed:
 *
 *     cut          1 to 2000 bytes are missing
 *     joined       the stream breaks off, and another goes on from any of its places
 *     overwritten  1 to 2000 bytes are others, by chance
 *
 * Prints how many fonts with the header of their file, and characters with the fields and the dots
 * that they have there, the streams have whole, plain reading keeps of the torn ones, which ends at
 * the first 13, and salvage keeps; how many characters are kept otherwise than their file has them;
 * and how many stretches are skipped. */
#include "marlinfold-text.h"

#include <stdio.h>
#include <stdlib.h>
#include <string.h>

#define PLACES 300
#define FONTS 8
#define BYTES (1 << 17)
#define GONE_MAX 2000

/* A file, its font's number, and the font as the whole file gives it. */
typedef struct {
    uint8_t bytes[BYTES];
    size_t length;
    uint32_t font;
    uint8_t header[MF_FONT_BYTES];
    mft_face *face;
} whole_font;

static whole_font whole[FONTS];
static uint32_t count; /* of fonts */
static uint8_t store[MF_STORE_MAX];

typedef struct {
    uint8_t bytes[BYTES];
    size_t length;
} stream;

typedef struct { unsigned long fonts, characters, otherwise; } saved;

static uint32_t chance(uint32_t below)
{
    static uint32_t state = 20261118;
    state ^= state << 13;
    state ^= state >> 17;
    state ^= state << 5;
    return state % below;
}

static void stop(const char *what)
{
    printf("torn: %s\n", what);
    exit(1);
}

/* ---- fonts ---- */

static mft_face *face_of(uint32_t font)
{
    mft_made made = mft_make_face(store, sizeof store, font, NULL, 0);

    if (made.refusal == MF_NO_FONT)
        return NULL;
    if (made.refusal)
        stop("no face");
    return made.face;
}

static void read_font(whole_font *into, const char *name)
{
    FILE *from = fopen(name, "rb");

    into->length = from ? fread(into->bytes, 1, BYTES, from) : 0;
    if (!into->length || fclose(from))
        stop("a file cannot be read");
    mf_make_fresh(store, sizeof store);
    if (mf_read_stream(store, sizeof store, into->bytes, into->length).refusal)
        stop("a file is broken");
    into->font = mf_next_font(store, sizeof store, 0);
    mf_tell_font(store, sizeof store, into->header, sizeof into->header, into->font);
    into->face = face_of(into->font);
    if (!into->face || mf_next_font(store, sizeof store, into->font + 1) <= MF_FONT_MAX)
        stop("not one font");
}

static int same_character(const mft_character *a, const mft_character *b)
{
    return memcmp(&a->told, &b->told, sizeof a->told) == 0 && a->complete == b->complete &&
           memcmp(a->picture, b->picture, mf_picture_bytes(a->told.width, a->told.height)) == 0;
}

/* Adds what the store has of a font. */
static void add_saved(saved *to, const whole_font *of)
{
    mft_face *face = face_of(of->font);
    uint8_t header[MF_FONT_BYTES];
    mft_character is, was;
    uint32_t code;

    if (!face)
        return;
    mf_tell_font(store, sizeof store, header, sizeof header, of->font);
    to->fonts += memcmp(header, of->header, sizeof header) == 0;
    for (code = 0; code <= MF_CODE_MAX; code++) {
        if (!mft_tell_code(face, code, &is))
            continue;
        if (mft_tell_code(of->face, code, &was) && same_character(&is, &was))
            to->characters++;
        else
            to->otherwise++;
    }
    mft_free_face(face);
}

static void add_store(saved *to)
{
    uint32_t each;

    for (each = 0; each < count; each++)
        add_saved(to, &whole[each]);
}

/* ---- streams ---- */

/* One font, or all in an order by chance. */
static void make_stream(stream *made, int all)
{
    uint32_t order[FONTS], left, at, each;

    made->length = 0;
    for (each = 0; each < count; each++)
        order[each] = each;
    for (left = count; left > (all ? 0 : count - 1); left--) {
        at = chance(left);
        memcpy(made->bytes + made->length, whole[order[at]].bytes, whole[order[at]].length);
        made->length += whole[order[at]].length;
        order[at] = order[left - 1];
    }
}

static void cut(stream *of, size_t at, size_t gone)
{
    memmove(of->bytes + at, of->bytes + at + gone, of->length - at - gone);
    of->length -= gone;
}

static void join(stream *of, size_t at, int all)
{
    static stream other;
    size_t from;

    make_stream(&other, all);
    from = chance((uint32_t)other.length);
    memcpy(of->bytes + at, other.bytes + from, other.length - from);
    of->length = at + other.length - from;
}

static void overwrite(stream *of, size_t at, size_t gone)
{
    while (gone--)
        of->bytes[at++] = (uint8_t)chance(256);
}

enum { CUT, JOINED, OVERWRITTEN, WAYS };
static const char *const ways[] = {"cut", "joined", "overwritten"};

static void tear(stream *of, int way, int all)
{
    size_t at = chance((uint32_t)of->length), gone = 1 + chance(GONE_MAX);

    gone = gone < of->length - at ? gone : of->length - at;
    switch (way) {
    case CUT: cut(of, at, gone); break;
    case JOINED: join(of, at, all); break;
    default: overwrite(of, at, gone);
    }
}

/* ---- the table ---- */

static void read_plain(const stream *of, saved *to)
{
    mf_make_fresh(store, sizeof store);
    mf_read_stream(store, sizeof store, of->bytes, of->length);
    add_store(to);
}

static void print_line(int way, int all)
{
    static stream torn;
    static uint8_t list[16 * BYTES];
    saved there = {0, 0, 0}, before = {0, 0, 0}, after = {0, 0, 0};
    unsigned long stretches = 0, place;
    mf_salvaged answer;

    for (place = 0; place < PLACES; place++) {
        make_stream(&torn, all);
        read_plain(&torn, &there);
        tear(&torn, way, all);
        read_plain(&torn, &before);
        mf_make_fresh(store, sizeof store);
        answer = mf_salvage_stream(store, sizeof store, torn.bytes, torn.length, list, sizeof list);
        if (answer.refusal)
            stop("not salvaged");
        add_store(&after);
        stretches += (unsigned long)answer.stretches;
    }
    printf("%-5s %-12s%6lu%7lu%8lu%9lu%8lu%8lu%8lu%8lu%11lu\n", all ? "all" : "one", ways[way],
           there.fonts, before.fonts, after.fonts, there.characters, before.characters,
           after.characters, before.otherwise, after.otherwise, stretches);
}

int main(int argc, char **argv)
{
    int file, way;

    if (argc < 2 || argc > FONTS)
        return 2;
    for (file = 1; file < argc; file++)
        read_font(&whole[count++], argv[file]);
    printf("%-17s%7s%22s%25s\n", "", "fonts", "characters", "otherwise");
    printf("%-5s %-12s%6s%7s%8s%9s%8s%8s%8s%8s%11s\n", "fonts", "torn", "whole", "plain",
           "salvage", "whole", "plain", "salvage", "plain", "salvage", "stretches");
    for (way = 0; way < WAYS; way++)
        print_line(way, 0);
    for (way = 0; way < WAYS; way++)
        print_line(way, 1);
    for (file = 0; file < argc - 1; file++)
        mft_free_face(whole[file].face);
    return 0;
}
