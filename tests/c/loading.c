/* loading FILE...: holds the programs' loader to mf_read_stream and, with salvage, to
 * mf_salvage_stream. Each file is loaded into one store and read into another, whole, and then cut,
 * damaged and spliced by chance: both stores, the counts, the broken places and the first bad row
 * must be the same; with salvage the stretches that are told. Prints what was met; what is met
 * nowhere is a failure, since nothing was tried then. */
#include "loading.h"
#include "message.h"

#include <stdlib.h>
#include <string.h>

#define FILES 100
#define TRIALS 4000

typedef struct {
    uint8_t *bytes;
    size_t length;
} contents;

static uint8_t other[MF_STORE_MAX], changed[1 << 17];
static contents files[FILES];
static loading into;
static unsigned long streams, refused, broken, removed, judged, bad_rows, salvaged, skipped, padded;
static bad_run first_bad; /* that the loader told in this stream; width 0 for none */

#define STRETCHES (1 << 16)
static mf_stretch told[STRETCHES]; /* that the loader told to be skipped, padding too */
static size_t told_count;

static uint32_t chance(uint32_t below)
{
    static uint32_t state = 20261116;
    state ^= state << 13;
    state ^= state >> 17;
    state ^= state << 5;
    return state % below;
}

static void keep_first(const note *said)
{
    if (said->length >= 0) {
        if (told_count == STRETCHES)
            exit(2);
        told[told_count].place = (uint64_t)said->place;
        told[told_count++].length = (uint64_t)said->length;
    }
    if (!first_bad.width)
        first_bad = said->bad;
}

/* Whether it is what the library answers for the stream, and passes its row's end. */
static int is_first_bad(const mf_stream_read *read)
{
    const bad_run *bad = &first_bad;

    return bad->row == read->row && bad->filled == read->filled && bad->run == read->run &&
           (bad->width ? bad->filled < bad->width && bad->filled + bad->run > bad->width
                       : !bad->row && !bad->filled && !bad->run);
}

static void fresh(void)
{
    fresh_store();
    mf_make_fresh(other, sizeof other);
}

static unsigned fonts_kept(void)
{
    unsigned kept = 0;
    uint32_t font;
    for (font = mf_next_font(store, sizeof store, 0); font <= MF_FONT_MAX;
         font = mf_next_font(store, sizeof store, font + 1))
        kept++;
    return kept;
}

/* Of a font block and of a character block: what was judged without the library is what a call
 * on a store that is fresh but for one font answers. */
static void hold_judgement(const mft_command *given)
{
    static uint8_t tried[MF_STORE_MAX];
    static const uint8_t header[64] = {0, 64, 0, 0, 0, 0, 0, 0, 0, 9, 0, 9};
    mft_judgement made;
    uint32_t refusal;

    mf_make_fresh(tried, sizeof tried);
    if (given->found == MFT_FONT_BLOCK) {
        mft_judge_font(&made, given->block, given->number);
        refusal = mf_download_font(tried, sizeof tried, given->block, given->number, 1);
    } else {
        mf_download_font(tried, sizeof tried, header, sizeof header, 1);
        mft_judge_character(&made, given->block, given->number, MF_PORTRAIT);
        refusal = mf_download_character(tried, sizeof tried, given->block, given->number, 1, 1)
                      .refusal;
        /* What only the call can see. */
        if (refusal == MF_NO_CHARACTER || refusal == MF_RUN_PAST_ROW || refusal == MF_NO_ROOM ||
            (refusal == MF_TOO_LARGE && !made.refusal))
            refusal = MF_DONE;
    }
    judged += made.refusal != MF_DONE;
    if (made.refusal == refusal)
        return;
    printf("stream %lu: judged %u, the library %u\n", streams, (unsigned)made.refusal,
           (unsigned)refusal);
    exit(1);
}

static void hold_judgements(const uint8_t *bytes, size_t length)
{
    mft_command given;
    size_t at;

    for (at = 0; at < length; at += given.length) {
        given = mft_command_at(bytes + at, length - at);
        if (given.found >= MFT_NO_ESC)
            return;
        if (given.block)
            hold_judgement(&given);
    }
}

/* Both stores go on from what they held before. Fonts become fewer only where a character
 * found no room. */
static void hold(const uint8_t *bytes, size_t length)
{
    unsigned before = fonts_kept();
    input from = input_of("stream", bytes, length);
    mf_stream_read read;

    hold_judgements(bytes, length);
    into.done = into.refused = into.broken = 0;
    memset(&first_bad, 0, sizeof first_bad);
    load_stream(&into, &from);
    read = mf_read_stream(other, sizeof other, bytes, length);
    streams++;
    refused += into.refused;
    broken += into.broken;
    removed += fonts_kept() < before;
    bad_rows += first_bad.width != 0;
    if (memcmp(store, other, sizeof store) == 0 && into.done == read.done &&
        into.refused == read.refused && into.broken == (read.refusal == MF_STREAM_BROKEN) &&
        (!into.broken || into.place == read.place) && is_first_bad(&read))
        return;
    printf("stream %lu: done %lu, refused %lu, place %lu; read: %lu, %lu, %lu, refusal %u; %s\n",
           streams, into.done, into.refused, (unsigned long)into.place, (unsigned long)read.done,
           (unsigned long)read.refused, (unsigned long)read.place, (unsigned)read.refusal,
           memcmp(store, other, sizeof store) ? "stores differ" : "stores are the same");
    printf("told row %u, %u of %u filled, run %u; read: %u, %u, %u\n", (unsigned)first_bad.row,
           (unsigned)first_bad.filled, (unsigned)first_bad.width, (unsigned)first_bad.run,
           (unsigned)read.row, (unsigned)read.filled, (unsigned)read.run);
    exit(1);
}

/* The same for a stream that is salvaged. */
static void hold_salvaged(const uint8_t *bytes, size_t length)
{
    static uint8_t list[16 * STRETCHES];
    input from = input_of("stream", bytes, length);
    mf_salvaged read;
    size_t at;

    into.done = into.refused = into.broken = into.padded = into.stretches = 0;
    into.skipped = 0;
    told_count = 0;
    salvage = 1;
    load_stream(&into, &from);
    salvage = 0;
    read = mf_salvage_stream(other, sizeof other, bytes, length, list, sizeof list);
    streams++;
    salvaged++;
    for (at = 0; at < told_count && at < read.stretches; at++) {
        mf_stretch is = mf_stretch_at(list, at);
        if (is.place != told[at].place || is.length != told[at].length)
            break;
        into.skipped -= at + into.padded < told_count ? is.length : 0;
    }
    skipped += into.stretches;
    padded += into.padded;
    if (memcmp(store, other, sizeof store) == 0 && read.refusal == MF_DONE &&
        into.done == read.done && into.refused == read.refused && at == told_count &&
        at == read.stretches && at == into.broken && at == into.stretches + into.padded &&
        into.skipped == 0)
        return;
    printf("stream %lu, salvaged: done %lu, refused %lu; the library %lu, %lu, refusal %u; %s; "
           "stretch %lu of %lu and %lu, bytes left %ld\n", streams, into.done, into.refused,
           (unsigned long)read.done, (unsigned long)read.refused, (unsigned)read.refusal,
           memcmp(store, other, sizeof store) ? "stores differ" : "stores are the same",
           (unsigned long)at, (unsigned long)told_count, (unsigned long)read.stretches,
           (long)into.skipped);
    exit(1);
}

/* A place of a command, or any. */
static size_t a_place(size_t length)
{
    size_t from = chance((uint32_t)length), at = from;
    while (chance(8) && at < length && changed[at] != MFT_ESC)
        at++;
    return at < length ? at : from;
}

/* Puts a part of a file in at a place, or in the place of some bytes. */
static size_t splice(size_t length, const contents *part)
{
    size_t at = a_place(length), gone = chance(2) ? chance(40) : 0, begin, count;

    begin = chance((uint32_t)part->length);
    count = chance(400);
    count = count < part->length - begin ? count : part->length - begin;
    gone = gone < length - at ? gone : length - at;
    memmove(changed + at + count, changed + at + gone, length - at - gone);
    memcpy(changed + at, part->bytes + begin, count);
    return length - gone + count;
}

/* One change by chance; answers the new length. */
static size_t change(size_t length, const contents *part)
{
    static const uint8_t likely[] = "\033*c()sDEWdw0123456789-+. ";
    size_t at = a_place(length);

    switch (chance(5)) {
    case 0: return splice(length, part);
    case 1: return at;
    case 2: changed[at] = (uint8_t)chance(256); return length;
    default:
        at += chance(8);
        if (at < length)
            changed[at] = likely[chance(sizeof likely - 1)];
        return length;
    }
}

static void try_changed(const contents *from, const contents *part)
{
    size_t length = from->length < 65536 ? from->length : 65536;
    uint32_t changes = 1 + chance(4);

    memcpy(changed, from->bytes, length);
    if (length > 3 && chance(2)) /* the first command names a font: another number */
        changed[3] = (uint8_t)('0' + chance(10));
    while (changes-- && length)
        length = change(length, part);
    (chance(2) ? hold : hold_salvaged)(changed, length);
}

/* A file, read in one piece. */
static contents read_whole(const char *name)
{
    contents made = {NULL, 0};
    FILE *file = fopen(name, "rb");

    if (!file)
        return made;
    made.bytes = malloc(1 << 20);
    made.length = made.bytes ? fread(made.bytes, 1, 1 << 20, file) : 0;
    fclose(file);
    return made;
}

int main(int argc, char **names)
{
    size_t number = (size_t)argc - 1, file, trial;

    if (number < 1 || number > FILES)
        return 2;
    into.next = OWN_NUMBERS;
    tell_note = keep_first;
    for (file = 0; file < number; file++) {
        files[file] = read_whole(names[file + 1]);
        if (files[file].length == 0)
            return 2;
        fresh();
        hold(files[file].bytes, files[file].length);
        fresh();
        hold_salvaged(files[file].bytes, files[file].length);
    }
    for (trial = 0; trial < TRIALS; trial++) {
        if (!chance(16))
            fresh();
        try_changed(&files[chance((uint32_t)number)], &files[chance((uint32_t)number)]);
    }
    printf("%lu streams: %lu commands refused, %lu blocks judged so before, %lu broken, %lu lost a "
           "font for want of room, %lu with a bad row; %lu salvaged, %lu stretches skipped, %lu of "
           "padding\n", streams, refused, judged, broken, removed, bad_rows, salvaged, skipped,
           padded);
    return !(refused && judged && broken && removed && bad_rows && skipped && padded);
}
