/* text_load TRIALS FILE...: holds mft_load to single calls. Each file, and a stream with one of
 * each refusal, whole and changed by chance, is loaded with its own numbers and with new ones, in
 * one piece and in pieces by chance. A second store gets each command's download by a call of its own:
 * there must be one note for each command, with its place, its refusal and its numbers, the same
 * stores and counts, and the broken place of mf_read_stream. Streams that are cut, joined and
 * overwritten by chance are salvaged, in one piece and in several, as mf_salvage_stream does it:
 * the same store, stretches and counts. The words of the notes on streams with one of each are
 * printed first; tests/text compares them with text_load.expected. */
#include "marlinfold-text.h"

#include <stdio.h>
#include <stdlib.h>
#include <string.h>

#define BYTES (1 << 17)

static uint8_t store[MF_STORE_MAX], other[MF_STORE_MAX], changed[BYTES], original[100][BYTES];
static size_t lengths[100];
static mft_loading loading;
static unsigned long streams, notes, refused[MF_OUTSIDE_PROFILE + 1], broken[MFT_CUT_OFF + 1],
    replaced, pieces, torn, to_the_end, inside, searched;

static uint32_t chance(uint32_t below)
{
    static uint32_t state = 20261118;
    state ^= state << 13;
    state ^= state >> 17;
    state ^= state << 5;
    return state % below;
}

static void stop(const char *what, unsigned long number)
{
    printf("stream %lu: %s, %lu\n", streams, what, number);
    exit(1);
}

/* ---- single calls ---- */

/* The stream's state, as single calls have it. */
typedef struct {
    const uint8_t *bytes;
    size_t length, at;
    uint32_t number, code, first;
    uint32_t given[MF_FONT_MAX + 1]; /* 0 for none, else the number and 1 */
    uint32_t awaited;                /* MFT_REPLACES was told, and the rest is to come */
    uint64_t done, refused;
} singly;

static uint32_t kept_number(singly *of)
{
    if (of->first == MFT_OWN_NUMBERS)
        return of->number;
    if (!of->given[of->number])
        of->given[of->number] = (of->first <= MF_FONT_MAX ? of->first++ : of->first) + 1;
    return of->given[of->number] - 1;
}

/* Makes a command's download in the second store. */
static mf_downloaded do_singly(singly *of, const mft_command *given)
{
    mf_downloaded sent = {MF_DONE, 0, 0, 0};
    uint32_t *set = given->found == MFT_CODE ? &of->code : &of->number;

    if (given->found == MFT_FONT_NUMBER || given->found == MFT_CODE) {
        if (given->number > (given->found == MFT_CODE ? MF_CODE_MAX : MF_FONT_MAX))
            sent.refusal = MF_OUT_OF_RANGE;
        else
            *set = given->number;
    } else if (given->found == MFT_FONT_BLOCK)
        sent.refusal = mf_download_font(other, sizeof other, given->block, given->number,
                                        kept_number(of));
    else
        sent = mf_download_character(other, sizeof other, given->block, given->number,
                                     kept_number(of), of->code);
    of->done += !sent.refusal;
    of->refused += sent.refusal != 0;
    return sent;
}

/* ---- notes ---- */

/* That a font goes is told before, with its characters; it is still there. */
static void hold_replaced(singly *of, const mft_note *note)
{
    uint8_t kept[MF_FONT_BYTES];
    mf_told told = mf_tell_font(other, sizeof other, kept, sizeof kept, kept_number(of));

    if (told.refusal || told.count != note->characters || note->place != of->at ||
        note->kept_as != kept_number(of) || of->awaited)
        stop("replaces", (unsigned long)note->place);
    of->awaited = 1;
    replaced++;
}

static void hold(void *with, const mft_note *note)
{
    singly *of = with;
    mft_command given = mft_command_at(of->bytes + of->at, of->length - of->at);
    uint8_t kept[MF_FONT_BYTES];
    mf_downloaded sent;
    int goes;

    notes++;
    if (note->kind == MFT_REPLACES) {
        hold_replaced(of, note);
        return;
    }
    goes = given.found == MFT_FONT_BLOCK &&
           !mf_tell_font(other, sizeof other, kept, sizeof kept, kept_number(of)).refusal;
    sent = do_singly(of, &given);
    if (note->place != of->at || note->command.found != given.found ||
        note->command.number != given.number || note->refusal != sent.refusal ||
        note->kind != (sent.refusal ? MFT_REFUSED : MFT_TAKEN) ||
        (note->why[0] != '\0') != (sent.refusal != MF_DONE))
        stop("note", (unsigned long)note->place);
    if (note->row != sent.row || note->filled != sent.filled || note->run != sent.run ||
        (sent.run ? note->filled + note->run <= note->width : note->width != 0))
        stop("run", (unsigned long)note->place);
    if (given.block && (note->font != of->number || note->kept_as != kept_number(of)))
        stop("numbers", note->kept_as);
    if (of->awaited != (uint32_t)(goes && !sent.refusal))
        stop("not told to be replaced", (unsigned long)note->place);
    of->awaited = 0;
    of->at += given.length;
    if (sent.refusal)
        refused[sent.refusal]++;
}

/* ---- loading ---- */

/* Hands the bytes over in pieces, each of which is cut off by chance, or in one. */
static uint32_t load_pieces(const uint8_t *bytes, size_t length, int whole)
{
    size_t taken = 0, piece;
    mft_loaded loaded = {MF_DONE, 0};

    do {
        piece = length - taken;
        if (!whole && piece && chance(8))
            piece = piece > MFT_COMMAND_MAX ? MFT_COMMAND_MAX : chance((uint32_t)piece + 1);
        loaded = mft_load(&loading, bytes + taken, piece, taken + piece == length);
        taken += loaded.taken;
        pieces++;
    } while (!loaded.refusal && taken < length);
    if (loading.place != taken)
        stop("place", (unsigned long)loading.place);
    return loaded.refusal;
}

/* Both stores go on from what they held before. */
static void try_stream(const uint8_t *bytes, size_t length, uint32_t first, int whole)
{
    static singly of;
    uint32_t refusal;

    memset(&of, 0, sizeof of);
    of.bytes = bytes;
    of.length = length;
    of.first = first;
    streams++;
    if (mft_begin_loading(&loading, store, sizeof store, first, hold, &of))
        stop("not begun", first);
    refusal = load_pieces(bytes, length, whole);
    if (loading.done != of.done || loading.refused != of.refused || loading.place != of.at ||
        loading.next != of.first || (refusal != MF_DONE) != (loading.broken != 0))
        stop("counts", (unsigned long)loading.done);
    if (memcmp(store, other, sizeof store))
        stop("stores differ", length);
    broken[loading.broken]++;
    if (refusal && mft_load(&loading, bytes, length, 1).refusal != MF_STREAM_BROKEN)
        stop("loaded on", length);
}

/* With its own numbers the store is what mf_read_stream makes of it. */
static void hold_read(const uint8_t *bytes, size_t length)
{
    mf_stream_read read;

    mf_make_fresh(other, sizeof other);
    mf_make_fresh(store, sizeof store);
    try_stream(bytes, length, MFT_OWN_NUMBERS, 1);
    mf_make_fresh(other, sizeof other);
    read = mf_read_stream(other, sizeof other, bytes, length);
    if (memcmp(store, other, sizeof store) || read.done != loading.done ||
        read.refused != loading.refused ||
        (read.refusal ? read.place != loading.place : loading.broken != 0))
        stop("not as read", (unsigned long)read.done);
    /* Without a function that is told, it is the same. */
    mf_make_fresh(store, sizeof store);
    mft_begin_loading(&loading, store, sizeof store, MFT_OWN_NUMBERS, NULL, NULL);
    mft_load(&loading, bytes, length, 1);
    if (memcmp(store, other, sizeof store) || read.done != loading.done)
        stop("not as read, untold", (unsigned long)read.done);
}

static void try_changed(const uint8_t *from, size_t length)
{
    static const uint8_t likely[] = "\033*c()sDEW0123456789";
    uint32_t changes = chance(4), first = chance(2) ? MFT_OWN_NUMBERS : chance(3) ? chance(20)
                                          : MF_FONT_MAX - 1 + chance(3);
    size_t at;

    memcpy(changed, from, length);
    while (changes--) {
        at = chance((uint32_t)length);
        while (chance(12) && at < length && changed[at] != MFT_ESC)
            at++;
        at += chance(8);
        if (at < length)
            changed[at] = chance(2) ? likely[chance(sizeof likely - 1)] : (uint8_t)chance(256);
    }
    if (!chance(4))
        length = chance((uint32_t)length);
    if (!chance(8))
        hold_read(changed, length);
    try_stream(changed, length, first, 0);
}

/* ---- torn streams ---- */

#define STRETCHES (BYTES / 2)

static mf_stretch stretches[STRETCHES];
static size_t skipped_count;
static uint8_t list[16 * STRETCHES];

static void skipped(uint64_t place, uint64_t length)
{
    if (skipped_count == STRETCHES)
        stop("too many stretches", skipped_count);
    stretches[skipped_count].place = place;
    stretches[skipped_count++].length = length;
}

/* The header's example. */
static void salvage_whole(const uint8_t *stream, size_t stream_len)
{
    size_t at = 0, gone;
    mft_loaded loaded;

    while ((loaded = mft_load(&loading, stream + at, stream_len - at, 1)).refusal) {
        at += loaded.taken;
        gone = mft_salvage(&loading, stream + at, stream_len - at, 1).taken;
        skipped(at, gone);
        at += gone;
    }
}

/* The next piece's length; now and then one of no bytes or of few. */
static size_t a_piece(size_t left)
{
    size_t most = chance(3) ? 12 : MFT_COMMAND_MAX, piece = chance((uint32_t)most + 1);

    return chance(3) && piece < left ? piece : left < MFT_COMMAND_MAX ? left : MFT_COMMAND_MAX;
}

/* Skips from a place on, in pieces; answers the place where the reading goes on. */
static size_t skip_in_pieces(const uint8_t *bytes, size_t length, size_t at)
{
    size_t first = at, piece;
    mft_loaded gone;

    do {
        piece = a_piece(length - at);
        gone = mft_salvage(&loading, bytes + at, piece, at + piece == length);
        at += gone.taken;
        pieces++;
        searched += gone.refusal != MF_DONE;
        if (loading.place != at || (gone.refusal && mft_load(&loading, bytes, 0, 1).refusal !=
                                                        MF_STREAM_BROKEN))
            stop("skipped to", (unsigned long)loading.place);
    } while (gone.refusal);
    skipped(first, at - first);
    return at;
}

static void salvage_in_pieces(const uint8_t *bytes, size_t length)
{
    size_t at = 0, piece;
    mft_loaded loaded;

    do {
        piece = a_piece(length - at);
        loaded = mft_load(&loading, bytes + at, piece, at + piece == length);
        at += loaded.taken;
        pieces++;
        if (loaded.refusal)
            at = skip_in_pieces(bytes, length, at);
    } while (at < length);
}

/* Both stores go on from what they held before, which is the same. */
static void hold_salvaged(const uint8_t *bytes, size_t length, int whole)
{
    mf_salvaged answer = mf_salvage_stream(other, sizeof other, bytes, length, list, sizeof list);
    mft_loaded none;
    size_t each;

    streams++;
    skipped_count = 0;
    if (mft_begin_loading(&loading, store, sizeof store, MFT_OWN_NUMBERS, NULL, NULL))
        stop("not begun", length);
    (whole ? salvage_whole : salvage_in_pieces)(bytes, length);
    if (memcmp(store, other, sizeof store) || answer.refusal || answer.done != loading.done ||
        answer.refused != loading.refused || answer.stretches != skipped_count ||
        loading.broken || loading.place != length)
        stop("not as salvaged", (unsigned long)answer.done);
    for (each = 0; each < skipped_count; each++) {
        mf_stretch is = mf_stretch_at(list, each);
        if (is.place != stretches[each].place || is.length != stretches[each].length)
            stop("another stretch", (unsigned long)is.place);
        to_the_end += is.place + is.length == length;
        inside += is.length < 9; /* the next reading starts in the command that is broken */
    }
    torn += skipped_count;
    none = mft_salvage(&loading, bytes, length, 1);
    if (none.refusal || none.taken || loading.place != length)
        stop("skipped what is whole", none.taken);
}

/* A broken place before a restart of the most bytes, in two pieces, cut at each place. */
static void hold_cuts(void)
{
    static const uint8_t bytes[] = "x\033*c123456D\033*c40000D\033*c5\033*c00005D\033*c6E";
    size_t length = sizeof bytes - 1, at = length - 14, cut, gone;

    for (cut = 1; cut <= length; cut++) {
        mf_make_fresh(store, sizeof store);
        mft_begin_loading(&loading, store, sizeof store, MFT_OWN_NUMBERS, NULL, NULL);
        mft_load(&loading, bytes, cut, 0);
        gone = mft_salvage(&loading, bytes, cut, 0).taken;
        gone += mft_salvage(&loading, bytes + gone, length - gone, 1).taken;
        if (gone != at || loading.place != at || loading.broken ||
            mft_load(&loading, bytes + at, length - at, 1).refusal || loading.done != 2)
            stop("cut at", cut);
    }
}

/* Cut, joined, overwritten, or with a command put in; answers the new length. */
static size_t tear(size_t length, const uint8_t *from, size_t from_length)
{
#define LETTER "\033(s17W\4\0\16\1\0\0\0\0\0\0\0\10\0\1\0\60\1"
#define WORDS(of) {of, sizeof of - 1}
    static const struct { const char *words; size_t length; } put[] = {
        WORDS("\033*c7D"), WORDS("\033*c00005D"), WORDS("\033*c32768D"), WORDS("\033*c5\033*c7D"),
        WORDS("\033*c32767D"), WORDS("\033*c123456D"), WORDS("\033*c9E"), WORDS("\033"),
        WORDS("\033*c2D" LETTER), WORDS("\033*c7D" LETTER)}; /* a character under code 0 */
    size_t at = chance((uint32_t)length), gone = chance(3000), begin, which;

    gone = gone < length - at ? gone : length - at;
    switch (chance(4)) {
    case 0:
        memmove(changed + at, changed + at + gone, length - at - gone);
        return length - gone;
    case 1:
        begin = chance((uint32_t)from_length);
        gone = from_length - begin < BYTES - at ? from_length - begin : BYTES - at;
        memcpy(changed + at, from + begin, gone);
        return at + gone;
    case 2:
        while (gone--)
            changed[at + gone] = chance(20) ? (uint8_t)chance(256) : MFT_ESC;
        return length;
    default:
        which = chance(sizeof put / sizeof *put);
        at = chance(4) ? at : length; /* at the end too */
        gone = put[which].length < BYTES - at ? put[which].length : BYTES - at;
        memcpy(changed + at, put[which].words, gone);
        return length > at + gone ? length : at + gone;
    }
}

static void try_torn(int files)
{
    int from = 1 + (int)chance((uint32_t)files), with = 1 + (int)chance((uint32_t)files);
    uint32_t tears = 1 + chance(6);
    size_t length = lengths[from];

    memcpy(changed, original[from], length);
    while (tears-- && length)
        length = tear(length, original[with], lengths[with]);
    if (!chance(3))
        mf_make_fresh(store, sizeof store);
    memcpy(other, store, sizeof store);
    hold_salvaged(changed, length, chance(3) == 0);
}

/* ---- words ---- */

static void print_note(void *with, const mft_note *note)
{
    static const char *const kinds[] = {"taken", "replaces", "refused"};

    printf("%s: byte %lu, %u %u, font %u as %u, code %u", kinds[note->kind],
           (unsigned long)note->place, (unsigned)note->command.found,
           (unsigned)note->command.number, (unsigned)note->font, (unsigned)note->kept_as,
           (unsigned)note->code);
    if (note->kind == MFT_REPLACES)
        printf(", %u characters", (unsigned)note->characters);
    if (note->refusal)
        printf(": %u, %s", (unsigned)note->refusal, note->why);
    if (note->run)
        printf(" (%u %u %u %u)", (unsigned)note->row, (unsigned)note->filled, (unsigned)note->run,
               (unsigned)note->width);
    putchar('\n');
    ++*(unsigned *)with;
}

static size_t add(size_t length, const char *bytes, size_t count)
{
    memcpy(changed + length, bytes, count);
    return length + count;
}

#define ADD(words) (length = add(length, words, sizeof words - 1))

/* A font block of 64 bytes but for one of them. */
static size_t add_font(size_t length, size_t at, int value)
{
    char block[64] = {0, 64, 0, 0, 0, 0, 0, 6, 0, 7, 0, 9, 0, 0, 1, 21};

    block[at] = (char)value;
    ADD("\033)s64W");
    return add(length, block, sizeof block);
}

/* One of each refusal, and each kind of note. */
static size_t one_of_each(void)
{
    size_t length = 0;

    ADD("\033*c40000D\033*c7D\033*c300E\033*c65E\033(s2W\4\0\033)s3Wabc");
    length = add_font(length, 2, 1);
    length = add_font(length, 12, 9);
    length = add_font(length, 0, 0);
    ADD("\033(s1W\4\033(s2W\5\0\033(s3W\4\0\16\033(s3W\4\1\0");
    ADD("\033(s17W\4\0\16\3\0\0\0\0\0\0\0\10\0\1\0\60\1");
    ADD("\033(s17W\4\0\16\1\1\0\0\0\0\0\0\10\0\1\0\60\1");
    ADD("\033(s16W\4\0\16\1\0\0\0\0\0\0\4\0\4\0\0\60");
    ADD("\033(s19W\4\0\16\2\0\0\0\0\0\0\0\12\0\1\0\60\0\4\7");
    ADD("\033(s18W\4\0\16\2\0\0\0\0\0\0\0\30\0\2\0\60\0\24");
    ADD("\033(s19W\4\0\16\2\0\0\0\0\0\0\0\12\0\1\0\60\0\4\7\033(s3W\4\1\11");
    ADD("\033(s17W\4\0\16\1\0\0\0\0\0\0\0\10\0\1\0\60\1");
    length = add_font(length, 0, 0);
    ADD("\033*c9D");
    length = add_font(length, 0, 0);
    return length;
}

/* A character of so many rows of 1024 dots. */
static size_t add_large(size_t length, int code, int rows)
{
    char words[60];

    length = add(length, words, (size_t)sprintf(words, "\033*c%dE\033(s%dW", code,
                                                16 + 128 * rows));
    ADD("\4\0\16\1\0\0\0\0\0\0\4\0\0");
    changed[length++] = (uint8_t)rows;
    ADD("\0\60");
    memset(changed + length, 0x55, 128 * (size_t)rows);
    return length + 128 * (size_t)rows;
}

/* A stream with a refused command that fits a fresh store, and no store that it was read into. */
static size_t one_that_fills(void)
{
    size_t length = 0;

    ADD("\033*c1D");
    length = add_font(length, 0, 0);
    length = add_large(length, 1, 250);
    length = add_large(length, 2, 240);
    length = add_large(length, 2, 1);
    ADD("\033*c2D");
    length = add_font(length, 0, 0);
    length = add_large(length, 3, 230);
    ADD("\033*c300E");
    return length;
}

static void print_load(size_t store_len, uint32_t first, size_t length)
{
    unsigned told = 0;
    uint32_t refusal;

    mf_make_fresh(store, store_len);
    refusal = mft_begin_loading(&loading, store, store_len, first, print_note, &told);
    if (!refusal)
        refusal = mft_load(&loading, changed, length, 1).refusal;
    printf("%u, %s: notes %u, done %lu, refused %lu, blocks %lu, place %lu, broken %u, next %ld\n",
           (unsigned)refusal, mft_refusal_name(refusal), told, (unsigned long)loading.done,
           (unsigned long)loading.refused, (unsigned long)loading.blocks,
           (unsigned long)loading.place, (unsigned)loading.broken,
           loading.next == MFT_OWN_NUMBERS ? -1L : (long)loading.next);
}

/* The header's example. */
static unsigned count;

static uint32_t example(uint8_t *store, size_t store_len, const uint8_t *stream, size_t stream_len,
                        mft_tell tell)
{
    static mft_loading loading;
    uint32_t refusal =
        mft_begin_loading(&loading, store, store_len, MFT_OWN_NUMBERS, tell, &count);
    if (!refusal)
        refusal = mft_load(&loading, stream, stream_len, 1).refusal;
    return refusal;
}

static void words(void)
{
    static const char *const ends[] = {"x", "\033E", "\033(s32768W", "\033*c12", "\033*c123456D"};
    size_t length = one_of_each(), end;
    uint32_t refusal;

    print_load(sizeof store, MFT_OWN_NUMBERS, length);
    print_load(sizeof store, 100, length);
    print_load(sizeof store, MF_FONT_MAX, length);
    print_load(12 + MF_FONT_ROOM + 20, MF_FONT_MAX + 1, length);
    print_load(12 + MF_FONT_ROOM + 20, MFT_OWN_NUMBERS, length);
    print_load(sizeof store, MFT_OWN_NUMBERS, one_that_fills());
    length = add_font(add(0, "\033*c7D", 5), 0, 0);
    mf_make_fresh(store, sizeof store);
    mft_begin_loading(&loading, store, sizeof store, MFT_OWN_NUMBERS, print_note, &count);
    end = mft_load(&loading, changed, 20, 0).taken;
    mft_load(&loading, changed + end, length - end, 1);
    printf("in two pieces, the first of %u: font %u\n", (unsigned)end,
           (unsigned)mf_next_font(store, sizeof store, 0));
    count = 0;
    for (end = 0; end < sizeof ends / sizeof *ends; end++)
        print_load(sizeof store, MFT_OWN_NUMBERS, add(0, ends[end], strlen(ends[end])));
    print_load(sizeof store, MFT_OWN_NUMBERS, 0);
    print_load(sizeof store, MF_FONT_MAX + 2, 0);
    mf_make_fresh(store, sizeof store);
    refusal = example(store, sizeof store, (const uint8_t *)"\033*c7D", 5, print_note);
    printf("example: %u, %u told\n", (unsigned)refusal, count);
    memset(store, 1, sizeof store);
    printf("no store: %u\n", (unsigned)mft_begin_loading(&loading, store, sizeof store,
                                                         MFT_OWN_NUMBERS, NULL, NULL));
}

int main(int argc, char **argv)
{
    int file, trial, trials = argc > 1 ? atoi(argv[1]) : 0;
    uint32_t refusal;

    words();
    if (argc < 3 || argc > 100)
        return 2;
    lengths[1] = one_of_each();
    memcpy(original[1], changed, lengths[1]);
    hold_read(original[1], lengths[1]);
    for (file = 2; file < argc; file++) {
        FILE *from = fopen(argv[file], "rb");
        lengths[file] = from ? fread(original[file], 1, BYTES, from) : 0;
        if (!lengths[file] || fclose(from))
            return 2;
        hold_read(original[file], lengths[file]);
    }
    for (trial = 0; trial < trials; trial++) {
        file = 1 + (int)chance((uint32_t)argc - 1);
        if (!chance(6))
            mf_make_fresh(store, sizeof store);
        memcpy(other, store, sizeof store);
        try_changed(original[file], lengths[file]);
    }
    hold_cuts();
    for (trial = 0; trial < trials; trial++)
        try_torn(argc - 1);
    fprintf(stderr, "%lu streams in %lu pieces, %lu notes, %lu fonts replaced; refused", streams,
            pieces, notes, replaced);
    for (refusal = 1; refusal <= MF_NO_ROOM; refusal++)
        fprintf(stderr, " %lu", refused[refusal]);
    fprintf(stderr, "; broken %lu %lu %lu %lu; %lu stretches skipped as by the library\n",
            broken[MFT_NO_ESC], broken[MFT_OTHER], broken[MFT_TOO_LONG], broken[MFT_CUT_OFF], torn);
    for (refusal = MF_OUT_OF_RANGE; refusal <= MF_NO_ROOM; refusal++)
        if (!refused[refusal])
            return 1;
    return !(replaced && broken[MFT_NO_ESC] && broken[MFT_OTHER] && broken[MFT_CUT_OFF] &&
             torn > to_the_end && to_the_end && inside && searched);
}
