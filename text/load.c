/* Loading a stream. The commands are read here, and each block that nothing speaks against is
 * downloaded by a call of its own, so that every refused command can be told; the others cost no
 * check of the store. A whole stream without fault is read by mf_read_stream, which takes less
 * time. */
#include "records.h"

#include <stdio.h>
#include <string.h>

/* ---- which fonts are kept ---- */

/* kept has of each font its orientation and 1, and 0 for none. */
static void keep_font(mft_loading *into, uint32_t font, uint32_t orientation)
{
    into->fonts += into->kept[font] == 0;
    into->kept[font] = (uint8_t)(orientation + 1);
}

static void forget_font(mft_loading *into, uint32_t font)
{
    into->fonts -= into->kept[font] != 0;
    into->kept[font] = 0;
}

static uint32_t orientation_of(const mft_loading *of, uint32_t font)
{
    return of->kept[font] ? of->kept[font] - 1u : MFT_NO_HEADER;
}

/* The fonts that the store has before. */
static void find_fonts(mft_loading *into)
{
    mftp_record at = mftp_first_record(into->store, into->store_len);

    for (; at.bytes; at = mftp_next_record(&at))
        if (at.kind == MFTP_FONT_RECORD)
            keep_font(into, at.font,
                      mf_font_fields_of(at.bytes + MF_FONT_KEPT_AT).orientation);
}

/* The number that the stream's font is kept under; one is given where its first block stands. Above
 * MF_FONT_MAX, which the library refuses, there is but one. */
static uint32_t kept_number(mft_loading *into)
{
    uint16_t *given = &into->given[into->number];

    if (into->next == MFT_OWN_NUMBERS)
        return into->number;
    if (*given == MFT_NO_NUMBER)
        *given = (uint16_t)(into->next <= MF_FONT_MAX ? into->next++ : into->next);
    return *given;
}

/* ---- notes ---- */

/* The number that a font of the stream is kept under, if one is known already. */
static uint32_t known_number(const mft_loading *of, uint32_t font)
{
    if (font > MF_FONT_MAX)
        return MFT_NO_NUMBER;
    return of->next == MFT_OWN_NUMBERS ? font : of->given[font];
}

static mft_note note_of(const mft_loading *of, const mft_command *given, uint32_t kind)
{
    mft_note made;

    memset(&made, 0, sizeof made);
    made.kind = kind;
    made.place = of->place;
    made.command = *given;
    made.font = given->found == MFT_FONT_NUMBER ? given->number : of->number;
    made.code = given->found == MFT_CODE ? given->number : of->code;
    made.kept_as = known_number(of, made.font);
    return made;
}

static void tell(const mft_loading *of, const mft_note *note)
{
    if (of->tell)
        of->tell(of->with, note);
}

/* ---- what is against a command ---- */

static void refused_with(mft_note *note, uint32_t refusal, const char *more)
{
    note->refusal = refusal;
    snprintf(note->why, sizeof note->why, "%s%s", mf_refusal_name(refusal), more);
}

static void judged(mft_note *note, const mft_judgement *made)
{
    note->refusal = made->refusal;
    strcpy(note->why, made->why);
}

/* A character block that was downloaded, with rows of this width. */
static void refused_download(mft_note *note, mf_downloaded sent, uint32_t width)
{
    refused_with(note, sent.refusal, sent.refusal == MF_NO_ROOM ? ", font removed" : "");
    if (sent.refusal == MF_NO_CHARACTER)
        strcpy(note->why, "a continuation not for the open character");
    if (sent.refusal != MF_RUN_PAST_ROW)
        return;
    note->row = sent.row;
    note->filled = sent.filled;
    note->run = sent.run;
    note->width = width;
    snprintf(note->why, sizeof note->why, "%s: row %u, %u of %u dots filled, run of %u",
             mf_refusal_name(sent.refusal), (unsigned)sent.row, (unsigned)sent.filled,
             (unsigned)width, (unsigned)sent.run);
}

/* ---- commands ---- */

static void tell_replaced(const mft_loading *of, const mft_command *given, uint32_t number)
{
    mft_note note = note_of(of, given, MFT_REPLACES);
    uint8_t kept[MF_FONT_BYTES];

    note.characters = mf_tell_font(of->store, of->store_len, kept, sizeof kept, number).count;
    tell(of, &note);
}

static void load_font(mft_loading *into, const mft_command *given, mft_note *note)
{
    uint32_t number = kept_number(into), refusal;
    mft_judgement made;

    if (number > MF_FONT_MAX) {
        refused_with(note, MF_OUT_OF_RANGE, "");
        return;
    }
    mft_judge_font(&made, given->block, given->number);
    if (made.refusal) {
        judged(note, &made);
        return;
    }
    if (into->kept[number])
        tell_replaced(into, given, number);
    refusal = mf_download_font(into->store, into->store_len, given->block, given->number, number);
    if (refusal)
        refused_with(note, refusal, "");
    else
        keep_font(into, number, given->block[12]);
}

static void load_character(mft_loading *into, const mft_command *given, mft_note *note)
{
    uint32_t number = kept_number(into), width = into->width;
    mft_judgement made;
    mf_downloaded sent;

    if (number > MF_FONT_MAX) {
        refused_with(note, MF_OUT_OF_RANGE, "");
        return;
    }
    mft_judge_character(&made, given->block, given->number, orientation_of(into, number));
    if (made.refusal) {
        judged(note, &made);
        return;
    }
    if (given->block[1] == 0)
        width = mf_field(given->block, 10);
    sent = mf_download_character(into->store, into->store_len, given->block, given->number, number,
                                 into->code);
    if (sent.refusal)
        refused_download(note, sent, width);
    else
        into->width = width;
    if (sent.refusal == MF_NO_ROOM)
        forget_font(into, number);
}

static void load_number(uint32_t number, uint32_t high, uint32_t *into, mft_note *note)
{
    char allowed[40];

    if (number <= high) {
        *into = number;
        return;
    }
    snprintf(allowed, sizeof allowed, ", allowed 0 to %u", (unsigned)high);
    refused_with(note, MF_OUT_OF_RANGE, allowed);
}

/* Does one of the four commands, and tells it. */
static void take_command(mft_loading *into, const mft_command *given)
{
    mft_note note = note_of(into, given, MFT_TAKEN);

    switch (given->found) {
    case MFT_FONT_NUMBER: load_number(given->number, MF_FONT_MAX, &into->number, &note); break;
    case MFT_CODE: load_number(given->number, MF_CODE_MAX, &into->code, &note); break;
    case MFT_FONT_BLOCK: load_font(into, given, &note); break;
    default: load_character(into, given, &note);
    }
    note.kept_as = known_number(into, note.font);
    into->done += note.refusal == MF_DONE;
    into->blocks += note.refusal == MF_DONE && given->block;
    into->refused += note.refusal != MF_DONE;
    if (note.refusal)
        note.kind = MFT_REFUSED;
    tell(into, &note);
}

/* ---- streams without fault ---- */

/* Whether bytes are commands alone, of which no font block is for a font that came before. The
 * fonts that are met are marked, in a table that has none. */
static int is_plain(mft_loading *into, const uint8_t *bytes, size_t length)
{
    uint32_t number = 0;
    mft_command given;
    size_t at;

    for (at = 0; at < length; at += given.length) {
        given = mft_command_at(bytes + at, length - at);
        if (given.found >= MFT_NO_ESC ||
            (given.found == MFT_FONT_NUMBER && given.number > MF_FONT_MAX))
            return 0;
        if (given.found == MFT_FONT_NUMBER)
            number = given.number;
        if (given.found == MFT_FONT_BLOCK && into->kept[number]++)
            return 0;
    }
    return 1;
}

/* Notes a command that was done with others, and tells it. */
static void note_done(mft_loading *into, const mft_command *given)
{
    mft_note note;

    if (given->found == MFT_FONT_NUMBER)
        into->number = given->number;
    else if (given->found == MFT_CODE)
        into->code = given->number;
    else if (given->found == MFT_FONT_BLOCK)
        keep_font(into, into->number, given->block[12]);
    else if (given->block[1] == 0)
        into->width = mf_field(given->block, 10);
    into->done++;
    into->blocks += given->block != NULL;
    note = note_of(into, given, MFT_TAKEN);
    tell(into, &note);
}

/* Reads a whole stream by one call; 0 if something of it is refused or is to be told, so that it
 * has to be loaded command by command. The store has no fonts before and, in that case, after. */
static int load_at_once(mft_loading *into, const uint8_t *bytes, size_t length)
{
    mf_stream_read read;
    mft_command given;
    size_t at;
    int plain;

    if (into->next != MFT_OWN_NUMBERS || into->fonts || into->place || !length)
        return 0;
    plain = is_plain(into, bytes, length);
    memset(into->kept, 0, sizeof into->kept);
    if (!plain)
        return 0;
    read = mf_read_stream(into->store, into->store_len, bytes, length);
    if (read.refusal || read.refused) {
        mf_make_fresh(into->store, into->store_len);
        return 0;
    }
    for (at = 0; at < length; at += given.length) {
        given = mft_command_at(bytes + at, length - at);
        note_done(into, &given);
        into->place += given.length;
    }
    return 1;
}

/* ---- loading ---- */

uint32_t mft_begin_loading(mft_loading *loading, uint8_t *store, size_t store_len, uint32_t first,
                           mft_tell tell_each, void *with)
{
    uint8_t kept[MF_FONT_BYTES];

    if (mf_tell_font(store, store_len, kept, sizeof kept, 0).refusal == MF_NOT_A_STORE)
        return MF_NOT_A_STORE;
    if (first > MF_FONT_MAX + 1 && first != MFT_OWN_NUMBERS)
        return MF_OUT_OF_RANGE;
    memset(loading, 0, sizeof *loading);
    memset(loading->given, 0xFF, sizeof loading->given);
    loading->next = first;
    loading->store = store;
    loading->store_len = store_len;
    loading->tell = tell_each;
    loading->with = with;
    find_fonts(loading);
    return MF_DONE;
}

mft_loaded mft_load(mft_loading *loading, const uint8_t *bytes, size_t length, int last)
{
    mft_loaded answer = {MF_DONE, 0};
    mft_command given;

    if (loading->broken)
        answer.refusal = MF_STREAM_BROKEN;
    else if (last && load_at_once(loading, bytes, length))
        answer.taken = length;
    while (!answer.refusal && answer.taken < length) {
        given = mft_command_at(bytes + answer.taken, length - answer.taken);
        if (given.found == MFT_CUT_OFF && !last)
            break;
        if (given.found >= MFT_NO_ESC) {
            loading->broken = given.found;
            answer.refusal = MF_STREAM_BROKEN;
            break;
        }
        take_command(loading, &given);
        answer.taken += given.length;
        loading->place += given.length;
    }
    return answer;
}

/* ---- torn places ---- */

#define RESTART_MAX 9 /* the longest command that starts a reading again: ESC *c, five digits, D */

static int restarts(const uint8_t *bytes, size_t left)
{
    mft_command given = mft_command_at(bytes, left);

    return given.found == MFT_FONT_NUMBER && given.number <= MF_FONT_MAX;
}

/* The first place where a reading can start again. If there is none, the end; where more bytes
 * follow, an ESC that is too near to it to be known. */
static size_t next_restart(const uint8_t *bytes, size_t length, int last)
{
    const uint8_t *esc;
    size_t at;

    for (at = 0; at < length; at++) {
        esc = memchr(bytes + at, MFT_ESC, length - at);
        if (!esc)
            return length;
        at = (size_t)(esc - bytes);
        if ((!last && length - at < RESTART_MAX) || restarts(esc, length - at))
            return at;
    }
    return at;
}

/* What stands at the broken place is no restart, and so it is always passed. */
mft_loaded mft_salvage(mft_loading *loading, const uint8_t *bytes, size_t length, int last)
{
    mft_loaded answer = {MF_DONE, 0};

    if (!loading->broken)
        return answer;
    answer.taken = next_restart(bytes, length, last);
    loading->place += answer.taken;
    if (!last && (answer.taken == length ||
                  !restarts(bytes + answer.taken, length - answer.taken))) {
        answer.refusal = MF_STREAM_BROKEN;
        return answer;
    }
    loading->broken = 0;
    loading->number = loading->code = 0;
    return answer;
}
