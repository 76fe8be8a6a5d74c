#include "loading.h"

#include "kept.h"
#include "message.h"

#include <stdlib.h>
#include <string.h>

uint8_t store[MF_STORE_MAX];
long salvage;
font_origin origin[MF_FONT_MAX + 1];

void fresh_store(void)
{
    mf_make_fresh(store, sizeof store);
    memset(origin, 0, sizeof origin);
    forget_kept();
}

/* ---- messages ---- */

/* A note about a font of the file, as the file names it and as it is kept. */
static note note_of(const loading *of, const char *kind, const mft_note *said)
{
    note made = no_note;

    made.kind = kind;
    made.file = of->file;
    made.place = (int64_t)said->place;
    made.font = (long)said->font;
    if (of->next != OWN_NUMBERS && said->kept_as != MFT_NO_NUMBER)
        made.numbered = (long)said->kept_as;
    return made;
}

static void tell_refused(const loading *of, const mft_note *said)
{
    note made = note_of(of, "refused", said);

    if (said->command.found == MFT_CODE || said->command.found == MFT_CHARACTER_BLOCK)
        made.code = (long)said->code;
    made.bad.row = said->row;
    made.bad.filled = said->filled;
    made.bad.run = said->run;
    made.bad.width = said->width;
    snprintf(made.what, sizeof made.what, "%s", said->why);
    tell_note(&made);
}

/* Tells that a font goes for another. */
static void tell_replaced(const loading *of, const mft_note *said)
{
    const font_origin *goes = &origin[said->kept_as];
    note made = note_of(of, "replaced", said);

    snprintf(made.what, sizeof made.what, "replaces font %u of %s with %u character%s",
             (unsigned)goes->number, shown(goes->file), (unsigned)said->characters,
             said->characters == 1 ? "" : "s");
    tell_note(&made);
}

/* Tells the characters that were passed over since the last time. */
static void tell_passed(loading *of)
{
    note made = no_note;
    unsigned count = of->passed.count;

    made.kind = "passed over";
    made.file = of->file;
    made.place = (int64_t)of->passed.place;
    made.font = (long)of->passed.font;
    made.numbered = of->passed.numbered;
    made.font_in_words = 1;
    snprintf(made.what, sizeof made.what, "%u character%s of font %u passed over, no such font",
             count, count == 1 ? "" : "s", (unsigned)of->passed.font);
    if (count)
        tell_note(&made);
    memset(&of->passed, 0, sizeof of->passed);
}

static void pass_over(loading *of, const mft_note *said)
{
    if (!of->passed.count) {
        of->passed.place = said->place;
        of->passed.font = said->font;
        of->passed.numbered = note_of(of, "passed over", said).numbered;
    }
    of->passed.count += !of->passed.codes[said->code];
    of->passed.codes[said->code] = 1;
}

/* A note about bytes that are not read, or about the file as a whole. */
static void tell_place(const loading *of, const char *kind, int64_t place, int64_t length,
                       const char *what)
{
    note made = no_note;

    made.kind = kind;
    made.file = of->file;
    made.place = place;
    made.length = length;
    snprintf(made.what, sizeof made.what, "%s", what);
    tell_note(&made);
}

/* Why a stream is broken. */
static const char *why_broken(uint32_t found)
{
    static const char *const why[] = {
        "stream broken, no command begins here",
        ("stream broken, not one of the four commands that are read; marlinfold-rewrite makes them "
         "of a printer's stream"),
        "stream broken, a block of more than 32767 bytes",
        "stream broken, the file ends in a command"};

    return why[found - MFT_NO_ESC];
}

static void tell_broken(const loading *of)
{
    tell_place(of, "broken", (int64_t)of->of.place, -1, why_broken(of->of.broken));
}

/* Tells a stretch that was skipped since the stream was broken in this way. */
static void tell_skipped(const loading *of, uint64_t first, uint32_t found, int to_the_end)
{
    unsigned long long length = of->of.place - first;
    char what[300], next[60] = "up to the end";

    if (!to_the_end)
        snprintf(next, sizeof next, "read on at byte %llu", (unsigned long long)of->of.place);
    snprintf(what, sizeof what, "%s; %llu byte%s skipped, %s", why_broken(found), length,
             length == 1 ? "" : "s", next);
    tell_place(of, "skipped", (int64_t)first, (int64_t)length, what);
}

static void tell_padding(const loading *of, size_t length)
{
    char what[100];
    int said = snprintf(what, sizeof what, "%lu byte%s of padding", (unsigned long)length,
                        length == 1 ? "" : "s");

    if (!of->torn)
        snprintf(what + said, sizeof what - (size_t)said, "; all commands before %s were read",
                 length == 1 ? "it" : "them");
    tell_place(of, "padding", (int64_t)of->of.place, salvage ? (int64_t)length : -1, what);
}

/* ---- commands ---- */

static void take_refused(loading *of, const mft_note *said)
{
    int character = said->command.found == MFT_CHARACTER_BLOCK;

    if (character && said->refusal == MF_NO_FONT)
        pass_over(of, said);
    else
        tell_refused(of, said);
    if (character && said->refusal == MF_NO_ROOM)
        origin[said->kept_as].file = NULL;
}

/* What the library says of each command. */
static void take_note(void *with, const mft_note *said)
{
    loading *of = with;

    if (said->command.found == MFT_FONT_NUMBER || said->command.found == MFT_FONT_BLOCK)
        tell_passed(of);
    if (said->kind == MFT_REFUSED)
        take_refused(of, said);
    else if (said->kind == MFT_REPLACES)
        tell_replaced(of, said);
    else if (said->command.found == MFT_FONT_BLOCK) {
        origin[said->kept_as].file = of->file;
        origin[said->kept_as].number = said->font;
    }
}

/* ---- files ---- */

/* Whether what is left is no more than what some systems fill files with. It is looked at as far
 * as INPUT_AHEAD: a longer rest is none. */
static int is_padding(input *from)
{
    size_t at;

    look(from, INPUT_AHEAD);
    for (at = 0; at < from->left; at++)
        if (from->next[at] != 0 && from->next[at] != 26)
            return 0;
    return from->place > 0 && !from->file;
}

/* Skips the bytes from a broken place on to where the stream is read on, or to its end. */
static void skip_stretch(loading *into, input *from)
{
    uint64_t first = into->of.place;
    uint32_t found = into->of.broken;
    mft_loaded gone;

    do {
        look(from, INPUT_AHEAD);
        gone = mft_salvage(&into->of, from->next, from->left, from->file == NULL);
        pass(from, gone.taken);
    } while (gone.refusal);
    into->torn = 1;
    into->stretches++;
    into->skipped += into->of.place - first;
    tell_passed(into);
    tell_skipped(into, first, found, !from->left);
}

/* Whether the stream is read on after a broken place. */
static int pass_broken(loading *into, input *from)
{
    into->broken++;
    if (into->of.broken == MFT_NO_ESC && is_padding(from)) {
        into->padded++;
        tell_padding(into, from->left);
        return 0;
    }
    if (salvage)
        skip_stretch(into, from);
    else
        tell_broken(into);
    return salvage != 0;
}

/* A file that stands in memory whole is handed over in one piece. */
static void load_pieces(loading *into, input *from)
{
    mft_loaded piece;

    look(from, INPUT_AHEAD);
    do {
        piece = mft_load(&into->of, from->next, from->left, from->file == NULL);
        pass(from, piece.taken);
    } while ((!piece.refusal || pass_broken(into, from)) && look(from, MFT_COMMAND_MAX));
    into->next = into->of.next;
    into->place = into->of.place;
    into->done += (unsigned long)into->of.done;
    into->refused += (unsigned long)into->of.refused;
}

void load_stream(loading *into, input *from)
{
    uint32_t refusal = mft_begin_loading(&into->of, store, sizeof store, into->next, take_note,
                                         into);

    if (refusal)
        refuse("loading", refusal);
    into->file = from->name;
    into->torn = 0;
    memset(&into->passed, 0, sizeof into->passed);
    load_pieces(into, from);
    tell_passed(into);
    if (!into->of.blocks && !from->failed) {
        into->fontless++;
        tell_place(into, "no font", -1, -1,
                   from->place || from->left ? "no font in it" : "empty, no font in it");
    }
}

int load_file(loading *into, const char *name)
{
    input from;

    if (!open_input(&from, name))
        return 0;
    load_stream(into, &from);
    return close_input(&from);
}

int load_status(const loading *of)
{
    return of->refused || of->broken > of->padded || of->fontless ? INCOMPLETE : COMPLETE;
}

int load_files(char **names, size_t count)
{
    static loading into;
    size_t file;

    fresh_store();
    into.next = OWN_NUMBERS;
    for (file = 0; file < count; file++)
        if (!load_file(&into, names[file]))
            exit(FAILED);
    return load_status(&into);
}
