/* marlinfold-fonts: lists the fonts of files, and tells each command that is refused. What
 * it can do stands in help, and in docs/marlinfold-fonts.1. */
#include "arguments.h"
#include "json.h"
#include "kept.h"
#include "loading.h"
#include "looks.h"
#include "message.h"
#include "output.h"

#include <stdlib.h>
#include <string.h>

static long chosen = NOT_GIVEN, number = NOT_GIVEN, together, json;

static const option options[] = {
    {NUMBER, "--font", "N", &chosen, 0, MF_FONT_MAX,
     "list the fonts that are number N in their files alone (all)"},
    {FLAG, "--together", NULL, &together, 1, 0,
     "read all files into one store, where a font replaces another of its\n"
     "number (a fresh store for each file)"},
    {NUMBER, "--number", "N", &number, 0, MF_FONT_MAX,
     "number the fonts on from N in the order in which they are met, so that\n"
     "fonts of two files have different numbers"},
    SALVAGE_OPTION,
    {FLAG, "--json", NULL, &json, 1, 0,
     "print JSON: an object in a line for each font, for what would be told,\n"
     "and for the sums"}};

static const description program = {
    "marlinfold-fonts", "[OPTIONS] FILE...",
    "Reads the font streams of each FILE, - for standard input, into a store of 65536 bytes, and\n"
    "prints a line for each font that is kept, by rising number, with its file, and at last the\n"
    "commands done and refused. Each refused command, each font that replaces another, each\n"
    "broken place or skipped stretch, each file without a font and each incomplete character is\n"
    "told on standard error.\n",
    "Exit status: 0 if everything was taken, 2 if a command was refused, a stream is broken, a\n"
    "file has no font or a character is incomplete, 1 if the command line is wrong, a file\n"
    "cannot be read or the list cannot be written.\n",
    options, sizeof options / sizeof *options};

static loading into;
static unsigned long fonts, incomplete;

/* ---- equal fonts ---- */

/* A listed font, by what it looks like. */
typedef struct {
    looks of;
    const char *file;
    uint32_t font;
} listed;
static listed *list;
static size_t listed_count, listed_room;

/* The font listed before that looks the same, or NULL; this one is listed from now on. */
static const listed *same_as(uint32_t font)
{
    listed made;
    size_t at;

    made.of = looks_of(font);
    made.file = origin[font].file;
    made.font = origin[font].number;
    for (at = 0; at < listed_count; at++)
        if (same_dots(&list[at].of, &made.of) && same_fields(&list[at].of, &made.of))
            return &list[at];
    if (listed_count == listed_room) {
        listed_room = 2 * listed_room + 64;
        list = realloc(list, listed_room * sizeof *list);
        if (!list)
            stop("no memory for the list");
    }
    list[listed_count++] = made;
    return NULL;
}

/* ---- the list ---- */

static void list_font(uint32_t font, const listed *same)
{
    print_font(stdout, font);
    printf(", from %s", shown(origin[font].file));
    if (origin[font].number != font)
        printf(" (font %u there)", (unsigned)origin[font].number);
    if (same)
        printf(", same as %s font %u", shown(same->file), (unsigned)same->font);
    putchar('\n');
}

static void list_font_json(uint32_t font, const listed *same)
{
    uint32_t characters;
    mf_font_fields told = tell_font(font, &characters);

    json_begin("font");
    json_string("file", origin[font].file);
    json_number("font", (long)origin[font].number);
    json_number("number", (long)font);
    json_symbol_set("set", told.symbol_set);
    json_string("spacing", told.spacing == MF_FIXED ? "fixed" : "proportional");
    json_hundredths("pitch", mf_pitch_of(&told));
    json_hundredths("height", mf_height_of(&told));
    json_number("style", (long)told.style);
    json_number("weight", told.weight);
    json_number("face", (long)told.typeface);
    json_string("orientation", orientation_name(told.orientation));
    json_number("dpi", (long)told.resolution);
    json_number("characters", (long)characters);
    json_string("name", told.name);
    if (same) {
        json_string("same_as_file", same->file);
        json_number("same_as_font", (long)same->font);
    }
    json_end();
}

/* What is told of a place, as an object. */
static void print_note_json(const note *said)
{
    json_begin(said->kind);
    json_string("file", said->file);
    if (said->place >= 0)
        json_number("byte", (long)said->place);
    if (said->length >= 0)
        json_number("length", (long)said->length);
    if (said->font >= 0)
        json_number("font", said->font);
    if (said->numbered >= 0)
        json_number("number", said->numbered);
    if (said->code >= 0)
        json_number("code", said->code);
    if (said->bad.width) {
        json_number("row", (long)said->bad.row);
        json_number("filled", (long)said->bad.filled);
        json_number("run", (long)said->bad.run);
        json_number("width", (long)said->bad.width);
    }
    json_string("text", said->what);
    json_end();
}

/* Tells the font's incomplete characters. */
static void tell_incomplete(uint32_t font)
{
    note said = no_note;

    said.kind = "incomplete";
    strcpy(said.what, "incomplete, rows are missing");
    said.file = origin[font].file;
    said.font = (long)origin[font].number;
    said.numbered = into.next != OWN_NUMBERS ? (long)font : -1;
    for (said.code = 0; said.code <= MF_CODE_MAX; said.code++)
        if (is_incomplete(font, (uint32_t)said.code)) {
            tell_note(&said);
            incomplete++;
        }
}

static void list_store(void)
{
    uint32_t font;

    for (font = mf_next_font(store, sizeof store, 0); font <= MF_FONT_MAX;
         font = mf_next_font(store, sizeof store, font + 1)) {
        const listed *same = same_as(font);
        if (chosen != NOT_GIVEN && (uint32_t)chosen != origin[font].number)
            continue;
        if (json)
            list_font_json(font, same);
        else
            list_font(font, same);
        tell_incomplete(font);
        fonts++;
    }
}

static void print_sums(size_t files)
{
    size_t left = mf_room_left(store, sizeof store);
    int one_store = together || files == 1;

    if (json) {
        json_begin("sums");
        json_number("files", (long)files);
        json_number("fonts", (long)fonts);
        json_number("done", (long)into.done);
        json_number("refused", (long)into.refused);
        if (salvage) {
            json_number("stretches", (long)into.stretches);
            json_number("skipped", (long)into.skipped);
        }
        if (one_store)
            json_number("room_left", (long)left);
        json_end();
        return;
    }
    printf("commands done %lu, refused %lu; ", into.done, into.refused);
    if (salvage)
        printf("skipped %llu byte%s in %lu stretch%s; ", (unsigned long long)into.skipped,
               into.skipped == 1 ? "" : "s", into.stretches, into.stretches == 1 ? "" : "es");
    if (one_store)
        printf("room left %lu of %lu bytes\n", (unsigned long)left, (unsigned long)sizeof store);
    else
        printf("%lu font%s in %lu files\n", fonts, fonts == 1 ? "" : "s", (unsigned long)files);
}

int main(int argc, char **argv)
{
    size_t count = take_arguments(&program, argc, argv), file;
    int unread = 0;

    if (count < 1)
        stop_usage(&program);
    if (json)
        tell_note = print_note_json;
    into.next = number == NOT_GIVEN ? OWN_NUMBERS : (uint32_t)number;
    fresh_store();
    for (file = 1; file <= count; file++) {
        if (!together)
            fresh_store();
        unread |= !load_file(&into, argv[file]);
        if (!together || file == count)
            list_store();
    }
    print_sums(count);
    close_output(stdout, NULL);
    forget_kept();
    free(list);
    return unread ? FAILED : incomplete ? INCOMPLETE : load_status(&into);
}
