/* marlinfold-specimen: draws a sheet of every character of a font, or says whether the
 * font meets the profile of spine labels. What it can do stands in help, and in
 * docs/marlinfold-specimen.1. */
#include "arguments.h"
#include "kept.h"
#include "loading.h"
#include "message.h"
#include "output.h"
#include "page.h"
#include "profile.h"
#include "sheet.h"

#include <stdlib.h>
#include <string.h>

static long chosen = NOT_GIVEN, all, plain, png, profile;
static const char *out;

static const option options[] = {
    {NUMBER, "--font", "N", &chosen, 0, MF_FONT_MAX,
     "the font's number (the lowest that is there)"},
    {FLAG, "--all", NULL, &all, 1, 0,
     "every font: a file for each, with its number before the ending of the\n"
     "name, or PBMs one after the other to standard output"},
    SALVAGE_OPTION,
    {FLAG, "--plain", NULL, &plain, 1, 0, "PBM in plain digits"},
    {FLAG, "--png", NULL, &png, 1, 0, "PNG, also by the ending of the file's name (PBM)"},
    {FLAG, "--profile", NULL, &profile, 1, 0,
     "draw nothing: say in words whether the font meets the profile of spine\n"
     "labels, and if not, every rule that it breaks, with the codes"},
    {WORD, "-o", "FILE", &out, 0, 0, "write to this file (-, standard output)"}};

static const description program = {
    "marlinfold-specimen", "[OPTIONS] FILE...",
    "Reads the fonts of each FILE, - for standard input, and draws every character of one font\n"
    "to standard output: sixteen codes to a line, by rising code, with the first of them beside\n"
    "it, lines without characters left out. Above them stand the font's number, set, pitch,\n"
    "height and weight.\n",
    PAGE_HELP
    "Exit status: 0 if the sheet is whole, 2 if it was written but a character is incomplete or\n"
    "a font file was not taken whole, 1 if it was not written. With --profile: 0 if the font\n"
    "meets it, 2 if it does not or a font file was not taken whole, 1 if that was not found\n"
    "out.\n",
    options, sizeof options / sizeof *options};

/* Draws a font's sheet and writes it to a file, or to standard output, which stays open; the exit
 * status. */
static int write_sheet(const char *name, uint32_t number, enum page_form form)
{
    uint32_t characters;
    mf_font_fields font = tell_font(number, &characters);
    sheet_field around = measure_sheet(number, font.resolution);
    int status = tell_missing_rows(number);
    page sheet;
    FILE *to;

    sheet = draw_sheet(number, &font, &around);
    to = open_output(name);
    write_page(to, &sheet, form, font.resolution);
    if (to != stdout)
        close_output(to, name);
    free(sheet.dots);
    return status;
}

/* Whether there is something to draw; tells the font. */
static int has_characters(uint32_t number)
{
    uint32_t characters;

    tell_font(number, &characters);
    begin_message();
    print_font(stderr, number);
    fputc('\n', stderr);
    return characters != 0;
}

static int write_one(uint32_t number, enum page_form form)
{
    if (!has_characters(number))
        stop("font %u: has no characters", (unsigned)number);
    return write_sheet(out, number, form);
}

/* A file's name with a number before its ending, as sheet-3.png. */
static void numbered(char *to, size_t room, uint32_t number)
{
    const char *dot = strrchr(out, '.'), *slash = strrchr(out, '/');
    size_t stem = dot && dot > out && (!slash || dot > slash + 1) ? (size_t)(dot - out)
                                                                  : strlen(out);

    if ((size_t)snprintf(to, room, "%.*s-%u%s", (int)stem, out, (unsigned)number, out + stem) >=
        room)
        stop("-o %s: too long a name", shown(out));
}

/* Draws every font that has characters, each to its file, or all to standard output. */
static int write_all(enum page_form form, char **inputs, size_t count)
{
    int to_files = out && strcmp(out, "-") != 0, status = COMPLETE, drawn = 0;
    char name[4096];
    uint32_t font;

    if (form == PNG && !to_files)
        stop("--all --png: a file for each font is needed; -o gives the name");
    for (font = mf_next_font(store, sizeof store, 0); font <= MF_FONT_MAX;
         font = mf_next_font(store, sizeof store, font + 1)) {
        if (!has_characters(font)) {
            tell("font %u: has no characters, left out", (unsigned)font);
            status = INCOMPLETE;
            continue;
        }
        if (to_files) {
            numbered(name, sizeof name, font);
            check_output(name, inputs, count);
        }
        if (write_sheet(to_files ? name : NULL, font, form))
            status = INCOMPLETE;
        drawn = 1;
    }
    if (!drawn)
        stop("no font has characters");
    return status;
}

/* Says in words what the check of the profile found; the exit status. */
static int write_profile(uint32_t font)
{
    FILE *to = open_output(out);
    int met = print_profile(to, font);

    close_output(to, out);
    return met ? COMPLETE : INCOMPLETE;
}

int main(int argc, char **argv)
{
    size_t count = take_arguments(&program, argc, argv);
    enum page_form form = profile ? PBM : form_asked(plain != 0, png != 0, out);
    int loaded, status;
    uint32_t font, characters;

    if (count < 1)
        stop_usage(&program);
    if (all && (profile || chosen != NOT_GIVEN))
        stop("--all: not with --font or --profile");
    check_output(out, argv + 1, count);
    loaded = load_files(argv + 1, count);
    font = chosen == NOT_GIVEN ? mf_next_font(store, sizeof store, 0) : (uint32_t)chosen;
    if (font > MF_FONT_MAX)
        stop("no font in the files");
    tell_font(font, &characters);
    if (profile)
        status = write_profile(font);
    else {
        status = all ? write_all(form, argv + 1, count) : write_one(font, form);
        close_output(stdout, NULL);
    }
    forget_kept();
    return status ? status : loaded;
}
