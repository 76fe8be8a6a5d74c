/* marlinfold-label: writes one line of text as a picture, in the font that fits the
 * options best. What it can do stands in help, and in docs/marlinfold-label.1. */
#include "arguments.h"
#include "cartridge.h"
#include "kept.h"
#include "line.h"
#include "loading.h"
#include "message.h"
#include "output.h"
#include "page.h"
#include "request.h"
#include "text.h"

#include <stdlib.h>
#include <string.h>

static long named = NOT_GIVEN, exact, ink, space = NOT_GIVEN, turn, bytes, plain, png;
static const char *cartridge, *out;

static const option options[] = {
    REQUEST_OPTIONS,
    {WORD, "--cartridge", "FILE", &cartridge, 0, 0,
     "choose among the fonts of a cartridge too: FILE has the bytes of a\n"
     "store, or is a font file; then TEXT may stand alone"},
    {NUMBER, "--font", "N", &named, 0, MF_FONT_MAX,
     "take font N, whatever it is: of the files, or else of the cartridge"},
    {FLAG, "--exact", NULL, &exact, 1, 0,
     "write nothing if no font has what the options ask for"},
    SALVAGE_OPTION,
    {FLAG, "--ink", NULL, &ink, 1, 0,
     "the picture ends with the text's dots (with the font's cell)"},
    {NUMBER, "--space", "DOTS", &space, 0, 16384,
     "width of a space that the font lacks (its pitch)"},
    {FLAG, "--bytes", NULL, &bytes, 1, 0,
     "each byte of TEXT is a code (TEXT is in the locale's encoding)"},
    {NUMBER, "--turn", "N", &turn, 0, 3, "the label turned clockwise by N quarters, 0 to 3 (0)"},
    {FLAG, "--plain", NULL, &plain, 1, 0, "PBM in plain digits"},
    {FLAG, "--png", NULL, &png, 1, 0, "PNG, also by the ending of the file's name (PBM)"},
    {WORD, "-o", "FILE", &out, 0, 0, "write to this file (-, standard output)"}};

static const description program = {
    "marlinfold-label", "[OPTIONS] TEXT FILE...",
    "Reads the fonts of each FILE, - for standard input, chooses the one that fits best, and\n"
    "writes TEXT in it to standard output, as a picture of the font's dots to the inch. The\n"
    "picture is as high as the font's cell, so that labels of one font align.\n",
    "TEXT is turned into codes of the font's symbol set, if iconv knows that by a name.\n"
    PAGE_HELP
    "Exit status: 0 if the label is whole, 2 if it was written but a character is missing or\n"
    "incomplete or a font file was not taken whole, 1 if it was not written.\n",
    options, sizeof options / sizeof *options};

/* ---- choosing ---- */

/* Adds to a list of what differs. */
static void differ(char *list, size_t room, const char *what)
{
    size_t length = strlen(list);
    snprintf(list + length, room - length, "%s%s", length ? ", " : "", what);
}

/* Whether a number of the font is another than was asked for; then it is added. */
static void compare(char *list, size_t room, const char *name, long has, long asked)
{
    char what[80];

    if (asked == NOT_GIVEN || has == asked)
        return;
    snprintf(what, sizeof what, "%s %ld for %ld", name, has, asked);
    differ(list, room, what);
}

static void compare_set(char *list, size_t room, uint32_t has)
{
    char what[80], of[2][16];

    if (requested.symbol_set == NOT_GIVEN || (long)has == requested.symbol_set)
        return;
    name_symbol_set(of[0], sizeof of[0], has);
    name_symbol_set(of[1], sizeof of[1], (uint32_t)requested.symbol_set);
    snprintf(what, sizeof what, "set %s for %s", of[0], of[1]);
    differ(list, room, what);
}

static void compare_weight(char *list, size_t room, int32_t has)
{
    char what[80];

    if (requested.weight == NOT_GIVEN || has == requested.weight)
        return;
    snprintf(what, sizeof what, "weight %d (%s) for %ld (%s)", (int)has, weight_name(has),
             requested.weight, weight_name((int32_t)requested.weight));
    differ(list, room, what);
}

/* A quarter of a point counts as none. */
static void compare_height(char *list, size_t room, uint32_t has)
{
    char what[80];
    long off = (long)has - requested.height;

    if (requested.height == NOT_GIVEN || (off <= 25 && off >= -25))
        return;
    snprintf(what, sizeof what, "height %.2f for %.2f", (double)has / 100,
             (double)requested.height / 100);
    differ(list, room, what);
}

/* What a font has otherwise than the options ask for, in words; empty if there is nothing. The
 * last answer alone is kept. */
static const char *differences(uint32_t number)
{
    static char list[400];
    uint32_t characters;
    mf_font_fields font = tell_font(number, &characters);

    list[0] = '\0';
    compare_set(list, sizeof list, font.symbol_set);
    if (requested.spacing != NOT_GIVEN && (long)font.spacing != requested.spacing)
        differ(list, sizeof list, "fixed for proportional");
    compare_height(list, sizeof list, mf_height_of(&font));
    compare(list, sizeof list, "style", (long)font.style, requested.style);
    compare_weight(list, sizeof list, font.weight);
    compare(list, sizeof list, "face", (long)font.typeface, requested.typeface);
    return list;
}

/* Whether two fonts are the same for every step of choosing but the last. */
static int are_level(uint32_t a, uint32_t b)
{
    uint32_t characters;
    mf_font_fields of = tell_font(a, &characters), to = tell_font(b, &characters);

    return of.symbol_set == to.symbol_set && of.spacing == to.spacing && of.pitch == to.pitch &&
           of.pitch_extended == to.pitch_extended && of.height == to.height &&
           of.height_extended == to.height_extended && of.style == to.style &&
           of.weight == to.weight && of.typeface == to.typeface &&
           of.resolution == to.resolution && of.orientation == to.orientation;
}

/* The first font of the store in use that is level with another and has all letters. A font of the
 * other store is never level, since the store is a step of choosing too. */
static uint32_t complete_one(uint32_t font, const text *words)
{
    uint32_t other;

    if (has_all(font, words))
        return font;
    for (other = mf_next_font(store, sizeof store, 0); other <= MF_FONT_MAX;
         other = mf_next_font(store, sizeof store, other + 1))
        if (are_level(other, font) && has_all(other, words))
            return other;
    return font;
}

/* The first font of the store in use that has all that was asked for, one with the page's
 * orientation before the others; above MF_FONT_MAX if there is none. */
static uint32_t exact_in_store(const mf_request *asked)
{
    uint32_t font, characters, first = MF_FONT_MAX + 1;

    for (font = mf_next_font(store, sizeof store, 0); font <= MF_FONT_MAX;
         font = mf_next_font(store, sizeof store, font + 1)) {
        mf_font_fields told = tell_font(font, &characters);
        if (*differences(font) || told.resolution > asked->mode)
            continue;
        if (told.orientation == asked->orientation)
            return font;
        first = first > MF_FONT_MAX ? font : first;
    }
    return first;
}

/* The first font that has all that was asked for, of the files and then of the cartridge, or
 * another one of the store in use if there is none. */
static uint32_t exact_one(const mf_request *asked, uint32_t otherwise)
{
    uint32_t held = store_in_use(), font;

    use_store(MF_SOFT);
    font = exact_in_store(asked);
    if (font > MF_FONT_MAX) {
        use_store(MF_CARTRIDGE);
        font = exact_in_store(asked);
    }
    if (font <= MF_FONT_MAX)
        return font;
    use_store(held);
    return otherwise;
}

#define NONE_TO_CHOOSE "no font has the symbol set asked for or 8U"

/* The number of the font that fits best. */
static uint32_t best_font(const mf_request *asked)
{
    mf_chosen_record chosen = choose_from_both(asked);

    if (chosen.refusal == MF_NONE_TO_CHOOSE)
        stop("choosing: %s", asked->mode == MF_MODE_300
                                 ? NONE_TO_CHOOSE "; fonts of 600 dpi need --mode 600"
                                 : NONE_TO_CHOOSE);
    if (chosen.refusal)
        refuse("choosing", chosen.refusal);
    return chosen.font;
}

/* The font of a number: that of the files, or else that of the cartridge. */
static uint32_t font_of_number(uint32_t number)
{
    if (mf_next_font(store, sizeof store, number) != number)
        use_store(MF_CARTRIDGE);
    return number;
}

/* The store in use in words, after others; none if there is no cartridge. */
static const char *holder(const char *before)
{
    static char words[40];

    snprintf(words, sizeof words, "%s the %s", before,
             store_in_use() == MF_CARTRIDGE ? "cartridge" : "files");
    return cartridge ? words : "";
}

/* Takes a font for the line, tells the user which, and turns the words into its codes. The store
 * that holds it is then in use. */
static void choose(line *of, const mf_request *asked, const char *words)
{
    uint32_t font = named == NOT_GIVEN ? best_font(asked) : font_of_number((uint32_t)named);
    uint32_t characters;

    if (exact && named == NOT_GIVEN && *differences(font))
        font = exact_one(asked, font);
    if (exact && *differences(font))
        stop("%sfont %u%s has %s",
             named == NOT_GIVEN ? "no font has what was asked for; " : "", (unsigned)font,
             holder(" of"), differences(font));
    of->font = tell_font(font, &characters);
    of->words = bytes ? text_of_bytes(words) : text_of_words(words, of->font.symbol_set);
    if (named == NOT_GIVEN)
        font = complete_one(font, &of->words);
    of->number = font;
    of->font = tell_font(font, &characters);
    begin_message();
    print_font(stderr, font);
    fprintf(stderr, "%s\n", holder(", from"));
    if (*differences(font))
        tell("not as asked for: %s", differences(font));
}

/* ---- setting ---- */

/* Sets what a missing character leaves free, and tells where it is not the pitch. */
static void set_blank(line *of)
{
    mf_character_fields n;
    uint32_t kind;

    if (space != NOT_GIVEN) {
        of->blank = 1024 * (int64_t)space;
        return;
    }
    kind = take_blank(of);
    if (kind == MFT_BLANK_TOO_WIDE)
        tell("the font's pitch, %u dots, is wide for a space; --space sets another",
             (unsigned)of->font.pitch / 4);
    if (kind == MFT_BLANK_OF_N && tell_character(of->number, 'n', &n))
        tell("the font's pitch, %u dots, is too wide for a space: the width of n is taken, %u dots",
             (unsigned)of->font.pitch / 4, (unsigned)n.delta_x / 4);
}

/* Takes in the font's cell, and tells if dots stand beyond it. */
static void take_whole_cell(line *of)
{
    long high = (long)of->font.cell_height, across = take_cell(of);

    if (across > high)
        tell("dots stand beyond the font's cell of %ld dots: the label takes %ld and may not align",
             high, across);
}

/* Tells a letter that is not there, or not whole. */
static void tell_letter(const line *of, const letter *missing, int there)
{
    char set[16];

    begin_message();
    if (missing->code == NO_CODE) {
        name_symbol_set(set, sizeof set, of->font.symbol_set);
        fprintf(stderr, "\"%s\"", missing->name);
        if (missing->unicode)
            fprintf(stderr, " (U+%04lX)", missing->unicode);
        fprintf(stderr, " has no code in set %s, left blank\n", set);
        return;
    }
    fprintf(stderr, "code %d", missing->code);
    if (missing->name[0])
        fprintf(stderr, ", \"%s\"", missing->name);
    fprintf(stderr, ": %s\n",
            there ? "incomplete, rows are missing" : "no such character, left blank");
}

/* Whether a letter stands earlier in the line. */
static int was_before(const text *words, size_t at)
{
    size_t before;

    for (before = 0; before < at; before++)
        if (words->letters[before].code == words->letters[at].code &&
            (words->letters[at].code != NO_CODE ||
             strcmp(words->letters[before].name, words->letters[at].name) == 0))
            return 1;
    return 0;
}

/* Tells what the font lacks of the line, where a space needs no character. */
static int tell_missing(const line *of)
{
    int status = COMPLETE;
    size_t at;

    for (at = 0; at < of->words.count; at++) {
        uint32_t state = letter_state(of, at);
        if (state == MFT_WHOLE || state == MFT_SPACE)
            continue;
        status = INCOMPLETE;
        if (!was_before(&of->words, at))
            tell_letter(of, &of->words.letters[at], state == MFT_INCOMPLETE);
    }
    return status;
}

/* ---- the label ---- */

/* The label turned by so many quarters, 0 leaving it as it is. */
static page turned(page label, uint32_t quarters)
{
    if (quarters == 0)
        return label;
    if (label.width > MF_SIDE_MAX || label.height > MF_SIDE_MAX)
        stop("--turn %u: a label of %ld by %ld dots, and at most %d by %d can be turned",
             (unsigned)quarters, label.width, label.height, MF_SIDE_MAX, MF_SIDE_MAX);
    return turn_page(label, quarters);
}

/* Draws the line on a label of its size. */
static page draw(line *of)
{
    set_blank(of);
    measure_line(of);
    if (!ink)
        take_whole_cell(of);
    return turned(draw_line(of), (uint32_t)turn);
}

int main(int argc, char **argv)
{
    size_t count = take_arguments(&program, argc, argv);
    mf_request asked = request_asked();
    line set = {{NULL, 0}, 0, {0}, 0, 0, 0, 0, 0};
    int status, lacking;
    enum page_form form;
    page label;
    FILE *to;

    if (count < (cartridge ? 1u : 2u))
        stop_usage(&program);
    form = form_asked(plain != 0, png != 0, out);
    check_output(out, argv + 2, count - 1);
    check_against(out, cartridge);
    status = load_both(cartridge, argv + 2, count - 1);
    choose(&set, &asked, argv[1]);
    lacking = tell_missing(&set);
    label = draw(&set);
    to = open_output(out);
    write_page(to, &label, form, set.font.resolution);
    close_output(to, out);
    free(label.dots);
    free(set.words.letters);
    forget_kept();
    return lacking ? lacking : status;
}
