#include "catalogue.h"

#include "html.h"
#include "kept.h"
#include "line.h"
#include "output.h"
#include "png_file.h"
#include "profile.h"
#include "sheet.h"
#include "text.h"

#include <stdarg.h>
#include <stdlib.h>
#include <string.h>

static const char sample[] = "Handle with care: 12 x 3.50 (No. 7)";

/* No larger picture is drawn: of a side browsers show, and of all dots to keep memory and time
 * within limits, whatever a damaged file says. */
#define SIDE_DRAWN 16384
#define DOTS_DRAWN 64000000L

int is_closed(int32_t weight)
{
    return weight >= MF_BOLD;
}

/* ---- codes ---- */

static int is_there(uint32_t font, uint32_t code)
{
    mf_character_fields told;

    return tell_character(font, code, &told);
}

unsigned write_codes(FILE *to, uint32_t font, int (*holds)(uint32_t font, uint32_t code))
{
    uint32_t code, first;
    unsigned written = 0;

    for (code = 0; code <= MF_CODE_MAX; code++) {
        if (!holds(font, code))
            continue;
        for (first = code; code < MF_CODE_MAX && holds(font, code + 1);)
            code++;
        fprintf(to, "%s%u", written ? ", " : "", (unsigned)first);
        if (code > first)
            fprintf(to, " to %u", (unsigned)code);
        written += code - first + 1;
    }
    return written;
}

/* ---- fields ---- */

/* A row of the table; the words have nothing that HTML has a meaning for. */
static void write_field(FILE *to, const char *name, const char *format, ...)
{
    va_list given;

    fprintf(to, "<tr><th scope=\"row\">%s</th><td>", name);
    va_start(given, format);
    vfprintf(to, format, given);
    va_end(given);
    fputs("</td></tr>\n", to);
}

static void write_style(FILE *to, uint32_t style)
{
    static const char *const postures[] = {"upright", "italic", "alternate italic",
                                           "unknown posture"};
    static const char *const widths[] = {"normal width", "condensed", "compressed",
                                         "extra compressed", "ultra compressed", "unknown width",
                                         "expanded", "extra expanded"};
    static const char *const structures[] = {
        "solid", "outline", "inline", "contour", "solid with shadow", "outline with shadow",
        "inline with shadow", "contour with shadow"};

    write_field(to, "Style", "%u: %s, %s, %s", (unsigned)style, postures[style % 4],
                widths[style / 4 % 8],
                style / 32 < 8 ? structures[style / 32] : "another structure");
}

static const char *typeface_name(uint32_t typeface)
{
    switch (typeface) {
    case 3: return ": Courier";
    case 4: return ": Helv";
    case 5: return ": TmsRmn";
    case 6: return ": Letter Gothic";
    default: return "";
    }
}

static void write_fields(FILE *to, uint32_t number, const mf_font_fields *font, uint32_t characters)
{
    const char *encoding = encoding_name(font->symbol_set);
    char set[16];

    name_symbol_set(set, sizeof set, font->symbol_set);
    fputs("<table>\n", to);
    write_field(to, "Symbol set", "%s: %s", set, encoding ? encoding : "no name known");
    write_field(to, "Spacing", "%s", font->spacing == MF_FIXED ? "fixed" : "proportional");
    write_field(to, "Pitch", "%.2f characters to the inch", mf_pitch_of(font) / 100.0);
    write_field(to, "Height", "%.2f points", mf_height_of(font) / 100.0);
    write_style(to, font->style);
    write_field(to, "Weight", "%d: %s%s", (int)font->weight, weight_name(font->weight),
                is_closed(font->weight) ? ", <strong>closed series</strong>" : "");
    write_field(to, "Typeface", "%u%s", (unsigned)font->typeface, typeface_name(font->typeface));
    write_field(to, "Orientation", "%s", orientation_name(font->orientation));
    write_field(to, "Resolution", "%u dots to the inch", (unsigned)font->resolution);
    write_field(to, "Characters", "%u", (unsigned)characters);
    write_field(to, "Bytes", "%lu as a font stream", (unsigned long)bytes_of_font(number));
    fputs("</table>\n", to);
}

/* ---- pictures ---- */

/* Whether a picture of this size is drawn; a paragraph says why not. That none is, without libpng,
 * stands at the top of the page. */
static int is_drawn(catalogue *into, FILE *to, long width, long height)
{
    if (!can_write_png())
        return 0;
    if (width <= SIDE_DRAWN && height <= SIDE_DRAWN && width <= DOTS_DRAWN / height)
        return 1;
    fprintf(to, "<p>No picture: %ld by %ld dots are too many.</p>\n", width, height);
    into->undrawn++;
    return 0;
}

/* A picture on the page, and the page's memory freed: a dot of 1/300 inch is a dot of the screen.
 * The words after it, up to the end of its alt text, are the caller's. */
static void write_picture(FILE *to, page *drawn, uint32_t resolution)
{
    fprintf(to, "<img width=\"%ld\" height=\"%ld\" src=\"", drawn->width * 300 / (long)resolution,
            drawn->height * 300 / (long)resolution);
    html_picture(to, drawn, resolution);
    fputs("\" alt=\"", to);
    free(drawn->dots);
}

static void write_specimen(catalogue *into, FILE *to, uint32_t number, const mf_font_fields *font)
{
    sheet_field around = measure_sheet(number, font->resolution);
    long width, height;
    page drawn;

    size_coded_sheet(&around, &width, &height);
    fputs("<figure>\n", to);
    if (is_drawn(into, to, width, height)) {
        drawn = draw_coded_sheet(number, &around);
        write_picture(to, &drawn, font->resolution);
        fprintf(to, "Every character of font %u, with its code above it\">\n", (unsigned)number);
    }
    fputs("<figcaption>Codes: ", to);
    write_codes(to, number, is_there);
    fputs("</figcaption>\n</figure>\n", to);
}

/* The letters of the sample that the font lacks, each once; answers how many the font has. */
static unsigned write_lacking(FILE *to, uint32_t font)
{
    char one[2] = "";
    unsigned there = 0;
    const char *at;

    for (at = sample; *at; at++) {
        int has = is_there(font, (unsigned char)*at);
        there += has && *at != ' ';
        if (has || *at == ' ' || strchr(sample, *at) != at)
            continue;
        one[0] = *at;
        fputc(' ', to);
        html_words(to, one);
    }
    return there;
}

/* The sample, upright whatever the font's orientation. */
static void draw_sample(catalogue *into, FILE *to, line *of)
{
    long width, height;
    page drawn;

    take_blank(of);
    measure_line(of);
    take_cell(of);
    size_line(of, &width, &height);
    if (!is_drawn(into, to, width, height))
        return;
    drawn = draw_line(of);
    if (of->font.orientation != MF_PORTRAIT)
        drawn = turn_page(drawn, of->font.orientation);
    write_picture(to, &drawn, of->font.resolution);
    fprintf(to, "The sample line in font %u\">\n", (unsigned)of->number);
}

static void write_sample(catalogue *into, FILE *to, uint32_t number, const mf_font_fields *font)
{
    line of = {{NULL, 0}, 0, {0}, 0, 0, 0, 0, 0};
    draft lacking;
    unsigned there;

    of.words = text_of_bytes(sample);
    of.number = number;
    of.font = *font;
    begin_draft(&lacking);
    there = write_lacking(lacking.to, number);
    end_draft(&lacking);
    fputs("<figure>\n", to);
    if (there)
        draw_sample(into, to, &of);
    fprintf(to, "<figcaption>Sample: %s", sample);
    if (!there)
        fputs("; the font has no letter of it", to);
    else if (lacking.length)
        fprintf(to, "; not in the font:%s", lacking.text);
    fputs("</figcaption>\n</figure>\n", to);
    free(lacking.text);
    free(of.words.letters);
}

/* ---- what is found out about it ---- */

/* The profile of spine labels: each line of what is said of it. */
static void write_fit(catalogue *into, FILE *to, uint32_t number)
{
    draft said;
    char *rule, *end;
    int fit;

    begin_draft(&said);
    fit = print_profile(said.to, number);
    end_draft(&said);
    into->fit += fit != 0;
    fprintf(to, "<p>Profile of spine labels: <strong>%s</strong></p>\n", fit ? "met" : "not met");
    if (!fit)
        fputs("<ul>\n", to);
    for (rule = said.text; !fit && (end = strchr(rule, '\n')); rule = end + 1) {
        *end = '\0';
        fputs("<li>", to);
        html_words(to, rule);
        fputs("</li>\n", to);
    }
    if (!fit)
        fputs("</ul>\n", to);
    free(said.text);
}

static void write_heading(FILE *to, uint32_t number, const mf_font_fields *font)
{
    char name[sizeof font->name];
    size_t length = strlen(font->name);

    while (length && font->name[length - 1] == ' ')
        length--;
    memcpy(name, font->name, length);
    name[length] = '\0';
    fprintf(to, "<h4>Font %u", (unsigned)number);
    if (length) {
        fputs(", &quot;", to);
        html_name(to, name);
        fputs("&quot;", to);
    }
    fputs("</h4>\n", to);
    if (is_closed(font->weight))
        fprintf(to, "<p class=\"closed\"><strong>%s: CLOSED SERIES</strong></p>\n",
                font->weight == MF_BOLD ? "BOLD" : "HEAVIER THAN BOLD");
}

void catalogue_font(catalogue *into, FILE *to, uint32_t number)
{
    uint32_t characters;
    mf_font_fields font = tell_font(number, &characters);

    into->fonts++;
    into->closed += is_closed(font.weight) != 0;
    write_heading(to, number, &font);
    if (characters)
        note_equal(to, number, font.weight);
    write_fields(to, number, &font, characters);
    if (characters) {
        write_specimen(into, to, number, &font);
        write_sample(into, to, number, &font);
    }
    write_fit(into, to, number);
}
