#include "bdf_write.h"

#include "bdf_fields.h"
#include "kept.h"
#include "loading.h"
#include "message.h"
#include "output.h"

#include <stdlib.h>
#include <string.h>

/* A font that is written. */
typedef struct {
    uint32_t number, characters;
    uint8_t header[MF_FONT_BYTES];
    mf_font_fields font;
    char family[40];
    long points;                    /* its height in whole points, at least 1 */
    long average;                   /* of the characters' widths, in tenths of a dot */
    long left, right, below, above; /* what takes in all characters, upright, from the cursor */
    charset set;
    int named; /* the set has a name */
} written_font;

/* A character as it stands upright. */
static placed place_of(const written_font *of, const mf_character_fields *told)
{
    placed made;

    made.left = told->left;
    made.top = told->top;
    made.width = told->width;
    made.height = told->height;
    return turn_placed(made, of->font.orientation);
}

/* How far a character moves the cursor, in 256ths of a quarter-dot. */
static uint64_t move_of(const written_font *of, const mf_character_fields *told)
{
    return of->font.spacing == MF_FIXED
               ? 256 * (uint64_t)of->font.pitch + of->font.pitch_extended
               : 256 * (uint64_t)told->delta_x;
}

static long dots_of(uint64_t move)
{
    return (long)((move + 512) / 1024);
}

/* ---- what the font is ---- */

static void take_in(written_font *of, placed at, int first)
{
    long right = at.left + (long)at.width, above = at.top + 1L, below = above - (long)at.height;

    of->left = first || at.left < of->left ? at.left : of->left;
    of->right = first || right > of->right ? right : of->right;
    of->below = first || below < of->below ? below : of->below;
    of->above = first || above > of->above ? above : of->above;
}

static void measure(written_font *of)
{
    mf_character_fields told;
    uint32_t code, count = 0;
    long sum = 0;

    for (code = 0; code <= MF_CODE_MAX; code++)
        if (tell_character(of->number, code, &told)) {
            take_in(of, place_of(of, &told), count++ == 0);
            sum += dots_of(move_of(of, &told));
        }
    of->average = count ? (10 * sum + (long)count / 2) / (long)count : 0;
}

/* The font's own name, or its typeface's number, in letters, digits and spaces. */
static void name_family(written_font *of)
{
    const char *from = of->font.name;
    size_t length = 0;

    for (; *from; from++) {
        int plain = (*from >= 'a' && *from <= 'z') || (*from >= 'A' && *from <= 'Z') ||
                    (*from >= '0' && *from <= '9') || *from == ' ';
        of->family[length++] = plain ? *from : '_';
    }
    while (length && of->family[length - 1] == ' ')
        length--;
    of->family[length] = '\0';
    if (!length)
        sprintf(of->family, "Typeface %u", (unsigned)of->font.typeface);
}

static written_font look_at(uint32_t number)
{
    written_font made;

    memset(&made, 0, sizeof made);
    made.number = number;
    made.font = tell_font(number, &made.characters);
    mf_tell_font(store, sizeof store, made.header, sizeof made.header, number);
    made.points = ((long)mf_height_of(&made.font) + 50) / 100;
    if (made.points < 1)
        made.points = 1;
    name_family(&made);
    made.named = charset_of_set(made.font.symbol_set, &made.set);
    if (!made.named) {
        strcpy(made.set.registry, "PCL");
        name_symbol_set(made.set.encoding, sizeof made.set.encoding, made.font.symbol_set);
    }
    measure(&made);
    return made;
}

/* ---- properties ---- */

/* They are gathered first, since their number stands before them. */
typedef struct {
    gathered lines;
    unsigned count;
} properties;

static void add_number(properties *to, const char *name, long value)
{
    char line[100];

    gather(&to->lines, line, (size_t)snprintf(line, sizeof line, "%s %ld\n", name, value));
    to->count++;
}

/* A quotation mark inside is written twice. */
static void add_string(properties *to, const char *name, const char *value)
{
    gather(&to->lines, name, strlen(name));
    gather(&to->lines, " \"", 2);
    for (; *value; value++) {
        gather(&to->lines, value, 1);
        if (*value == '"')
            gather(&to->lines, value, 1);
    }
    gather(&to->lines, "\"\n", 2);
    to->count++;
}

/* The 16 bytes of the font's name without the zeros at their end: a backslash as \\, and a byte
 * that is not printed as a backslash and three octal digits. */
static void add_name(properties *to, const uint8_t *name)
{
    char shown_as[4 * 16 + 1];
    size_t length = 16, at, end = 0;

    while (length && name[length - 1] == 0)
        length--;
    for (at = 0; at < length; at++)
        if (name[at] == '\\')
            end += (size_t)sprintf(shown_as + end, "\\\\");
        else if (name[at] < ' ' || name[at] > '~')
            end += (size_t)sprintf(shown_as + end, "\\%03o", name[at]);
        else
            shown_as[end++] = (char)name[at];
    shown_as[end] = '\0';
    add_string(to, NAME_PROPERTY, shown_as);
}

static const char *slant_of(const mf_font_fields *font)
{
    static const char *const names[] = {"R", "I", "I", "OT"};
    return names[font->style % 4];
}

static const char *width_of(const mf_font_fields *font)
{
    static const char *const names[] = {"Normal", "Condensed", "Compressed", "Extra Compressed",
                                        "Ultra Compressed", "Normal", "Expanded",
                                        "Extra Expanded"};
    return names[font->style / 4 % 8];
}

static const char *spacing_of(const mf_font_fields *font)
{
    return font->spacing == MF_FIXED ? "M" : "P";
}

/* What every BDF font has. */
static void add_usual(properties *to, const written_font *of)
{
    const mf_font_fields *font = &of->font;

    add_string(to, "FOUNDRY", "PCL");
    add_string(to, "FAMILY_NAME", of->family);
    add_string(to, "WEIGHT_NAME", weight_name(font->weight));
    add_string(to, "SLANT", slant_of(font));
    add_string(to, "SETWIDTH_NAME", width_of(font));
    add_string(to, "ADD_STYLE_NAME", "");
    add_number(to, "PIXEL_SIZE", (long)mf_dots(font->height));
    add_number(to, "POINT_SIZE", ((long)mf_height_of(font) + 5) / 10);
    add_number(to, "RESOLUTION_X", (long)font->resolution);
    add_number(to, "RESOLUTION_Y", (long)font->resolution);
    add_string(to, "SPACING", spacing_of(font));
    add_number(to, "AVERAGE_WIDTH", of->average);
    if (of->named) {
        add_string(to, "CHARSET_REGISTRY", of->set.registry);
        add_string(to, "CHARSET_ENCODING", of->set.encoding);
    }
    add_number(to, "FONT_ASCENT", (long)font->baseline + 1);
    add_number(to, "FONT_DESCENT", (long)font->cell_height - (long)font->baseline - 1);
}

/* What comes back by these alone. */
static void add_private(properties *to, const written_font *of)
{
    mf_character_fields told;
    char name[40];
    uint32_t code;
    size_t at;

    add_number(to, NUMBER_PROPERTY, (long)of->number);
    add_name(to, of->header + 48);
    for (at = 0; at < CARRIED; at++)
        add_number(to, carried[at].property, carried_value(&carried[at], of->header));
    for (code = 0; code <= MF_CODE_MAX; code++)
        if (tell_character(of->number, code, &told) &&
            told.delta_x != usual_delta_x(of->font.spacing, of->font.pitch,
                                          (uint32_t)dots_of(move_of(of, &told)))) {
            snprintf(name, sizeof name, "%s%u", DELTA_X_PROPERTY, (unsigned)code);
            add_number(to, name, (long)told.delta_x);
        }
}

/* ---- the file ---- */

/* The rows of an upright character. */
static void write_rows(FILE *to, const uint8_t *picture, placed at)
{
    size_t row_bytes = mf_row_bytes(at.width), byte;
    uint32_t row;

    for (row = 0; row < at.height; row++) {
        for (byte = 0; byte < row_bytes; byte++)
            fprintf(to, "%02X", *picture++);
        fputc('\n', to);
    }
}

/* The same of a character of a turned font. */
static void write_turned(FILE *to, const uint8_t *picture, const mf_character_fields *told,
                         placed at)
{
    size_t length = mf_picture_bytes(at.width, at.height);
    uint8_t *turned = malloc(length);
    uint32_t refusal;

    if (!turned)
        stop("no memory for a character");
    refusal = mf_turn_picture(picture, mf_picture_bytes(told->width, told->height), turned, length,
                              told->width, told->height, told->orientation);
    if (refusal)
        refuse("turning", refusal);
    write_rows(to, turned, at);
    free(turned);
}

static void write_character(FILE *to, const written_font *of, uint32_t code,
                            const mf_character_fields *told)
{
    placed at = place_of(of, told);
    uint64_t move = move_of(of, told), inch = 1024 * (uint64_t)of->font.resolution;
    uint64_t em = inch * (uint64_t)of->points; /* 72 times the font's height, as moves are */

    fprintf(to, "STARTCHAR char%u\nENCODING %u\n", (unsigned)code, (unsigned)code);
    fprintf(to, "SWIDTH %lu 0\n", (unsigned long)((72000 * move + em / 2) / em));
    fprintf(to, "DWIDTH %ld 0\n", dots_of(move));
    fprintf(to, "BBX %u %u %d %d\nBITMAP\n", (unsigned)at.width, (unsigned)at.height,
            (int)at.left, (int)(at.top + 1 - (int32_t)at.height));
    if (of->font.orientation == MF_PORTRAIT)
        write_rows(to, picture_of(of->number, code), at);
    else
        write_turned(to, picture_of(of->number, code), told, at);
    fputs("ENDCHAR\n", to);
}

/* The font's name by the X Logical Font Description. */
static void write_name(FILE *to, const written_font *of)
{
    const mf_font_fields *font = &of->font;

    fprintf(to, "FONT -PCL-%s-%s-%s-%s--%u-%ld-%u-%u-%s-%ld-%s-%s\n", of->family,
            weight_name(font->weight), slant_of(font), width_of(font),
            (unsigned)mf_dots(font->height), ((long)mf_height_of(font) + 5) / 10,
            (unsigned)font->resolution, (unsigned)font->resolution, spacing_of(font), of->average,
            of->set.registry, of->set.encoding);
}

void write_bdf(FILE *to, uint32_t number)
{
    written_font of = look_at(number);
    properties made = {{NULL, 0, 0}, 0};
    mf_character_fields told;
    uint32_t code;

    add_usual(&made, &of);
    add_private(&made, &of);
    fputs("STARTFONT 2.1\nCOMMENT A PCL 5 soft font, written by marlinfold-bdf\n", to);
    write_name(to, &of);
    fprintf(to, "SIZE %ld %u %u\n", of.points, (unsigned)of.font.resolution,
            (unsigned)of.font.resolution);
    fprintf(to, "FONTBOUNDINGBOX %ld %ld %ld %ld\n", of.right - of.left, of.above - of.below,
            of.left, of.below);
    fprintf(to, "STARTPROPERTIES %u\n", made.count);
    fwrite(made.lines.bytes, 1, made.lines.length, to);
    fprintf(to, "ENDPROPERTIES\nCHARS %u\n", (unsigned)of.characters);
    free(made.lines.bytes);
    for (code = 0; code <= MF_CODE_MAX; code++)
        if (tell_character(number, code, &told))
            write_character(to, &of, code, &told);
    fputs("ENDFONT\n", to);
}
