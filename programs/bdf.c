/* marlinfold-bdf: writes a kept font as BDF, and a BDF font as a font stream. What it can do
 * stands in help, and in docs/marlinfold-bdf.1. */
#include "arguments.h"
#include "bdf_fields.h"
#include "bdf_read.h"
#include "bdf_weight.h"
#include "bdf_write.h"
#include "kept.h"
#include "loading.h"
#include "marlinfold-text.h"
#include "message.h"
#include "output.h"

#include <stdlib.h>
#include <string.h>

/* A font block's bytes that no property carries. */
#define BASELINE_AT 6
#define CELL_HEIGHT_AT 10
#define SPACING_AT 13
#define NAME_AT 48
#define RESOLUTION_AT 64
#define FORMAT_0_BYTES 64
#define FORMAT_20_BYTES 68
#define FIRST_MAX (MF_BLOCK_MAX - MF_CHARACTER_BYTES) /* data bytes of a first block */
#define PITCH_MAX 16800 /* quarter-dots */
#define HEIGHT_MAX 10922

static long chosen = NOT_GIVEN, number = NOT_GIVEN, resolution = NOT_GIVEN, type = NOT_GIVEN,
            spacing = NOT_GIVEN, set = NOT_GIVEN, pitch = NOT_GIVEN, height = NOT_GIVEN,
            style = NOT_GIVEN, weight = NOT_GIVEN, face = NOT_GIVEN, orientation = NOT_GIVEN;
static const char *bdf, *out;

static const option options[] = {
    {NUMBER, "--font", "N", &chosen, 0, MF_FONT_MAX,
     "write font N of the files (the lowest that is there)"},
    SALVAGE_OPTION,
    {WORD, "--in", "FILE", &bdf, 0, 0,
     "the other way: read this BDF font and write a font stream"},
    {WORD, "-o", "FILE", &out, 0, 0, "write to this file (-, standard output)"},
    {HEADING, NULL, NULL, NULL, 0, 0,
     "With --in these say what the font is, whatever the file says, or where it is silent:"},
    {NUMBER, "--number", "N", &number, 0, MF_FONT_MAX, "the font's number (0)"},
    {NUMBER, "--resolution", "N", &resolution, 300, 600,
     "dots to the inch, 300 or 600; the dots stay as they are"},
    {NUMBER, "--type", "N", &type, 0, 2,
     "0: codes 32 to 127 print, 1: also 160 to 255, 2: all (by its codes)"},
    {NUMBER, "--spacing", "N", &spacing, 0, 1,
     "0 fixed, 1 proportional (fixed if all characters are equally wide)"},
    {SYMBOL_SET, "--set", "SET", &set, 0, 2047, "symbol set, as 8U or as its number 277 (8U)"},
    {HUNDREDTHS, "--pitch", "CPI", &pitch, 10, 57600,
     "characters to the inch (a character's width, or that of the space)"},
    {HUNDREDTHS, "--height", "POINTS", &height, 0, 99975, "height (its pixel size)"},
    {NUMBER, "--style", "N", &style, 0, 1023, "style word (1 if slanted, else 0)"},
    {NUMBER, "--weight", "N", &weight, MF_ULTRA_THIN, MF_ULTRA_BLACK,
     "stroke weight, -7 to 7, where 3 is bold (by its weight's name)"},
    {NUMBER, "--face", "N", &face, 0, 65535, "typeface, 0 to 65535 (0)"},
    {NUMBER, "--orientation", "N", &orientation, 0, 3,
     "0 portrait, 1 landscape, 2 and 3 reverse: the characters are turned (0)"}};

static const description program = {
    "marlinfold-bdf", "[--font N] [-o FILE] FILE... | --in FILE [OPTIONS]",
    "Reads the fonts of each FILE, - for standard input, and writes one of them to standard\n"
    "output as BDF, for font editors and X11: its characters upright, dot for dot, and all that\n"
    "its header has, what BDF lacks as properties that begin with _PCL_. With --in it reads a BDF\n"
    "font, from such a file or from any other, and writes it as a font stream of plain rows\n"
    "(class 1).\n",
    "Exit status: 0 if the font was written whole, 2 if it was written but a character is left\n"
    "out, incomplete or of another width, or a font file was not taken whole, 1 if it was not\n"
    "written. Also 2 if _PCL_WEIGHT, WEIGHT_NAME and FONT of a BDF file say different weights,\n"
    "where the heaviest is taken, and, with nothing written, if they say none that is known;\n"
    "--weight settles both.\n"
    "A BDF file that is broken is told with its line and the reason.\n",
    options, sizeof options / sizeof *options};

/* ---- out ---- */

static int write_out(char **names, size_t count)
{
    int loaded, status;
    uint32_t font, characters;
    FILE *to;

    check_output(out, names, count);
    loaded = load_files(names, count);
    font = chosen == NOT_GIVEN ? mf_next_font(store, sizeof store, 0) : (uint32_t)chosen;
    if (font > MF_FONT_MAX)
        stop("no font in the files");
    tell_font(font, &characters);
    if (!characters)
        stop("font %u: has no characters", (unsigned)font);
    status = tell_missing_rows(font);
    to = open_output(out);
    write_bdf(to, font);
    close_output(to, out);
    forget_kept();
    return status ? status : loaded;
}

/* ---- in: what the font is ---- */

/* What an option gave, or else a property, or else what follows from the rest. */
static long first_of(long option_given, long property, long otherwise)
{
    if (option_given != NOT_GIVEN)
        return option_given;
    return property != NOT_SAID ? property : otherwise;
}

static long resolution_of(const bdf_font *from)
{
    long across = from->resolution_x != NOT_SAID ? from->resolution_x : from->across;
    long down = from->resolution_y != NOT_SAID ? from->resolution_y : from->down;

    if (resolution != NOT_GIVEN)
        return resolution;
    if (across != down || (across != 300 && across != 600))
        stop("%s: %ld by %ld dots to the inch, a font has 300 or 600; --resolution takes its dots "
             "as such",
             shown(from->file), across, down);
    return across;
}

/* Whether all characters are equally wide. */
static int equally_wide(const bdf_font *from)
{
    long dots = NOT_SAID;
    size_t code;

    for (code = 0; code <= MF_CODE_MAX; code++)
        if (from->characters[code].line) {
            if (dots != NOT_SAID && dots != (long)from->characters[code].dots)
                return 0;
            dots = (long)from->characters[code].dots;
        }
    return 1;
}

static long spacing_of(const bdf_font *from)
{
    if (spacing != NOT_GIVEN)
        return spacing;
    if (same_word(from->spacing, "P"))
        return MF_PROPORTIONAL;
    if (same_word(from->spacing, "M") || same_word(from->spacing, "C"))
        return MF_FIXED;
    return equally_wide(from) ? MF_FIXED : MF_PROPORTIONAL;
}

/* The width of the space, of the widest character of a fixed font that lacks it, or the average
 * of all, in quarter-dots. In a proportional font it is at most what a font has. */
static long usual_pitch(const bdf_font *from, long spaced)
{
    unsigned long sum = 0, widest = 0;
    size_t code;
    long made;

    for (code = 0; code <= MF_CODE_MAX; code++)
        if (from->characters[code].line) {
            unsigned long dots = from->characters[code].dots;
            sum += dots;
            widest = dots > widest ? dots : widest;
        }
    if (from->characters[32].line)
        made = 4 * (long)from->characters[32].dots;
    else if (spaced == MF_FIXED || !from->count)
        made = 4 * (long)widest;
    else
        made = (long)((4 * sum + from->count / 2) / from->count);
    return spaced == MF_FIXED || made < PITCH_MAX ? made : PITCH_MAX;
}

static long usual_height(const bdf_font *from)
{
    if (from->pixels != NOT_SAID)
        return 4 * from->pixels;
    return (long)((4LL * from->points * from->down + 36) / 72);
}

/* 0 if codes 32 to 127 are all that there are, 1 if there are also some from 160 on, else 2. */
static long usual_type(const bdf_font *from)
{
    long made = 0, code;

    for (code = 0; code <= MF_CODE_MAX; code++)
        if (from->characters[code].line) {
            if (code < 32 || (code > 127 && code < 160))
                return 2;
            made = code > 127 ? 1 : made;
        }
    return made;
}

static long usual_set(const bdf_font *from)
{
    long found = set_of_charset(from->registry, from->encoding);

    if (found < 0 && set == NOT_GIVEN && from->fields[CARRIED_SYMBOL_SET] == NOT_SAID)
        tell("%s: CHARSET_REGISTRY and CHARSET_ENCODING name no symbol set that is known, 8U is "
             "taken; --set gives another",
             shown(from->file));
    return found < 0 ? MF_ROMAN_8 : found;
}

static long usual_style(const bdf_font *from)
{
    return same_word(from->slant, "I") || same_word(from->slant, "O");
}

/* The lowest code, or the highest. */
static long end_code(const bdf_font *from, int highest)
{
    long code = highest ? MF_CODE_MAX : 0;

    while (code >= 0 && code <= MF_CODE_MAX && !from->characters[code].line)
        code += highest ? -1 : 1;
    return code < 0 || code > MF_CODE_MAX ? 0 : code;
}

/* ---- in: the header ---- */

static void high16(uint8_t *to, long value)
{
    to[0] = (uint8_t)((unsigned long)value >> 8 & 255);
    to[1] = (uint8_t)((unsigned long)value & 255);
}

/* Gives a size its value in quarter-dots: what its option says, or its properties, or what is
 * usual; stops at one that the library would cut. */
static void put_size(uint8_t *header, const bdf_font *from, enum carried_name size, long given,
                     long usual, long high)
{
    enum carried_name more = size + 1;
    long property = from->fields[size];
    long value = first_of(given, property, usual);

    if (value > high)
        stop("%s: %s of %ld quarter-dots, and a font has at most %ld", shown(from->file),
             size == CARRIED_PITCH ? "a pitch" : "a height", value, high);
    carry(&carried[size], header, value);
    carry(&carried[more], header,
          given == NOT_GIVEN && property != NOT_SAID && from->fields[more] != NOT_SAID
              ? from->fields[more]
              : 0);
}

static void put_sizes(uint8_t *header, const bdf_font *from, uint32_t dots_to_inch)
{
    long wide = pitch == NOT_GIVEN ? NOT_GIVEN
                                   : (long)mf_pitch_quarter_dots((uint32_t)pitch, dots_to_inch);
    long high = height == NOT_GIVEN ? NOT_GIVEN
                                    : (long)mf_height_quarter_dots((uint32_t)height, dots_to_inch);

    put_size(header, from, CARRIED_PITCH, wide, usual_pitch(from, header[SPACING_AT]), PITCH_MAX);
    put_size(header, from, CARRIED_HEIGHT, high, usual_height(from), HEIGHT_MAX);
}

/* Baseline and cell: by the ascent and the descent, or by the font's box. */
static void put_cell(uint8_t *header, const bdf_font *from)
{
    long above = from->box[1] + from->box[3], below = -from->box[3];

    above = from->ascent != NOT_SAID ? from->ascent : above < 1 ? 1 : above;
    below = from->descent != NOT_SAID ? from->descent : below < 0 ? 0 : below;
    if (above + below > 65535)
        stop("%s: a cell of %ld rows, allowed are 65535", shown(from->file), above + below);
    high16(header + BASELINE_AT, above - 1);
    high16(header + CELL_HEIGHT_AT, above + below);
    carry(&carried[CARRIED_CELL_WIDTH], header,
          first_of(NOT_GIVEN, from->fields[CARRIED_CELL_WIDTH],
                   from->box[0] > 0 ? from->box[0] : 1));
}

static void put_name(uint8_t *header, const bdf_font *from)
{
    size_t length = strlen(from->family);

    if (from->named)
        memcpy(header + NAME_AT, from->name, sizeof from->name);
    else
        memcpy(header + NAME_AT, from->family, length < 16 ? length : 16);
}

/* Makes the font block, and answers its length. */
static size_t make_header(uint8_t *header, const bdf_font *from)
{
    long dots_to_inch = resolution_of(from);
    size_t at, length = dots_to_inch == 600 || from->fields[CARRIED_FORMAT] == 20
                            ? FORMAT_20_BYTES : FORMAT_0_BYTES;
    const struct {
        enum carried_name field;
        long given, usual;
    } told[] = {{CARRIED_TYPE, type, usual_type(from)},
                {CARRIED_STYLE, style, usual_style(from)},
                {CARRIED_ORIENTATION, orientation, MF_PORTRAIT},
                {CARRIED_SYMBOL_SET, set, usual_set(from)},
                {CARRIED_TYPEFACE, face, 0},
                {CARRIED_FIRST_CODE, NOT_GIVEN, end_code(from, 0)},
                {CARRIED_LAST_CODE, NOT_GIVEN, end_code(from, 1)}};

    memset(header, 0, FORMAT_20_BYTES);
    for (at = 0; at < CARRIED; at++)
        carry(&carried[at], header, first_of(NOT_GIVEN, from->fields[at], 0));
    for (at = 0; at < sizeof told / sizeof *told; at++)
        carry(&carried[told[at].field], header,
              first_of(told[at].given, from->fields[told[at].field], told[at].usual));
    carry(&carried[CARRIED_WEIGHT], header, weight != NOT_GIVEN ? weight : said_weight(from));
    high16(header, (long)length);
    carry(&carried[CARRIED_FORMAT], header, length == FORMAT_20_BYTES ? 20 : 0);
    header[SPACING_AT] = (uint8_t)spacing_of(from);
    put_cell(header, from);
    put_sizes(header, from, (uint32_t)dots_to_inch);
    put_name(header, from);
    if (length == FORMAT_20_BYTES) {
        high16(header + RESOLUTION_AT, dots_to_inch);
        high16(header + RESOLUTION_AT + 2, dots_to_inch);
    }
    return length;
}

/* ---- in: the characters ---- */

/* A reading of a BDF font into the store. */
typedef struct {
    const bdf_font *from;
    uint32_t font; /* its number */
    mf_font_fields kept;
    unsigned long taken;
    int status;
} bringing;

static void leave_out(bringing *of, uint32_t code, const char *why)
{
    tell("%s:%lu: code %u: %s, left out", shown(of->from->file), of->from->characters[code].line,
         (unsigned)code, why);
    of->status = INCOMPLETE;
}

/* The delta X: the exact one that a property has, as long as it rounds to the DWIDTH or the font
 * is fixed, where it moves nothing. */
static uint32_t delta_x_of(const bringing *of, uint32_t code)
{
    const bdf_character *from = &of->from->characters[code];
    long exact = of->from->delta_x[code];

    if (exact != NOT_SAID &&
        (of->kept.spacing == MF_FIXED || mf_dots((uint32_t)exact) == from->dots))
        return (uint32_t)exact;
    return usual_delta_x(of->kept.spacing, of->kept.pitch, from->dots);
}

/* Tells a character of a fixed font that does not move the cursor by its DWIDTH, unless an option
 * asked for that. */
static void check_width(bringing *of, uint32_t code)
{
    uint32_t dots = (256 * of->kept.pitch + of->kept.pitch_extended + 512) / 1024;

    if (of->kept.spacing != MF_FIXED || of->from->characters[code].dots == dots ||
        spacing != NOT_GIVEN || pitch != NOT_GIVEN)
        return;
    tell("%s:%lu: code %u: DWIDTH %u, and the font's pitch is %u dots",
         shown(of->from->file), of->from->characters[code].line, (unsigned)code,
         (unsigned)of->from->characters[code].dots, (unsigned)dots);
    of->status = INCOMPLETE;
}

/* Where a character stands on the page; one without dots is a white one. */
static placed place_of(const bringing *of, const bdf_character *from)
{
    placed made = {0, 0, 1, 1};

    if (from->width && from->height) {
        made.left = from->left;
        made.top = from->below + (int32_t)from->height - 1;
        made.width = from->width;
        made.height = from->height;
    }
    return turn_placed(made, (4 - of->kept.orientation) % 4);
}

/* Whether an offset is beyond what a character may have; then this is the reason. */
static int outside(char *why, size_t room, const char *name, int32_t offset)
{
    if (offset >= -MF_SIDE_MAX && offset <= MF_SIDE_MAX)
        return 0;
    snprintf(why, room, "%s offset %d, allowed %d to %d", name, (int)offset, -MF_SIDE_MAX,
             MF_SIDE_MAX);
    return 1;
}

static void make_descriptor(uint8_t *block, const bringing *of, placed at, uint32_t delta_x)
{
    memset(block, 0, MF_CHARACTER_BYTES);
    block[0] = 4;
    block[2] = 14;
    block[3] = 1;
    block[4] = (uint8_t)of->kept.orientation;
    high16(block + 6, at.left);
    high16(block + 8, at.top);
    high16(block + 10, (long)at.width);
    high16(block + 12, (long)at.height);
    high16(block + 14, (long)delta_x);
}

/* The rows as they are printed. */
static void make_rows(uint8_t *to, size_t length, const bringing *of, const bdf_character *from)
{
    uint32_t turn = (4 - of->kept.orientation) % 4, refusal;
    size_t upright = mf_picture_bytes(from->width, from->height);

    if (!from->rows)
        memset(to, 0, length);
    else if (!turn)
        memcpy(to, from->rows, upright);
    else if ((refusal = mf_turn_picture(from->rows, upright, to, length, from->width, from->height,
                                        turn)) != MF_DONE)
        refuse("turning", refusal);
}

/* Downloads a character; what does not fit one block follows in a second. */
static uint32_t download(const bringing *of, uint32_t code, const uint8_t *block, size_t data)
{
    static uint8_t rest[MF_BLOCK_MAX];
    size_t first = data < FIRST_MAX ? data : FIRST_MAX;
    uint32_t refusal = mf_download_character(store, sizeof store, block,
                                             MF_CHARACTER_BYTES + first, of->font, code).refusal;

    if (refusal || first == data)
        return refusal;
    rest[0] = 4;
    rest[1] = 1;
    memcpy(rest + 2, block + MF_CHARACTER_BYTES + first, data - first);
    return mf_download_character(store, sizeof store, rest, 2 + data - first, of->font, code)
        .refusal;
}

/* Brings a character into the store. Where there is no room for it the library would remove the
 * font, and so it is not tried. */
static void bring(bringing *of, uint32_t code)
{
    static uint8_t block[MF_CHARACTER_BYTES + MF_PICTURE_MAX];
    const bdf_character *from = &of->from->characters[code];
    placed at = place_of(of, from);
    size_t data = mf_picture_bytes(at.width, at.height);
    mft_judgement made;
    uint32_t refusal;

    make_descriptor(block, of, at, delta_x_of(of, code));
    mft_judge_character(&made, block, MF_CHARACTER_BYTES, of->kept.orientation);
    if (outside(made.why, sizeof made.why, "left", at.left) ||
        outside(made.why, sizeof made.why, "top", at.top) || made.refusal) {
        leave_out(of, code, made.why);
        return;
    }
    if (MF_CHARACTER_ROOM + data > mf_room_left(store, sizeof store)) {
        leave_out(of, code, "no room in a store of 65536 bytes");
        return;
    }
    make_rows(block + MF_CHARACTER_BYTES, data, of, from);
    refusal = download(of, code, block, data);
    if (refusal) {
        leave_out(of, code, mf_refusal_name(refusal));
        return;
    }
    check_width(of, code);
    of->taken++;
}

/* Brings the header into a fresh store; stops if the library refuses it. */
static void bring_header(bringing *of)
{
    uint8_t header[FORMAT_20_BYTES], kept[MF_FONT_BYTES];
    size_t length = make_header(header, of->from);
    mft_judgement made;
    uint32_t refusal;

    mft_judge_font(&made, header, length);
    if (made.refusal)
        stop("%s: %s", shown(of->from->file), made.why);
    fresh_store();
    refusal = mf_download_font(store, sizeof store, header, length, of->font);
    if (refusal)
        refuse("font", refusal);
    mf_tell_font(store, sizeof store, kept, sizeof kept, of->font);
    of->kept = mf_font_fields_of(kept);
}

/* Whether the weight is known; tells it if not. */
static int has_weight(const bdf_font *from)
{
    if (weight != NOT_GIVEN || said_weight(from) != NOT_SAID)
        return 1;
    tell_unknown_weight(from);
    return 0;
}

/* Tells it if the file says different weights, and no option says which. */
static void check_weight(bringing *of)
{
    if (weight == NOT_GIVEN && tell_differing_weights(of->from))
        of->status = INCOMPLETE;
}

static void tell_outside(bringing *of)
{
    const bdf_font *from = of->from;
    unsigned long count = from->outside;

    if (count)
        tell("%s:%lu: %lu character%s with a code that is not 0 to %d left out, the first %ld",
             shown(from->file), from->outside_line, count, count == 1 ? "" : "s", MF_CODE_MAX,
             from->outside_code);
    if (count || from->again)
        of->status = INCOMPLETE;
}

static int write_in(void)
{
    static uint8_t written[MF_WRITTEN_MAX(MF_STORE_MAX)];
    static bdf_font from;
    bringing made = {NULL, 0, {0}, 0, COMPLETE};
    mf_written stream;
    uint32_t code;
    FILE *to;

    check_against(out, bdf);
    read_bdf(&from, bdf);
    if (!has_weight(&from)) {
        free_bdf(&from);
        return INCOMPLETE;
    }
    made.from = &from;
    made.font = (uint32_t)first_of(number, from.number, 0);
    bring_header(&made);
    check_weight(&made);
    tell_outside(&made);
    for (code = 0; code <= MF_CODE_MAX; code++)
        if (from.characters[code].line)
            bring(&made, code);
    if (!made.taken)
        stop("%s: no character of it is taken", shown(from.file));
    stream = mf_write_font(store, sizeof store, written, sizeof written, made.font);
    if (stream.refusal)
        refuse("font", stream.refusal);
    free_bdf(&from);
    to = open_output(out);
    fwrite(written, 1, stream.length, to);
    close_output(to, out);
    return made.status;
}

/* Stops at an option that is for the other way. */
static void check_options(void)
{
    size_t at;

    if (bdf && chosen != NOT_GIVEN)
        stop("--font: not with --in");
    if (bdf && salvage)
        stop("--salvage: not with --in");
    for (at = 0; at < sizeof options / sizeof *options; at++) {
        const option *each = &options[at];
        if (!bdf && each->into != &chosen && each->into != &salvage && each->kind != WORD &&
            each->kind != HEADING && *(long *)each->into != NOT_GIVEN)
            stop("%s: only with --in", each->name);
    }
    if (resolution != NOT_GIVEN && resolution != 300 && resolution != 600)
        stop("--resolution %ld: not 300 or 600", resolution);
}

int main(int argc, char **argv)
{
    size_t count = take_arguments(&program, argc, argv);

    if (bdf ? count > 0 : count < 1)
        stop_usage(&program);
    check_options();
    return bdf ? write_in() : write_out(argv + 1, count);
}
