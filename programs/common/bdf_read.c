#include "bdf_read.h"

#include "input.h"
#include "message.h"

#include <stdarg.h>
#include <stdio.h>
#include <stdlib.h>
#include <string.h>

#define LINE_ROOM 8192 /* the longest line that is no comment */
#define LARGE 100000000L
#define DESCRIPTION_FIELDS 14 /* of an X Logical Font Description */

/* A reading under way. */
typedef struct {
    input from;
    bdf_font *made;
    unsigned long line; /* counted from 1 */
    char text[LINE_ROOM + 1];
    int has_font, has_size, has_box, has_properties;
    long usual_dots;    /* DWIDTH before the characters, NOT_SAID without one */
    /* the character under way: */
    unsigned long begun;
    int has_code, has_bbx;
    long code, dots, bbx[4];
} reading;

static void stop_at(const reading *of, unsigned long line, const char *format, ...)
{
    char why[200];
    va_list given;

    if (of->from.failed)
        stop("%s: cannot be read: %s", shown(of->made->file), strerror(of->from.failed));
    va_start(given, format);
    vsnprintf(why, sizeof why, format, given);
    va_end(given);
    stop("%s:%lu: %s", shown(of->made->file), line, why);
}

/* ---- lines ---- */

/* What follows a word at the beginning of a text, NULL if it does not begin with that word. */
static const char *after(const char *text, const char *word)
{
    size_t length = strlen(word);

    if (strncmp(text, word, length) != 0 || (text[length] && !strchr(" \t", text[length])))
        return NULL;
    text += length;
    return text + strspn(text, " \t");
}

/* Reads a line without its end and without spaces there. Of a comment only the beginning is
 * kept. */
static void read_line(reading *of)
{
    size_t kept = 0, there;
    const uint8_t *end = NULL;

    of->line++;
    while (!end && (there = look(&of->from, 1)) != 0) {
        size_t length, taken;
        end = memchr(of->from.next, '\n', there);
        length = end ? (size_t)(end - of->from.next) : there;
        taken = length < LINE_ROOM - kept ? length : LINE_ROOM - kept;
        memcpy(of->text + kept, of->from.next, taken);
        kept += taken;
        of->text[kept] = '\0';
        if (memchr(of->text, 0, kept))
            stop_at(of, of->line, "a byte 0: not text, and so not BDF");
        if (taken < length && !after(of->text, "COMMENT"))
            stop_at(of, of->line, "a line of more than %d bytes", LINE_ROOM);
        pass(&of->from, length + (end != NULL));
    }
    while (kept && strchr(" \t\r", of->text[kept - 1]))
        of->text[--kept] = '\0';
}

/* Goes to the next line that is neither empty nor a comment. At the end of the file it stops:
 * there ENDFONT is missing, and what the line should be in is cut off. */
static void next_line(reading *of, const char *within)
{
    do {
        if (!look(&of->from, 1))
            stop_at(of, of->line + 1, "the file ends in %s, without ENDFONT", within);
        read_line(of);
    } while (!of->text[0] || after(of->text, "COMMENT"));
}

/* The line's first word for a message, cut to 30 bytes, with a ? for each that cannot be
 * printed. */
static const char *word_of(const reading *of)
{
    static char word[31];
    const char *text = of->text;
    size_t at;

    for (at = 0; at < 30 && text[at] && !strchr(" \t", text[at]); at++)
        word[at] = text[at] > ' ' && text[at] <= '~' ? text[at] : '?';
    word[at] = '\0';
    return word;
}

/* ---- numbers ---- */

/* Reads a whole number, and answers what follows it, NULL if there is none. One beyond LARGE is
 * LARGE. */
static const char *read_whole(const char *at, long *number)
{
    int below = *at == '-';
    const char *digits = at += below;

    for (*number = 0; *at >= '0' && *at <= '9'; at++)
        *number = *number < LARGE / 10 ? 10 * *number + (*at - '0') : LARGE;
    if (at == digits || (*at && !strchr(" \t", *at)))
        return NULL;
    *number = below ? -*number : *number;
    return at + strspn(at, " \t");
}

/* Reads so many numbers, and no more; 0 if they are not there. */
static int read_numbers(const char *at, long *numbers, int count)
{
    while (count-- && at)
        at = read_whole(at, numbers++);
    return at && !*at;
}

static void need_numbers(const reading *of, const char *word, const char *rest, long *numbers,
                         int count)
{
    static const char *const names[] = {"no numbers", "one number", "two numbers",
                                        "three numbers", "four numbers"};

    if (!read_numbers(rest, numbers, count))
        stop_at(of, of->line, "%s needs %s", word, names[count]);
}

static void need_within(const reading *of, const char *what, long number, long low, long high)
{
    if (number >= LARGE || number <= -LARGE)
        stop_at(of, of->line, "%s of very many digits, allowed %ld to %ld", what, low, high);
    if (number < low || number > high)
        stop_at(of, of->line, "%s %ld, allowed %ld to %ld", what, number, low, high);
}

static long need_number(const reading *of, const char *word, const char *rest, long low, long high)
{
    long number = 0;

    need_numbers(of, word, rest, &number, 1);
    need_within(of, word, number, low, high);
    return number;
}

/* ---- words ---- */

/* What is done at a word: its rest of the line is handed on. */
typedef struct {
    const char *word;
    void (*take)(reading *of, const char *rest);
} handler;

static void take_line(reading *of, const handler *table, size_t count, const char *where)
{
    size_t at;

    for (at = 0; at < count; at++) {
        const char *rest = after(of->text, table[at].word);
        if (rest) {
            table[at].take(of, rest);
            return;
        }
    }
    stop_at(of, of->line, "%s is no word of BDF %s", word_of(of), where);
}

static void once(const reading *of, int *has)
{
    if (*has)
        stop_at(of, of->line, "%s comes a second time", word_of(of));
    *has = 1;
}

static void leave_two(reading *of, const char *rest)
{
    long numbers[2];

    need_numbers(of, word_of(of), rest, numbers, 2);
}

static void leave_one(reading *of, const char *rest)
{
    long number;

    need_numbers(of, word_of(of), rest, &number, 1);
}

static void leave_word(reading *of, const char *rest)
{
    (void)of;
    (void)rest;
}

static long read_dwidth(const reading *of, const char *rest)
{
    long numbers[2] = {0, 0};

    need_numbers(of, "DWIDTH", rest, numbers, 2);
    need_within(of, "DWIDTH", numbers[0], 0, BDF_DOTS_MAX);
    if (numbers[1] != 0)
        stop_at(of, of->line, "DWIDTH moves by %ld dots across the line, allowed 0", numbers[1]);
    return numbers[0];
}

/* A box with sides up to a limit: of a character, or of the font, which takes in all of them. */
static void read_box(const reading *of, const char *word, const char *rest, long box[4],
                     long side_max)
{
    static const char *const names[] = {"width", "height", "left offset", "lower offset"};
    char what[40];
    int at;

    need_numbers(of, word, rest, box, 4);
    for (at = 0; at < 4; at++) {
        snprintf(what, sizeof what, "%s: %s", word, names[at]);
        need_within(of, what, box[at], at < 2 ? 0 : -32768, at < 2 ? side_max : 32767);
    }
}

/* ---- properties ---- */

/* A property's string without its quotation marks, where two stand for one; cut to the room. A
 * word without them is taken as it is. */
static void read_string(const reading *of, const char *rest, char *to, size_t room)
{
    size_t length = 0;
    int quoted = *rest == '"';

    for (rest += quoted; *rest && !(quoted && rest[0] == '"' && rest[1] != '"'); rest++) {
        rest += quoted && rest[0] == '"';
        if (length < room - 1)
            to[length++] = *rest;
    }
    to[length] = '\0';
    if (quoted && (rest[0] != '"' || rest[1]))
        stop_at(of, of->line, "%s: a string without its quotation mark at the end", word_of(of));
}

/* The bytes of the font's name, as bdf_write.c writes them. */
static void read_name(reading *of, const char *rest)
{
    char words[4 * 16 + 2];
    const char *at = words;
    size_t length = 0;

    read_string(of, rest, words, sizeof words);
    memset(of->made->name, 0, sizeof of->made->name);
    while (*at && length < 16) {
        unsigned value = (unsigned char)*at++;
        if (value == '\\' && *at == '\\')
            at++;
        else if (value == '\\' && strspn(at, "01234567") >= 3 && *at < '4') {
            value = 64 * (unsigned)(at[0] - '0') + 8 * (unsigned)(at[1] - '0') +
                    (unsigned)(at[2] - '0');
            at += 3;
        }
        of->made->name[length++] = (uint8_t)value;
    }
    if (*at)
        stop_at(of, of->line, "%s has more than 16 bytes", NAME_PROPERTY);
    of->made->named = 1;
}

static int take_string(reading *of)
{
    bdf_font *made = of->made;
    struct {
        const char *word;
        char *into;
    } strings[] = {{"SPACING", made->spacing},
                   {"WEIGHT_NAME", made->weight},
                   {"SLANT", made->slant},
                   {"FAMILY_NAME", made->family},
                   {"CHARSET_REGISTRY", made->registry},
                   {"CHARSET_ENCODING", made->encoding}};
    size_t at;

    for (at = 0; at < sizeof strings / sizeof *strings; at++) {
        const char *rest = after(of->text, strings[at].word);
        if (rest) {
            read_string(of, rest, strings[at].into, BDF_WORD);
            return 1;
        }
    }
    return 0;
}

static int take_number(reading *of, const char *word, long *into, long low, long high)
{
    const char *rest = after(of->text, word);

    if (rest)
        *into = need_number(of, word, rest, low, high);
    return rest != NULL;
}

/* A delta X: the code is a part of the property's name. */
static int take_delta_x(reading *of)
{
    size_t length = strlen(DELTA_X_PROPERTY);
    long code = 0, value;
    const char *rest;

    if (strncmp(of->text, DELTA_X_PROPERTY, length) != 0)
        return 0;
    rest = read_whole(of->text + length, &code);
    if (!rest || code < 0 || code > MF_CODE_MAX)
        stop_at(of, of->line, "%s needs a code from 0 to %d", DELTA_X_PROPERTY, MF_CODE_MAX);
    value = need_number(of, word_of(of), rest, 0, 32767);
    of->made->delta_x[code] = value;
    return 1;
}

/* A property; one that is not known is left. */
static void take_property(reading *of)
{
    bdf_font *made = of->made;
    const char *rest = after(of->text, NAME_PROPERTY);
    size_t at;

    if (rest)
        read_name(of, rest);
    if (rest || take_string(of) || take_delta_x(of) ||
        take_number(of, "FONT_ASCENT", &made->ascent, 1, 65535) ||
        take_number(of, "FONT_DESCENT", &made->descent, 0, 65534) ||
        take_number(of, "PIXEL_SIZE", &made->pixels, 0, 65535) ||
        take_number(of, "RESOLUTION_X", &made->resolution_x, 0, 65535) ||
        take_number(of, "RESOLUTION_Y", &made->resolution_y, 0, 65535) ||
        take_number(of, NUMBER_PROPERTY, &made->number, 0, MF_FONT_MAX))
        return;
    for (at = 0; at < CARRIED; at++)
        if (take_number(of, carried[at].property, &made->fields[at], carried_least(&carried[at]),
                        carried_most(&carried[at])))
            return;
}

static void take_properties(reading *of, const char *rest)
{
    long said = need_number(of, "STARTPROPERTIES", rest, 0, LARGE - 1), count = 0;

    once(of, &of->has_properties);
    for (;; count++) {
        next_line(of, "the properties");
        if (after(of->text, "ENDPROPERTIES"))
            break;
        if (after(of->text, "CHARS") || after(of->text, "STARTCHAR"))
            stop_at(of, of->line, "%s before ENDPROPERTIES", word_of(of));
        take_property(of);
    }
    if (count != said)
        stop_at(of, of->line, "STARTPROPERTIES says %ld, and there are %ld properties", said,
                count);
}

/* ---- before the characters ---- */

/* Whether a font's name is an X Logical Font Description: a hyphen before each of 14 fields, which
 * have none themselves. */
static int is_description(const char *name)
{
    int hyphens = 0;

    if (*name != '-')
        return 0;
    for (; *name; name++)
        hyphens += *name == '-';
    return hyphens == DESCRIPTION_FIELDS;
}

/* Keeps the third field of a description, the weight, cut to its room; * leaves it open. */
static void take_font(reading *of, const char *rest)
{
    const char *weight;
    size_t length;

    once(of, &of->has_font);
    if (!is_description(rest))
        return;
    weight = strchr(strchr(rest + 1, '-') + 1, '-') + 1;
    length = strcspn(weight, "-");
    if (length == 1 && *weight == '*')
        return;
    length = length < BDF_WORD - 1 ? length : BDF_WORD - 1;
    memcpy(of->made->font_weight, weight, length);
    of->made->font_weight[length] = '\0';
}

/* The height may have decimals, which are cut. A fourth number says how many bits a dot has. */
static void take_size(reading *of, const char *rest)
{
    long numbers[4] = {0, 0, 0, 1};
    char line[LINE_ROOM + 1], *dot;

    once(of, &of->has_size);
    strcpy(line, rest);
    dot = strchr(line, '.');
    if (dot && strspn(line, "0123456789") == (size_t)(dot - line)) {
        size_t decimals = 1 + strspn(dot + 1, "0123456789");
        memmove(dot, dot + decimals, strlen(dot + decimals) + 1);
    }
    if (!read_numbers(line, numbers, 4)) {
        numbers[3] = 1;
        need_numbers(of, "SIZE", line, numbers, 3);
    }
    need_within(of, "SIZE: height", numbers[0], 0, 65535);
    need_within(of, "SIZE: resolution", numbers[1], 0, 65535);
    need_within(of, "SIZE: resolution", numbers[2], 0, 65535);
    if (numbers[3] != 1)
        stop_at(of, of->line, "dots of %ld bits, allowed is 1", numbers[3]);
    of->made->points = numbers[0];
    of->made->across = numbers[1];
    of->made->down = numbers[2];
}

static void take_font_box(reading *of, const char *rest)
{
    once(of, &of->has_box);
    read_box(of, "FONTBOUNDINGBOX", rest, of->made->box, 65535);
}

static void take_metrics_set(reading *of, const char *rest)
{
    if (need_number(of, "METRICSSET", rest, 0, 2) == 1)
        stop_at(of, of->line, "METRICSSET 1: the characters have no DWIDTH");
}

static void take_usual_dwidth(reading *of, const char *rest)
{
    of->usual_dots = read_dwidth(of, rest);
}

static const handler before_characters[] = {
    {"FONT", take_font},           {"SIZE", take_size},          {"FONTBOUNDINGBOX", take_font_box},
    {"METRICSSET", take_metrics_set}, {"STARTPROPERTIES", take_properties},
    {"CONTENTVERSION", leave_one}, {"SWIDTH", leave_two},        {"DWIDTH", take_usual_dwidth},
    {"SWIDTH1", leave_two},        {"DWIDTH1", leave_two},       {"VVECTOR", leave_two}};

/* Reads up to CHARS; answers the number that it has. */
static long read_header(reading *of)
{
    const char *rest;

    while (of->line == 0 || !of->text[0] || after(of->text, "COMMENT")) {
        if (!look(&of->from, 1))
            stop_at(of, 1, "empty, not BDF");
        read_line(of);
    }
    rest = after(of->text, "STARTFONT");
    if (!rest)
        stop_at(of, of->line, "no STARTFONT: not BDF");
    if (strcmp(rest, "2.1") != 0 && strcmp(rest, "2.2") != 0)
        stop_at(of, of->line, "STARTFONT needs 2.1 or 2.2");
    for (;;) {
        next_line(of, "the header");
        rest = after(of->text, "CHARS");
        if (rest)
            break;
        take_line(of, before_characters, sizeof before_characters / sizeof *before_characters,
                  "before CHARS");
    }
    if (!of->has_font || !of->has_size || !of->has_box)
        stop_at(of, of->line, "no %s before CHARS",
                !of->has_font ? "FONT" : !of->has_size ? "SIZE" : "FONTBOUNDINGBOX");
    return need_number(of, "CHARS", rest, 0, LARGE - 1);
}

/* ---- characters ---- */

/* ENCODING has the code; -1, with or without a number of the font's own after it, is none. */
static void take_encoding(reading *of, const char *rest)
{
    long numbers[2] = {0, 0};

    once(of, &of->has_code);
    if (!read_numbers(rest, numbers, 2))
        need_numbers(of, "ENCODING", rest, numbers, 1);
    need_within(of, "ENCODING", numbers[0], -1, LARGE - 1);
    of->code = numbers[0];
}

static void take_dwidth(reading *of, const char *rest)
{
    int has = of->dots != NOT_SAID;

    once(of, &has);
    of->dots = read_dwidth(of, rest);
}

static void take_bbx(reading *of, const char *rest)
{
    once(of, &of->has_bbx);
    read_box(of, "BBX", rest, of->bbx, MF_SIDE_MAX);
}

static const handler in_character[] = {
    {"ENCODING", take_encoding}, {"DWIDTH", take_dwidth}, {"BBX", take_bbx},
    {"SWIDTH", leave_two},       {"SWIDTH1", leave_two},  {"DWIDTH1", leave_two},
    {"VVECTOR", leave_two},      {"ATTRIBUTES", leave_word}};

static int hex_value(char digit)
{
    static const char digits[] = "0123456789ABCDEFabcdef";
    const char *found = digit ? strchr(digits, digit) : NULL;

    if (!found)
        return -1;
    return found - digits < 16 ? (int)(found - digits) : (int)(found - digits) - 6;
}

/* Reads the line as a row of the picture; dots beyond its width are left white. */
static void read_row(const reading *of, uint8_t *to, uint32_t width)
{
    size_t row_bytes = mf_row_bytes(width), at;

    for (at = 0; of->text[at]; at++)
        if (hex_value(of->text[at]) < 0)
            stop_at(of, of->line, "a row with byte %u, which is no hex digit",
                    (unsigned char)of->text[at]);
    if (at != 2 * row_bytes)
        stop_at(of, of->line, "a row of %lu hex digits, %u dots need %lu", (unsigned long)at,
                (unsigned)width, (unsigned long)(2 * row_bytes));
    for (at = 0; at < row_bytes; at++)
        to[at] = (uint8_t)(16 * hex_value(of->text[2 * at]) + hex_value(of->text[2 * at + 1]));
    if (width % 8)
        to[row_bytes - 1] &= (uint8_t)(0xFF00 >> width % 8);
}

/* Reads the rows and ENDCHAR; the rows go to the character, if it keeps any. */
static void read_rows(reading *of, bdf_character *into)
{
    uint8_t scratch[MF_ROW_MAX];
    uint32_t width = (uint32_t)of->bbx[0], height = width ? (uint32_t)of->bbx[1] : 0, row;

    for (row = 0; row < height; row++) {
        next_line(of, "a character");
        if (after(of->text, "ENDCHAR"))
            stop_at(of, of->line, "ENDCHAR after %u rows, and the BBX has %u", (unsigned)row,
                    (unsigned)height);
        read_row(of, into && into->rows ? into->rows + row * mf_row_bytes(width) : scratch, width);
    }
    next_line(of, "a character");
    if (!after(of->text, "ENDCHAR"))
        stop_at(of, of->line, "no ENDCHAR after the %u rows of the BBX", (unsigned)height);
}

/* Where the character under way is kept; NULL if it is left out. */
static bdf_character *keep(reading *of)
{
    bdf_font *made = of->made;
    bdf_character *into;
    size_t bytes;

    if (of->code < 0 || of->code > MF_CODE_MAX) {
        if (!made->outside++) {
            made->outside_line = of->begun;
            made->outside_code = of->code;
        }
        return NULL;
    }
    into = &made->characters[of->code];
    if (into->line) {
        tell("%s:%lu: code %ld came before in line %lu, left out", shown(made->file), of->begun,
             of->code, into->line);
        made->again++;
        return NULL;
    }
    made->count++;
    into->line = of->begun;
    into->width = (uint32_t)of->bbx[0];
    into->height = (uint32_t)of->bbx[1];
    into->left = (int32_t)of->bbx[2];
    into->below = (int32_t)of->bbx[3];
    into->dots = (uint32_t)of->dots;
    bytes = mf_picture_bytes(into->width, into->height);
    if (bytes && bytes <= BDF_PICTURE_MAX && !(into->rows = malloc(bytes)))
        stop("no memory for a character");
    return into;
}

static void read_character(reading *of)
{
    of->begun = of->line;
    of->has_code = of->has_bbx = 0;
    of->dots = NOT_SAID;
    for (;;) {
        next_line(of, "a character");
        if (after(of->text, "BITMAP"))
            break;
        take_line(of, in_character, sizeof in_character / sizeof *in_character, "in a character");
    }
    if (of->dots == NOT_SAID)
        of->dots = of->usual_dots;
    if (!of->has_code || !of->has_bbx || of->dots == NOT_SAID)
        stop_at(of, of->line, "no %s before BITMAP",
                !of->has_code ? "ENCODING" : !of->has_bbx ? "BBX" : "DWIDTH");
    read_rows(of, keep(of));
}

static void read_characters(reading *of, long said)
{
    long count = 0;

    for (;; count++) {
        next_line(of, "the characters");
        if (after(of->text, "ENDFONT"))
            break;
        if (!after(of->text, "STARTCHAR"))
            stop_at(of, of->line, "%s, expected STARTCHAR or ENDFONT", word_of(of));
        read_character(of);
    }
    if (count != said)
        stop_at(of, of->line, "CHARS says %ld, and there are %ld characters", said, count);
}

/* ---- the file ---- */

static void nothing_said(bdf_font *made)
{
    size_t at;

    memset(made, 0, sizeof *made);
    made->ascent = made->descent = made->pixels = NOT_SAID;
    made->resolution_x = made->resolution_y = made->number = NOT_SAID;
    for (at = 0; at < CARRIED; at++)
        made->fields[at] = NOT_SAID;
    for (at = 0; at <= MF_CODE_MAX; at++)
        made->delta_x[at] = NOT_SAID;
}

void read_bdf(bdf_font *made, const char *name)
{
    static reading of;

    nothing_said(made);
    memset(&of, 0, sizeof of);
    of.made = made;
    made->file = name;
    of.usual_dots = NOT_SAID;
    if (!open_input(&of.from, name))
        exit(FAILED);
    read_characters(&of, read_header(&of));
    if (!close_input(&of.from))
        exit(FAILED);
}

void free_bdf(bdf_font *made)
{
    size_t code;

    for (code = 0; code <= MF_CODE_MAX; code++) {
        free(made->characters[code].rows);
        made->characters[code].rows = NULL;
    }
}
