/* marlinfold-rewrite: takes the soft fonts out of a stream as a printer gets it, and writes
 * them in the four commands that the library reads. What it can do stands in help, and in
 * docs/marlinfold-rewrite.1. */
#include "arguments.h"
#include "kept.h"
#include "loading.h"
#include "marlinfold-text.h"
#include "message.h"
#include "output.h"
#include "printer.h"
#include "profile.h"

#include <stdlib.h>
#include <string.h>

/* A font block's bytes, as far as they are read or written here. */
#define FORMAT_AT 2
#define FORMAT_0 0
#define FORMAT_20 20
#define FORMAT_0_BYTES 64
#define FORMAT_20_BYTES 68
#define ORIENTATION_AT 12
#define RESOLUTION_AT 64
#define PITCH_MAX 16800 /* quarter-dots */
#define HEIGHT_MAX 10922

/* A field: where it stands, and what its option gave. */
typedef struct {
    size_t at, size;
    int low_first; /* the low byte comes first */
    long given;
} field;

enum { DESCRIPTOR_SIZE, FORMAT, PITCH_MORE, HEIGHT_MORE, PITCH, HEIGHT, PLAIN,
       TYPE = PLAIN, SPACING, SET, WEIGHT, FACE, FIELDS };
static field fields[FIELDS] = {
    {0, 2, 0, NOT_GIVEN}, /* these four have no option of their own */
    {FORMAT_AT, 1, 0, NOT_GIVEN},
    {40, 1, 0, NOT_GIVEN}, /* 256ths of a quarter-dot */
    {41, 1, 0, NOT_GIVEN},
    {16, 2, 0, NOT_GIVEN}, /* hundredths of a character per inch */
    {18, 2, 0, NOT_GIVEN}, /* hundredths of a point */
    {3, 1, 0, NOT_GIVEN},  /* from here on the value stands in the block as it is given */
    {13, 1, 0, NOT_GIVEN},
    {14, 2, 0, NOT_GIVEN},
    {24, 1, 0, NOT_GIVEN},
    {25, 2, 1, NOT_GIVEN}};

static long chosen = NOT_GIVEN, added, format_0, quiet, profiled;
static const char *out;

static const option options[] = {
    {NUMBER, "--font", "N", &chosen, 0, MF_FONT_MAX, "write font N of the stream alone (all)"},
    {NUMBER, "--renumber", "N", &added, 0, MF_FONT_MAX, "add N to every font number (0)"},
    {FLAG, "--format-0", NULL, &format_0, 1, 0,
     "write font blocks of format 20 in format 0, without their resolution"},
    {FLAG, "--quiet", NULL, &quiet, 1, 0,
     "for a printer's job with pages: text and commands of other kinds that\n"
     "are left out, and codes that merely do not rise, are not told"},
    {FLAG, "--profiled", NULL, &profiled, 1, 0,
     "write only fonts that meet the profile of spine labels, and tell what\n"
     "is against the others"},
    {WORD, "-o", "FILE", &out, 0, 0, "write to this file (-, standard output)"},
    {HEADING, NULL, NULL, NULL, 0, 0,
     "These put a field of every font block right; a field stays as it was without its option:"},
    {NUMBER, "--type", "N", &fields[TYPE].given, 0, 2,
     "0: codes 32 to 127 print, 1: also 160 to 255, 2: all"},
    {NUMBER, "--spacing", "N", &fields[SPACING].given, 0, 1, "0 fixed, 1 proportional"},
    {SYMBOL_SET, "--set", "SET", &fields[SET].given, 0, 2047,
     "symbol set, as 8U or as its number 277"},
    {HUNDREDTHS, "--pitch", "CPI", &fields[PITCH].given, 10, 57600, "characters to the inch"},
    {HUNDREDTHS, "--height", "POINTS", &fields[HEIGHT].given, 0, 99975, "height"},
    {NUMBER, "--weight", "N", &fields[WEIGHT].given, MF_ULTRA_THIN, MF_ULTRA_BLACK,
     "stroke weight, -7 to 7, where 3 is bold"},
    {NUMBER, "--face", "N", &fields[FACE].given, 0, 65535, "typeface, 0 to 65535"}};

static const description program = {
    "marlinfold-rewrite", "[OPTIONS] [FILE]",
    "Reads FILE, a stream as a printer gets it, or standard input, and writes its soft fonts to\n"
    "standard output as ESC *c#D, ESC )s#W with a font block, ESC *c#E and ESC (s#W with a\n"
    "character block, each command on its own. Everything else is left out, and told: text and\n"
    "other commands, what looks like damage, characters that replace another.\n",
    "Exit status: 0 if the stream had fonts and nothing else, and they were written; 2 if they\n"
    "were written, but something was told; 1 if not: then a message tells what is wrong, and of a\n"
    "damaged stream the byte. Nothing is written then, unless writing itself fails.\n",
    options, sizeof options / sizeof *options};

/* What lies between two font commands and is left out. */
typedef struct {
    uint64_t place;
    unsigned long commands;
    uint64_t text;  /* bytes that are no command */
    char first[32]; /* of the commands */
} gap;

/* A rewriting under way. */
typedef struct {
    input *from;
    gathered written;
    gap left_out;
    long number, code;    /* as the stream names them */
    long said, said_code; /* what is written has named last; -1 for none */
    long last;            /* number of a font block; -1 for none */
    int status;
} rewriting;

/* What has come of each font of the stream. */
typedef struct {
    uint8_t headed;      /* a header has come */
    uint8_t orientation; /* as it has it */
    uint8_t told;        /* that no header has come */
    int16_t last;        /* code; -1 for none */
    uint8_t codes[(MF_CODE_MAX + 1) / 8];
} met;
static met fonts[MF_FONT_MAX + 1];

/* ---- messages ---- */

static void warn(rewriting *of, const char *kind, uint64_t at, long font, long code,
                 const char *what)
{
    note said = no_note;

    said.kind = kind;
    said.file = of->from->name;
    said.place = (int64_t)at;
    said.font = font;
    said.code = code;
    snprintf(said.what, sizeof said.what, "%s", what);
    tell_note(&said);
    of->status = INCOMPLETE;
}

/* Tells a block that is written, but that the library refuses. */
static void warn_refused(rewriting *of, uint64_t at, long code, const mft_judgement *made)
{
    char what[200];

    if (!made->refusal)
        return;
    snprintf(what, sizeof what, "the library refuses it: %s", made->why);
    warn(of, "refused", at, of->number, code, what);
}

static void start_gap(rewriting *of, uint64_t at)
{
    if (!of->left_out.commands && !of->left_out.text)
        of->left_out.place = at;
}

/* What was left out, in words. */
static void say_gap(char *what, size_t room, const gap *left, uint64_t bytes)
{
    int length = snprintf(what, room, "%llu byte%s left out:", (unsigned long long)bytes,
                          bytes == 1 ? "" : "s");

    if (left->commands)
        length += snprintf(what + length, room - (size_t)length, " %lu command%s, %s%s%s",
                           left->commands, left->commands == 1 ? "" : "s",
                           left->commands == 1 ? "" : "the first ", left->first,
                           left->text ? ";" : "");
    if (left->text)
        snprintf(what + length, room - (size_t)length, " %llu of no command",
                 (unsigned long long)left->text);
}

/* Tells what was left out up to a place, unless that was not asked for. */
static void end_gap(rewriting *of, uint64_t end)
{
    gap *left = &of->left_out;
    char what[200];

    if ((left->commands || left->text) && !quiet) {
        say_gap(what, sizeof what, left, end - left->place);
        warn(of, "left out", left->place, -1, -1, what);
    }
    memset(left, 0, sizeof *left);
}

/* Bytes that are no command. */
static void leave_text(rewriting *of, const left_text *text)
{
    if (text->like_one)
        warn(of, "no ESC", text->place, -1, -1, "a font command without its ESC, left out");
    start_gap(of, text->place);
    of->left_out.text += text->bytes;
}

/* A command that is none of a font. */
static void leave_command(rewriting *of, const printer_command *given)
{
    char shown_as[32], what[100];

    show_command(given, shown_as, sizeof shown_as);
    start_gap(of, given->place);
    if (!of->left_out.commands++)
        strcpy(of->left_out.first, shown_as);
    if (!is_known(given)) {
        snprintf(what, sizeof what, "%s is no command of PCL 5, left out", shown_as);
        warn(of, "unknown", given->place, -1, -1, what);
    }
}

/* Passes a block's data, and tells if they cannot be what they should be. */
static void pass_block(rewriting *of, const printer_command *given)
{
    if (pass_data(of->from, given))
        warn(of, "swallowed", given->place, -1, -1,
             "its block holds the beginning of a font command, and no command follows it: bytes of "
             "the block are missing, and a command is lost");
}

/* ---- fonts ---- */

static void say(rewriting *of, const char *group, long number, char letter)
{
    char made[32];
    gather(&of->written, made,
           (size_t)snprintf(made, sizeof made, "%c%s%ld%c", MFT_ESC, group, number, letter));
}

static void put(uint8_t *block, const field *of, long value)
{
    size_t byte;
    for (byte = 0; byte < of->size; byte++) {
        size_t shift = 8 * (of->low_first ? byte : of->size - 1 - byte);
        block[of->at + byte] = (uint8_t)((unsigned long)value >> shift & 255);
    }
}

/* How many bytes of a font block are kept, by its format; stops if it is not taken. */
static size_t font_bytes(input *from, const printer_command *given)
{
    size_t there = look(from, FORMAT_20_BYTES), length;
    uint8_t format;

    there = given->data < there ? (size_t)given->data : there;
    format = there > FORMAT_AT ? from->next[FORMAT_AT] : FORMAT_0;
    length = format == FORMAT_20 ? FORMAT_20_BYTES : FORMAT_0_BYTES;
    if (there < given->data && there < length)
        broken(from, given->place, "cut off in a block");
    if (format != FORMAT_0 && format != FORMAT_20)
        broken(from, given->place, "a font block that is not of format 0 or 20");
    if (there < length)
        broken(from, given->place,
               "a font block of fewer than 64 bytes, in format 20 of fewer than 68");
    return length;
}

/* Gives a size its value, in quarter-dots; stops at one that the library would cut. */
static void put_size(uint8_t *block, int size, int more, const char *name, uint32_t value,
                     uint32_t high)
{
    if (value > high)
        stop("%s %g: %u quarter-dots, and a font has at most %u", name,
             (double)fields[size].given / 100, (unsigned)value, (unsigned)high);
    put(block, &fields[size], (long)value);
    put(block, &fields[more], 0);
}

/* Gives the pitch and the height their values, by the font's resolution. */
static void put_sizes(uint8_t *block, uint32_t resolution)
{
    uint32_t pitch = (uint32_t)fields[PITCH].given, height = (uint32_t)fields[HEIGHT].given;

    if (fields[PITCH].given != NOT_GIVEN)
        put_size(block, PITCH, PITCH_MORE, "--pitch", mf_pitch_quarter_dots(pitch, resolution),
                 PITCH_MAX);
    if (fields[HEIGHT].given != NOT_GIVEN)
        put_size(block, HEIGHT, HEIGHT_MORE, "--height",
                 mf_height_quarter_dots(height, resolution), HEIGHT_MAX);
}

/* Whether the font that the stream names is to be written. */
static int is_chosen(const rewriting *of)
{
    return chosen == NOT_GIVEN || chosen == of->number;
}

/* Whether a code, or a font's number, is another one that has lost a digit. */
static int lacks_digit(long code, long of)
{
    long digit; /* 1 for the last, 10 for the one before it */

    for (digit = 1; digit <= of; digit *= 10)
        if (code == of / digit / 10 * digit + of % digit)
            return 1;
    return 0;
}

/* Tells the number of a font that may be one more than the number of the font before, without a
 * digit. A job with pages may also send a font again. */
static void check_number(rewriting *of, const printer_command *given)
{
    char what[100];

    if (of->number < of->last && lacks_digit(of->number, of->last + 1) &&
        !(quiet && fonts[of->number].headed)) {
        snprintf(what, sizeof what, "follows font %ld, and may be %ld without a digit", of->last,
                 of->last + 1);
        warn(of, "number", given->place, of->number, -1, what);
    }
    of->last = of->number;
}

/* Writes a font block in its format, or in format 0, with the fields that were given. */
static void rewrite_font(rewriting *of, const printer_command *given)
{
    uint8_t block[FORMAT_20_BYTES];
    size_t length = font_bytes(of->from, given);
    met *font = &fonts[of->number];
    mft_judgement made;
    int at;

    check_number(of, given);
    if (font->headed && !quiet)
        tell("%s: byte %llu, font %ld: replaces the font that came before under this number",
             shown(of->from->name), (unsigned long long)given->place, of->number);
    if (format_0)
        length = FORMAT_0_BYTES;
    memcpy(block, of->from->next, length);
    put(block, &fields[DESCRIPTOR_SIZE], (long)length);
    put(block, &fields[FORMAT], length == FORMAT_0_BYTES ? FORMAT_0 : FORMAT_20);
    put_sizes(block, length == FORMAT_0_BYTES ? 300 : mf_field(block, RESOLUTION_AT));
    for (at = PLAIN; at < FIELDS; at++)
        if (fields[at].given != NOT_GIVEN)
            put(block, &fields[at], fields[at].given);
    memset(font, 0, sizeof *font);
    font->headed = 1;
    font->orientation = block[ORIENTATION_AT];
    font->last = -1;
    mft_judge_font(&made, block, length);
    warn_refused(of, given->place, -1, &made);
    if (!is_chosen(of))
        return;
    say(of, "*c", of->number + added, 'D');
    say(of, ")s", (long)length, 'W');
    gather(&of->written, block, length);
    of->said = of->number;
    of->said_code = -1;
}

/* Tells what speaks against a character's code: most files have their codes rising, and in most
 * fonts each code is one more than the code before. */
static void check_code(rewriting *of, const printer_command *given, const met *font)
{
    long code = of->code, last = font->last;
    char what[120];

    if (last < 0 || code == last)
        return;
    if (code < last && lacks_digit(code, last + 1))
        snprintf(what, sizeof what, "follows code %ld, and may be %ld without a digit", last,
                 last + 1);
    else if (code > last + 1 && lacks_digit(last, code - 1))
        snprintf(what, sizeof what, "follows code %ld, which may be %ld without a digit", last,
                 code - 1);
    else if (code < last && !quiet)
        snprintf(what, sizeof what, "follows code %ld: codes that do not rise may lack a digit",
                 last);
    else
        return;
    warn(of, "code", given->place, of->number, code, what);
}

/* Tells what speaks against a character block, which is a first one or a continuation. */
static void check_character(rewriting *of, const printer_command *given)
{
    met *font = &fonts[of->number];
    uint8_t *codes = &font->codes[of->code / 8], bit = (uint8_t)(1 << of->code % 8);
    mft_judgement made;

    if (!font->headed && !font->told) {
        warn(of, "no header", given->place, of->number, -1,
             "characters of a font that has no header in the stream");
        font->told = 1;
        font->last = -1;
    }
    if (font->headed) {
        mft_judge_character(&made, of->from->next, (size_t)given->data, font->orientation);
        warn_refused(of, given->place, of->code, &made);
    }
    if (given->data > 1 && of->from->next[1] != 0)
        return;
    if (*codes & bit)
        warn(of, "replaced", given->place, of->number, of->code,
             "replaces the character that the font has under this code");
    check_code(of, given, font);
    *codes |= bit;
    font->last = (int16_t)of->code;
}

/* Writes a character block byte for byte, and before it what has changed since the last. */
static void rewrite_character(rewriting *of, const printer_command *given)
{
    if (given->data > MF_BLOCK_MAX)
        broken(of->from, given->place, "a character block of more than 32767 bytes");
    if (look(of->from, (size_t)given->data) < given->data)
        broken(of->from, given->place, "cut off in a block");
    check_character(of, given);
    if (!is_chosen(of))
        return;
    if (of->said != of->number)
        say(of, "*c", of->number + added, 'D');
    if (of->said != of->number || of->said_code != of->code)
        say(of, "*c", of->code, 'E');
    say(of, "(s", given->number, 'W');
    gather(&of->written, of->from->next, (size_t)given->data);
    of->said = of->number;
    of->said_code = of->code;
}

static int is_font_command(const printer_command *given)
{
    return is_command(given, "*c", 'D') || is_command(given, "*c", 'E') ||
           is_command(given, ")s", 'W') || is_command(given, "(s", 'W');
}

/* Does what a command of a font says. */
static void rewrite_command(rewriting *of, const printer_command *given)
{
    if (is_command(given, "*c", 'D')) {
        of->number = given->number;
        if (of->number < 0 || of->number + added > MF_FONT_MAX)
            broken(of->from, given->place, "a font number out of range");
    } else if (is_command(given, "*c", 'E')) {
        of->code = given->number;
        if (of->code < 0 || of->code > MF_CODE_MAX)
            broken(of->from, given->place, "a character code out of range");
    } else if (is_command(given, ")s", 'W'))
        rewrite_font(of, given);
    else
        rewrite_character(of, given);
}

/* ---- the stream ---- */

/* What stands after the last command. */
static void end_stream(rewriting *of, const left_text *after)
{
    if (after->padding && after->bytes && of->said >= 0) {
        end_gap(of, after->place);
        tell("%s: byte %llu: %llu byte%s of padding; all commands before %s were read",
             shown(of->from->name), (unsigned long long)after->place,
             (unsigned long long)after->bytes, after->bytes == 1 ? "" : "s",
             after->bytes == 1 ? "it" : "them");
        return;
    }
    if (after->bytes)
        leave_text(of, after);
    end_gap(of, of->from->place);
}

static void rewrite(rewriting *of)
{
    printer_command given = no_command_yet;
    left_text before;

    while (next_command(of->from, &given, &before)) {
        if (before.bytes)
            leave_text(of, &before);
        if (is_font_command(&given)) {
            end_gap(of, given.place);
            rewrite_command(of, &given);
        } else
            leave_command(of, &given);
        pass_block(of, &given);
    }
    end_stream(of, &before);
    if (of->said < 0 && !of->from->failed) {
        if (chosen != NOT_GIVEN && of->from->place)
            stop("%s: no font %ld in it", shown(of->from->name), chosen);
        stop("%s: %s", shown(of->from->name),
             of->from->place ? "no font in it" : "empty, no font in it");
    }
}

/* ---- the profile ---- */

/* Loads one font of what was gathered into a fresh store. */
static void load_one(const gathered *all, uint32_t font)
{
    uint32_t number = 0, code = 0;
    mft_command given;
    size_t at;

    fresh_store();
    for (at = 0; at < all->length; at += given.length) {
        given = mft_command_at(all->bytes + at, all->length - at);
        if (given.found == MFT_FONT_NUMBER)
            number = given.number;
        else if (given.found == MFT_CODE)
            code = given.number;
        else if (number == font && given.found == MFT_FONT_BLOCK)
            mf_download_font(store, sizeof store, given.block, given.number, font);
        else if (number == font)
            mf_download_character(store, sizeof store, given.block, given.number, font, code);
    }
}

/* Tells what is against a font, whose number is that of the store. */
static void tell_unfit(rewriting *of, uint32_t font)
{
    uint8_t kept[MF_FONT_BYTES];

    of->status = INCOMPLETE;
    if (mf_tell_font(store, sizeof store, kept, sizeof kept, font).refusal)
        tell("%s: font %u is refused by the library, left out", shown(of->from->name),
             (unsigned)font);
    else {
        tell("%s: font %u does not meet the profile, left out", shown(of->from->name),
             (unsigned)font);
        print_profile(stderr, font);
    }
}

/* Keeps of what was gathered the fonts that meet the profile, as the library writes them. */
static void keep_profiled(rewriting *of)
{
    static uint8_t written[MF_WRITTEN_MAX(MF_STORE_MAX)];
    gathered kept = {NULL, 0, 0};
    uint32_t font;

    for (font = 0; font + (uint32_t)added <= MF_FONT_MAX; font++) {
        uint32_t number = font + (uint32_t)added;
        mf_written made;
        if (!fonts[font].headed || (chosen != NOT_GIVEN && (uint32_t)chosen != font))
            continue;
        load_one(&of->written, number);
        made = mf_write_profiled(store, sizeof store, written, sizeof written, number);
        if (made.refusal)
            tell_unfit(of, number);
        else
            gather(&kept, written, made.length);
    }
    if (!kept.length)
        stop("%s: no font in it meets the profile", shown(of->from->name));
    free(of->written.bytes);
    of->written = kept;
}

int main(int argc, char **argv)
{
    static char standard[] = "-";
    char *only_standard[] = {standard};
    size_t count = take_arguments(&program, argc, argv);
    char **names = count ? argv + 1 : only_standard;
    rewriting made = {NULL, {NULL, 0, 0}, {0, 0, 0, ""}, 0, 0, -1, -1, -1, COMPLETE};
    input from;
    FILE *to;

    if (count > 1)
        stop_usage(&program);
    check_output(out, names, 1);
    if (!open_input(&from, names[0]))
        return FAILED;
    made.from = &from;
    rewrite(&made); /* stops where it is broken, before anything is written */
    if (!close_input(&from))
        return FAILED;
    if (profiled)
        keep_profiled(&made);
    to = open_output(out);
    fwrite(made.written.bytes, 1, made.written.length, to);
    close_output(to, out);
    free(made.written.bytes);
    return made.status;
}
