/* text_same TRIALS FILE...: holds faces and lines to single calls. Of each font of the files, and
 * of fonts made by chance in each orientation, spacing and resolution: every code of a face is what
 * mf_tell_character and mf_draw_picture give; and lines by chance, on pages by chance, have the
 * dots that come of placing these pictures dot by dot, and the measures of these dots. The faces
 * stand in memory that is exactly as long as was told, with bytes before and after that stay. Of a
 * store with a byte changed, a face is refused or made as single calls have it.
 * Prints what was compared; what is met nowhere is a failure, since nothing was tried then. */
#include "made_font.h"

#include <stdio.h>
#include <stdlib.h>

#define LINES 12
#define GUARD 64
#define SIDE 260

static uint8_t store[MF_STORE_MAX], stream[1 << 18];
static unsigned long compared, lines, black, cut, incomplete, large, spoilt, harmless;
static unsigned orientations[4][2][2];

static uint32_t chance(uint32_t below)
{
    static uint32_t state = 20261117;
    state ^= state << 13;
    state ^= state >> 17;
    state ^= state << 5;
    return state % below;
}

static void stop(const char *what, unsigned long number)
{
    printf("%s: %lu\n", what, number);
    exit(1);
}

/* ---- fonts by chance ---- */

/* Rows of class 2: a repeat, then runs up to the width; cut off by chance. */
static size_t make_runs(uint8_t *data, uint32_t width, uint32_t height)
{
    size_t length = 0;
    uint32_t row, filled, run;

    for (row = 0; row < height && length < 3000; row++) {
        data[length++] = (uint8_t)chance(3);
        for (filled = 0; filled < width; filled += run) {
            run = chance(width - filled < 12 ? width - filled + 1 : 12);
            data[length++] = (uint8_t)run;
        }
    }
    return chance(4) ? length : chance((uint32_t)length + 1);
}

static void make_letter(uint32_t code, uint32_t orientation)
{
    static uint8_t data[MF_BLOCK_MAX];
    mf_character_fields as = {1, 0, 0, 0, 0, 0, 0};
    size_t length, at;

    as.class_ = 1 + chance(2);
    as.orientation = orientation;
    as.left = (int32_t)chance(40) - 20;
    as.top = (int32_t)chance(40) - 20;
    as.width = 1 + chance(40);
    as.height = 1 + chance(30);
    as.delta_x = chance(120);
    length = mf_picture_bytes(as.width, as.height);
    for (at = 0; at < length; at++)
        data[at] = (uint8_t)chance(256);
    if (as.class_ == 2)
        length = make_runs(data, as.width, as.height);
    else if (!chance(4))
        length = chance((uint32_t)length + 1);
    if (download_letter(store, sizeof store, 5, code, &as, data, length))
        stop("a letter that is not taken", code);
}

/* A character with more data than a first block takes. */
static void make_large(uint32_t orientation)
{
    static uint8_t data[MF_BLOCK_MAX];
    mf_character_fields as = {1, 0, -3, 9, 1024, 256, 77};
    size_t at;

    as.orientation = orientation;
    for (at = 0; at < sizeof data; at++)
        data[at] = (uint8_t)chance(256);
    if (download_letter(store, sizeof store, 5, 200, &as, data, sizeof data - MF_CHARACTER_BYTES))
        stop("a large letter that is not taken", 200);
    data[0] = 4;
    data[1] = 1;
    if (mf_download_character(store, sizeof store, data, 2 + 10 + chance(8), 5, 200).refusal)
        stop("a continuation that is not taken", 200);
}

static void make_font(void)
{
    made_font of = {0, 0, 0, 0, 0, 0, 0, 0};
    uint32_t letters = chance(30);

    of.orientation = chance(4);
    of.spacing = chance(2);
    of.pitch = chance(130);
    of.extended = chance(256);
    of.resolution = chance(2) ? 300 : 600;
    of.cell_height = 1 + chance(50);
    of.baseline = chance(of.cell_height);
    of.cell_width = 1 + chance(40);
    mf_make_fresh(store, sizeof store);
    if (download_made(store, sizeof store, &of, 4) || download_made(store, sizeof store, &of, 5) ||
        download_made(store, sizeof store, &of, 6))
        stop("a font that is not taken", 5);
    while (letters--)
        make_letter(chance(3) ? 'A' + chance(12) : chance(256), of.orientation);
    if (!chance(20))
        make_large(of.orientation);
}

/* ---- faces ---- */

/* Whether all rows have data, by going through it. */
static int has_rows(const mf_character_fields *as, const uint8_t *data, uint32_t length)
{
    uint32_t at = 0, rows = 0, filled;

    if (as->class_ == 1)
        return length >= mf_picture_bytes(as->width, as->height);
    while (rows < as->height && at < length) {
        uint32_t repeat = data[at++];
        for (filled = 0; filled < as->width && at < length; at++)
            filled += data[at];
        rows += filled == as->width ? repeat + 1 : 0;
    }
    return rows >= as->height;
}

/* The data of a character, in the font written out; all of them are after its first bytes or in
 * one continuation. */
static uint32_t data_of(uint32_t font, uint32_t code, uint8_t *data)
{
    mf_written written = mf_write_font(store, sizeof store, stream, sizeof stream, font);
    mft_command given;
    uint32_t of = 0, length = 0, skip;
    size_t at;

    for (at = 0; at < written.length; at += given.length) {
        given = mft_command_at(stream + at, written.length - at);
        if (given.found == MFT_CODE)
            of = given.number;
        if (given.found != MFT_CHARACTER_BLOCK || of != code)
            continue;
        skip = given.block[1] ? 2 : MF_CHARACTER_BYTES;
        memcpy(data + length, given.block + skip, given.number - skip);
        length += given.number - skip;
    }
    return length;
}

static void compare_code(const mft_face *face, uint32_t font, uint32_t code)
{
    static uint8_t picture[MF_PICTURE_MAX], data[MF_PICTURE_MAX + 20];
    uint8_t kept[MF_CHARACTER_BYTES];
    mf_told told = mf_tell_character(store, sizeof store, kept, sizeof kept, font, code);
    mf_character_fields as;
    mft_character of;
    int there = mft_tell_code(face, code, &of);

    if (there != (told.refusal == MF_DONE))
        stop("a code that one has", code);
    if (!there)
        return;
    as = mf_character_fields_of(kept);
    mf_draw_picture(store, sizeof store, picture, sizeof picture, font, code);
    if (memcmp(&as, &of.told, sizeof as) || of.data != told.count ||
        memcmp(picture, of.picture, mf_picture_bytes(as.width, as.height)))
        stop("another character", code);
    if (data_of(font, code, data) != told.count ||
        (of.complete != 0) != has_rows(&as, data, told.count))
        stop("not as complete", code);
    compared++;
    incomplete += !of.complete;
    large += of.data > MF_BLOCK_MAX - MF_CHARACTER_BYTES;
}

static void compare_face(const mft_face *face, uint32_t font)
{
    uint8_t kept[MF_FONT_BYTES];
    mf_told told = mf_tell_font(store, sizeof store, kept, sizeof kept, font);
    const mf_font_fields *as = mft_face_font(face);
    uint32_t code;

    if (mft_face_number(face) != font || mft_face_count(face) != told.count ||
        as->pitch != mf_field(kept, 16) || as->resolution != mf_field(kept, 64) ||
        as->orientation != kept[12])
        stop("another font", font);
    for (code = 0; code <= MF_CODE_MAX + 1; code++)
        compare_code(face, font, code);
}

/* ---- lines ---- */

/* A line as single calls set it: where its cursor is, and the page's dots as bytes. */
typedef struct {
    uint32_t font;
    mf_font_fields as;
    int64_t scale, moved;
    int64_t left, top, right, bottom;
    int32_t x, y;
    uint32_t width, height;
    uint8_t dots[SIDE][SIDE];
} single;

static void take_dot(single *of, int64_t x, int64_t y, int is_black)
{
    of->left = x < of->left ? x : of->left;
    of->top = y < of->top ? y : of->top;
    of->right = x >= of->right ? x + 1 : of->right;
    of->bottom = y >= of->bottom ? y + 1 : of->bottom;
    if (!is_black)
        return;
    x += of->x;
    y += of->y;
    if (x >= 0 && y >= 0 && x < of->width && y < of->height)
        of->dots[y][x] = 1;
    else
        cut++;
}

static void along(const single *of, int64_t *x, int64_t *y)
{
    static const int ways[4][2] = {{1, 0}, {0, -1}, {-1, 0}, {0, 1}};
    int64_t dots = (of->moved * of->scale + 512) / 1024;

    *x = ways[of->as.orientation][0] * dots;
    *y = ways[of->as.orientation][1] * dots;
}

static void set_letter(single *of, uint32_t code, uint32_t blank)
{
    static uint8_t picture[MF_PICTURE_MAX];
    uint8_t kept[MF_CHARACTER_BYTES];
    mf_character_fields as;
    int64_t x, y, row, column;

    if (mf_tell_character(store, sizeof store, kept, sizeof kept, of->font, code).refusal) {
        of->moved += blank;
        return;
    }
    as = mf_character_fields_of(kept);
    mf_draw_picture(store, sizeof store, picture, sizeof picture, of->font, code);
    along(of, &x, &y);
    for (row = 0; row < as.height * of->scale; row++)
        for (column = 0; column < as.width * of->scale; column++) {
            int64_t dot = column / of->scale;
            take_dot(of, x + as.left * of->scale + column, y - as.top * of->scale + row,
                     picture[row / of->scale * (int64_t)mf_row_bytes(as.width) + dot / 8] &
                         0x80 >> dot % 8);
        }
    of->moved += of->as.spacing == MF_FIXED
                     ? 256 * (int64_t)of->as.pitch + of->as.pitch_extended
                     : 256 * (int64_t)as.delta_x;
}

/* The page has these dots and no others, and nothing beside its width. */
static void compare_page(const single *of, const mft_page *page)
{
    size_t x, y;

    for (y = 0; y < of->height; y++)
        for (x = 0; x < 8 * page->row_bytes; x++) {
            int is_black = page->dots[y * page->row_bytes + x / 8] >> (7 - x % 8) & 1;
            if (is_black != (x < of->width && of->dots[y][x]))
                stop("another dot in line", lines);
            black += (unsigned long)is_black;
        }
}

static void compare_measures(single *of, const mft_measured *measured)
{
    int64_t x, y;

    along(of, &x, &y);
    of->left = x < of->left ? x : of->left;
    of->top = y < of->top ? y : of->top;
    of->right = x > of->right ? x : of->right;
    of->bottom = y > of->bottom ? y : of->bottom;
    if (measured->refusal || measured->x != x || measured->y != y ||
        (int64_t)measured->moved != of->moved || measured->ink.left != of->left ||
        measured->ink.top != of->top || measured->ink.right != of->right ||
        measured->ink.bottom != of->bottom)
        stop("another measure of line", lines);
}

static void compare_line(const mft_face *face, uint32_t resolution)
{
    static uint8_t dots[SIDE * SIDE];
    static single of;
    uint8_t codes[20], uncoded[20];
    mft_measured measured;
    mft_line line;
    mft_page page;
    size_t at;

    memset(&of, 0, sizeof of);
    memset(dots, 0, sizeof dots);
    of.font = mft_face_number(face);
    of.as = *mft_face_font(face);
    of.scale = resolution / of.as.resolution;
    of.width = chance(220);
    of.height = chance(220);
    of.x = (int32_t)chance(300) - 40;
    of.y = (int32_t)chance(300) - 40;
    page = mft_page_of(dots, 0, of.width, of.height, resolution);
    page.row_bytes += chance(3);
    page.dots_len = page.row_bytes * page.height;
    line = mft_line_of(face, codes, chance(20));
    line.blank = chance(2) ? line.blank : chance(50000);
    line.uncoded = chance(3) ? NULL : uncoded;
    for (at = 0; at < line.count; at++) {
        codes[at] = (uint8_t)(chance(4) ? 'A' + chance(14) : chance(256));
        uncoded[at] = !chance(5);
        set_letter(&of, line.uncoded && uncoded[at] ? MF_CODE_MAX + 1 : codes[at], line.blank);
    }
    measured = mft_measure_line(face, &line, resolution);
    if (mft_set_line(face, &line, &page, of.x, of.y))
        stop("a line that is refused", lines);
    compare_page(&of, &page);
    compare_measures(&of, &measured);
    orientations[of.as.orientation][of.as.spacing][of.scale - 1]++;
    lines++;
}

/* ---- memory ---- */

/* A face between bytes that stay, in memory exactly of its size, and refused in one byte less. */
static void compare_font(uint32_t font)
{
    mft_sized size = mft_face_size(store, sizeof store, font);
    uint8_t *memory = malloc(GUARD + size.bytes + GUARD), *at;
    mft_made made;
    int line;

    if (size.refusal || !memory)
        stop("no size of font", font);
    memset(memory, 0xA5, GUARD + size.bytes + GUARD);
    if (mft_make_face(store, sizeof store, font, memory + GUARD, size.bytes - 1).refusal !=
        MF_OUTPUT_SHORT)
        stop("a byte too few for font", font);
    for (at = memory; at < memory + GUARD + size.bytes + GUARD; at++)
        if (*at != 0xA5)
            stop("written by a refused call", (unsigned long)(at - memory));
    made = mft_make_face(store, sizeof store, font, memory + GUARD, size.bytes);
    if (made.refusal || made.face != (void *)(memory + GUARD))
        stop("no face of font", font);
    compare_face(made.face, font);
    for (line = 0; line < LINES; line++)
        compare_line(made.face, line % 2 ? MF_MODE_600 : mft_face_font(made.face)->resolution);
    mft_free_face(made.face);
    for (at = memory; at < memory + GUARD; at++)
        if (at[0] != 0xA5 || at[GUARD + size.bytes] != 0xA5)
            stop("a byte beside the face of font", font);
    free(memory);
}

/* Faces of a store of which a byte was changed, at a place among its records. */
static void compare_spoilt(uint32_t font)
{
    size_t used = sizeof store - mf_room_left(store, sizeof store);
    size_t at = chance((uint32_t)(used < sizeof store ? used + 1 : used));
    uint8_t kept[MF_FONT_BYTES], before = store[at];
    uint32_t refusal;
    mft_made made;

    store[at] = (uint8_t)(chance(2) ? chance(256) : store[at] ^ 1u << chance(8));
    refusal = mf_tell_font(store, sizeof store, kept, sizeof kept, font).refusal;
    made = mft_make_face(store, sizeof store, font, NULL, 0);
    if (made.refusal != refusal || mft_face_size(store, sizeof store, font).refusal != refusal ||
        (made.face == NULL) != (refusal != MF_DONE))
        stop("a spoilt store", at);
    if (made.face)
        compare_face(made.face, font);
    mft_free_face(made.face);
    spoilt += refusal != MF_DONE;
    harmless += refusal == MF_DONE;
    store[at] = before;
}

static void compare_file(const char *name)
{
    FILE *file = fopen(name, "rb");
    size_t length = file ? fread(stream, 1, sizeof stream, file) : 0;
    uint32_t font;

    if (!length)
        stop(name, 0);
    fclose(file);
    mf_make_fresh(store, sizeof store);
    mf_read_stream(store, sizeof store, stream, length);
    for (font = mf_next_font(store, sizeof store, 0); font <= MF_FONT_MAX;
         font = mf_next_font(store, sizeof store, font + 1))
        compare_font(font);
}

int main(int argc, char **argv)
{
    int file, trial, trials = argc > 1 ? atoi(argv[1]) : 0;
    size_t at;
    unsigned least = (unsigned)-1;

    for (file = 2; file < argc; file++)
        compare_file(argv[file]);
    for (trial = 0; trial < trials; trial++) {
        make_font();
        compare_font(5);
        compare_font(trial % 2 ? 4 : 6);
        for (at = 0; at < 4; at++)
            compare_spoilt(5);
    }
    /* A font of 600 dots to the inch is never twice as wide, so that both counts are of 300 too. */
    for (at = 0; at < 16; at++)
        least = orientations[at / 4][at / 2 % 2][at % 2] < least
                    ? orientations[at / 4][at / 2 % 2][at % 2] : least;
    printf("%lu characters, %lu incomplete, %lu large; %lu lines, at least %u in each way, %lu "
           "black dots, %lu cut off; %lu spoilt stores and %lu changed ones\n", compared,
           incomplete, large, lines, least, black, cut, spoilt, harmless);
    return !(compared && incomplete && large && least && black && cut && spoilt && harmless);
}
