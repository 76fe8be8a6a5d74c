/* The text layer's calls: each refusal, lines in the four orientations and both resolutions, edges
 * of the page, numbers at their limits, coverage, and what is told of a stream. tests/text compares
 * what this prints with text.expected. */
#include "made_font.h"

#include <stdio.h>
#include <stdlib.h>

#define LENGTH 8192
#define PAGE_WIDTH 30
#define PAGE_HEIGHT 24
#define ROW_BYTES 4

static uint8_t store[LENGTH], spare[LENGTH];

/* ---- the header's example ---- */

int write_line(const uint8_t *store, size_t store_len, uint32_t font, const char *text)
{
    static uint8_t dots[200 * 100];
    mft_page page = mft_page_of(dots, sizeof dots, 1600, 100, MF_MODE_300);
    mft_made made = mft_make_face(store, store_len, font, NULL, 0);
    mft_line line;
    uint32_t refusal = made.refusal;

    if (!refusal) {
        line = mft_line_of(made.face, text, strlen(text));
        refusal = mft_set_line(made.face, &line, &page, 10, 60);
        mft_free_face(made.face);
    }
    return refusal == MF_DONE;
}

/* ---- fonts ---- */

/* Letters of a font as upright pictures: an F and a point below the baseline; n is told, and so is
 * one of which the last row is missing. */
static const uint8_t letter_f[] = {0xF8, 0x80, 0xF0, 0x80, 0x80};

/* A letter turned as the fonts of an orientation have it, with its offsets. */
static void put_turned(uint32_t font, uint32_t code, const made_font *of, uint32_t width,
                       uint32_t height, const uint8_t *rows, int32_t left, int32_t top)
{
    mf_character_fields as = {1, 0, 0, 0, 0, 0, 0};
    uint8_t turned[8];
    uint32_t quarters = (4 - of->orientation) % 4;
    int32_t right = left + (int32_t)width - 1, bottom = top - (int32_t)height + 1;

    as.orientation = of->orientation;
    as.width = quarters % 2 ? height : width;
    as.height = quarters % 2 ? width : height;
    as.delta_x = 4 * (width + 2) + 1;
    as.left = of->orientation == 0 ? left : of->orientation == 1 ? -top
              : of->orientation == 2 ? -right : bottom;
    as.top = of->orientation == 0 ? top : of->orientation == 1 ? right
             : of->orientation == 2 ? -bottom : -left;
    if (quarters)
        mf_turn_picture(rows, height, turned, sizeof turned, width, height, quarters);
    else
        memcpy(turned, rows, height);
    if (download_letter(store, sizeof store, font, code, &as, turned,
                        mf_picture_bytes(as.width, as.height)))
        printf("letter %u of font %u not taken\n", (unsigned)code, (unsigned)font);
}

static void put_font(uint32_t font, const made_font *of)
{
    static const uint8_t point[] = {0xC0, 0xC0};

    if (download_made(store, sizeof store, of, font))
        printf("font %u not taken\n", (unsigned)font);
    put_turned(font, 'F', of, 5, 5, letter_f, 1, 4);
    put_turned(font, '.', of, 2, 2, point, 0, 0);
}

/* ---- printing ---- */

static void print_page(const uint8_t *dots, size_t row_bytes, uint32_t width, uint32_t height)
{
    uint32_t x, y;

    for (y = 0; y < height; y++) {
        for (x = 0; x < width; x++)
            putchar(dots[y * row_bytes + x / 8] & 0x80 >> x % 8 ? '#' : '.');
        putchar('\n');
    }
}

static void print_measured(const char *name, mft_measured of)
{
    printf("%s: %u; ink %d %d %d %d; cell %d %d %d %d; end %d %d, moved %lu\n", name,
           (unsigned)of.refusal, (int)of.ink.left, (int)of.ink.top, (int)of.ink.right,
           (int)of.ink.bottom, (int)of.cell.left, (int)of.cell.top, (int)of.cell.right,
           (int)of.cell.bottom, (int)of.x, (int)of.y, (unsigned long)of.moved);
}

static void print_refusal(const char *name, uint32_t refusal)
{
    printf("%s: %u, %s\n", name, (unsigned)refusal, mft_refusal_name(refusal));
}

/* A face that must be made. */
static mft_face *face_of(uint32_t font)
{
    mft_made made = mft_make_face(store, sizeof store, font, NULL, 0);

    if (made.refusal) {
        print_refusal("face", made.refusal);
        exit(1);
    }
    return made.face;
}

/* ---- faces ---- */

static void faces(void)
{
    static const made_font upright = {MF_PORTRAIT, MF_PROPORTIONAL, 30, 0, 300, 6, 7, 9};
    mft_sized size;
    mft_made made;
    uint64_t *memory;

    memset(spare, 1, sizeof spare);
    print_refusal("size, no store", mft_face_size(spare, sizeof spare, 3).refusal);
    print_refusal("face, no store", mft_make_face(spare, sizeof spare, 3, NULL, 0).refusal);
    mf_make_fresh(store, sizeof store);
    put_font(3, &upright);
    print_refusal("size, font 32768", mft_face_size(store, sizeof store, 32768).refusal);
    print_refusal("face, font 4294967295",
                  mft_make_face(store, sizeof store, 0xFFFFFFFF, NULL, 0).refusal);
    print_refusal("size, font 4", mft_face_size(store, sizeof store, 4).refusal);
    print_refusal("face, font 4", mft_make_face(store, sizeof store, 4, NULL, 0).refusal);
    size = mft_face_size(store, sizeof store, 3);
    print_refusal("size", size.refusal);
    memory = malloc(size.bytes + 8);
    if (!memory)
        exit(1);
    print_refusal("face, unaligned", mft_make_face(store, sizeof store, 3, (char *)memory + 1,
                                                   size.bytes).refusal);
    print_refusal("face, short",
                  mft_make_face(store, sizeof store, 3, memory, size.bytes - 1).refusal);
    print_refusal("face, no memory",
                  mft_make_face(store, sizeof store, 3, memory, 0).refusal);
    made = mft_make_face(store, sizeof store, 3, memory, size.bytes);
    print_refusal("face", made.refusal);
    printf("font %u, %u characters, pitch %u\n", (unsigned)mft_face_number(made.face),
           (unsigned)mft_face_count(made.face), (unsigned)mft_face_font(made.face)->pitch);
    mft_free_face(made.face);
    mft_free_face(NULL);
    free(memory);
    printf("write_line: %d %d\n", write_line(store, sizeof store, 3, "F.F"),
           write_line(store, sizeof store, 4, "F.F"));
}

static void print_code(const mft_face *face, uint32_t code)
{
    mft_character told;

    printf("code %u: ", (unsigned)code);
    if (!mft_tell_code(face, code, &told)) {
        puts("none");
        return;
    }
    printf("%u by %u at %d %d, delta X %u, data %u, %s\n", (unsigned)told.told.width,
           (unsigned)told.told.height, (int)told.told.left, (int)told.told.top,
           (unsigned)told.told.delta_x, (unsigned)told.data,
           told.complete ? "complete" : "incomplete");
    print_page(told.picture, mf_row_bytes(told.told.width), told.told.width, told.told.height);
}

/* Characters with a row missing, in either class; and the store is not looked at any more. */
static void characters(void)
{
    static const made_font upright = {MF_PORTRAIT, MF_FIXED, 30, 0, 300, 6, 7, 9};
    static const mf_character_fields plain = {1, 0, 1, 4, 5, 3, 30}, runs = {2, 0, 1, 4, 5, 3, 30};
    mft_face *face;

    mf_make_fresh(store, sizeof store);
    put_font(0, &upright);
    download_letter(store, sizeof store, 0, 0, &plain, letter_f, 2);
    download_letter(store, sizeof store, 0, 1, &runs, (const uint8_t *)"\1\1\3\1\0\2", 6);
    download_letter(store, sizeof store, 0, 255, &runs, (const uint8_t *)"\2\1\3\1", 4);
    face = face_of(0);
    memset(store, 1, sizeof store);
    print_code(face, 0);
    print_code(face, 1);
    print_code(face, 255);
    print_code(face, 256);
    print_code(face, 65);
    print_code(face, 0xFFFFFFFF);
    mft_free_face(face);
}

/* ---- lines ---- */

/* A line with a blank in it, on pages of both resolutions. */
static void orientation(uint32_t turn, uint32_t resolution, uint32_t spacing)
{
    made_font of = {0, 0, 30, 0, 0, 6, 7, 9};
    uint8_t dots[ROW_BYTES * PAGE_HEIGHT];
    static const int32_t from[4][2] = {{2, 9}, {9, 21}, {27, 12}, {18, 2}};
    mft_page page;
    mft_face *face;
    mft_line line;

    of.orientation = turn;
    of.spacing = spacing;
    of.resolution = resolution;
    of.extended = spacing == MF_FIXED ? 200 : 0;
    mf_make_fresh(store, sizeof store);
    put_font(7, &of);
    face = face_of(7);
    line = mft_line_of(face, "F x.", 2);
    printf("orientation %u, %u dots to the inch, spacing %u\n", (unsigned)turn,
           (unsigned)resolution, (unsigned)spacing);
    print_measured("at 300", mft_measure_line(face, &line, MF_MODE_300));
    print_measured("at 600", mft_measure_line(face, &line, MF_MODE_600));
    line = mft_line_of(face, "F.F", 3);
    memset(dots, 0, sizeof dots);
    page = mft_page_of(dots, sizeof dots, PAGE_WIDTH, PAGE_HEIGHT, MF_MODE_600);
    print_refusal("set", mft_set_line(face, &line, &page, from[turn][0], from[turn][1]));
    print_page(dots, ROW_BYTES, PAGE_WIDTH, PAGE_HEIGHT);
    page.resolution = MF_MODE_300;
    print_refusal("set at 300", mft_set_line(face, &line, &page, 0, 0));
    mft_free_face(face);
}

/* The edges of a page, whose other bytes and bits beyond the width stay. */
static void edges(void)
{
    static const made_font upright = {MF_PORTRAIT, MF_FIXED, 30, 0, 300, 6, 7, 9};
    static const int32_t at[][2] = {{-3, 2}, {6, 6}, {8, 14}, {2147483647, 2147483647},
                                    {-2147483647 - 1, -2147483647 - 1}, {-2000000, 4}};
    uint8_t dots[3 * 10];
    mft_face *face;
    mft_line line;
    mft_page page;
    size_t place, byte;
    unsigned touched = 0;

    mf_make_fresh(store, sizeof store);
    put_font(7, &upright);
    face = face_of(7);
    line = mft_line_of(face, "FF", 2);
    for (place = 0; place < sizeof at / sizeof *at; place++) {
        memset(dots, 0, sizeof dots);
        page = mft_page_of(dots, sizeof dots, 12, 10, MF_MODE_300);
        page.row_bytes = 3;
        mft_set_line(face, &line, &page, at[place][0], at[place][1]);
        printf("at %ld %ld\n", (long)at[place][0], (long)at[place][1]);
        print_page(dots, 3, 12, 10);
        for (byte = 0; byte < sizeof dots; byte++)
            touched |= byte % 3 == 1 ? dots[byte] & 15u : byte % 3 == 2 ? dots[byte] : 0u;
    }
    printf("beyond the width: %u\n", touched);
    line.blank = 0xFFFFFFFF;
    line.codes = (const uint8_t *)"  F";
    line.count = 3;
    print_measured("a wide blank", mft_measure_line(face, &line, MF_MODE_300));
    print_measured("the same at 600", mft_measure_line(face, &line, MF_MODE_600));
    mft_set_line(face, &line, &page, -1999995, 4);
    print_page(dots, 3, 12, 10);
    line.count = 0;
    line.codes = NULL;
    print_measured("no letters", mft_measure_line(face, &line, MF_MODE_600));
    mft_free_face(face);
}

static void pages(void)
{
    static const made_font upright = {MF_PORTRAIT, MF_FIXED, 30, 0, 300, 6, 7, 9};
    uint8_t dots[40];
    mft_page page = mft_page_of(dots, sizeof dots, 16, 20, MF_MODE_300);
    mft_face *face;
    mft_line line;

    mf_make_fresh(store, sizeof store);
    put_font(7, &upright);
    face = face_of(7);
    line = mft_line_of(face, "F", 1);
    memset(dots, 0, sizeof dots);
    print_refusal("page", mft_set_line(face, &line, &page, 0, 0));
    page.row_bytes = 1;
    print_refusal("short rows", mft_set_line(face, &line, &page, 0, 0));
    page.row_bytes = 2;
    page.dots_len = 39;
    print_refusal("a byte too few", mft_set_line(face, &line, &page, 0, 0));
    print_refusal("a picture there", mft_put_picture(&page, letter_f, 5, 5, 5, 0, 0));
    page.dots_len = sizeof dots;
    page.height = 0xFFFFFFFF;
    page.row_bytes = (size_t)-1 / 2;
    print_refusal("a vast page", mft_set_line(face, &line, &page, 0, 0));
    page = mft_page_of(dots, sizeof dots, 16, 20, 301);
    print_refusal("301 dots to the inch", mft_set_line(face, &line, &page, 0, 0));
    print_refusal("measured so", mft_measure_line(face, &line, 0).refusal);
    print_refusal("a picture too short", mft_put_picture(&page, letter_f, 4, 5, 5, 0, 0));
    print_refusal("a vast picture",
                  mft_put_picture(&page, letter_f, 5, 0xFFFFFFFF, 0xFFFFFFFF, 0, 0));
    print_refusal("a picture without rows", mft_put_picture(&page, letter_f, 0, 5, 0, 0, 0));
    print_refusal("a picture", mft_put_picture(&page, letter_f, 5, 3, 5, 9, 12));
    print_page(dots, 2, 16, 20);
    page = mft_page_of(NULL, 0, 0, 0, MF_MODE_300);
    print_refusal("no page", mft_set_line(face, &line, &page, 0, 0));
    mft_free_face(face);
}

/* ---- blanks and coverage ---- */

static void print_blank(const char *name, uint32_t spacing, uint32_t pitch, int space, int n)
{
    made_font of = {MF_PORTRAIT, 0, 0, 3, 300, 6, 7, 9};
    static const mf_character_fields as = {1, 0, 1, 4, 5, 3, 27};
    mft_face *face;
    mft_blank found;

    of.spacing = spacing;
    of.pitch = pitch;
    mf_make_fresh(store, sizeof store);
    put_font(7, &of);
    if (space)
        download_letter(store, sizeof store, 7, ' ', &as, letter_f, 3);
    if (n)
        download_letter(store, sizeof store, 7, 'n', &as, letter_f, 3);
    face = face_of(7);
    found = mft_blank_of(face);
    printf("blank, %s: kind %u, width %u, of a line %u\n", name, (unsigned)found.kind,
           (unsigned)found.width, (unsigned)mft_line_of(face, "", 0).blank);
    mft_free_face(face);
}

static void coverage(void)
{
    static const made_font upright = {MF_PORTRAIT, MF_FIXED, 30, 0, 300, 6, 7, 9};
    static const mf_character_fields as = {1, 0, 1, 4, 5, 3, 30};
    static const uint8_t uncoded[] = {0, 0, 0, 0, 1, 0};
    mft_face *face;
    mft_line line;
    mft_coverage found;
    size_t at;

    mf_make_fresh(store, sizeof store);
    put_font(7, &upright);
    download_letter(store, sizeof store, 7, 'x', &as, letter_f, 1);
    face = face_of(7);
    line = mft_line_of(face, "F .xF?", 6);
    line.uncoded = uncoded;
    for (at = 0; at < 8; at++)
        printf("%u ", (unsigned)mft_letter_state(face, &line, at));
    found = mft_cover_line(face, &line);
    printf("whole %u, spaces %u, incomplete %u, lacking %u, uncoded %u, first %u\n",
           (unsigned)found.of[MFT_WHOLE], (unsigned)found.of[MFT_SPACE],
           (unsigned)found.of[MFT_INCOMPLETE], (unsigned)found.of[MFT_LACKING],
           (unsigned)found.of[MFT_UNCODED], (unsigned)found.first);
    line.count = 3;
    printf("first of three %u\n", (unsigned)mft_cover_line(face, &line).first);
    print_measured("with an uncoded F", mft_measure_line(face, &line, MF_MODE_300));
    mft_free_face(face);
}

int main(void)
{
    uint32_t turn;

    faces();
    characters();
    for (turn = 0; turn < 4; turn++) {
        orientation(turn, 300, MF_PROPORTIONAL);
        orientation(turn, 600, MF_FIXED);
    }
    edges();
    pages();
    print_blank("fixed", MF_FIXED, 300, 0, 1);
    print_blank("proportional", MF_PROPORTIONAL, 56, 0, 1);
    print_blank("a page's pitch", MF_PROPORTIONAL, 57, 0, 1);
    print_blank("the same with a space", MF_PROPORTIONAL, 57, 1, 1);
    print_blank("the same without n", MF_PROPORTIONAL, 57, 0, 0);
    coverage();
    print_refusal("another number", 105);
    return 0;
}
