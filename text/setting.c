/* Measuring and setting lines: both go along the line in one way. */
#include "face.h"
#include "placing.h"

#define MOVES_TO_A_DOT 1024 /* moves are 256ths of a quarter-dot */
#define MOVED_MAX ((uint64_t)MFT_ALONG_MAX * MOVES_TO_A_DOT)

/* A line on a page of another or of the same resolution, and how far the cursor is along it. */
typedef struct {
    const mft_face *face;
    const mft_line *line;
    uint32_t scale; /* the page's dots to a dot of the font, 1 or 2 */
    size_t at;      /* the letter that is next */
    uint64_t moved;
} walk;

/* A letter that is there, and its upper left dot from the cursor's first place on. */
typedef struct {
    const mftp_entry *entry;
    int32_t left, top;
} placed;

/* ---- along the line ---- */

static uint32_t scale_of(const mft_face *face, uint32_t resolution, uint32_t *refusal)
{
    *refusal = MF_DONE;
    if (resolution != MF_MODE_300 && resolution != MF_MODE_600)
        *refusal = MF_OUT_OF_RANGE;
    else if (face->font.resolution > resolution)
        *refusal = MFT_FINER_FONT;
    return resolution == face->font.resolution ? 1 : 2;
}

static walk begin_walk(const mft_face *face, const mft_line *line, uint32_t scale)
{
    walk made;

    made.face = face;
    made.line = line;
    made.scale = scale;
    made.at = 0;
    made.moved = 0;
    return made;
}

/* The pitch with its extended byte. */
static uint32_t pitch_of(const mft_face *face)
{
    return 256 * face->font.pitch + face->font.pitch_extended;
}

/* How far a letter moves the cursor: by the pitch in a fixed font, by its delta X in a proportional
 * one. */
static uint32_t move_of(const walk *of, const mftp_entry *entry)
{
    if (!entry)
        return of->line->blank;
    return of->face->font.spacing == MF_FIXED ? pitch_of(of->face) : 256 * entry->told.delta_x;
}

/* Moves a place so far along the line as the cursor is: to the right, in a landscape font up, in
 * the reverse ones to the left and down. */
static void go_along(const walk *of, int32_t *x, int32_t *y)
{
    uint64_t along = (of->moved * of->scale + MOVES_TO_A_DOT / 2) / MOVES_TO_A_DOT;
    int32_t dots = along < MFT_ALONG_MAX ? (int32_t)along : MFT_ALONG_MAX;

    switch (of->face->font.orientation) {
    case MF_PORTRAIT: *x += dots; break;
    case MF_LANDSCAPE: *y -= dots; break;
    case MF_REVERSE_PORTRAIT: *x -= dots; break;
    default: *y += dots;
    }
}

/* The entry of a letter, NULL if it is left blank. */
static const mftp_entry *entry_at(const mft_face *face, const mft_line *line, size_t at)
{
    if (line->uncoded && line->uncoded[at])
        return NULL;
    return mftp_entry_of(face, line->codes[at]);
}

/* The next letter that is there; 0 at the line's end. */
static int next_placed(walk *of, placed *next)
{
    while (of->at < of->line->count) {
        const mftp_entry *entry = entry_at(of->face, of->line, of->at++);
        if (entry) {
            /* Offsets are from the cursor, to the right and up. */
            next->entry = entry;
            next->left = entry->told.left * (int32_t)of->scale;
            next->top = -entry->told.top * (int32_t)of->scale;
            go_along(of, &next->left, &next->top);
        }
        of->moved += move_of(of, entry);
        if (of->moved > MOVED_MAX)
            of->moved = MOVED_MAX;
        if (entry)
            return 1;
    }
    return 0;
}

/* ---- measuring ---- */

static void take_in(mft_box *in, int32_t left, int32_t top, int32_t right, int32_t bottom)
{
    in->left = left < in->left ? left : in->left;
    in->top = top < in->top ? top : in->top;
    in->right = right > in->right ? right : in->right;
    in->bottom = bottom > in->bottom ? bottom : in->bottom;
}

/* Takes in the font's cell, across the line: as far above the baseline and below it as every line
 * of this font. */
static void take_cell(mft_box *in, const mf_font_fields *font, int32_t scale)
{
    int32_t above = scale * (int32_t)font->baseline;
    int32_t below = scale * (int32_t)font->cell_height - above;

    switch (font->orientation) {
    case MF_PORTRAIT: take_in(in, 0, -above, 0, below); break;
    case MF_LANDSCAPE: take_in(in, -above, 0, below, 0); break;
    case MF_REVERSE_PORTRAIT: take_in(in, 0, scale - below, 0, above + scale); break;
    default: take_in(in, scale - below, 0, above + scale, 0);
    }
}

mft_measured mft_measure_line(const mft_face *face, const mft_line *line, uint32_t resolution)
{
    mft_measured made = {MF_DONE, {0, 0, 0, 0}, {0, 0, 0, 0}, 0, 0, 0};
    uint32_t scale = scale_of(face, resolution, &made.refusal);
    walk of = begin_walk(face, line, scale);
    placed at;

    if (made.refusal)
        return made;
    while (next_placed(&of, &at))
        take_in(&made.ink, at.left, at.top,
                at.left + (int32_t)(scale * at.entry->told.width),
                at.top + (int32_t)(scale * at.entry->told.height));
    go_along(&of, &made.x, &made.y);
    take_in(&made.ink, made.x, made.y, made.x, made.y);
    made.cell = made.ink;
    take_cell(&made.cell, &face->font, (int32_t)scale);
    made.moved = of.moved;
    return made;
}

/* ---- setting ---- */

uint32_t mft_set_line(const mft_face *face, const mft_line *line, const mft_page *page, int32_t x,
                      int32_t y)
{
    uint32_t refusal = mftp_check_page(page), scale;
    mftp_picture picture;
    placed at;
    walk of;

    if (refusal)
        return refusal;
    scale = scale_of(face, page->resolution, &refusal);
    if (refusal)
        return refusal;
    of = begin_walk(face, line, scale);
    picture.scale = scale;
    while (next_placed(&of, &at)) {
        picture.dots = mftp_picture_of(face, at.entry);
        picture.width = at.entry->told.width;
        picture.height = at.entry->told.height;
        mftp_place(page, &picture, (int64_t)x + at.left, (int64_t)y + at.top);
    }
    return MF_DONE;
}

/* ---- lines ---- */

mft_blank mft_blank_of(const mft_face *face)
{
    const mf_font_fields *font = &face->font;
    const mftp_entry *n = mftp_entry_of(face, 'n');
    mft_blank made = {MFT_BLANK_OF_PITCH, 0};

    made.width = pitch_of(face);
    if (font->spacing == MF_FIXED || font->pitch <= 8 * font->cell_width ||
        mftp_entry_of(face, ' '))
        return made;
    made.kind = n ? MFT_BLANK_OF_N : MFT_BLANK_TOO_WIDE;
    if (n)
        made.width = 256 * n->told.delta_x;
    return made;
}

mft_line mft_line_of(const mft_face *face, const void *codes, size_t count)
{
    mft_line made;

    made.codes = codes;
    made.count = count;
    made.uncoded = NULL;
    made.blank = mft_blank_of(face).width;
    return made;
}
