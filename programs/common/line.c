#include "line.h"

#include "kept.h"
#include "message.h"

#include <stdlib.h>

#define MARGIN 12

/* A text as the text layer has it: the codes, and after them which letters have none. */
static mft_line line_of(const text *words, int64_t blank)
{
    uint8_t *codes = malloc(2 * words->count + 1);
    mft_line made = {NULL, 0, NULL, 0};
    size_t at;

    if (!codes)
        stop("no memory for the text");
    for (at = 0; at < words->count; at++) {
        codes[at] = (uint8_t)words->letters[at].code;
        codes[words->count + at] = words->letters[at].code == NO_CODE;
    }
    made.codes = codes;
    made.count = words->count;
    made.uncoded = codes + words->count;
    made.blank = (uint32_t)blank;
    return made;
}

static void free_line(mft_line *made)
{
    free((void *)made->codes);
}

uint32_t letter_state(const line *of, size_t at)
{
    mft_line one = {NULL, 1, NULL, 0};
    int code = of->words.letters[at].code;
    uint8_t byte = (uint8_t)code;

    one.codes = &byte;
    return code == NO_CODE ? MFT_UNCODED : mft_letter_state(face_of(of->number), &one, 0);
}

static mft_coverage cover(uint32_t font, const text *words)
{
    mft_line made = line_of(words, 0);
    mft_coverage found = mft_cover_line(face_of(font), &made);

    free_line(&made);
    return found;
}

int has_all(uint32_t font, const text *words)
{
    mft_coverage found = cover(font, words);

    return !found.of[MFT_LACKING] && !found.of[MFT_UNCODED];
}

uint32_t take_blank(line *of)
{
    mft_blank found = mft_blank_of(face_of(of->number));
    mft_coverage covered = cover(of->number, &of->words);

    of->blank = found.width;
    return covered.of[MFT_SPACE] || covered.of[MFT_LACKING] || covered.of[MFT_UNCODED]
               ? found.kind : MFT_BLANK_OF_PITCH;
}

/* Takes in a box. */
static void take_in(line *in, mft_box box)
{
    in->left = box.left < in->left ? box.left : in->left;
    in->top = box.top < in->top ? box.top : in->top;
    in->right = box.right > in->right ? box.right : in->right;
    in->bottom = box.bottom > in->bottom ? box.bottom : in->bottom;
}

static mft_measured measured(const line *of)
{
    mft_line made = line_of(&of->words, of->blank);
    mft_measured found = mft_measure_line(face_of(of->number), &made, of->font.resolution);

    free_line(&made);
    if (found.refusal)
        refuse("line", found.refusal);
    return found;
}

void measure_line(line *of)
{
    take_in(of, measured(of).ink);
}

long take_cell(line *of)
{
    take_in(of, measured(of).cell);
    return of->font.orientation % 2 ? of->right - of->left : of->bottom - of->top;
}

void size_line(const line *of, long *width, long *height)
{
    *width = of->right - of->left + 2 * MARGIN;
    *height = of->bottom - of->top + 2 * MARGIN;
}

page draw_line(line *of)
{
    mft_line made = line_of(&of->words, of->blank);
    long width, height;
    uint32_t refusal;
    mft_page to;
    page label;

    size_line(of, &width, &height);
    label = new_page(width, height);
    to = page_of(&label, of->font.resolution);
    refusal = mft_set_line(face_of(of->number), &made, &to, (int32_t)(MARGIN - of->left),
                           (int32_t)(MARGIN - of->top));
    free_line(&made);
    if (refusal)
        refuse("line", refusal);
    return label;
}
