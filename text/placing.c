#include "placing.h"

uint32_t mftp_check_page(const mft_page *page)
{
    if (page->row_bytes < mf_row_bytes(page->width))
        return MFT_BAD_PAGE;
    if (page->height && page->dots_len / page->height < page->row_bytes)
        return MFT_BAD_PAGE;
    return MF_DONE;
}

/* The columns of a picture that are on the page, from first up to end, in dots of the page; and
 * where its column 0 is. */
typedef struct {
    int64_t x;
    uint32_t first, end;
} columns;

/* How many of length dots, placed at a number, are before the page and up to its end. */
static uint32_t cut_before(int64_t at, uint32_t length)
{
    if (at >= 0)
        return 0;
    return -at < (int64_t)length ? (uint32_t)-at : length;
}

static uint32_t cut_end(int64_t at, uint32_t length, uint32_t page)
{
    if (at >= (int64_t)page)
        return 0;
    return (int64_t)page - at < (int64_t)length ? (uint32_t)((int64_t)page - at) : length;
}

/* Four dots, each of them twice. */
static const uint8_t doubled[16] = {0x00, 0x03, 0x0C, 0x0F, 0x30, 0x33, 0x3C, 0x3F,
                                    0xC0, 0xC3, 0xCC, 0xCF, 0xF0, 0xF3, 0xFC, 0xFF};

/* A byte of a row as the page has it. */
static uint8_t byte_of(const uint8_t *row, uint32_t byte, uint32_t scale)
{
    if (scale == 1)
        return row[byte];
    return doubled[byte % 2 ? row[byte / 2] & 15 : row[byte / 2] >> 4];
}

/* The same without the columns beyond the page. */
static uint8_t cut_byte(uint8_t dots, uint32_t byte, const columns *of)
{
    uint32_t left = of->end - 8 * byte;

    return left < 8 ? (uint8_t)(dots & 0xFF << (8 - left)) : dots;
}

/* Blackens a byte's dots in a row of the page, save those before it. None of them is beyond the
 * row, so that what is not white has its place. */
static void place_byte(uint8_t *row, uint8_t dots, int64_t x)
{
    uint8_t *at;
    unsigned shift, spill;

    if (x < 0) { /* fewer than 8 columns before it */
        row[0] |= (uint8_t)(dots << -x);
        return;
    }
    at = row + x / 8;
    shift = (unsigned)(x % 8);
    at[0] |= (uint8_t)(dots >> shift);
    spill = (unsigned)dots << (8 - shift) & 0xFF;
    if (shift && spill)
        at[1] |= (uint8_t)spill;
}

/* A row of which some columns are not on the page, or whose dots are doubled. */
static void place_cut(uint8_t *to, const uint8_t *from, uint32_t scale, const columns *of)
{
    uint32_t byte, end = (uint32_t)mf_row_bytes(of->end);

    for (byte = of->first / 8; byte < end; byte++) {
        uint8_t dots = cut_byte(byte_of(from, byte, scale), byte, of);
        if (dots)
            place_byte(to, dots, of->x + 8 * (int64_t)byte);
    }
}

/* Rows that are on the page whole. Each byte goes to two of the page, of which the last may be
 * beyond its row, but then is white. */
typedef struct {
    uint8_t *to;
    const uint8_t *from;
    size_t step;          /* from row to row of the page */
    size_t bytes;         /* of a row of the picture */
    unsigned shift, mask; /* mask: the dots of a row's last byte */
    uint32_t count;
} whole_rows;

/* Inlined for each of the usual widths, so that the inner loop is gone. */
static inline void place_whole(const whole_rows *of, size_t bytes)
{
    unsigned left = 8 - of->shift, mask = of->mask;
    uint32_t row;

    for (row = 0; row < of->count; row++) {
        const uint8_t *from = of->from + row * bytes;
        uint8_t *to = of->to + row * of->step;
        unsigned dots = 0;
        size_t at;
        for (at = 0; at + 1 < bytes; at++) {
            dots = dots << 8 | (unsigned)from[at] << left;
            to[at] |= (uint8_t)(dots >> 8);
        }
        dots = dots << 8 | (from[at] & mask) << left;
        to[at] |= (uint8_t)(dots >> 8);
        if (dots & 0xFF)
            to[at + 1] |= (uint8_t)dots;
    }
}

static void place_by_width(const whole_rows *of)
{
    switch (of->bytes) {
    case 1: place_whole(of, 1); break;
    case 2: place_whole(of, 2); break;
    case 3: place_whole(of, 3); break;
    case 4: place_whole(of, 4); break;
    default: place_whole(of, of->bytes);
    }
}

/* The rows from row up to end. */
static void place_rows(const mft_page *page, const mftp_picture *picture, const columns *of,
                       int64_t y, uint32_t row, uint32_t end)
{
    uint8_t *to = page->dots + (size_t)(y + (int64_t)row) * page->row_bytes;
    whole_rows whole;

    whole.bytes = mf_row_bytes(picture->width);
    if (picture->scale == 1 && of->first == 0 && of->end == picture->width) {
        whole.to = to + of->x / 8;
        whole.from = picture->dots + row * whole.bytes;
        whole.step = page->row_bytes;
        whole.shift = (unsigned)(of->x % 8);
        whole.mask = 0xFFu << (8 * whole.bytes - picture->width) & 0xFF;
        whole.count = end - row;
        place_by_width(&whole);
        return;
    }
    for (; row < end; row++, to += page->row_bytes)
        place_cut(to, picture->dots + row / picture->scale * whole.bytes, picture->scale, of);
}

void mftp_place(const mft_page *page, const mftp_picture *picture, int64_t x, int64_t y)
{
    uint32_t width = picture->width * picture->scale, height = picture->height * picture->scale;
    uint32_t row = cut_before(y, height), end = cut_end(y, height, page->height);
    columns of;

    of.x = x;
    of.first = cut_before(x, width);
    of.end = cut_end(x, width, page->width);
    if (of.first < of.end && row < end)
        place_rows(page, picture, &of, y, row, end);
}

uint32_t mft_put_picture(const mft_page *page, const uint8_t *picture, size_t picture_len,
                         uint32_t width, uint32_t height, int32_t x, int32_t y)
{
    mftp_picture placed;
    uint32_t refusal = mftp_check_page(page);

    if (refusal)
        return refusal;
    if (height && picture_len / height < mf_row_bytes(width))
        return MF_OUT_OF_RANGE;
    placed.dots = picture;
    placed.width = width;
    placed.height = height;
    placed.scale = 1;
    mftp_place(page, &placed, x, y);
    return MF_DONE;
}
