/* Pictures on a page. */
#ifndef MFT_PLACING_H
#define MFT_PLACING_H

#include "marlinfold-text.h"

/* MF_DONE or MFT_BAD_PAGE. */
uint32_t mftp_check_page(const mft_page *page);

/* A picture of which each dot is so many dots of the page wide and high, 1 or 2. */
typedef struct {
    const uint8_t *dots;
    uint32_t width, height, scale;
} mftp_picture;

/* Blackens its dots with the upper left one at a place, as far as they are on the page. The place
 * is within 2^33 dots of the page's first. */
void mftp_place(const mft_page *page, const mftp_picture *picture, int64_t x, int64_t y);

#endif
