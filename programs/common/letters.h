/* Small letters of five dots by seven for what a sheet says of itself: capitals, digits and some
 * signs, whatever fonts there are. */
#ifndef LETTERS_H
#define LETTERS_H

#include "page.h"

#define LETTER_WIDTH 5
#define LETTER_HEIGHT 7

/* A letter's rows of five dots, the highest of them leftmost; NULL if there is no such letter. */
const unsigned char *letter_rows(char letter);

/* How wide words are, in letters of so many dots to a dot. */
long words_width(const char *words, long scale);

/* Writes them with their upper left corner at a place; small letters become capitals. */
void write_words(page *on, const char *words, long left, long top, long scale);

#endif
