#include "letters.h"

#include <string.h>

#define LETTER_STEP 6

static const char order[] = "ABCDEFGHIJKLMNOPQRSTUVWXYZ0123456789.,-():";

static const unsigned char rows[sizeof order - 1][LETTER_HEIGHT] = {
    {14, 17, 17, 31, 17, 17, 17}, {30, 17, 17, 30, 17, 17, 30}, {14, 17, 16, 16, 16, 17, 14},
    {30, 17, 17, 17, 17, 17, 30}, {31, 16, 16, 30, 16, 16, 31}, {31, 16, 16, 30, 16, 16, 16},
    {14, 17, 16, 23, 17, 17, 15}, {17, 17, 17, 31, 17, 17, 17}, {14, 4, 4, 4, 4, 4, 14},
    {7, 2, 2, 2, 2, 18, 12},      {17, 18, 20, 24, 20, 18, 17}, {16, 16, 16, 16, 16, 16, 31},
    {17, 27, 21, 21, 17, 17, 17}, {17, 25, 21, 19, 17, 17, 17}, {14, 17, 17, 17, 17, 17, 14},
    {30, 17, 17, 30, 16, 16, 16}, {14, 17, 17, 17, 21, 18, 13}, {30, 17, 17, 30, 20, 18, 17},
    {15, 16, 16, 14, 1, 1, 30},   {31, 4, 4, 4, 4, 4, 4},       {17, 17, 17, 17, 17, 17, 14},
    {17, 17, 17, 17, 17, 10, 4},  {17, 17, 17, 21, 21, 27, 17}, {17, 17, 10, 4, 10, 17, 17},
    {17, 17, 10, 4, 4, 4, 4},     {31, 1, 2, 4, 8, 16, 31},     {14, 17, 19, 21, 25, 17, 14},
    {4, 12, 4, 4, 4, 4, 14},      {14, 17, 1, 6, 8, 16, 31},    {14, 17, 1, 6, 1, 17, 14},
    {2, 6, 10, 18, 31, 2, 2},     {31, 16, 30, 1, 1, 17, 14},   {6, 8, 16, 30, 17, 17, 14},
    {31, 1, 2, 4, 8, 8, 8},       {14, 17, 17, 14, 17, 17, 14}, {14, 17, 17, 15, 1, 2, 12},
    {0, 0, 0, 0, 0, 12, 12},      {0, 0, 0, 0, 12, 4, 8},       {0, 0, 0, 14, 0, 0, 0},
    {2, 4, 8, 8, 8, 4, 2},        {8, 4, 2, 2, 2, 4, 8},        {0, 12, 12, 0, 12, 12, 0}};

const unsigned char *letter_rows(char letter)
{
    const char *found = letter ? strchr(order, letter) : NULL;

    return found ? rows[found - order] : NULL;
}

long words_width(const char *words, long scale)
{
    return LETTER_STEP * scale * (long)strlen(words);
}

static void write_dot(page *on, long left, long top, long scale)
{
    long x, y;

    for (y = 0; y < scale; y++)
        for (x = 0; x < scale; x++)
            blacken(on, left + x, top + y);
}

static void write_letter(page *on, const unsigned char *letter, long left, long top, long scale)
{
    long x, y;

    for (y = 0; y < LETTER_HEIGHT; y++)
        for (x = 0; x < LETTER_WIDTH; x++)
            if (letter[y] >> (LETTER_WIDTH - 1 - x) & 1)
                write_dot(on, left + scale * x, top + scale * y, scale);
}

void write_words(page *on, const char *words, long left, long top, long scale)
{
    for (; *words; words++, left += LETTER_STEP * scale) {
        char capital = *words >= 'a' && *words <= 'z' ? (char)(*words - 'a' + 'A') : *words;
        const unsigned char *letter = letter_rows(capital);
        if (letter)
            write_letter(on, letter, left, top, scale);
    }
}
