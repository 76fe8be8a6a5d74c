/* line FILE TEXT: the line of text that the header's example sets in the fonts of FILE, as rows of
 * 0 and 1; ends with 1 if it sets none. tests/programs takes the example out of the header and
 * puts it into example.h. */
#include "marlinfold.h"

#include <stdio.h>

#define PAGE_WIDTH 400
#define PAGE_HEIGHT 100

static char page[PAGE_HEIGHT][PAGE_WIDTH + 1];

static void put(const uint8_t *picture, uint32_t width, uint32_t height, long x, long y)
{
    uint32_t row, column;

    for (row = 0; row < height; row++)
        for (column = 0; column < width; column++)
            if (picture[row * mf_row_bytes(width) + column / 8] & 0x80 >> column % 8)
                page[y + (long)row][x + (long)column] = '1';
}

#include "example.h"

int main(int argc, char **argv)
{
    static uint8_t bytes[1 << 17];
    FILE *file = argc == 3 ? fopen(argv[1], "rb") : NULL;
    int row, column;

    if (!file)
        return 2;
    for (row = 0; row < PAGE_HEIGHT; row++)
        for (column = 0; column < PAGE_WIDTH; column++)
            page[row][column] = '0';
    if (!set_line(bytes, fread(bytes, 1, sizeof bytes, file), (const unsigned char *)argv[2], 20,
                  50))
        return 1;
    for (row = 0; row < PAGE_HEIGHT; row++)
        puts(page[row]);
    return fclose(file);
}
