/* bdf_made ORIENTATION SPACING [large|full]
 *
 * Writes font 7 as a stream, for trying marlinfold-bdf: every field of its header has a value of
 * its own, its name has bytes that are hard to write, and its few characters have odd sizes,
 * places and widths. With "large" two of them fill a first block and more; with "full" there are
 * more dots than a store takes once they are plain rows: characters of class 2, each one run. */
#include <stdio.h>
#include <stdlib.h>
#include <string.h>

static void high16(unsigned char *bytes, int value)
{
    bytes[0] = (unsigned char)(value >> 8 & 255);
    bytes[1] = (unsigned char)(value & 255);
}

static void write_header(int orientation, int spacing)
{
    static const unsigned char name[16] = {'O', 'd', 'd', '"', '\\', 0251, 0, 'n', 'a', 'm', 'e'};
    unsigned char block[64] = {0, 64, 0, 2};

    block[4] = 2; /* the style word's high byte */
    high16(block + 6, 11);
    high16(block + 8, 13);
    high16(block + 10, 17);
    block[12] = (unsigned char)orientation;
    block[13] = (unsigned char)spacing;
    high16(block + 14, 14); /* 0N */
    high16(block + 16, 47);
    high16(block + 18, 333);
    high16(block + 20, 259);
    block[22] = 254;
    block[23] = 5;
    block[24] = 253;
    block[25] = 18;
    block[26] = 16;
    block[27] = 65;
    block[28] = 2;
    block[29] = 255;
    block[30] = 251;
    block[31] = 4;
    high16(block + 32, 777);
    high16(block + 34, 511);
    high16(block + 36, 1);
    high16(block + 38, 254);
    block[40] = 150;
    block[41] = 33;
    high16(block + 42, 40000);
    memcpy(block + 44, "\377\001\002\003", 4);
    memcpy(block + 48, name, sizeof name);
    printf("\033*c7D\033)s64W");
    fwrite(block, 1, sizeof block, stdout);
}

/* left, top, width and height are those of the page. */
static void write_character(int code, int orientation, int left, int top, int width, int height,
                            int delta_x)
{
    size_t length = ((size_t)width + 7) / 8 * (size_t)height, at, first;
    unsigned char head[16] = {4, 0, 14, 1}, *data = malloc(length);
    unsigned state = (unsigned)(code + 7 * width + height);

    if (!data)
        exit(1);
    for (at = 0; at < length; at++) {
        state = state * 1103515245u + 12345u;
        data[at] = (unsigned char)(state >> 16);
    }
    head[4] = (unsigned char)orientation;
    high16(head + 6, left);
    high16(head + 8, top);
    high16(head + 10, width);
    high16(head + 12, height);
    high16(head + 14, delta_x);
    first = length < 32000 ? length : 32000;
    printf("\033*c%dE\033(s%uW", code, (unsigned)(16 + first));
    fwrite(head, 1, 16, stdout);
    fwrite(data, 1, first, stdout);
    if (length > first) {
        printf("\033(s%uW\004\001", (unsigned)(2 + length - first));
        fwrite(data + first, 1, length - first, stdout);
    }
    free(data);
}

/* A square of 400 dots, white: a row of runs that is drawn for all rows. */
static void write_square(int code, int orientation)
{
    unsigned char head[16] = {4, 0, 14, 2}, rows[] = {255, 255, 0, 145, 143, 255, 0, 145};

    head[4] = (unsigned char)orientation;
    high16(head + 8, 399);
    high16(head + 10, 400);
    high16(head + 12, 400);
    high16(head + 14, 1600);
    printf("\033*c%dE\033(s%uW", code, (unsigned)(sizeof head + sizeof rows));
    fwrite(head, 1, sizeof head, stdout);
    fwrite(rows, 1, sizeof rows, stdout);
}

int main(int argc, char **argv)
{
    int orientation = argc > 1 ? atoi(argv[1]) : 0, spacing = argc > 2 ? atoi(argv[2]) : 1, code;
    const char *more = argc > 3 ? argv[3] : "";

    write_header(orientation, spacing);
    write_character(0, orientation, 0, 0, 1, 1, 47);
    write_character(31, orientation, -3, 7, 9, 4, 45);
    write_character(65, orientation, 2, -2, 8, 3, 46);
    write_character(255, orientation, 1, 10, 17, 2, 0);
    if (strcmp(more, "large") == 0) {
        write_character(66, orientation, -16384, 16384, 16384, 15, 32767);
        write_character(67, orientation, 0, 0, 16, 16384, 32766);
    }
    for (code = 70; strcmp(more, "full") == 0 && code < 76; code++)
        write_square(code, orientation);
    return 0;
}
