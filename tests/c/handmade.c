/* handmade SCALE [printer]
 *
 * Writes a soft font stream of the capitals of letters.h, dot by dot, for trying the
 * programs: font 10 fixed, font 11 the same in bold, font 12 proportional, font 13 as 10
 * but landscape, font 14 as 10 but half a quarter-dot narrower and with a name, font 20 as
 * 10 but of 600 dots to the inch. SCALE dots make one dot of the letters, twice as many at
 * 600. With "printer" the same fonts come as a printer may get them:
 * commands joined, other commands, text and bytes between. */
#include "letters.h"

#include <stdio.h>
#include <stdlib.h>
#include <string.h>

typedef struct {
    int number, weight, spacing, orientation, resolution;
    int narrower; /* by so many 256ths of a quarter-dot, up to 256 */
    const char *name;
    int scale, bold;
} font;

static int printer;

/* A dot of a letter as large as it is printed. */
static int upright(const font *of, int letter, int x, int y)
{
    int row = letter_rows((char)('A' + letter))[y / of->scale];
    int from = x - of->bold < 0 ? 0 : x - of->bold;
    for (; from <= x; from++)
        if (from / of->scale < LETTER_WIDTH && row >> (LETTER_WIDTH - 1 - from / of->scale) & 1)
            return 1;
    return 0;
}

/* The same in the font's orientation. Landscape letters lie on their backs: a quarter turn
 * to the left. */
static int black(const font *of, int letter, int x, int y)
{
    if (of->orientation)
        return upright(of, letter, 5 * of->scale + of->bold - 1 - y, x);
    return upright(of, letter, x, y);
}

static void high16(unsigned char *bytes, int value)
{
    bytes[0] = (unsigned char)(value >> 8 & 255);
    bytes[1] = (unsigned char)(value & 255);
}

/* What a printer's stream has beside fonts, some of it looking like them. */
static void write_others(void)
{
    static const char between[] =
        "\033E\033%-12345X@PJL SET COPIES=1\r\n\033&l0o6D\033(8U\033(s0p10.00h12v0s0b3T"
        "Text, on the page\r\n\033*p300x+400Y\033&p5X\033*c9D\033*b2m4W\033)s\0"
        "\033*b3V\033*c\033*c0F\0339\033&a-5.5C\033(3@";
    if (printer)
        fwrite(between, 1, sizeof between - 1, stdout);
}

/* A row of one colour and the other in turn, white first; answers its bytes. */
static size_t runs_of(const font *of, int letter, int y, int width, unsigned char *data)
{
    size_t length = 1;
    int colour = 0, run = 0, x;

    data[0] = 0;
    for (x = 0; x < width; x++) {
        if (black(of, letter, x, y) == colour) {
            run++;
            continue;
        }
        data[length++] = (unsigned char)run;
        colour = !colour;
        run = 1;
    }
    data[length++] = (unsigned char)run;
    return length;
}

static size_t bits_of(const font *of, int letter, int y, int width, unsigned char *data)
{
    size_t length = ((size_t)width + 7) / 8;
    int x;

    memset(data, 0, length);
    for (x = 0; x < width; x++)
        data[x / 8] |= (unsigned char)(black(of, letter, x, y) << (7 - x % 8));
    return length;
}

/* Every letter comes in two blocks. */
static void write_blocks(const font *of, int letter, const unsigned char *head,
                         const unsigned char *data, size_t length)
{
    size_t cut = length / 2;

    if (printer)
        printf("\033*c%dd+%d.0E", of->number, 'A' + letter);
    else
        printf("\033*c%dE", 'A' + letter);
    printf("\033(s%uW", (unsigned)(16 + cut));
    fwrite(head, 1, 16, stdout);
    fwrite(data, 1, cut, stdout);
    if (letter % 8 == 0)
        write_others();
    printf("\033(s%uW\004\001", (unsigned)(2 + length - cut));
    fwrite(data + cut, 1, length - cut, stdout);
}

static void write_letter(const font *of, int letter)
{
    int wide = 5 * of->scale + of->bold, high = 7 * of->scale;
    int width = of->orientation ? high : wide, height = of->orientation ? wide : high, y;
    unsigned char head[16] = {4, 0, 14}, *data = malloc((size_t)(width + 2) * (size_t)height);
    size_t length = 0;

    if (!data)
        exit(1);
    for (y = 0; y < height; y++)
        length += of->weight ? runs_of(of, letter, y, width, data + length)
                             : bits_of(of, letter, y, width, data + length);
    head[3] = (unsigned char)(of->weight ? 2 : 1);
    head[4] = (unsigned char)of->orientation;
    high16(head + 6, of->orientation ? -high : of->scale);
    high16(head + 8, of->orientation ? of->scale + wide : high);
    high16(head + 10, width);
    high16(head + 12, height);
    high16(head + 14, 4 * ((letter == 'I' - 'A' ? 6 : 7) * of->scale + of->bold));
    write_blocks(of, letter, head, data, length);
    free(data);
}

static void write_font(const font *of)
{
    unsigned char block[68] = {0};
    int letter, size = of->resolution == 300 ? 64 : 68, more = printer ? 9 : 0;

    high16(block, size);
    block[2] = (unsigned char)(size == 64 ? 0 : 20);
    block[3] = 1;
    high16(block + 6, 7 * of->scale);
    high16(block + 8, 6 * of->scale);
    high16(block + 10, 10 * of->scale);
    block[12] = (unsigned char)of->orientation;
    block[13] = (unsigned char)of->spacing;
    high16(block + 14, 277);
    high16(block + 16, 4 * 7 * of->scale - (of->narrower > 0));
    high16(block + 18, 4 * 12 * of->scale);
    block[24] = (unsigned char)of->weight;
    block[25] = 3;
    block[40] = (unsigned char)(256 - of->narrower);
    memcpy(block + 48, of->name, strlen(of->name));
    high16(block + 64, of->resolution);
    high16(block + 66, of->resolution);
    if (size == 64)
        memset(block + 64, 0, 4);
    write_others();
    printf("\033*c%dD\033)s%dW", of->number, size + more);
    fwrite(block, 1, (size_t)size, stdout);
    fwrite("copyright", 1, (size_t)more, stdout); /* a header may be longer */
    for (letter = 0; letter < 26; letter++)
        write_letter(of, letter);
}

int main(int count, char **words)
{
    font fonts[] = {{10, 0, 0, 0, 300, 0, "", 1, 0}, {11, 3, 0, 0, 300, 0, "", 1, 0},
                    {12, 0, 1, 0, 300, 0, "", 1, 0}, {13, 0, 0, 1, 300, 0, "", 1, 0},
                    {14, 0, 0, 0, 300, 128, "Hand\251made       ", 1, 0},
                    {20, 0, 0, 0, 600, 0, "", 2, 0}};
    int scale = count > 1 ? atoi(words[1]) : 4;
    size_t each;

    if (scale < 1 || scale > 8)
        return 1;
    printer = count > 2;
    for (each = 0; each < sizeof fonts / sizeof *fonts; each++) {
        fonts[each].scale *= scale;
        fonts[each].bold = fonts[each].weight ? (fonts[each].scale + 1) / 2 : 0;
        write_font(&fonts[each]);
    }
    write_others();
    return 0;
}
