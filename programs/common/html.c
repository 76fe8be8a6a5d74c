#include "html.h"

#include "output.h"
#include "png_file.h"
#include "utf8.h"

#include <stdlib.h>

/* ---- words ---- */

/* Whether a page shows the character of this number in Unicode as it stands: no control, none that
 * has no width or turns the direction of others, none that HTML forbids. */
static int is_shown(unsigned long number)
{
    static const struct {
        unsigned long first, last;
    } hidden[] = {{0x00, 0x1F},     {0x7F, 0x9F},     {0xAD, 0xAD},     {0x061C, 0x061C},
                  {0x200B, 0x200F}, {0x2028, 0x202E}, {0x2060, 0x206F}, {0xFDD0, 0xFDEF},
                  {0xFEFF, 0xFEFF}, {0xFFF0, 0xFFFB}, {0xE0000, 0xE0FFF}};
    size_t at;

    for (at = 0; at < sizeof hidden / sizeof *hidden; at++)
        if (number >= hidden[at].first && number <= hidden[at].last)
            return 0;
    return (number & 0xFFFE) != 0xFFFE;
}

static const char *escaped(unsigned char letter)
{
    switch (letter) {
    case '&': return "&amp;";
    case '<': return "&lt;";
    case '>': return "&gt;";
    case '"': return "&quot;";
    case '\'': return "&#39;";
    case '\n': return "\\n";
    default: return NULL;
    }
}

/* Writes what begins here, and answers how many bytes of the words it was. */
static size_t write_letter(FILE *to, const unsigned char *at)
{
    size_t length = utf8_length(at);
    const char *instead = escaped(*at);

    if (!instead && length && is_shown(utf8_number(at))) {
        fwrite(at, 1, length, to);
        return length;
    }
    if (instead)
        fputs(instead, to);
    else
        fprintf(to, "\\%03o", *at);
    return 1;
}

void html_words(FILE *to, const char *words)
{
    const unsigned char *at = (const unsigned char *)words;

    while (*at)
        at += write_letter(to, at);
}

void html_name(FILE *to, const char *name)
{
    const unsigned char *at = (const unsigned char *)name;

    while (*at) {
        if (*at == '\\')
            fputc('\\', to);
        at += write_letter(to, at);
    }
}

/* ---- pictures ---- */

/* Up to three bytes as four letters. */
static void put_base64(char *four, const unsigned char *bytes, size_t count)
{
    static const char letters[] =
        "ABCDEFGHIJKLMNOPQRSTUVWXYZabcdefghijklmnopqrstuvwxyz0123456789+/";
    unsigned second = count > 1 ? bytes[1] : 0, third = count > 2 ? bytes[2] : 0;
    unsigned bits = (unsigned)bytes[0] << 16 | second << 8 | third;

    four[0] = letters[bits >> 18];
    four[1] = letters[bits >> 12 & 63];
    four[2] = count > 1 ? letters[bits >> 6 & 63] : '=';
    four[3] = count > 2 ? letters[bits & 63] : '=';
}

static void write_base64(FILE *to, const unsigned char *bytes, size_t count)
{
    char letters[4096];
    size_t at, length = 0;

    for (at = 0; at < count; at += 3) {
        put_base64(letters + length, bytes + at, count - at);
        length += 4;
        if (length == sizeof letters || at + 3 >= count) {
            fwrite(letters, 1, length, to);
            length = 0;
        }
    }
}

void html_picture(FILE *to, const page *from, uint32_t resolution)
{
    gathered png = {NULL, 0, 0};

    gather_png(&png, from, resolution);
    fputs("data:image/png;base64,", to);
    write_base64(to, png.bytes, png.length);
    free(png.bytes);
}
