/* Streams with one byte lost, and what becomes of their letters.
 *
 *     lost places SEED COUNT LENGTH    so many places below LENGTH, by chance, the same each time
 *     lost at PLACE <FILE              the file without the byte at this place
 *     lost compare FILE MADE           whether a character in MADE has the dots and the widths of
 *                                      another code in FILE: prints how many, and ends with 1
 *
 * Characters that FILE has under several codes count as right under each of them. */
#include "marlinfold.h"

#include <stdio.h>
#include <stdlib.h>
#include <string.h>

static uint8_t bytes[1 << 18];

static size_t read_whole(FILE *file)
{
    size_t length = file ? fread(bytes, 1, sizeof bytes, file) : 0;
    if (file && file != stdin)
        fclose(file);
    return length;
}

static void print_places(uint32_t state, unsigned count, uint32_t length)
{
    while (count--) {
        state ^= state << 13;
        state ^= state >> 17;
        state ^= state << 5;
        printf("%u\n", (unsigned)(state % length));
    }
}

static void print_without(size_t place)
{
    size_t length = read_whole(stdin);
    fwrite(bytes, 1, place, stdout);
    fwrite(bytes + place + 1, 1, length - place - 1, stdout);
}

/* The font of the lowest number, drawn. */
typedef struct {
    int there[MF_CODE_MAX + 1];
    uint8_t kept[MF_CODE_MAX + 1][MF_CHARACTER_BYTES];
    uint8_t dots[MF_CODE_MAX + 1][2048];
} drawn;

static void draw(const char *name, drawn *made)
{
    static uint8_t store[MF_STORE_MAX];
    uint32_t font, code;

    mf_make_fresh(store, sizeof store);
    mf_read_stream(store, sizeof store, bytes, read_whole(fopen(name, "rb")));
    font = mf_next_font(store, sizeof store, 0);
    for (code = 0; font <= MF_FONT_MAX && code <= MF_CODE_MAX; code++) {
        made->there[code] = !mf_tell_character(store, sizeof store, made->kept[code],
                                               MF_CHARACTER_BYTES, font, code).refusal &&
                            !mf_draw_picture(store, sizeof store, made->dots[code],
                                             sizeof made->dots[code], font, code);
    }
}

static int same(const drawn *a, uint32_t code, const drawn *b, uint32_t other)
{
    return a->there[code] && b->there[other] &&
           memcmp(a->kept[code], b->kept[other], MF_CHARACTER_BYTES) == 0 &&
           memcmp(a->dots[code], b->dots[other], sizeof a->dots[code]) == 0;
}

static int compare(const char *before, const char *after)
{
    static drawn a, b;
    uint32_t code, other;
    int wrong = 0;

    draw(before, &a);
    draw(after, &b);
    for (code = 0; code <= MF_CODE_MAX; code++)
        for (other = 0; other <= MF_CODE_MAX && !same(&a, code, &b, code); other++)
            if (other != code && same(&a, other, &b, code)) {
                wrong++;
                break;
            }
    printf("%d\n", wrong);
    return wrong != 0;
}

int main(int argc, char **argv)
{
    if (argc == 5 && strcmp(argv[1], "places") == 0)
        print_places((uint32_t)atol(argv[2]), (unsigned)atol(argv[3]), (uint32_t)atol(argv[4]));
    else if (argc == 3 && strcmp(argv[1], "at") == 0)
        print_without((size_t)atol(argv[2]));
    else
        return argc == 4 && strcmp(argv[1], "compare") == 0 ? compare(argv[2], argv[3]) : 2;
    return 0;
}
