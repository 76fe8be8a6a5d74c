/* short < FONTS: the letter A of a bold face of 10 points, as dots. */
#include "marlinfold.h"
#include <stdio.h>

static uint8_t store[MF_STORE_MAX], stream[MF_STORE_MAX], picture[MF_PICTURE_MAX];

int main(void)
{
    uint8_t kept[MF_CHARACTER_BYTES];
    size_t length = fread(stream, 1, sizeof stream, stdin), x, y;
    mf_stream_read read;
    mf_chosen chosen;
    mf_told told;
    mf_character_fields letter;

    if (getchar() != EOF) {
        puts("too long");
        return 1;
    }
    mf_make_fresh(store, sizeof store);
    read = mf_read_stream(store, sizeof store, stream, length);
    printf("done %u, refused %u\n", (unsigned)read.done, (unsigned)read.refused);
    if (read.refusal)
        printf("%s, at byte %u\n", mf_refusal_name(read.refusal), (unsigned)read.place);
    /* 10 characters to the inch, 10 points, style 0 (upright), typeface 0 */
    chosen = mf_choose(store, sizeof store, MF_ROMAN_8, MF_PROPORTIONAL, 1000, 1000, 0, MF_BOLD, 0,
                       MF_PORTRAIT, MF_MODE_300);
    told = mf_tell_character(store, sizeof store, kept, sizeof kept, chosen.font, 'A');
    if (chosen.refusal || told.refusal) {
        puts(mf_refusal_name(chosen.refusal ? chosen.refusal : told.refusal));
        return 1;
    }
    printf("font %u\n", (unsigned)chosen.font);
    letter = mf_character_fields_of(kept);
    mf_draw_picture(store, sizeof store, picture, sizeof picture, chosen.font, 'A');
    for (y = 0; y < letter.height; y++) {
        const uint8_t *row = picture + y * mf_row_bytes(letter.width);
        for (x = 0; x < letter.width; x++)
            putchar(row[x / 8] & 0x80 >> x % 8 ? '#' : '.');
        putchar('\n');
    }
    if (ferror(stdout) || fclose(stdout)) {
        perror("standard output");
        return 1;
    }
    return 0;
}
