/* Sets a line of text with the text layer and writes it as a picture.
 *
 *     words FILE TEXT [FONT] >PICTURE
 *
 * reads a soft font stream of any length and sets TEXT, whose bytes are codes of the font's symbol
 * set, in the font of this number, or in the lowest that is there. The picture is PBM, of the
 * font's dots to the inch. Ends with 0 if the line is whole, with 2 if a letter is missing or
 * incomplete, and with 1 if nothing is written. */
#include "marlinfold-text.h"

#include <errno.h>
#include <stdio.h>
#include <stdlib.h>
#include <string.h>

#define MARGIN 12

static uint8_t store[MF_STORE_MAX];

static int fail(const char *what, const char *why)
{
    fprintf(stderr, "words: %s: %s\n", what, why);
    return 1;
}

/* Tells each command of a file that is refused. */
static void tell(void *name, const mft_note *note)
{
    if (note->kind == MFT_REFUSED)
        fprintf(stderr, "words: %s: byte %lu: %s\n", (const char *)name,
                (unsigned long)note->place, note->why);
}

/* Loads a file, in pieces that take the longest command; answers 0 if it was read to its end. */
static int load(char *name)
{
    static mft_loading loading;
    static uint8_t piece[MFT_COMMAND_MAX];
    mft_loaded loaded;
    size_t length = 0;
    FILE *file = fopen(name, "rb");

    if (!file)
        return fail(name, strerror(errno));
    mf_make_fresh(store, sizeof store);
    mft_begin_loading(&loading, store, sizeof store, MFT_OWN_NUMBERS, tell, name);
    do {
        length += fread(piece + length, 1, sizeof piece - length, file);
        if (ferror(file))
            return fail(name, strerror(errno));
        loaded = mft_load(&loading, piece, length, feof(file));
        length -= loaded.taken;
        memmove(piece, piece + loaded.taken, length);
    } while (!feof(file) && !loaded.refusal);
    fclose(file);
    return loaded.refusal ? fail(name, mft_refusal_name(loaded.refusal)) : 0;
}

/* Tells the letters that are missing or incomplete; the exit status. */
static int tell_missing(const mft_face *face, const mft_line *line)
{
    mft_coverage found = mft_cover_line(face, line);

    if (found.first == line->count)
        return 0;
    fprintf(stderr, "words: %lu letters missing, %lu incomplete, the first of them code %u\n",
            (unsigned long)found.of[MFT_LACKING], (unsigned long)found.of[MFT_INCOMPLETE],
            line->codes[found.first]);
    return 2;
}

/* Writes the line as a picture that is as high as the font's cell, with a margin around it. */
static int write_line(const mft_face *face, const mft_line *line)
{
    uint32_t resolution = mft_face_font(face)->resolution;
    mft_measured size = mft_measure_line(face, line, resolution);
    uint32_t width = (uint32_t)(size.cell.right - size.cell.left + 2 * MARGIN);
    uint32_t height = (uint32_t)(size.cell.bottom - size.cell.top + 2 * MARGIN);
    uint8_t *dots = calloc(mf_row_bytes(width), height);
    mft_page page = mft_page_of(dots, mf_picture_bytes(width, height), width, height, resolution);

    if (!dots)
        return fail("the picture", "no memory");
    mft_set_line(face, line, &page, MARGIN - size.cell.left, MARGIN - size.cell.top);
    printf("P4\n%u %u\n", (unsigned)width, (unsigned)height);
    fwrite(dots, 1, page.dots_len, stdout);
    free(dots);
    if (ferror(stdout) || fclose(stdout))
        return fail("standard output", strerror(errno));
    return 0;
}

int main(int argc, char **argv)
{
    mft_made made;
    mft_line line;
    int status;

    if (argc != 3 && argc != 4)
        return fail("usage", "words FILE TEXT [FONT] >PICTURE");
    if (load(argv[1]))
        return 1;
    made = mft_make_face(store, sizeof store,
                         argc == 4 ? (uint32_t)strtoul(argv[3], NULL, 10)
                                   : mf_next_font(store, sizeof store, 0), NULL, 0);
    if (made.refusal)
        return fail(argc == 4 ? argv[3] : argv[1], mft_refusal_name(made.refusal));
    line = mft_line_of(made.face, argv[2], strlen(argv[2]));
    status = tell_missing(made.face, &line);
    if (write_line(made.face, &line))
        status = 1;
    mft_free_face(made.face);
    return status;
}
