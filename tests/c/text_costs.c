/* What a line of 40 letters costs, for tests/costs, which counts the instructions of the function
 * counted:
 *
 *     text_costs face FONT <STREAM     set from a face that is made already
 *     text_costs single FONT <STREAM   set by single calls, two for each letter
 *     text_costs make FONT <STREAM     the face made
 *     text_costs time FONT <STREAM     all three in microseconds, the best of many
 *
 * The stream is read into a store that is just long enough for it. Ends with 1 if both lines have
 * not the same dots. */
#include "marlinfold-text.h"

#include <stdio.h>
#include <stdlib.h>
#include <string.h>
#include <time.h>

#define WIDTH 4096
#define HEIGHT 200
#define X 20
#define Y 120

static const char text[] = "Handle with care: 12 x 3.50 (No. 7), dry";

static uint8_t store[MF_STORE_MAX], stream[MF_STORE_MAX], memory[1 << 20];
static uint8_t by_face[WIDTH / 8 * HEIGHT], by_calls[WIDTH / 8 * HEIGHT];
static size_t store_len;
static uint32_t font;
static mft_face *face;

static int make_face(void)
{
    mft_made made = mft_make_face(store, store_len, font, memory, sizeof memory);

    face = made.face;
    return made.refusal == MF_DONE;
}

static int set_by_face(void)
{
    mft_page page = mft_page_of(by_face, sizeof by_face, WIDTH, HEIGHT, MF_MODE_600);
    mft_line line = mft_line_of(face, text, sizeof text - 1);

    page.resolution = mft_face_font(face)->resolution;
    return mft_set_line(face, &line, &page, X, Y) == MF_DONE;
}

/* As the example of marlinfold.h does; the pictures are placed by the layer all the same. */
static int set_by_calls(void)
{
    static uint8_t picture[MF_PICTURE_MAX];
    mft_page page = mft_page_of(by_calls, sizeof by_calls, WIDTH, HEIGHT, MF_MODE_300);
    uint8_t kept[MF_FONT_BYTES];
    uint64_t pitch, along = 0;
    mf_font_fields of;
    size_t at;

    mf_tell_font(store, store_len, kept, sizeof kept, font);
    of = mf_font_fields_of(kept);
    pitch = 256 * (uint64_t)of.pitch + of.pitch_extended;
    for (at = 0; at < sizeof text - 1; at++) {
        uint32_t code = (unsigned char)text[at];
        mf_character_fields letter;
        if (mf_tell_character(store, store_len, kept, sizeof kept, font, code).refusal) {
            along += pitch;
            continue;
        }
        letter = mf_character_fields_of(kept);
        mf_draw_picture(store, store_len, picture, sizeof picture, font, code);
        mft_put_picture(&page, picture, sizeof picture, letter.width, letter.height,
                        X + (int32_t)((along + 512) / 1024) + letter.left, Y - letter.top);
        along += of.spacing == MF_FIXED ? pitch : 256 * (uint64_t)letter.delta_x;
    }
    return 1;
}

/* It stays a function that begins before the call and ends after it, as that of costs.c. */
int counted(int (*call)(void));
int counted(int (*call)(void))
{
    volatile int done = call();
    return done;
}

/* The best of many runs, in microseconds. */
static double best(int (*of)(void))
{
    double least = 1e9;
    int run, turn;

    for (run = 0; run < 200; run++) {
        clock_t from = clock();
        for (turn = 0; turn < 50; turn++)
            of();
        from = clock() - from;
        if ((double)from / CLOCKS_PER_SEC * 1e6 / 50 < least)
            least = (double)from / CLOCKS_PER_SEC * 1e6 / 50;
    }
    return least;
}

static int read_fonts(void)
{
    size_t length = fread(stream, 1, sizeof stream, stdin);

    mf_make_fresh(store, sizeof store);
    if (mf_read_stream(store, sizeof store, stream, length).refusal)
        return 0;
    store_len = sizeof store - mf_room_left(store, sizeof store);
    mf_make_fresh(store, store_len);
    return !mf_read_stream(store, store_len, stream, length).refused;
}

int main(int argc, char **argv)
{
    int (*volatile outer)(int (*)(void)) = counted;
    static uint8_t none[sizeof by_face];

    if (argc != 3 || !read_fonts())
        return 2;
    font = (uint32_t)atoi(argv[2]);
    if (!make_face() || !set_by_face() || !set_by_calls() ||
        memcmp(by_face, by_calls, sizeof by_face) || !memcmp(by_face, none, sizeof none))
        return 1;
    if (strcmp(argv[1], "time") == 0) {
        double face_time = best(set_by_face), calls = best(set_by_calls);
        printf("store of %lu bytes: from a face %.2f us, by single calls %.1f us, ratio %.0f; "
               "the face made in %.0f us\n", (unsigned long)store_len, face_time, calls,
               calls / face_time, best(make_face));
        return 0;
    }
    return !outer(strcmp(argv[1], "face") == 0 ? set_by_face
                  : strcmp(argv[1], "single") == 0 ? set_by_calls : make_face);
}
