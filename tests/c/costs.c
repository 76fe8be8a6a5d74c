/* What calls cost, for tests/costs, which counts the instructions of the function counted:
 *
 *     costs make KIND >STORE    a store of 65,536 bytes that is full of one kind of record
 *     costs CALL [N] <STORE     makes a call on it; ends with 1 if the answer is another than it
 *                               must be
 *     costs salvage N BYTES <STORE  salvages a stream of these bytes N times */
#include "marlinfold.h"

#include <stdio.h>
#include <stdlib.h>
#include <string.h>

static uint8_t store[MF_STORE_MAX], stream[4 * MF_STORE_MAX];
static size_t stream_length;

/* ---- stores ---- */

static void add(const void *bytes, size_t length)
{
    memcpy(stream + stream_length, bytes, length);
    stream_length += length;
}

static void add_command(const char *group, unsigned number, char letter)
{
    char command[16];
    add(command, (size_t)sprintf(command, "\x1b%s%u%c", group, number, letter));
}

static void add_font(unsigned number)
{
    static const uint8_t header[64] = {0, 64, 0, 0, 0, 0, 0, 0, 0, 9, 0, 9, 0, 0, 1, 21};
    add_command("*c", number, 'D');
    add_command(")s", sizeof header, 'W');
    add(header, sizeof header);
}

/* A character whose data are these bytes over and over. */
static void add_character(unsigned code, unsigned class_, unsigned width, unsigned height,
                          const char *pattern, size_t step, size_t length)
{
    const uint8_t head[16] = {4, 0, 14, (uint8_t)class_, 0, 0, 0, 0, 0, 0,
                              (uint8_t)(width / 256), (uint8_t)(width % 256),
                              (uint8_t)(height / 256), (uint8_t)(height % 256), 0, 9};
    size_t at;

    add_command("*c", code, 'E');
    add_command("(s", (unsigned)(sizeof head + length), 'W');
    add(head, sizeof head);
    for (at = 0; at < length; at++)
        stream[stream_length++] = (uint8_t)pattern[at % step];
}

/* Two characters that fill a store beside their font. */
static void add_two(unsigned class_, unsigned width, unsigned height, const char *pattern,
                    size_t step)
{
    add_font(0);
    add_character(1, class_, width, height, pattern, step, 32640);
    add_character(2, class_, width, height, pattern, step, 32640);
}

static int make(const char *kind)
{
    unsigned number;
    mf_stream_read read;

    if (strcmp(kind, "fonts") == 0)
        for (number = 0; number < 799; number++)
            add_font(number);
    else if (strcmp(kind, "small") == 0)
        for (number = 0; number < 9 * 256; number++) {
            if (number % 256 == 0)
                add_font(number / 256);
            add_character(number % 256, 1, 8, 1, "\xFF", 1, 1);
        }
    else if (strcmp(kind, "plain") == 0)
        add_two(1, 1024, 255, "\xFF", 1);
    else if (strcmp(kind, "wide") == 0) /* rows of 1024 dots, in runs of 4 */
        add_two(2, 1024, 256, "\4", 1);
    else if (strcmp(kind, "narrow") == 0) /* rows of one dot: a repeat of 0, a run of 1 */
        add_two(2, 1, 16384, "\0\1", 2);
    else if (strcmp(kind, "half") == 0) { /* the open one has half as many data */
        add_font(0);
        add_character(2, 2, 1, 16384, "\0\1", 2, 16320);
    } else if (strcmp(kind, "empty") != 0)
        return 2;
    mf_make_fresh(store, sizeof store);
    read = mf_read_stream(store, sizeof store, stream, stream_length);
    return read.refusal || read.refused || fwrite(store, 1, sizeof store, stdout) != sizeof store ||
           fclose(stdout);
}

/* ---- calls ---- */

static const mf_request asked = {MF_ROMAN_8, MF_FIXED, 1000,        1200,       0,
                                 MF_MEDIUM,  0,        MF_PORTRAIT, MF_MODE_300};

/* A call that ends after its check of the store. */
static int check(void)
{
    uint8_t kept[MF_FONT_BYTES];
    return mf_tell_font(store, sizeof store, kept, sizeof kept, MF_FONT_MAX + 1).refusal ==
           MF_OUT_OF_RANGE;
}

static int choose(void)
{
    return mf_choose_request(store, sizeof store, &asked).refusal == MF_DONE;
}

static int choose_sheet(void)
{
    mf_request requests[MF_SHEET_MAX];
    mf_answer answers[MF_SHEET_MAX];
    size_t at;

    for (at = 0; at < MF_SHEET_MAX; at++)
        requests[at] = asked;
    return mf_choose_sheet(store, sizeof store, requests, MF_SHEET_MAX, answers, MF_SHEET_MAX) ==
           MF_DONE && answers[MF_SHEET_MAX - 1].refusal == MF_DONE;
}

static int choose_from_two(void)
{
    return mf_choose_from_two(store, sizeof store, store, sizeof store, asked.symbol_set,
                              asked.spacing, asked.pitch, asked.height, asked.style, asked.weight,
                              asked.typeface, asked.orientation, asked.mode)
               .refusal == MF_DONE;
}

static int add_figures(void)
{
    static uint8_t figures[MF_FIGURES_BYTES];
    return mf_add_figures(store, sizeof store, figures, sizeof figures) == MF_DONE;
}

/* The stream that stands ready. */
static int read_stream(void)
{
    mf_stream_read read = mf_read_stream(store, sizeof store, stream, stream_length);
    return read.refusal == MF_DONE && read.refused == 0;
}

static int salvage_stream(void)
{
    static uint8_t list[MF_LIST_MAX(sizeof stream)];
    return mf_salvage_stream(store, sizeof store, stream, stream_length, list, sizeof list)
               .refusal == MF_DONE;
}

/* The same bytes so many times. */
static void repeat(const char *bytes, int times)
{
    while (times--)
        add(bytes, strlen(bytes));
}

/* The compiler does not see by which pointer it is called, and it does something after its call: so
 * it stays a function that begins before the call and ends after it. */
int counted(int (*call)(void));
int counted(int (*call)(void))
{
    volatile int done = call();
    return done;
}

int main(int argc, char **argv)
{
    int (*volatile outer)(int (*)(void)) = counted;
    int (*call)(void) = read_stream;
    const char *name = argc > 1 ? argv[1] : "";
    int times = argc > 2 ? atoi(argv[2]) : 1;

    if (argc == 3 && strcmp(name, "make") == 0)
        return make(argv[2]);
    if (fread(store, 1, sizeof store, stdin) != sizeof store)
        return 2;
    if (strcmp(name, "check") == 0)
        call = check;
    else if (strcmp(name, "choose") == 0)
        call = choose;
    else if (strcmp(name, "sheet") == 0)
        call = choose_sheet;
    else if (strcmp(name, "two") == 0)
        call = choose_from_two;
    else if (strcmp(name, "figures") == 0)
        call = add_figures;
    else if (strcmp(name, "salvage") == 0 && argc == 4) {
        call = salvage_stream;
        repeat(argv[3], times);
    } else if (strcmp(name, "codes") == 0)
        while (times--)
            add_command("*c", 65, 'E');
    else if (strcmp(name, "continue") == 0) /* with no data, for the open character */
        for (add_command("*c", 2, 'E'); times--; add("\4\1", 2))
            add_command("(s", 2, 'W');
    else
        return 2;
    return !outer(call);
}
