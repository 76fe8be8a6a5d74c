/* Which row was bad, from C: the row, the dots filled and the run that mf_download_character and
 * mf_read_stream answer beside a run that passes its row's end, and zeros beside all else.
 * tests/run and tests/header compare what it prints with rows.expected. */
#include "marlinfold.h"

#include <stdio.h>
#include <stdlib.h>
#include <string.h>

#define LENGTH 2048
#define FONT 3

static uint8_t store[LENGTH], copy[LENGTH];

/* ---- blocks ---- */

/* Bytes that are written as numbers, "1 10 0 4 7"; answers how many. */
static size_t bytes_of(uint8_t *to, const char *numbers)
{
    size_t length = 0;
    char *end;

    for (; *numbers; numbers = end)
        to[length++] = (uint8_t)strtoul(numbers, &end, 10);
    return length;
}

/* A first block of class 2 with these data; its length. */
static size_t first_block(uint8_t *to, unsigned width, unsigned height, const char *data)
{
    const uint8_t head[16] = {4, 0, 14, 2, 0, 0, 0, 0, 0, 0,
                              (uint8_t)(width / 256), (uint8_t)(width % 256),
                              (uint8_t)(height / 256), (uint8_t)(height % 256), 0, 40};
    memcpy(to, head, 16);
    return 16 + bytes_of(to + 16, data);
}

static size_t continuation(uint8_t *to, const char *data)
{
    to[0] = 4;
    to[1] = 1;
    return 2 + bytes_of(to + 2, data);
}

/* A store with one font. */
static void fresh(void)
{
    uint8_t header[64] = {0, 64};

    header[9] = 30;
    header[11] = 50;
    if (mf_make_fresh(store, sizeof store) ||
        mf_download_font(store, sizeof store, header, sizeof header, FONT))
        puts("no font");
}

/* What a download answered. */
static void show(const char *name, mf_downloaded sent)
{
    printf("%s: refusal %u, row %u, filled %u, run %u\n", name, (unsigned)sent.refusal,
           (unsigned)sent.row, (unsigned)sent.filled, (unsigned)sent.run);
}

/* Sends a block, which changes the store only if it is done. */
static void send(const char *name, const uint8_t *block, size_t length)
{
    mf_downloaded sent;

    memcpy(copy, store, sizeof store);
    sent = mf_download_character(store, sizeof store, block, length, FONT, 65);
    show(name, sent);
    if (sent.refusal && memcmp(store, copy, sizeof store))
        puts("the store is changed");
}

static void send_first(unsigned width, unsigned height, const char *data)
{
    uint8_t block[512];
    char name[512];
    size_t length = first_block(block, width, height, data);

    snprintf(name, sizeof name, "%u by %u, %.40s", width, height, data);
    send(name, block, length);
}

static void send_more(const char *data)
{
    uint8_t block[512];
    char name[512];
    size_t length = continuation(block, data);

    snprintf(name, sizeof name, "continued, %.40s", data);
    send(name, block, length);
}

static void first_blocks(void)
{
    fresh();
    send_first(10, 4, "1 10 0 4 7");
    send_first(10, 4, "0 11");
    send_first(10, 4, "0 9 2");
    send_first(10, 4, "0 10 2 4 7"); /* a row that would be drawn three times */
    send_first(10, 4, "255 11");
    send_first(10, 4, "0 0 0 4 0 0 0 7"); /* runs of no dots */
    send_first(10, 4, "2 3 3 4 0 0 255");
    send_first(10, 4, "3 10 0 11"); /* all rows are drawn before it */
    send_first(10, 4, "255 10 0 11");
    send_first(300, 1, "0 255 0 46");
    send_first(254, 2, "0 254 0 255");
    fresh();
    send_first(10, 4, "1 10 0 4"); /* none passes, and rows are missing */
    fresh();
    send_first(10, 4, "1 10 0 4 6 0 10");
}

/* The last row of the highest picture, and the last dot of the widest. */
static void greatest(void)
{
    char data[2048] = "";
    int at;

    fresh();
    for (at = 0; at < 63; at++)
        strcat(data, "255 1 ");
    strcat(data, "254 1 0 2");
    send_first(1, MF_SIDE_MAX, data);
    strcpy(data, "0");
    for (at = 0; at < 64; at++)
        strcat(data, " 255");
    strcat(data, " 63 2");
    send_first(MF_SIDE_MAX, 1, data);
}

/* Rows count from the picture's top, wherever the data were cut into blocks. */
static void continuations(void)
{
    fresh();
    send_first(10, 4, "1 10");
    send_more("0 4 7");
    send_more("");
    send_more("0 4");
    send_more("7");
    send_more("6 0");
    send_more("11");
    send_more("10");
    send_more("0 11");
    send_first(10, 4, "1 10 1");
    send_more("4 7");
    send_first(10, 4, "1");
    send_more("11");
}

/* Every other refusal has zeros, also of data with such a run in them. */
static void others(void)
{
    uint8_t block[512];
    size_t length = first_block(block, 10, 4, "1 10 0 4 7");

    fresh();
    show("no store", mf_download_character(store, MF_STORE_MIN - 1, block, length, FONT, 65));
    show("font 32768", mf_download_character(store, sizeof store, block, length, 32768, 65));
    show("code 256", mf_download_character(store, sizeof store, block, length, FONT, 256));
    show("one byte", mf_download_character(store, sizeof store, block, 1, FONT, 65));
    show("15 bytes", mf_download_character(store, sizeof store, block, 15, FONT, 65));
    show("font 4", mf_download_character(store, sizeof store, block, length, 4, 65));
    block[3] = 3;
    send("class 3", block, length);
    send_first(0, 4, "1 10 0 4 7");
    send_first(16384, 17, "1 10 0 4 7");
    send_more("1 10 0 4 7");
    send_first(10, 4, "1 10 0 4 7");
}

/* A run past the row's end is looked for before the room: of five bytes of data here, where there
 * is room for four, and of more than 32768 kept ones. */
static void before_room(void)
{
    static uint8_t large[MF_STORE_MAX], block[MF_BLOCK_MAX];
    uint8_t small[MF_STORE_MIN + MF_FONT_ROOM + MF_CHARACTER_ROOM + 4], kept[MF_FONT_BYTES];
    size_t length;

    fresh();
    mf_make_fresh(small, sizeof small);
    memcpy(small, store, MF_STORE_MIN + MF_FONT_ROOM);
    length = first_block(block, 10, 4, "1 10 0 4 7");
    show("no room, past the row",
         mf_download_character(small, sizeof small, block, length, FONT, 65));
    length = first_block(block, 10, 4, "1 10 0 4 6");
    show("no room", mf_download_character(small, sizeof small, block, length, FONT, 65));
    printf("its font: refusal %u\n",
           (unsigned)mf_tell_font(small, sizeof small, kept, sizeof kept, FONT).refusal);

    mf_make_fresh(large, sizeof large);
    memcpy(large, store, MF_STORE_MIN + MF_FONT_ROOM);
    memset(block, 0, sizeof block);
    first_block(block, 10, 4, "2 4 6 0 4");
    show("32700 bytes", mf_download_character(large, sizeof large, block, 16 + 32700, FONT, 65));
    memset(block, 0, 200);
    continuation(block, "");
    show("100 more", mf_download_character(large, sizeof large, block, 2 + 100, FONT, 65));
    block[2 + 99] = 7;
    show("100 more, past the row",
         mf_download_character(large, sizeof large, block, 2 + 100, FONT, 65));
}

/* ---- streams ---- */

static uint8_t stream[4096];
static size_t stream_length;

static void add(const void *bytes, size_t length)
{
    memcpy(stream + stream_length, bytes, length);
    stream_length += length;
}

static void add_words(const char *words)
{
    add(words, strlen(words));
}

static void add_block(const uint8_t *block, size_t length)
{
    char command[16];

    sprintf(command, "\x1b(s%uW", (unsigned)length);
    add_words(command);
    add(block, length);
}

static void add_first(const char *data)
{
    uint8_t block[512];
    add_block(block, first_block(block, 10, 4, data));
}

static void add_more(const char *data)
{
    uint8_t block[512];
    add_block(block, continuation(block, data));
}

/* Begins a stream with the font's number and a code. */
static void begin(void)
{
    stream_length = 0;
    add_words("\x1b*c3D\x1b*c65E");
}

static void read_into(const char *name, uint8_t *into, size_t length)
{
    mf_stream_read read = mf_read_stream(into, length, stream, stream_length);

    printf("%s: refusal %u, done %u, refused %u, place %u, row %u, filled %u, run %u\n", name,
           (unsigned)read.refusal, (unsigned)read.done, (unsigned)read.refused,
           (unsigned)read.place, (unsigned)read.row, (unsigned)read.filled, (unsigned)read.run);
}

/* Reads the stream into a store with the font. */
static void read_stream(const char *name)
{
    fresh();
    read_into(name, store, sizeof store);
}

#define BAD "1 10 0 4 7" /* row 2, filled 4, run 7 */
#define OTHER "0 9 2"    /* row 0, filled 9, run 2 */
#define GOOD "3 10"

static void streams(void)
{
    begin();
    add_first(BAD);
    read_stream("a bad row");
    add_words("?");
    read_stream("then a broken place");
    begin();
    add_first(BAD);
    add_words("\x1b*c66E\x1b(s");
    read_stream("then an end in a command");
    begin();
    add_words("?");
    add_first(BAD);
    read_stream("after a broken place");
    begin();
    add_first("1 10");
    add_more("0 4 7");
    read_stream("in a continuation");
    stream_length = 0;
    read_stream("an empty stream");
    begin();
    add_first(GOOD);
    read_stream("no bad row");
    add_words("\x1b*c256E\x1b)s1W!\x1b(s1W!");
    read_stream("refused for something else");
    add_words("\x1b");
    read_stream("and broken");
}

/* The first bad row counts, whatever follows it. */
static void first_of_several(void)
{
    begin();
    add_first(BAD);
    add_first(OTHER);
    read_stream("two bad rows");
    add_words("?");
    read_stream("two bad rows, then a broken place");
    begin();
    add_first(OTHER);
    add_first(BAD);
    read_stream("the other way round");
    begin();
    add_words("\x1b*c256E\x1b(s1W!");
    add_more("0 4 7");
    add_first(BAD);
    add_words("\x1b*c256E\x1b)s1W!\x1b(s1W!");
    add_more("0 11");
    read_stream("others refused around it");
    begin();
    add_first(BAD);
    add_words("\x1b*c66E");
    add_first(GOOD);
    add_words("\x1b*c67E");
    add_first("1 10");
    add_more("1 10");
    read_stream("others done after it");
    add_words("!");
    read_stream("others done, then a broken place");
}

/* What is no store, and what has no room for the character after the bad one. */
static void other_stores(void)
{
    uint8_t small[MF_STORE_MIN + MF_FONT_ROOM + MF_CHARACTER_ROOM + 1], kept[MF_FONT_BYTES];

    begin();
    add_first(BAD);
    add_first(GOOD);
    fresh();
    read_into("no store", store, MF_STORE_MIN - 1);
    store[4] = 9;
    read_into("no store any more", store, sizeof store);
    fresh();
    mf_make_fresh(small, sizeof small);
    memcpy(small, store, MF_STORE_MIN + MF_FONT_ROOM);
    read_into("no room after it", small, sizeof small);
    printf("its font: refusal %u\n",
           (unsigned)mf_tell_font(small, sizeof small, kept, sizeof kept, FONT).refusal);
}

/* The header's example, which tests/header holds equal to it. */
static void tell(uint32_t row, uint32_t filled, uint32_t run)
{
    printf("example: row %u, filled %u, run %u\n", (unsigned)row, (unsigned)filled, (unsigned)run);
}

static void example(uint32_t font, uint32_t code)
{
    uint8_t block[64];
    size_t block_len = first_block(block, 10, 4, BAD);

    fresh();
    {
    mf_downloaded sent =
        mf_download_character(store, sizeof store, block, block_len, font, code);
    if (sent.refusal == MF_RUN_PAST_ROW)
        tell(sent.row, sent.filled, sent.run);
    }
}

int main(void)
{
    first_blocks();
    greatest();
    continuations();
    others();
    before_room();
    streams();
    first_of_several();
    other_stores();
    example(FONT, 65);
    return 0;
}
