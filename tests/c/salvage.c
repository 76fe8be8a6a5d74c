/* Reading past torn places, from C: what mf_salvage_stream answers, lists and stores, held to
 * numbers worked out by hand and, for streams made by chance, to mf_read_stream from place to
 * place. tests/run and tests/header compare what it prints with salvage.expected. */
#include "marlinfold.h"

#include <stdio.h>
#include <string.h>

#define LENGTH 2048
#define GUARD 8 /* bytes before and after the list, which no call may touch */
#define UNWRITTEN 0xAB
#define ROOM 20 /* stretches */

static uint8_t store[LENGTH], copy[LENGTH];
static uint8_t stream[70000];
static size_t stream_len;
static uint8_t around[GUARD + MF_LIST_MAX(sizeof stream) + GUARD];
static uint8_t *const listed = around + GUARD;

/* ---- streams ---- */

static void begin(void)
{
    stream_len = 0;
}

static void add_bytes(const void *bytes, size_t length)
{
    memcpy(stream + stream_len, bytes, length);
    stream_len += length;
}

static void add(const char *text)
{
    add_bytes(text, strlen(text));
}

/* A command with a number. */
static void add_command(const char *letters, size_t number, char last)
{
    char text[40];

    snprintf(text, sizeof text, "\x1b%s%lu%c", letters, (unsigned long)number, last);
    add(text);
}

/* A font number of one digit and a header: 75 bytes. */
static void add_font(uint32_t font)
{
    uint8_t header[64] = {0, 64};

    header[9] = 30;
    header[11] = 50;
    add_command("*c", font, 'D');
    add_command(")s", sizeof header, 'W');
    add_bytes(header, sizeof header);
}

/* The 16 bytes that begin a first block. */
static void add_descriptor(uint8_t class_, uint8_t width, uint8_t height)
{
    const uint8_t head[16] = {4, 0, 14, class_, 0, 0, 0, 0, 0, 0, 0, width, 0, height, 0, 40};
    add_bytes(head, sizeof head);
}

/* A first block of class 1, 8 dots wide, with these data: 6 bytes, 16 and the data. */
static void add_letter(uint8_t height, const char *data)
{
    add_command("(s", 16 + strlen(data), 'W');
    add_descriptor(1, 8, height);
    add(data);
}

/* ---- what is printed ---- */

static void fresh(size_t length)
{
    if (mf_make_fresh(store, length))
        puts("not made fresh");
}

static void show(const char *name, mf_salvaged read)
{
    printf("%s: refusal %u, stretches %lu, done %lu, refused %lu;", name, (unsigned)read.refusal,
           (unsigned long)read.stretches, (unsigned long)read.done, (unsigned long)read.refused);
}

/* The stretches in the list, as place+length; all other bytes there are as they were. */
static void show_list(size_t list_len)
{
    size_t written = GUARD, at;

    while (written + MF_STRETCH_BYTES <= GUARD + list_len && around[written + 7] != UNWRITTEN) {
        mf_stretch skipped = mf_stretch_at(listed, (written - GUARD) / MF_STRETCH_BYTES);
        printf(" %lu+%lu", (unsigned long)skipped.place, (unsigned long)skipped.length);
        written += MF_STRETCH_BYTES;
    }
    puts("");
    for (at = 0; at < sizeof around; at++)
        if ((at < GUARD || at >= written) && around[at] != UNWRITTEN) {
            puts("a byte beyond the stretches is changed");
            return;
        }
}

static mf_salvaged salvage(size_t length, size_t list_len)
{
    memset(around, UNWRITTEN, sizeof around);
    return mf_salvage_stream(store, length, stream, stream_len, listed, list_len);
}

/* Salvages the stream into the store as it is, with a list of so many bytes. */
static void salvaged_with(const char *name, size_t list_len)
{
    show(name, salvage(sizeof store, list_len));
    show_list(list_len);
}

static void salvaged(const char *name)
{
    fresh(sizeof store);
    salvaged_with(name, ROOM * MF_STRETCH_BYTES);
}

/* The fonts of a store, and how many characters each has. */
static void show_fonts(size_t length)
{
    uint8_t kept[MF_FONT_BYTES];
    uint32_t font;

    printf("fonts:");
    for (font = mf_next_font(store, length, 0); font <= MF_FONT_MAX;
         font = mf_next_font(store, length, font + 1))
        printf(" %u with %u", (unsigned)font,
               (unsigned)mf_tell_font(store, length, kept, sizeof kept, font).count);
    puts("");
}

/* ---- places and lengths ---- */

static void text(const char *name, const char *bytes)
{
    begin();
    add(bytes);
    salvaged(name);
}

static void places(void)
{
    text("nothing", "");
    text("a whole stream", "\x1b*c5D\x1b*c65E");
    text("searched from one byte after the 13 on", "\x1b\x1b*c7D");
    text("a stretch runs to the place found", "\x1b*c5D..\x1b*c7D");
    text("or to the end", "\x1b*c5D......");
    text("the last byte is a stretch of 1", "\x1b*c5D.");
    text("one byte", ".");
    text("a command cut by the end", "\x1b*c5D\x1b*c7");
    text("a restart inside the broken command", "\x1b*c5\x1b*c7D");
    text("two letters of a command before it", "\x1b*\x1b*c7D");
    text("the second tear is not the last", ".\x1b*c1D..\x1b*c2D...\x1b*c3D");
    text("an E and a block are passed over", ".\x1b*c5E\x1b(s0W\x1b*c7D");
    text("counts of both sides", "\x1b*c32768D\x1b*c1E.\x1b*c1D\x1b*c256E\x1b*c2E");
}

/* What follows ESC *c, after a byte that tears the stream. */
static void number(const char *rest)
{
    begin();
    add(".\x1b*c");
    add(rest);
    salvaged(rest);
}

static void numbers(void)
{
    number("0D");
    number("00000D");
    number("5D");
    number("00005D"); /* leading zeros */
    number("32767D");
    number("32768D"); /* from here on none is a restart */
    number("99999D");
    number("000005D"); /* six digits */
    number("123456D");
    number("D");
    number("5d");
    number("5E");
    number("5");
    number(" 5D");
    number("-5D");
}

/* ---- the list ---- */

static void lists(void)
{
    static const size_t lengths[] = {0, 15, 16, 17, 31, 32, 47, 48, 49, 63, 64};
    size_t at;
    char name[40];

    begin();
    add(".\x1b*c1D..\x1b*c2D...");
    for (at = 0; at < sizeof lengths / sizeof lengths[0]; at++) {
        fresh(sizeof store);
        snprintf(name, sizeof name, "a list of %lu bytes", (unsigned long)lengths[at]);
        salvaged_with(name, lengths[at]);
    }
    text("no stretch", "\x1b*c5D");
    salvaged_with("and no list", 0);
    salvaged_with("and 15 bytes", 15);
}

/* Low byte first: place 300 is 1 x 256 + 44, length 66000 is 65536 + 1 x 256 + 208. */
static void list_bytes(void)
{
    size_t at;

    begin();
    for (at = 0; at < 60; at++)
        add("\x1b*c1D");
    memset(stream + stream_len, '.', 66000);
    stream_len += 66000;
    add("\x1b*c2D");
    salvaged("300 and 66000");
    printf("its bytes:");
    for (at = 0; at < MF_STRETCH_BYTES; at++)
        printf(" %u", (unsigned)listed[at]);
    puts("");
}

/* Of bytes that count up from 1. */
static void stretch_at(void)
{
    uint8_t bytes[2 * MF_STRETCH_BYTES];
    mf_stretch second;
    size_t at;

    for (at = 0; at < sizeof bytes; at++)
        bytes[at] = (uint8_t)(at + 1);
    second = mf_stretch_at(bytes, 1);
    printf("stretch 1: %lx %lx\n", (unsigned long)second.place, (unsigned long)second.length);
}

/* k stretches with the shortest commands between them are 6k - 5 bytes. */
static void longest_lists(void)
{
    unsigned count, wrong = 0;

    for (count = 1; count <= 100; count++) {
        begin();
        while (stream_len < 6 * count - 5)
            add(stream_len % 6 == 0 ? "." : "\x1b*c0D");
        fresh(sizeof store);
        wrong += salvage(sizeof store, count * MF_STRETCH_BYTES).stretches != count;
        wrong += salvage(sizeof store, count * MF_STRETCH_BYTES - 1).refusal != MF_OUTPUT_SHORT;
        wrong += MF_LIST_MAX(stream_len) < count * MF_STRETCH_BYTES;
    }
    printf("up to 100 stretches: %u wrong\n", wrong);
}

/* ---- what is stored ---- */

/* All that was stored stays; the room is looked at before reading on. */
static void three_fonts(void)
{
    size_t room;
    char name[40];

    begin();
    add_font(3);
    add(".");
    add_font(4);
    add(".");
    add_font(5);
    for (room = 0; room <= 2; room++) {
        fresh(sizeof store);
        snprintf(name, sizeof name, "three fonts, room for %lu", (unsigned long)room);
        salvaged_with(name, room * MF_STRETCH_BYTES);
        show_fonts(sizeof store);
    }
}

/* Font number and code of a fresh reading: the code is 0 again. */
static void code_again(void)
{
    uint8_t kept[MF_CHARACTER_BYTES];

    begin();
    add_font(3);
    add_command("*c", 65, 'E');
    add(".");
    add_command("*c", 3, 'D');
    add_letter(1, "a");
    salvaged("a code before the tear, none after it");
    printf("code 0: %u, code 65: %u\n",
           (unsigned)mf_tell_character(store, sizeof store, kept, sizeof kept, 3, 0).refusal,
           (unsigned)mf_tell_character(store, sizeof store, kept, sizeof kept, 3, 65).refusal);
}

/* A torn place does not close the open character. */
static void open_character(void)
{
    uint8_t kept[MF_CHARACTER_BYTES];

    begin();
    add_font(3);
    add_command("*c", 65, 'E');
    add_letter(2, "a");
    add(".");
    add_command("*c", 3, 'D');
    add_command("*c", 65, 'E');
    add("\x1b(s3W\4\1b");
    salvaged("a continuation after the tear");
    printf("its data: %u bytes\n",
           (unsigned)mf_tell_character(store, sizeof store, kept, sizeof kept, 3, 65).count);
}

/* A font number counts also inside picture data, but not inside those of a whole block. */
static void in_picture_data(void)
{
    begin();
    add_font(3);
    add("\x1b(s30000W");
    add_descriptor(1, 8, 200);
    add("ab");
    add_font(9);
    salvaged("a block that is cut, with a font in its data");
    show_fonts(sizeof store);
    begin();
    add_font(3);
    add_letter(5, "\x1b*c9D");
    salvaged("a whole block with a font number in its data");
    show_fonts(sizeof store);
}

/* Writes a font of the store to the stream's end. */
static void add_written(uint32_t font)
{
    mf_written written =
        mf_write_font(store, sizeof store, stream + stream_len, sizeof stream - stream_len, font);

    if (written.refusal)
        puts("not written");
    stream_len += written.length;
}

/* A font written out has one D, at its front: 75 bytes, then 29 for each of these letters. */
static void written_fonts(void)
{
    static const char letters[] = "ABC";
    const char *letter;
    uint32_t font;

    begin();
    for (font = 3; font <= 4; font++) {
        add_font(font);
        for (letter = letters; *letter; letter++) {
            add_command("*c", (size_t)*letter, 'E');
            add_letter(1, "a");
        }
    }
    salvaged("two fonts of three letters");
    begin();
    add_written(3);
    add_written(4);
    stream[75 + 29] = '.';
    salvaged("a tear before the second letter of the first");
    show_fonts(sizeof store);
}

/* A refused block is counted; the numbers of a bad row are not carried. */
static void bad_row(void)
{
    begin();
    add_font(3);
    add_command("*c", 65, 'E');
    add("\x1b(s21W");
    add_descriptor(2, 10, 4);
    add_bytes("\1\12\0\4\7", 5);
    add(".");
    add_command("*c", 3, 'D');
    salvaged("a bad row before the tear");
}

/* A character block without room removes its font, also after a tear. */
static void no_room(void)
{
    const size_t length = MF_STORE_MIN + MF_FONT_ROOM + MF_CHARACTER_ROOM;

    begin();
    add_font(3);
    add(".");
    add_command("*c", 3, 'D');
    add_letter(1, "a");
    fresh(length);
    show("no room after the tear", salvage(length, MF_STRETCH_BYTES));
    show_list(MF_STRETCH_BYTES);
    show_fonts(length);
}

/* 1 before 12, and nothing is changed. */
static void no_store(void)
{
    static const size_t lengths[] = {0, 64};
    size_t at;

    begin();
    add_font(3);
    add(".");
    fresh(sizeof store);
    store[4] = 9;
    memcpy(copy, store, sizeof store);
    for (at = 0; at < 2; at++)
        salvaged_with("no store", lengths[at]);
    printf("the store is %s\n", memcmp(store, copy, sizeof store) ? "changed" : "as it was");
    fresh(sizeof store);
    show("11 bytes", salvage(MF_STORE_MIN - 1, 0));
    show_list(0);
}

/* ---- by chance ---- */

static uint32_t chance_state = 212;

static unsigned chance(unsigned below)
{
    chance_state = chance_state * 1664525u + 1013904223u;
    return (chance_state >> 8) % below;
}

static void add_by_chance(void)
{
    static const char *const scraps[] = {".", "\x1b", "\x1b*c", "\x1b*c7", "\x1b*c000005D",
                                         "\x1b*c32768D", "\x1b(s9999W", "0", "D"};
    switch (chance(6)) {
    case 0: add_font(chance(3)); break;
    case 1: add_letter(2, chance(2) ? "a" : "\x1b*c1D"); break;
    case 2: add_command("*c", chance(3), 'E'); break;
    case 3: add("\x1b(s3W\4\1b"); break;
    case 4: add_command("*c", chance(3), 'D'); break;
    default: add(scraps[chance(sizeof scraps / sizeof scraps[0])]); break;
    }
}

/* Whether a whole ESC *c#D within range begins at a place. */
static int restarts(size_t at)
{
    size_t digits = 0;
    unsigned long value = 0;

    if (stream_len - at < 5 || memcmp(stream + at, "\x1b*c", 3) != 0)
        return 0;
    for (at += 3; at < stream_len && stream[at] >= '0' && stream[at] <= '9'; at++, digits++)
        value = 10 * value + (unsigned long)(stream[at] - '0');
    return digits >= 1 && digits <= 5 && at < stream_len && stream[at] == 'D' &&
           value <= MF_FONT_MAX;
}

/* By mf_read_stream from place to place, into the copy; whether each stretch is in the list. */
static int as_read(mf_salvaged read, size_t room)
{
    uint64_t done = 0, refused = 0, stretches = 0;
    size_t at = 0;

    for (;;) {
        mf_stream_read part = mf_read_stream(copy, sizeof copy, stream + at, stream_len - at);
        size_t first = at + (size_t)part.place;
        done += part.done;
        refused += part.refused;
        if (part.refusal == MF_DONE)
            break;
        if (stretches == room)
            return read.refusal == MF_OUTPUT_SHORT && read.stretches == 0 && read.done == 0 &&
                   read.refused == 0;
        for (at = first + 1; at < stream_len && !restarts(at); at++)
            ;
        if (mf_stretch_at(listed, (size_t)stretches).place != first ||
            mf_stretch_at(listed, (size_t)stretches).length != at - first)
            return 0;
        stretches++;
    }
    return read.refusal == MF_DONE && read.stretches == stretches && read.done == done &&
           read.refused == refused;
}

static void by_chance(unsigned streams)
{
    unsigned at, parts, wrong = 0, met[2] = {0, 0}, several = 0;

    for (at = 0; at < streams; at++) {
        size_t room = chance(8);
        mf_salvaged read;

        begin();
        for (parts = chance(30); parts > 0; parts--)
            add_by_chance();
        fresh(sizeof store);
        memcpy(copy, store, sizeof store);
        read = salvage(sizeof store, room * MF_STRETCH_BYTES);
        met[read.refusal == MF_OUTPUT_SHORT]++;
        several += read.stretches > 1;
        if (!as_read(read, room) || memcmp(store, copy, sizeof store) != 0)
            wrong++;
    }
    printf("by chance: %u streams, %u not as read from place to place\n", at, wrong);
    if (met[0] < streams / 4 || met[1] < streams / 20 || several < streams / 10)
        printf("too few: %u done, %u without room, %u of several\n", met[0], met[1], several);
}

/* ---- the header's example, which tests/header holds equal to it ---- */

static void tell(uint64_t place, uint64_t length)
{
    printf("example: %lu bytes from %lu on\n", (unsigned long)length, (unsigned long)place);
}

static void example(const uint8_t *file, size_t file_len)
{
    uint8_t list[10 * MF_STRETCH_BYTES];

    fresh(sizeof store);
    {
    mf_salvaged read =
        mf_salvage_stream(store, sizeof store, file, file_len, list, sizeof list);
    size_t which;
    for (which = 0; which < read.stretches; which++)
        tell(mf_stretch_at(list, which).place, mf_stretch_at(list, which).length);
    }
}

int main(void)
{
    places();
    numbers();
    lists();
    list_bytes();
    stretch_at();
    longest_lists();
    three_fonts();
    code_again();
    open_character();
    in_picture_data();
    written_fonts();
    bad_row();
    no_room();
    no_store();
    by_chance(5000);
    example((const uint8_t *)".\x1b*c1D..\x1b*c2D", 13);
    return 0;
}
