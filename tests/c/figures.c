/* Figures of a collection from C: the seven numbers of each code over one store and over several,
 * held to numbers worked out by hand and to a count by drawing; what is refused, and that nothing
 * is changed then. tests/run and tests/header compare what it prints with figures.expected. With
 * the name of a store it writes that store, for the program marlinfold-figures. */
#include "drawn.h"

#include <stdio.h>

#define GUARD 8 /* bytes before and after the figures, which no call may touch */

static uint8_t room[GUARD + MF_FIGURES_BYTES + GUARD], before[sizeof room];
static uint8_t *const shelf = room + GUARD;
static uint8_t block[16 + MF_PICTURE_MAX];

/* ---- stores ---- */

typedef struct {
    const char *name;
    size_t length;
    uint8_t bytes[MF_STORE_MAX + 1]; /* one more than a store has */
} kept_store;

static kept_store first = {"first", 2048, {0}}, second = {"second", 1000, {0}};
static kept_store empty = {"empty", MF_STORE_MIN, {0}}, letterless = {"letterless", 94, {0}};
static kept_store greatest = {"greatest", MF_STORE_MAX, {0}}, full = {"full", MF_STORE_MAX, {0}};
static kept_store some; /* made by chance */

typedef struct {
    uint32_t font, code;
    unsigned class_, width, height;
    int delta_x;
    const char *data, *more; /* more: of a continuation */
} letter;

static const letter first_letters[] = {
    {3, 0, 1, 1, 1, 32767, "127", ""},            /* the one dot is white, all padding black */
    {3, 65, 1, 10, 2, 40, "255 255 129 63", ""},  /* 10 and 2 dots, padding set in both rows */
    {3, 66, 2, 10, 4, 33, "1 4 6 5 0 10", ""},    /* 2 x 6; 10 drawn 6 times, but 2 rows are left */
    {3, 67, 1, 8, 3, 7, "240", ""},               /* 4, and two rows are missing */
    {3, 68, 2, 9, 5, -5, "1 3 6 0 2 5", ""},      /* 2 x 6; a row of 7 dots is not finished */
    {3, 255, 2, 1, 3, 9, "", ""},                 /* no data */
    {4, 65, 2, 3, 5, 41, "4 0 3", ""},            /* 5 x 3 */
    {4, 67, 2, 10, 3, 120, "1 2", "3 5 0 0 10"},  /* 2 x 3 and 10, in two blocks */
    {5, 65, 1, 17, 1, 4, "255 255", "255"},       /* 17, in two blocks */
};
static const letter second_letters[] = {
    {0, 65, 1, 2, 2, 10, "64 255", ""},               /* 1 and 2 */
    {0, 97, 2, 300, 1, 1200, "0 255 0 45", ""},       /* white and white again */
    {32767, 66, 1, 16, 1, 2, "170 85", ""},           /* every second dot of 16 */
    {32767, 97, 2, 300, 2, 1201, "1 0 255 0 45", ""}, /* 2 x 300 */
};

static void fresh(kept_store *of)
{
    if (mf_make_fresh(of->bytes, of->length))
        printf("%s: not made fresh\n", of->name);
}

static void put_font(kept_store *of, uint32_t font)
{
    uint8_t header[64] = {0, 64};

    header[9] = 30;
    header[11] = 50;
    if (mf_download_font(of->bytes, of->length, header, sizeof header, font))
        printf("%s: font %u is refused\n", of->name, (unsigned)font);
}

/* The 16 bytes that begin a first block. */
static void descriptor(unsigned class_, unsigned width, unsigned height, int delta_x)
{
    const uint8_t head[16] = {4, 0, 14, (uint8_t)class_, 0, 0, 0, 0, 0, 0,
                              (uint8_t)(width / 256), (uint8_t)(width % 256),
                              (uint8_t)(height / 256), (uint8_t)(height % 256),
                              (uint8_t)((unsigned)delta_x >> 8 & 255),
                              (uint8_t)((unsigned)delta_x & 255)};
    memcpy(block, head, 16);
}

static void send(kept_store *of, uint32_t font, uint32_t code, size_t length)
{
    if (mf_download_character(of->bytes, of->length, block, length, font, code).refusal)
        printf("%s: code %u of font %u is refused\n", of->name, (unsigned)code, (unsigned)font);
}

/* Bytes that are written as numbers, "1 10 0 4 7"; answers how many. */
static size_t bytes_of(uint8_t *to, const char *numbers)
{
    size_t length = 0;
    char *end;

    for (; *numbers; numbers = end)
        to[length++] = (uint8_t)strtoul(numbers, &end, 10);
    return length;
}

static void send_more(kept_store *of, const letter *made)
{
    block[0] = 4;
    block[1] = 1;
    send(of, made->font, made->code, 2 + bytes_of(block + 2, made->more));
}

/* A store of these letters, which stand by rising font number. */
static void fill(kept_store *of, const letter *made, size_t count)
{
    uint32_t last = MF_FONT_MAX + 1;

    fresh(of);
    for (; count > 0; count--, made++) {
        if (made->font != last)
            put_font(of, made->font);
        last = made->font;
        descriptor(made->class_, made->width, made->height, made->delta_x);
        send(of, made->font, made->code, 16 + bytes_of(block + 16, made->data));
        if (*made->more)
            send_more(of, made);
    }
}

/* The two largest pictures, all black, with the greatest delta X: rows of 16384 dots in runs, and
 * rows of 1024 dots as they are, whose last 17 bytes come in a continuation. */
static void fill_greatest(void)
{
    size_t at;

    fresh(&greatest);
    put_font(&greatest, 1);
    descriptor(2, MF_SIDE_MAX, 16, 32767);
    block[16] = 15;
    for (at = 0; at < 65; at++) {
        block[17 + 2 * at] = 0;
        block[18 + 2 * at] = at < 64 ? 255 : MF_SIDE_MAX % 255;
    }
    send(&greatest, 1, 7, 17 + 2 * 65);
    put_font(&greatest, 2);
    memset(block, 255, sizeof block);
    descriptor(1, 1024, 256, 32767);
    send(&greatest, 2, 7, MF_BLOCK_MAX);
    block[0] = 4;
    block[1] = 1;
    memset(block + 2, 255, 17);
    send(&greatest, 2, 7, 2 + 17);
}

/* As many characters of one code as a store can have, each with the greatest delta X. */
static void fill_full(void)
{
    uint32_t font;

    fresh(&full);
    for (font = 0; font < 606; font++) {
        put_font(&full, font);
        descriptor(1, 1, 1, 32767);
        send(&full, font, 200, 16);
    }
}

static void fill_all(void)
{
    fill(&first, first_letters, sizeof first_letters / sizeof first_letters[0]);
    fill(&second, second_letters, sizeof second_letters / sizeof second_letters[0]);
    fresh(&empty);
    fresh(&letterless);
    put_font(&letterless, 1);
    fill_greatest();
    fill_full();
}

/* ---- figures ---- */

static void clear(void)
{
    memset(room, 0xA5, sizeof room);
    memset(shelf, 0, MF_FIGURES_BYTES);
}

/* Writes a number into the figures. */
static void put_number(size_t at, uint64_t number)
{
    size_t end;

    for (end = at + 8; at < end; at++, number >>= 8)
        shelf[at] = (uint8_t)(number & 255);
}

static void put_figure(uint32_t code, uint32_t which, uint64_t number)
{
    put_number(8 + 56 * (size_t)code + 8 * (size_t)which, number);
}

/* The same seven at once. */
static void put_figures(uint32_t code, const uint64_t of[DRAWN_NUMBERS])
{
    uint32_t which;

    for (which = 0; which < DRAWN_NUMBERS; which++)
        put_figure(code, which, of[which]);
}

/* Adds a store, of which and to which so many bytes are told. Whatever is answered, the store stays
 * as it is, and so do the bytes around the figures; if it is refused, the figures too. */
static uint32_t add_of(const uint8_t *bytes, size_t length, size_t figures_length)
{
    static uint8_t copy[MF_STORE_MAX + 1];
    uint32_t refusal;

    memcpy(copy, bytes, length);
    memcpy(before, room, sizeof room);
    refusal = mf_add_figures(bytes, length, shelf, figures_length);
    if (memcmp(copy, bytes, length))
        puts("the store is changed");
    if (memcmp(before, room, GUARD) ||
        memcmp(before + GUARD + MF_FIGURES_BYTES, room + GUARD + MF_FIGURES_BYTES, GUARD))
        puts("bytes around the figures are changed");
    if (refusal && memcmp(before, room, sizeof room))
        puts("refused, but the figures are changed");
    return refusal;
}

static uint32_t add(const kept_store *of)
{
    return add_of(of->bytes, of->length, MF_FIGURES_BYTES);
}

static unsigned long number(uint32_t code, uint32_t which)
{
    return (unsigned long)mf_figure(shelf, code, which);
}

static void show_code(uint32_t code)
{
    printf("code %u: count %lu, dots %lu, least %lu, greatest %lu, sum %lu, mean %lu, rest %lu\n",
           (unsigned)code, number(code, MF_FIGURE_COUNT), number(code, MF_FIGURE_DOTS),
           number(code, MF_FIGURE_LEAST), number(code, MF_FIGURE_GREATEST),
           number(code, MF_FIGURE_SUM), number(code, MF_FIGURE_MEAN),
           number(code, MF_FIGURE_REST));
}

/* The stores, and the codes that have anything but zeros. */
static void show(const char *name)
{
    static const uint8_t zeros[56] = {0};
    uint32_t code;

    printf("%s: stores %lu\n", name, (unsigned long)mf_figures_stores(shelf));
    for (code = 0; code <= MF_CODE_MAX; code++)
        if (memcmp(shelf + 8 + 56 * code, zeros, sizeof zeros))
            show_code(code);
}

static void answer(const char *name, uint32_t refusal)
{
    printf("%s: %u\n", name, (unsigned)refusal);
}

/* ---- what is worked out by hand ---- */

static void alone(const kept_store *of)
{
    clear();
    answer(of->name, add(of));
    show(of->name);
}

static void together(void)
{
    clear();
    answer("first", add(&first));
    answer("empty", add(&empty));
    answer("second", add(&second));
    answer("letterless", add(&letterless));
    show("together");
    answer("second", add(&second));
    show("the second again");
}

/* 64 full stores are as much as the bounds allow, at each of them; the next is one too many. */
static void sixty_four(void)
{
    unsigned done = 0;

    clear();
    while (done < MF_COLLECTION_MAX && add(&full) == MF_DONE)
        done++;
    printf("full, added %u times\n", done);
    show("full");
    answer("the 65th, full", add(&full));
    answer("the 65th, without fonts", add(&empty));
    clear();
    for (done = 0; done < MF_COLLECTION_MAX && add(&greatest) == MF_DONE;)
        done++;
    printf("greatest, added %u times\n", done);
    show("greatest");
}

/* Four stores in an order: the digits of a number to the base 4; 0 if one comes twice. */
static int in_order(unsigned order)
{
    const kept_store *stores[4] = {&first, &second, &greatest, &letterless};
    unsigned met = 0, at;

    for (at = 0; at < 4; at++)
        met |= 1u << (order >> 2 * at & 3);
    if (met != 15)
        return 0;
    clear();
    for (at = 0; at < 4; at++)
        if (add(stores[order >> 2 * at & 3]))
            puts("refused in another order");
    return 1;
}

static void any_order(void)
{
    static uint8_t same[MF_FIGURES_BYTES];
    unsigned order, orders = 0;

    in_order(0xE4);
    show("four stores");
    memcpy(same, shelf, sizeof same);
    for (order = 0; order < 256; order++) {
        if (!in_order(order))
            continue;
        orders++;
        if (memcmp(same, shelf, sizeof same))
            printf("other figures in order %u\n", order);
    }
    printf("%u orders\n", orders);
}

/* ---- figures that something else wrote ---- */

/* Numbers that are not looked at, or within their bounds, are taken as they are. */
static void taken(void)
{
    static const uint64_t none[] = {0, 5, 4, 0, 10, 99, 77};
    static const uint64_t two[] = {2, 0, 0, 20, 0, 0, 0};
    static const uint64_t wide[] = {0, 0, (uint64_t)1 << 40, (uint64_t)1 << 40, 0, 1, 1};
    static const uint64_t lacking[] = {606, 1, 2, 1, 3, 99, 77};
    static const uint64_t narrow[] = {0, 0, 1, 1, 0, 0, 0};

    clear();
    put_number(0, 1);
    put_figures(66, none); /* a sum, dots and a least width without a character */
    put_figures(65, two);  /* no least width yet */
    put_figures(90, lacking);
    answer("numbers within the bounds", add(&first));
    show("after them");
    clear();
    put_figures(66, wide); /* no stores so far: widths, mean and rest may be anything */
    put_figures(67, narrow);
    put_figures(255, wide);
    put_figures(254, wide);
    answer("numbers without a bound", add(&first));
    show("after them");
}

static const uint64_t of_one[] = {606, (uint64_t)606 * 262144, (uint64_t)606 * 32767};
static const uint32_t bounded[] = {MF_FIGURE_COUNT, MF_FIGURE_DOTS, MF_FIGURE_SUM};
static const char *const bound_names[] = {"count", "dots", "sum"};

/* What is answered where a number of a code is this one. */
static uint32_t with_number(uint64_t stores, uint32_t code, uint32_t which, uint64_t number_)
{
    clear();
    put_number(0, stores);
    put_figure(code, which, number_);
    return add(&first);
}

/* At its bound each number is taken, one more is not: of every code, whether the store has it. */
static void bound(uint64_t stores, unsigned of)
{
    uint64_t most = stores * of_one[of];
    unsigned at = 0, above = 0;
    uint32_t code;

    for (code = 0; code <= MF_CODE_MAX; code++) {
        at += with_number(stores, code, bounded[of], most) == MF_DONE;
        above += with_number(stores, code, bounded[of], most + 1) == MF_OUT_OF_RANGE;
    }
    printf("stores %lu, %s %lu: %u codes taken, one more: %u refused\n", (unsigned long)stores,
           bound_names[of], (unsigned long)most, at, above);
}

static void bounds(void)
{
    static const uint64_t stores[] = {0, 1, 2, 63};
    unsigned at;

    for (at = 0; at < 4 * 3; at++)
        bound(stores[at / 3], at % 3);
    /* numbers of which the lower half, or the lower byte, is within the bound */
    for (at = 0; at < 3; at++) {
        answer("2 to the 32nd", with_number(1, 65, bounded[at], (uint64_t)1 << 32));
        answer("2 to the 63rd", with_number(1, 65, bounded[at], (uint64_t)1 << 63));
        answer("all ones", with_number(1, 90, bounded[at], UINT64_MAX));
    }
}

/* ---- refusals ---- */

static void how_many_stores(void)
{
    static const uint64_t stores[] = {63, 64, 65, 256, (uint64_t)1 << 32, (uint64_t)1 << 63,
                                      UINT64_MAX};
    unsigned at;

    for (at = 0; at < sizeof stores / sizeof stores[0]; at++) {
        clear();
        put_number(0, stores[at]);
        answer(at == 0 ? "63 stores so far" : "64 and more", add(&first));
    }
    printf("64 and more have numbers within their bounds: %u\n",
           (unsigned)with_number(64, 65, MF_FIGURE_COUNT, 606));
}

static void other_lengths(void)
{
    static const size_t other[] = {0, 8, 56, MF_FIGURES_BYTES - 56, MF_FIGURES_BYTES - 1};
    static uint8_t longer[2 * MF_FIGURES_BYTES], same[sizeof longer];
    unsigned at;

    clear();
    for (at = 0; at < sizeof other / sizeof other[0]; at++)
        answer("too short", add_of(first.bytes, first.length, other[at]));
    answer("one byte longer",
           mf_add_figures(first.bytes, first.length, longer, MF_FIGURES_BYTES + 1));
    answer("twice as long", mf_add_figures(first.bytes, first.length, longer, sizeof longer));
    if (memcmp(longer, same, sizeof longer))
        puts("refused, but the figures are changed");
}

/* What is no store is refused first, whatever else is wrong. */
static void no_store(void)
{
    clear();
    answer("11 bytes", add_of(first.bytes, MF_STORE_MIN - 1, MF_FIGURES_BYTES));
    answer("no bytes", add_of(first.bytes, 0, MF_FIGURES_BYTES));
    answer("65537 bytes", add_of(full.bytes, MF_STORE_MAX + 1, MF_FIGURES_BYTES));
    answer("cut in a character",
           add_of(first.bytes, MF_STORE_MIN + MF_FONT_ROOM + MF_CHARACTER_ROOM, MF_FIGURES_BYTES));
    some = first;
    some.bytes[MF_STORE_MIN + MF_FONT_KEPT_AT - 6] ^= 1; /* the count of the font's characters */
    answer("a wrong count", add(&some));
    answer("and a wrong length", add_of(some.bytes, some.length, MF_FIGURES_BYTES - 1));
    put_number(0, 64);
    answer("and the 65th", add(&some));
    put_number(0, 0);
    put_figure(65, MF_FIGURE_COUNT, 1);
    answer("and a count above its bound", add(&some));
    answer("a store, with that count", add(&first));
    put_figure(65, MF_FIGURE_COUNT, 0);
    answer("a store", add(&first));
}

/* ---- the header's functions, and its example ---- */

static void numbers(void)
{
    uint32_t at;

    clear();
    for (at = 0; at < 8; at++)
        shelf[at] = (uint8_t)(at + 1);
    printf("stores of the bytes 1 to 8: %d\n",
           mf_figures_stores(shelf) == ((uint64_t)0x08070605 << 32 | 0x04030201));
    for (at = 0; at < 8; at++)
        shelf[MF_FIGURES_BYTES - 8 + at] = (uint8_t)(at + 1);
    printf("rest of code 255: %d\n",
           mf_figure(shelf, 255, MF_FIGURE_REST) == ((uint64_t)0x08070605 << 32 | 0x04030201));
    memset(shelf, 1, MF_FIGURES_BYTES);
    printf("code 256 %lu, code 4294967295 %lu, number 7 %lu, number 4294967295 %lu\n",
           number(256, 0), number(4294967295u, 0), number(65, 7), number(65, 4294967295u));
}

static void use(uint32_t code, uint64_t mean)
{
    printf("example: code %u, mean %lu\n", (unsigned)code, (unsigned long)mean);
}

/* The header's example, which tests/header holds equal to it. */
static int example(const uint8_t *const *stores, const size_t *lengths, size_t count)
{
    size_t at;

    {
    static uint8_t figures[MF_FIGURES_BYTES];
    uint32_t code;
    for (at = 0; at < count; at++)
        if (mf_add_figures(stores[at], lengths[at], figures, sizeof figures) != MF_DONE)
            return 0;
    for (code = 0; code <= MF_CODE_MAX; code++)
        if (mf_figure(figures, code, MF_FIGURE_COUNT) != 0)
            use(code, mf_figure(figures, code, MF_FIGURE_MEAN));
    }
    return 1;
}

static void try_example(void)
{
    const uint8_t *const stores[] = {first.bytes, second.bytes};
    const size_t both[] = {first.length, second.length};

    printf("example: %d\n", example(stores, both, 2));
}

/* ---- by chance ---- */

static uint64_t state = 88172645463325252u;
static unsigned met[3], short_of_data; /* characters, by class */

static unsigned chance(unsigned below)
{
    state ^= state << 13;
    state ^= state >> 7;
    state ^= state << 17;
    return (unsigned)((state >> 11) % below);
}

/* The runs of a row; answers the bytes, of which the last may be beyond what is sent. */
static size_t chance_row(uint8_t *to, unsigned width)
{
    size_t length = 1;
    unsigned left = width, run;

    to[0] = (uint8_t)(chance(3) ? 0 : chance(6));
    while (left > 0) {
        run = chance(4) ? chance(20) : chance(256);
        run = run < left ? run : left < 255 ? left : 255;
        to[length++] = (uint8_t)run;
        left -= run;
    }
    return length;
}

/* So many rows in runs; answers their bytes. */
static size_t chance_rows(uint8_t *to, unsigned width, unsigned rows)
{
    size_t length = 0;

    while (rows--)
        length += chance_row(to + length, width);
    return length;
}

static size_t chance_bytes(uint8_t *to, size_t length)
{
    size_t at;

    for (at = 0; at < length; at++)
        to[at] = (uint8_t)chance(256);
    return length;
}

/* A character of either class, every fourth without its last data. */
static void send_by_chance(uint32_t font)
{
    unsigned class_ = 1 + chance(2), width = 1 + chance(60), height = 1 + chance(12);
    size_t length = class_ == 1 ? chance_bytes(block + 16, mf_picture_bytes(width, height))
                                : chance_rows(block + 16, width, height);

    if (chance(4) == 0) {
        length = chance((unsigned)length);
        short_of_data++;
    }
    descriptor(class_, width, height, (int)chance(65536));
    met[class_] += mf_download_character(some.bytes, some.length, block, 16 + length, font,
                                         chance(8) ? 60 + chance(10) : chance(256)).refusal == 0;
}

static void fill_by_chance(void)
{
    unsigned fonts = chance(6), letters;

    some.name = "some";
    some.length = MF_STORE_MIN + 1000 + chance(3000);
    fresh(&some);
    while (fonts--) {
        if (mf_room_left(some.bytes, some.length) < MF_FONT_ROOM)
            return;
        put_font(&some, fonts);
        for (letters = chance(12); letters > 0; letters--)
            send_by_chance(fonts);
    }
}

/* The same figures, made of numbers. */
static void put_drawn(const drawn_figures *drawn)
{
    uint32_t code;

    put_number(0, drawn->stores);
    for (code = 0; code <= MF_CODE_MAX; code++)
        put_figures(code, drawn->of[code]);
}

/* A collection begins with widths, means and rests that are not looked at, every second one. */
static void begin_by_chance(drawn_figures *drawn)
{
    uint32_t code;

    memset(drawn, 0, sizeof *drawn);
    for (code = chance(2) * 256; code <= MF_CODE_MAX; code++) {
        drawn->of[code][MF_FIGURE_LEAST] = chance(60);
        drawn->of[code][MF_FIGURE_GREATEST] = chance(60);
        drawn->of[code][MF_FIGURE_MEAN] = chance(9);
        drawn->of[code][MF_FIGURE_REST] = chance(9);
    }
    clear();
    put_drawn(drawn);
}

/* A store raises no count by more than its length allows. */
static void raised(const uint8_t *earlier)
{
    uint64_t most = (some.length - 12) / 108;
    uint32_t code;

    for (code = 0; code <= MF_CODE_MAX; code++)
        if (mf_figure(shelf, code, MF_FIGURE_COUNT) - mf_figure(earlier, code, MF_FIGURE_COUNT) >
            most)
            printf("code %u has more characters than %lu bytes hold\n", (unsigned)code,
                   (unsigned long)some.length);
}

/* Adds a store by chance to the figures, and by drawing. */
static int same_by_drawing(drawn_figures *drawn)
{
    static uint8_t added[MF_FIGURES_BYTES];
    uint32_t refusal;

    fill_by_chance();
    refusal = add(&some);
    raised(before + GUARD);
    memcpy(added, shelf, sizeof added);
    drawn_add(drawn, some.bytes, some.length);
    put_drawn(drawn);
    return refusal == MF_DONE && memcmp(added, shelf, sizeof added) == 0;
}

static void by_chance(unsigned collections)
{
    static drawn_figures drawn;
    unsigned at, wrong = 0;

    for (at = 0; at < collections * 16; at++) {
        if (at % 16 == 0)
            begin_by_chance(&drawn);
        wrong += !same_by_drawing(&drawn);
    }
    printf("by chance: %u stores in %u collections, %u not as drawn\n", at, collections, wrong);
    if (met[1] < 50 * collections || met[2] < 50 * collections || short_of_data < 20 * collections)
        printf("too few characters: %u, %u; incomplete %u\n", met[1], met[2], short_of_data);
}

/* ---- */

static int write_store(const char *name)
{
    const kept_store *const stores[] = {&first, &second, &empty, &letterless, &greatest, &full};
    size_t at;

    for (at = 0; at < sizeof stores / sizeof stores[0]; at++)
        if (strcmp(stores[at]->name, name) == 0)
            return fwrite(stores[at]->bytes, 1, stores[at]->length, stdout) != stores[at]->length ||
                   fclose(stdout);
    return 2;
}

int main(int count, char **words)
{
    fill_all();
    if (count > 1)
        return write_store(words[1]);
    alone(&first);
    alone(&second);
    alone(&empty);
    alone(&letterless);
    alone(&greatest);
    alone(&full);
    together();
    sixty_four();
    any_order();
    taken();
    bounds();
    how_many_stores();
    other_lengths();
    no_store();
    numbers();
    try_example();
    by_chance(10);
    return 0;
}
