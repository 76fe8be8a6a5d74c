/* Two calls on different fonts in either order, from C: what each answers, where the records end,
 * whether the bytes from 12 on are the same in both orders, and the first record. tests/run and
 * tests/header compare what it prints with either_order.expected, which is worked out from the
 * lengths of the records and the rules of the open mark. */
#include "marlinfold.h"

#include <stdio.h>
#include <stdlib.h>
#include <string.h>

#define LENGTH 1024
#define KEPT 403 /* where the records of the store below end */

static uint8_t before[LENGTH];

/* ---- calls ---- */

typedef enum { FONT_BLOCK, FIRST_BLOCK, CONTINUATION, FONT_REMOVAL, CHARACTER_REMOVAL } kind;

/* Of a first block the height of its picture, which is 8 dots wide, and how many bytes of it, one
 * for each row, it has; of a continuation its bytes alone. */
typedef struct {
    kind what;
    uint32_t font, code;
    unsigned height, bytes;
} call;

/* Four numbers of a character block, and one of the others. */
typedef struct {
    mf_downloaded numbers;
    int has_four;
} answer;

static size_t font_block(uint8_t *to)
{
    memset(to, 0, 64);
    to[1] = 64;
    to[9] = 30;
    to[11] = 50;
    return 64;
}

static size_t character_block(uint8_t *to, const call *made)
{
    const uint8_t head[16] = {4, 0, 14, 1, 0, 0, 0, 0, 0, 0, 0, 8, 0, (uint8_t)made->height, 0, 40};
    const uint8_t more[2] = {4, 1};
    size_t length = made->what == FIRST_BLOCK ? 16 : 2;

    memcpy(to, made->what == FIRST_BLOCK ? head : more, length);
    memset(to + length, (int)made->code, made->bytes);
    return length + made->bytes;
}

static answer make(uint8_t *store, size_t length, const call *made)
{
    uint8_t block[64];
    size_t block_len;
    answer given;

    memset(&given, 0, sizeof given);
    switch (made->what) {
    case FONT_BLOCK:
        block_len = font_block(block);
        given.numbers.refusal = mf_download_font(store, length, block, block_len, made->font);
        break;
    case FONT_REMOVAL:
        given.numbers.refusal = mf_remove_font(store, length, made->font);
        break;
    case CHARACTER_REMOVAL:
        given.numbers.refusal = mf_remove_character(store, length, made->font, made->code);
        break;
    default:
        block_len = character_block(block, made);
        given.numbers =
            mf_download_character(store, length, block, block_len, made->font, made->code);
        given.has_four = 1;
    }
    return given;
}

/* Fonts 2, 7 and 300 of 82 bytes each, and characters of 26 bytes and their data: of font 2 code 65
 * with 3 bytes and 66 with 4, of font 7 code 65 with 2 and 70 with 5, of font 300 code 97 with 1
 * byte of 6, which is open. With the first record 12 + 246 + 29 + 30 + 28 + 31 + 27 = 403. */
static void fill(void)
{
    static const call calls[] = {
        {FONT_BLOCK, 2, 0, 0, 0},   {FIRST_BLOCK, 2, 65, 3, 3}, {FIRST_BLOCK, 2, 66, 4, 4},
        {FONT_BLOCK, 7, 0, 0, 0},   {FIRST_BLOCK, 7, 65, 2, 2}, {FIRST_BLOCK, 7, 70, 5, 5},
        {FONT_BLOCK, 300, 0, 0, 0}, {FIRST_BLOCK, 300, 97, 6, 1},
    };
    size_t at;

    mf_make_fresh(before, sizeof before);
    for (at = 0; at < sizeof calls / sizeof calls[0]; at++)
        if (make(before, sizeof before, &calls[at]).numbers.refusal)
            puts("the store is not filled");
}

/* ---- what is printed ---- */

static void show_call(const call *made)
{
    static const char *const names[] = {"font block", "first block", "continuation",
                                        "font removal", "character removal"};

    printf("%s %u", names[made->what], (unsigned)made->font);
    if (made->what != FONT_BLOCK && made->what != FONT_REMOVAL)
        printf(" code %u", (unsigned)made->code);
}

static void show_answer(const answer *given)
{
    printf("%u", (unsigned)given->numbers.refusal);
    if (given->has_four)
        printf(" %u %u %u", (unsigned)given->numbers.row, (unsigned)given->numbers.filled,
               (unsigned)given->numbers.run);
}

static void show_first_record(const uint8_t *store)
{
    int at;

    for (at = 0; at < MF_STORE_MIN; at++)
        printf(" %u", store[at]);
}

/* After the last record, whose length stands in its first four bytes. */
static unsigned end_of_records(const uint8_t *store, size_t length)
{
    size_t at = MF_STORE_MIN, record = 1;

    while (record && at + 4 <= length) {
        record = store[at] + 256u * store[at + 1] + 65536u * store[at + 2];
        at += record;
    }
    return (unsigned)at;
}

/* The first bytes of the store, in memory of just that length so that valgrind sees what is touched
 * beyond it; then both calls. */
static uint8_t *in_order(size_t length, const call *first, const call *second)
{
    uint8_t *store = (uint8_t *)malloc(length);
    answer one, other;

    if (!store)
        exit(2);
    memcpy(store, before, length);
    one = make(store, length, first);
    other = make(store, length, second);
    show_answer(&one);
    printf(", ");
    show_answer(&other);
    return store;
}

static void compare(const uint8_t *one, const uint8_t *other, size_t length)
{
    unsigned end = end_of_records(one, length), other_end = end_of_records(other, length);

    printf("; records end at %u", end);
    if (end != other_end)
        printf(" and %u", other_end);
    printf(memcmp(one + MF_STORE_MIN, other + MF_STORE_MIN, length - MF_STORE_MIN)
               ? ", from 12 on not equal"
               : ", from 12 on equal");
    if (memcmp(one, other, MF_STORE_MIN) == 0) {
        printf("; first 12 equal:");
        show_first_record(one);
    } else {
        printf("; first 12 not equal:");
        show_first_record(one);
        printf(" and");
        show_first_record(other);
    }
    puts("");
}

/* The answers stand in the order in which the calls are made. */
static void try_both(size_t length, const call *x, const call *y)
{
    uint8_t *one, *other;

    show_call(x);
    printf(", ");
    show_call(y);
    printf(": ");
    one = in_order(length, x, y);
    printf("; the other way round ");
    other = in_order(length, y, x);
    compare(one, other, length);
    free(one);
    free(other);
}

/* ---- pairs ---- */

static void try_all(size_t length, const call pairs[][2], size_t count)
{
    size_t at;

    for (at = 0; at < count; at++)
        try_both(length, &pairs[at][0], &pairs[at][1]);
}

#define TRY(length, pairs) try_all(length, pairs, sizeof pairs / sizeof pairs[0])

/* Each kind beside each kind. */
static void ten_pairs(void)
{
    static const call pairs[][2] = {
        {{FONT_BLOCK, 5, 0, 0, 0}, {FONT_BLOCK, 7, 0, 0, 0}},
        {{FONT_BLOCK, 5, 0, 0, 0}, {FIRST_BLOCK, 2, 65, 6, 6}},
        {{FONT_BLOCK, 2, 0, 0, 0}, {FONT_REMOVAL, 300, 0, 0, 0}},
        {{FONT_BLOCK, 32767, 0, 0, 0}, {CHARACTER_REMOVAL, 7, 70, 0, 0}},
        {{FIRST_BLOCK, 2, 67, 4, 4}, {FIRST_BLOCK, 7, 65, 1, 1}},
        {{FIRST_BLOCK, 7, 66, 5, 2}, {FONT_REMOVAL, 300, 0, 0, 0}},
        {{FIRST_BLOCK, 2, 66, 9, 3}, {CHARACTER_REMOVAL, 300, 97, 0, 0}},
        {{FONT_REMOVAL, 2, 0, 0, 0}, {FONT_REMOVAL, 7, 0, 0, 0}},
        {{FONT_REMOVAL, 300, 0, 0, 0}, {CHARACTER_REMOVAL, 2, 65, 0, 0}},
        {{CHARACTER_REMOVAL, 2, 65, 0, 0}, {CHARACTER_REMOVAL, 300, 97, 0, 0}},
    };
    TRY(LENGTH, pairs);
}

/* Beside the kinds with which it is done in both orders; the second one completes. */
static void continuations(void)
{
    static const call pairs[][2] = {
        {{CONTINUATION, 300, 97, 0, 2}, {FONT_BLOCK, 7, 0, 0, 0}},
        {{CONTINUATION, 300, 97, 0, 5}, {FONT_REMOVAL, 2, 0, 0, 0}},
        {{CONTINUATION, 300, 97, 0, 2}, {CHARACTER_REMOVAL, 7, 65, 0, 0}},
    };
    TRY(LENGTH, pairs);
}

/* The later of two first blocks says what is open. */
static void first_records(void)
{
    static const call pairs[][2] = {
        {{FIRST_BLOCK, 2, 67, 3, 1}, {FIRST_BLOCK, 7, 67, 3, 2}},
        {{FIRST_BLOCK, 2, 67, 3, 1}, {FIRST_BLOCK, 7, 67, 3, 3}},
    };
    TRY(LENGTH, pairs);
}

/* A continuation after a first block of another font, or beside another continuation. */
static void not_open(void)
{
    static const call pairs[][2] = {
        {{CONTINUATION, 300, 97, 0, 2}, {FIRST_BLOCK, 2, 67, 3, 3}},
        {{CONTINUATION, 300, 97, 0, 2}, {FIRST_BLOCK, 2, 67, 3, 2}},
        {{CONTINUATION, 300, 97, 0, 2}, {CONTINUATION, 7, 70, 0, 2}},
    };
    TRY(LENGTH, pairs);
}

/* Room for both to the last byte; then a byte less; then a byte too little for one until the other
 * is removed; then so little that a character block is refused with its font removed, which makes
 * room for the other. */
static void at_the_edge(void)
{
    static const call fonts[][2] = {{{FONT_BLOCK, 5, 0, 0, 0}, {FONT_BLOCK, 6, 0, 0, 0}}};
    static const call removal[][2] = {{{FONT_BLOCK, 5, 0, 0, 0}, {FONT_REMOVAL, 7, 0, 0, 0}}};
    static const call characters[][2] = {{{FIRST_BLOCK, 2, 67, 3, 3}, {FIRST_BLOCK, 7, 67, 3, 3}}};

    TRY(KEPT + 2 * MF_FONT_ROOM, fonts);
    TRY(KEPT + 2 * MF_FONT_ROOM - 1, fonts);
    TRY(KEPT + MF_FONT_ROOM - 1, removal);
    TRY(KEPT + 20, characters);
}

int main(void)
{
    fill();
    ten_pairs();
    continuations();
    first_records();
    not_open();
    at_the_edge();
    return 0;
}
