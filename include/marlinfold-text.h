/* SPDX-License-Identifier: MIT */
/* Marlinfold's text layer: lines of text in a kept font, set as dots on a page.
 *
 * It stands on marlinfold.h, whose words it uses: store, code, quarter-dot, cursor, refusal. Each
 * call of that header checks the whole store, and a letter takes two of them. Here a font is taken
 * out of its store once, as a face: its fields, and of each character the fields and the drawn
 * picture. Then lines are measured and set from the face alone, a letter in far less than a
 * microsecond, and the store may be changed or given back.
 *
 *     int write_line(const uint8_t *store, size_t store_len, uint32_t font, const char *text)
 *     {
 *         static uint8_t dots[200 * 100];
 *         mft_page page = mft_page_of(dots, sizeof dots, 1600, 100, MF_MODE_300);
 *         mft_made made = mft_make_face(store, store_len, font, NULL, 0);
 *         mft_line line;
 *         uint32_t refusal = made.refusal;
 *
 *         if (!refusal) {
 *             line = mft_line_of(made.face, text, strlen(text));
 *             refusal = mft_set_line(made.face, &line, &page, 10, 60);
 *             mft_free_face(made.face);
 *         }
 *         return refusal == MF_DONE;
 *     }
 *
 * What else is here: how much paper a line takes (mft_measure_line); which of its letters a font
 * has, and whether they are complete (mft_cover_line, mft_letter_state); placing any picture
 * (mft_put_picture); and loading a stream into a store with a word on every command, and with the
 * fonts numbered anew (mft_begin_loading, mft_load), past torn places too (mft_salvage).
 * mft_judge_font and mft_judge_character say in words why a block is refused.
 *
 * What you may pass
 *   Any numbers, and any bytes in a store, a stream, a text or a page: what does not fit is
 *   refused by a number, and no number overflows. Pointers must be valid for the lengths that go
 *   with them; where a length is 0 the pointer is not looked at, save for a store's, which
 *   marlinfold.h asks for. Pointers to a face, a line, a page or a loading must not be NULL. What a
 *   call writes must not overlap what it reads.
 *   A face is not changed once it is made: any number of threads may use it at a time. Nothing is
 *   kept outside what you pass, and nothing is allocated but by mft_make_face without memory.
 *
 * What comes back
 *   A refusal number: MF_DONE (0), one of marlinfold.h, or one of those below. A refused call
 *   has written nothing, and its other answers are 0 and NULL, save those of MF_STREAM_BROKEN, see
 *   mft_load. The checks run in the order given at each call.
 *
 * Linking: -lmarlinfold-text -lmarlinfold, by pkg-config marlinfold-text. A face is made with the
 * form of the store, so that both libraries must have the first number of MF_VERSION in common. */
#ifndef MARLINFOLD_TEXT_H
#define MARLINFOLD_TEXT_H

#include "marlinfold.h"

#ifdef __cplusplus
extern "C" {
#endif

/* Refusals beside those of marlinfold.h. */
enum mft_refusal {
    MFT_NO_MEMORY = 101,  /* malloc gave no memory for a face */
    MFT_UNALIGNED = 102,  /* memory for a face that is not aligned for uint64_t */
    MFT_BAD_PAGE = 103,   /* a page's dots_len or row_bytes is too small for its width and height */
    MFT_FINER_FONT = 104  /* a font of 600 dots to the inch for a page of 300 */
};

/* What a refusal number means, in a few words; of marlinfold.h as well. */
static inline const char *mft_refusal_name(uint32_t refusal)
{
    switch (refusal) {
    case MFT_NO_MEMORY: return "no memory";
    case MFT_UNALIGNED: return "memory not aligned";
    case MFT_BAD_PAGE: return "page too large for its dots";
    case MFT_FINER_FONT: return "a font of 600 dots to the inch for a page of 300";
    default: return mf_refusal_name(refusal);
    }
}

/* ---- faces ---- */

/* A font, taken out of its store. The functions below tell what it holds. */
typedef struct mft_face mft_face;

typedef struct { uint32_t refusal; size_t bytes; } mft_sized;
typedef struct { uint32_t refusal; mft_face *face; } mft_made;

/* How many bytes of memory a face of this font takes: below 1 KB, 40 bytes for each character,
 * the bytes of all pictures, and at the end room for the largest character as it is kept, which is
 * used while the face is made. At most 9 MB.
 * Refuses, in this order:
 *   MF_NOT_A_STORE   not a store
 *   MF_OUT_OF_RANGE  font is above MF_FONT_MAX
 *   MF_NO_FONT       no font of this number */
mft_sized mft_face_size(const uint8_t *store, size_t store_len, uint32_t font);

/* Makes a face of a font, with all its characters told and drawn.
 *   memory      yours, aligned for uint64_t as malloc's is, and apart from the store: the face
 *               stands in it, at its beginning, until you use it for something else. Or NULL: then
 *               the face stands in memory of malloc, and mft_free_face gives it back.
 *   memory_len  at least what mft_face_size answers; without memory it is not looked at
 * Refuses, in this order:
 *   MF_NOT_A_STORE   not a store
 *   MF_OUT_OF_RANGE  font is above MF_FONT_MAX
 *   MF_NO_FONT       no font of this number
 *   MFT_UNALIGNED    memory is not aligned for uint64_t
 *   MF_OUTPUT_SHORT  memory_len is below what mft_face_size answers
 *   MFT_NO_MEMORY    malloc gave none */
mft_made mft_make_face(const uint8_t *store, size_t store_len, uint32_t font, void *memory,
                       size_t memory_len);

/* Gives back a face that was made without memory; one that stands in yours, and NULL, are left
 * alone. */
void mft_free_face(mft_face *face);

/* The font's number and fields, and how many characters it has. */
uint32_t mft_face_number(const mft_face *face);
const mf_font_fields *mft_face_font(const mft_face *face);
uint32_t mft_face_count(const mft_face *face);

/* A character of a face. */
typedef struct {
    mf_character_fields told;
    uint32_t data;          /* its kept data bytes, as mf_tell_character answers them */
    uint32_t complete;      /* 1; 0 if rows are missing, which are white in the picture */
    const uint8_t *picture; /* as mf_draw_picture draws it; good as long as the face */
} mft_character;

/* Whether the font has a code, any number. If so, told becomes its character. */
int mft_tell_code(const mft_face *face, uint32_t code, mft_character *told);

/* ---- lines ---- */

/* A line of text. mft_line_of makes one; change what you want otherwise.
 *   codes    a byte for each letter: its code in the font's symbol set
 *   uncoded  NULL, or a byte for each letter: where it is not 0, the symbol set has no code for the
 *            letter, and the line leaves it blank whatever its byte in codes
 *   blank    how far the cursor moves for a letter that the font lacks, in 256ths of a quarter-dot
 *            of the font, 1024 to a dot
 * A cursor that has come MFT_ALONG_MAX dots from its first place stays there, and so do all
 * letters after it. */
typedef struct {
    const uint8_t *codes;
    size_t count;
    const uint8_t *uncoded;
    uint32_t blank;
} mft_line;

#define MFT_ALONG_MAX 2000000

/* Where the width of a blank comes from: the font's pitch; or in a proportional font without a
 * space whose pitch is more than two cells, so that it is that of a page and of no space, the
 * width of n; or, if there is no n, that pitch all the same. */
enum mft_blank_kind { MFT_BLANK_OF_PITCH = 0, MFT_BLANK_OF_N = 1, MFT_BLANK_TOO_WIDE = 2 };
typedef struct { uint32_t kind, width; } mft_blank;

/* What a letter that the font lacks leaves free, if nothing else is asked for. */
mft_blank mft_blank_of(const mft_face *face);

/* A line of these codes, with that blank. The codes are not copied. */
mft_line mft_line_of(const mft_face *face, const void *codes, size_t count);

/* How a letter stands in a font. */
enum mft_state {
    MFT_WHOLE = 0,      /* there, and complete */
    MFT_SPACE = 1,      /* code 32, which the font lacks: a blank is as good */
    MFT_INCOMPLETE = 2, /* there, but rows are missing */
    MFT_LACKING = 3,    /* the font lacks the code: left blank */
    MFT_UNCODED = 4     /* the symbol set has no code for it: left blank */
};

/* How a letter of a line stands, counted from 0; MFT_UNCODED from count on. */
uint32_t mft_letter_state(const mft_face *face, const mft_line *line, size_t at);

/* How many letters of a line stand in each way, and the first that is neither MFT_WHOLE nor
 * MFT_SPACE; count if there is none, and then the line is whole. */
typedef struct { size_t of[MFT_UNCODED + 1]; size_t first; } mft_coverage;
mft_coverage mft_cover_line(const mft_face *face, const mft_line *line);

/* Dots from left up to, not with, right, and from top up to bottom. */
typedef struct { int32_t left, top, right, bottom; } mft_box;

/* What a line takes, in dots from the cursor's first place, which is 0, 0. */
typedef struct {
    uint32_t refusal;
    mft_box ink;    /* every picture whole, and the cursor's first and last place */
    mft_box cell;   /* the same and, across the line, the font's cell: lines of one font that stay
                     * inside it are equally high, with the baseline at one place */
    int32_t x, y;   /* the cursor's last place */
    uint64_t moved; /* how far that is, not rounded: 1024ths of a dot of the font */
} mft_measured;

/* Measures a line on a page of so many dots to the inch.
 * The cursor moves as marlinfold.h says: in a fixed font by the pitch with its extended byte, in a
 * proportional one by delta X, right in a portrait font, up in a landscape one, left and down in
 * the reverse ones; what the moves add up to is rounded. On a page of 600 dots to the inch a font
 * of 300 has dots twice as wide and high; moves are then rounded to the page's dots.
 * Refuses, in this order:
 *   MF_OUT_OF_RANGE  resolution is not MF_MODE_300 or MF_MODE_600
 *   MFT_FINER_FONT   the font has 600 dots to the inch and the page 300 */
mft_measured mft_measure_line(const mft_face *face, const mft_line *line, uint32_t resolution);

/* ---- pages ---- */

/* Dots in rows from the top, as mf_draw_picture and PBM files have them: highest bit leftmost, 1
 * is black. */
typedef struct {
    uint8_t *dots;
    size_t dots_len;     /* at least height x row_bytes */
    size_t row_bytes;    /* from row to row: at least mf_row_bytes(width) */
    uint32_t width, height;
    uint32_t resolution; /* MF_MODE_300 or MF_MODE_600 */
} mft_page;

/* A page whose rows follow each other without gaps. It is not made white. */
static inline mft_page mft_page_of(uint8_t *dots, size_t dots_len, uint32_t width,
                                   uint32_t height, uint32_t resolution)
{
    mft_page page;
    page.dots = dots;
    page.dots_len = dots_len;
    page.row_bytes = mf_row_bytes(width);
    page.width = width;
    page.height = height;
    page.resolution = resolution;
    return page;
}

/* Sets a line with the cursor's first place at x, y of the page, x to the right and y down, each
 * any number. The dots of its letters become black, all others stay as they are; what is beyond
 * the page is left out, and bits beyond its width are not touched.
 * Refuses, in this order:
 *   MFT_BAD_PAGE     row_bytes is below mf_row_bytes(width), or dots_len below height x row_bytes
 *   MF_OUT_OF_RANGE  the page's resolution is not MF_MODE_300 or MF_MODE_600
 *   MFT_FINER_FONT   the font has 600 dots to the inch and the page 300 */
uint32_t mft_set_line(const mft_face *face, const mft_line *line, const mft_page *page, int32_t x,
                      int32_t y);

/* Places a picture with its upper left dot at x, y, in the same way: rows of mf_row_bytes(width)
 * bytes, as mf_draw_picture and mf_turn_picture make them. A dot of it is a dot of the page,
 * whatever the resolution. Bits beyond the width are not looked at.
 * Refuses, in this order:
 *   MFT_BAD_PAGE     as above
 *   MF_OUT_OF_RANGE  picture_len is below mf_picture_bytes(width, height) */
uint32_t mft_put_picture(const mft_page *page, const uint8_t *picture, size_t picture_len,
                         uint32_t width, uint32_t height, int32_t x, int32_t y);

/* ---- streams ---- */

/* What stands at a place of a stream: one of the four commands of mf_read_stream, or why it is
 * none of them. */
enum mft_found {
    MFT_FONT_NUMBER = 0,     /* ESC *c#D */
    MFT_CODE = 1,            /* ESC *c#E */
    MFT_FONT_BLOCK = 2,      /* ESC )s#W and # bytes */
    MFT_CHARACTER_BLOCK = 3, /* ESC (s#W and # bytes */
    MFT_NO_ESC = 4,          /* another byte than ESC */
    MFT_OTHER = 5,           /* ESC, but none of the four */
    MFT_TOO_LONG = 6,        /* a block of more than MF_BLOCK_MAX bytes */
    MFT_CUT_OFF = 7          /* as far as the bytes go it may be one of the four */
};

#define MFT_ESC 27
#define MFT_COMMAND_MAX 32776 /* the longest command: ESC )s, five digits, W and a block */

/* From MFT_NO_ESC on the other fields are 0 and NULL. */
typedef struct {
    uint32_t found;       /* mft_found */
    uint32_t number;      /* of a block its length */
    size_t length;        /* of the command, its block with it */
    const uint8_t *block; /* in the stream; NULL without one */
} mft_command;

/* The command at a place with so many bytes left; of none, MFT_CUT_OFF. */
mft_command mft_command_at(const uint8_t *stream, size_t left);

/* Why a block is refused, in words. */
#define MFT_WHY_BYTES 120
typedef struct {
    uint32_t refusal;        /* MF_DONE if there is nothing against it */
    char why[MFT_WHY_BYTES]; /* the field with its value and what is allowed or expected; else
                              * empty */
} mft_judgement;

#define MFT_NO_HEADER 4 /* the orientation of a font that is not there */

/* Judges a font block, without a store. mf_download_font refuses it with the same number; if
 * MF_DONE, it may still find no room. */
void mft_judge_font(mft_judgement *made, const uint8_t *block, size_t length);

/* Judges a character block for a font of this orientation, or MFT_NO_HEADER.
 * mf_download_character refuses it with the same number; if MF_DONE, it may still refuse a
 * continuation, a run past a row's end, or more data or characters than there is room for. */
void mft_judge_character(mft_judgement *made, const uint8_t *block, size_t length,
                         uint32_t orientation);

/* What is told of a command while a stream is loaded. */
enum mft_kind {
    MFT_TAKEN = 0,    /* done */
    MFT_REPLACES = 1, /* a font block that is about to replace a kept font, which goes with all its
                       * characters; MFT_TAKEN follows */
    MFT_REFUSED = 2   /* refused: nothing was done, save that MF_NO_ROOM for a character block has
                       * removed its font */
};

typedef struct {
    uint32_t kind;       /* mft_kind */
    uint32_t refusal;    /* as mf_download_font or mf_download_character answers it; of a number
                          * or a code, MF_OUT_OF_RANGE or MF_DONE */
    uint64_t place;      /* of the command in the stream, counted from 0 */
    mft_command command; /* its block is good until the callback returns */
    uint32_t font, code; /* as the stream names them; of MFT_FONT_NUMBER and MFT_CODE what they
                          * name, also where that is out of range */
    uint32_t kept_as;    /* the number that the font is kept under; MF_FONT_MAX + 1 if there was
                          * none left for it, MFT_NO_NUMBER if it has got none yet */
    uint32_t characters; /* MFT_REPLACES: of the font that goes; else 0 */
    /* MF_RUN_PAST_ROW: as mf_download_character answers them, and the row's width; else 0 */
    uint32_t row, filled, run, width;
    char why[MFT_WHY_BYTES]; /* MFT_REFUSED: the field, its value and what is allowed; else empty */
} mft_note;

/* A function of yours that is told of commands, with a pointer of yours. It must change neither
 * the store nor the loading. */
typedef void (*mft_tell)(void *with, const mft_note *note);

/* A stream that is being loaded: about 100 KB, so make it static or take it from malloc. Read the
 * first part; the rest is the functions' own. */
typedef struct {
    uint64_t place;         /* of the next command; of the broken place, once it is broken */
    uint64_t done, refused; /* commands, as mf_read_stream counts them */
    uint64_t blocks;        /* those of the done ones that have a block */
    uint32_t broken;        /* 0; MFT_NO_ESC .. MFT_CUT_OFF if the stream is broken there */
    uint32_t next;          /* the number that the next font gets, or MFT_OWN_NUMBERS */

    uint8_t *store;
    size_t store_len;
    mft_tell tell;
    void *with;
    uint32_t number, code, width, fonts;
    uint16_t given[MF_FONT_MAX + 1];
    uint8_t kept[MF_FONT_MAX + 1];
} mft_loading;

#define MFT_OWN_NUMBERS 0xFFFFFFFFu
#define MFT_NO_NUMBER 0xFFFF

/* Begins to load a stream into a store, beside the fonts that it has.
 *   first  MFT_OWN_NUMBERS: each font is kept under the number that the stream gives it. Or
 *          0..MF_FONT_MAX + 1: the fonts are numbered on from here in the order in which the stream
 *          has the first block of each; when no number is left their blocks are refused with
 *          MF_OUT_OF_RANGE. For a second stream hand in next of the first, and no font of one
 *          replaces a font of the other.
 *   tell   is called once for each command that was taken, once for each that was refused, and
 *          before a font is replaced; or NULL
 * Refuses, in this order:
 *   MF_NOT_A_STORE   not a store
 *   MF_OUT_OF_RANGE  first is neither of these */
uint32_t mft_begin_loading(mft_loading *loading, uint8_t *store, size_t store_len, uint32_t first,
                           mft_tell tell, void *with);

typedef struct { uint32_t refusal; size_t taken; } mft_loaded;

/* Loads the next bytes of the stream, and answers how many it took: whole commands. Where last is
 * 0, more bytes follow, and those that it left come again before them; so a piece of
 * MFT_COMMAND_MAX bytes is always long enough. Where last is not 0 a command that is cut off is
 * broken. With own numbers the store becomes what mf_read_stream makes of it; with new ones what it
 * makes of the stream with these numbers. A whole stream without fault, handed in as one piece, is
 * read by mf_read_stream itself, which takes less time.
 *
 *     static mft_loading loading;
 *     uint32_t refusal =
 *         mft_begin_loading(&loading, store, store_len, MFT_OWN_NUMBERS, tell, &count);
 *     if (!refusal)
 *         refusal = mft_load(&loading, stream, stream_len, 1).refusal;
 *
 * Refuses:
 *   MF_STREAM_BROKEN  the stream is broken: loading.place and loading.broken say where and why, and
 *                     nothing is taken any more, unless mft_salvage passes the place; taken are the
 *                     bytes before it, which stay done */
mft_loaded mft_load(mft_loading *loading, const uint8_t *bytes, size_t length, int last);

/* After MF_STREAM_BROKEN: passes the broken place and goes to the first later one where a whole
 * ESC *c#D with a number 0..MF_FONT_MAX stands, also inside a picture's data, or to the end if
 * there is none. mft_load then goes on there as a fresh reading does, and what was stored stays. It
 * takes the bytes that mft_load left, and answers how many it skipped; with last as there. The
 * store and the counts become those of mf_salvage_stream, and the stretch from loading.place before
 * to loading.place after is one of its list. Nothing is told by a note. A loading that is not
 * broken stays as it is, and 0 bytes are taken.
 *
 *     while ((loaded = mft_load(&loading, stream + at, stream_len - at, 1)).refusal) {
 *         at += loaded.taken;
 *         gone = mft_salvage(&loading, stream + at, stream_len - at, 1).taken;
 *         skipped(at, gone);
 *         at += gone;
 *     }
 *
 * Refuses:
 *   MF_STREAM_BROKEN  no such place was found yet and last is 0: hand in the bytes from
 *                     loading.place on with more after them, until it is MF_DONE; pieces of
 *                     MFT_COMMAND_MAX bytes are always long enough */
mft_loaded mft_salvage(mft_loading *loading, const uint8_t *bytes, size_t length, int last);

#ifdef __cplusplus
}
#endif

#endif
