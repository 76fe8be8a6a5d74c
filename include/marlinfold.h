/* SPDX-License-Identifier: MIT */
/* Marlinfold: PCL 5 bitmap soft fonts, kept in one lent byte buffer.
 *
 * You lend a buffer of MF_STORE_MIN to MF_STORE_MAX bytes, the store, and make it fresh.
 * Then you download fonts and their characters into it as PCL blocks, or as a whole command
 * stream, ask which font fits a request, and have characters drawn as rows of dots. The
 * library keeps nothing outside the buffers you lend, never allocates, and holds no state
 * between calls.
 *
 * Units and geometry
 *   A font has 300 or 600 dots to the inch. Its pitch, its height and the delta X of its
 *   characters are kept in quarter-dots, quarters of its own dots: 1200 or 2400 to the inch.
 *   Requests are in hundredths of a character per inch and of a point, 1/72 inch: mf_pitch_of,
 *   mf_height_of, mf_pitch_quarter_dots and mf_height_quarter_dots convert.
 *   The cursor x, y, with y down the paper, is a dot on the baseline. A picture's upper left dot is
 *   x + left offset, y - top offset: one of 28 rows that ends on the baseline has top offset 27.
 *   Then the cursor moves: in a fixed font by 256 x pitch + pitch_extended, 256ths of a
 *   quarter-dot, in a proportional one by delta X. Where a font lacks a code, as many lack 32, the
 *   space, the caller moves it by the pitch. What the moves add up to is rounded to dots, not each
 *   move. It moves right in a portrait font, up in a landscape one, left and down in the reverse
 *   ones; their pictures and offsets are turned already. Weight 0 is medium, 3 (MF_BOLD) bold.
 *   In MF_MODE_600 a font of 300 dots to the inch may be chosen: its dots are then twice as wide.
 *   A font of another orientation may be chosen as well. So look at both before drawing.
 *
 * Several files
 *   Fonts of two files may have the same numbers, and in one store the later font replaces the
 *   earlier. Take a store for each file, or number the fonts of one anew: the program
 *   marlinfold-rewrite --renumber adds to the numbers of a file.
 *
 * A line of text from the cursor x, y on, its bytes codes of the font's symbol set, as
 * marlinfold-label sets it. put, a function of yours, places a picture and leaves out what is
 * beyond the page. (marlinfold-text.h sets lines faster, without two checks of the store for each
 * letter.)
 *
 *     int set_line(const uint8_t *file, size_t file_len, const unsigned char *text, long x, long y)
 *     {
 *         static uint8_t store[MF_STORE_MAX], kept[MF_FONT_BYTES], picture[MF_PICTURE_MAX];
 *         mf_request asked = {MF_ROMAN_8, MF_FIXED, 1000,        1200,       0,
 *                             MF_BOLD,    3,        MF_PORTRAIT, MF_MODE_300};
 *         mf_stream_read read;
 *         mf_chosen chosen;
 *         mf_font_fields font;
 *         uint64_t pitch, along = 0;
 *
 *         mf_make_fresh(store, sizeof store);
 *         read = mf_read_stream(store, sizeof store, file, file_len);
 *         chosen = mf_choose_request(store, sizeof store, &asked);
 *         if (read.refusal || read.refused || chosen.refusal)
 *             return 0;
 *         mf_tell_font(store, sizeof store, kept, sizeof kept, chosen.font);
 *         font = mf_font_fields_of(kept);
 *         if (font.orientation != asked.orientation || font.resolution != asked.mode)
 *             return 0;
 *         pitch = 256 * (uint64_t)font.pitch + font.pitch_extended;
 *         for (; *text; text++) {
 *             uint32_t refusal = mf_tell_character(store, sizeof store, kept, sizeof kept,
 *                                                  chosen.font, *text).refusal;
 *             mf_character_fields letter = mf_character_fields_of(kept);
 *             if (refusal) {
 *                 along += pitch;
 *                 continue;
 *             }
 *             mf_draw_picture(store, sizeof store, picture, sizeof picture, chosen.font, *text);
 *             put(picture, letter.width, letter.height,
 *                 x + (long)((along + 512) / 1024) + letter.left, y - letter.top);
 *             along += font.spacing == MF_FIXED ? pitch : 256 * (uint64_t)letter.delta_x;
 *         }
 *         return 1;
 *     }
 *
 * What you may pass
 *   Any numbers, and any bytes in any buffer: what does not fit is refused by a number, never by
 *   a crash, and every call ends.
 *   A pointer is followed by its length. It must be valid for that many bytes (for writing, where
 *   it is not const). For a length of 0 nothing is read or written, but the pointer must still
 *   not be NULL: the functions are compiled for pointers that are never null, and a later
 *   compiler may rely on that. Pass any valid pointer, such as the store's.
 *   The lists of mf_choose_sheet are arrays: their pointers are followed by the number of
 *   entries, and aligned as C aligns such arrays, also for 0 entries.
 *   The buffers that one call gets must not overlap; an empty one overlaps none. The two stores of
 *   mf_choose_from_two may be the same buffer, since both are only read.
 *   Calls on different stores may run in parallel, and so may calls that only look at a store
 *   (those that take it as const; mf_choose_from_two looks at two), each with an output of its
 *   own. A call that changes a store needs it alone.
 *   Always pass the length that the store was made fresh with. A shorter one is mostly refused
 *   (MF_NOT_A_STORE), but where only free room or whole fonts are cut off it may be accepted, as a
 *   store that lacks that room or those fonts. A call that then writes to it can corrupt the
 *   longer one.
 *
 * What comes back
 *   A refusal number, MF_DONE (0) if there is none. After a refusal every other number of the
 *   answer is 0 (save MF_RUN_PAST_ROW, see mf_download_character, and MF_STREAM_BROKEN, see
 *   mf_read_stream), and store and output are unchanged, save after
 *     MF_NO_ROOM from mf_download_character: its font and all the characters of that font are
 *       removed;
 *     MF_STREAM_BROKEN: the commands before the broken place stay done;
 *     MF_OUTPUT_SHORT from mf_salvage_stream: the commands before the stretch that the list has no
 *       room for stay done, and the stretches before it stay in the list.
 *   The checks run in the order given at each call, and the first that fails answers. An output
 *   longer than needed keeps its later bytes.
 *
 * The order of calls
 *   Two downloads or removals for different fonts, neither of them refused whichever comes first,
 *   give in either order the same answers and the same bytes of the store from byte 12 on. The
 *   first 12 bytes, which name the open character, are the same too, unless both are character
 *   blocks: then the later one decides them. One order may be refused where the other is not: a
 *   continuation after an accepted character block for another font (MF_NO_CHARACTER), or a
 *   download for which there is room only after the other call (MF_NO_ROOM, which from
 *   mf_download_character removes the font).
 *
 * What a call costs
 *   Each call on a store checks all of it first: 1 to 40 microseconds for 65,536 bytes, by what
 *   they hold, up to 80 if they are narrow rows of class 2, and most calls take little more.
 *   mf_choose_from_two checks both of its stores. mf_add_figures also goes through all picture
 *   data and takes up to 250 microseconds. mf_choose_sheet, mf_read_stream and mf_salvage_stream
 *   check theirs once, so they are faster than calls for each request or block; but each
 *   continuation of a class 2 character goes through all of that character's data, so that a
 *   megabyte of tiny ones takes seconds. What mf_salvage_stream skips costs time in proportion to
 *   its length. Figures: bench/README.md of the sources.
 *
 * Saving a store
 *   A store may be saved, copied and taken up again as plain bytes, by the same version on any
 *   machine. The first number of MF_VERSION rises when the form of a call or of the store
 *   changes: versions that have it in common take up each other's stores, and so do those of
 *   2.0.0 to 3.1.0, whose calls alone differ. A store with fonts that a version before 2.0.0 made
 *   is not a store any more (MF_NOT_A_STORE), since its font records have 72 or 78 bytes and not
 *   82: have that version write its fonts out, and read the streams into a fresh store, in which
 *   each font takes 10 or 4 bytes more.
 *
 * What drawing needs
 *   At most this many bytes of stack on x86-64, beside what memset and memmove of the C library
 *   take: mf_draw_row 608, mf_draw_picture 704, mf_turn_picture 656. */
#ifndef MARLINFOLD_H
#define MARLINFOLD_H

#include <stddef.h>
#include <stdint.h>

#ifdef __cplusplus
extern "C" {
#endif

#define MF_VERSION "3.1.0"
#define MF_VERSION_NUMBER 30100 /* 10000 x first + 100 x second + third number */

enum mf_refusal {
    MF_DONE = 0,           /* done */
    MF_NOT_A_STORE = 1,    /* not a store as these calls leave it; mf_make_fresh: its length */
    MF_OUT_OF_RANGE = 2,   /* a number out of range */
    MF_BLOCK_LENGTH = 3,   /* the block's length is wrong */
    MF_NOT_TAKEN = 4,      /* format, descriptor size or class not taken */
    MF_FIELD_VALUE = 5,    /* a field's value is not allowed */
    MF_NO_FONT = 6,        /* no such font */
    MF_NO_CHARACTER = 7,   /* no such character, or a continuation not for the open character */
    MF_RUN_PAST_ROW = 8,   /* a run passes the row's end */
    MF_TOO_LARGE = 9,      /* the character is too large */
    MF_NO_ROOM = 10,       /* no room in the store */
    MF_NONE_TO_CHOOSE = 11, /* no font to choose */
    MF_OUTPUT_SHORT = 12,  /* the output is too short */
    MF_STREAM_BROKEN = 13, /* the stream is broken */
    MF_OUTSIDE_PROFILE = 14 /* the font is outside the profile of spine labels */
};

/* Font numbers and codes above these are out of range. */
#define MF_FONT_MAX 32767      /* font numbers are 0..32767 */
#define MF_CODE_MAX 255        /* character codes are 0..255 */
#define MF_SHEET_MAX 64        /* the most requests that one sheet has */
#define MF_COLLECTION_MAX 64   /* the most stores that figures add up */
/* A symbol set by the number and the capital letter of its name: MF_SYMBOL_SET(8, 'U'). */
#define MF_SYMBOL_SET(number, letter) ((uint32_t)(number) * 32 + (uint32_t)(letter) - 64)
#define MF_ROMAN_8 277         /* 8U */
/* As in a header's bytes 13, 12 and 24. */
enum mf_spacing { MF_FIXED = 0, MF_PROPORTIONAL = 1 };
enum mf_orientation {
    MF_PORTRAIT = 0,
    MF_LANDSCAPE = 1,
    MF_REVERSE_PORTRAIT = 2,
    MF_REVERSE_LANDSCAPE = 3
};
enum mf_weight {
    MF_ULTRA_THIN = -7,
    MF_EXTRA_THIN = -6,
    MF_THIN = -5,
    MF_EXTRA_LIGHT = -4,
    MF_LIGHT = -3,
    MF_DEMI_LIGHT = -2,
    MF_SEMI_LIGHT = -1,
    MF_MEDIUM = 0,
    MF_SEMI_BOLD = 1,
    MF_DEMI_BOLD = 2,
    MF_BOLD = 3,
    MF_EXTRA_BOLD = 4,
    MF_BLACK = 5,
    MF_EXTRA_BLACK = 6,
    MF_ULTRA_BLACK = 7
};
/* The resolution that a page is printed in, in dots to the inch. */
enum mf_mode { MF_MODE_300 = 300, MF_MODE_600 = 600 };
/* Which of two stores holds a font. */
enum mf_which { MF_SOFT = 1, MF_CARTRIDGE = 2 };

/* Sizes in bytes. */
#define MF_STORE_MIN 12
#define MF_STORE_MAX 65536
#define MF_FONT_BYTES 68       /* what mf_tell_font copies */
#define MF_CHARACTER_BYTES 16  /* what mf_tell_character copies */
#define MF_BLOCK_MAX 32767     /* the longest block */
#define MF_PICTURE_MAX 32768   /* the largest drawn picture: an output large enough for any */
#define MF_ROW_MAX 2048        /* the longest row: an output large enough for any */
#define MF_SIDE_MAX 16384      /* the greatest width and height, in dots */
#define MF_FIGURES_BYTES 14344 /* the figures of mf_add_figures: 8 and 256 x 56 */
#define MF_STRETCH_BYTES 16    /* one stretch in the list of mf_salvage_stream */

/* A font's record in a store: its length (4 bytes), its kind (2 bytes; a font's is 2), the font's
 * number (2), the count of its characters (2) and the sum of their data bytes (4), low bytes first;
 * then the MF_FONT_BYTES bytes that mf_tell_font copies. */
#define MF_FONT_RECORD_BYTES 82
#define MF_FONT_KEPT_AT 14     /* where those stand in the record */

/* Room that a store needs: 12 bytes, then for each font and each character these, with the
 * character's kept data beside them. A store of 94 bytes takes one font without characters, one
 * of 93 none. mf_room_left says what is left. */
#define MF_FONT_ROOM MF_FONT_RECORD_BYTES
#define MF_CHARACTER_ROOM 26

/* An output large enough for any font written out of a store of this length. */
#define MF_WRITTEN_MAX(store_len) ((size_t)(store_len) + 2048)

/* A list long enough for the stretches that mf_salvage_stream skips in any stream of this length:
 * between two of them stands at least a command of 5 bytes. */
#define MF_LIST_MAX(stream_len) (((size_t)(stream_len) / 6 + 1) * MF_STRETCH_BYTES)

/* The bytes of one row, and of a whole picture, of a character width dots wide and height rows
 * high. */
static inline size_t mf_row_bytes(uint32_t width)
{
    return (size_t)width / 8 + (width % 8 != 0);
}

static inline size_t mf_picture_bytes(uint32_t width, uint32_t height)
{
    return mf_row_bytes(width) * height;
}

/* What a refusal number means, in a few words. */
static inline const char *mf_refusal_name(uint32_t refusal)
{
    switch (refusal) {
    case MF_DONE: return "done";
    case MF_NOT_A_STORE: return "not a store";
    case MF_OUT_OF_RANGE: return "a number out of range";
    case MF_BLOCK_LENGTH: return "block length wrong";
    case MF_NOT_TAKEN: return "format, descriptor size or class not taken";
    case MF_FIELD_VALUE: return "a field's value not allowed";
    case MF_NO_FONT: return "no such font";
    case MF_NO_CHARACTER: return "no such character";
    case MF_RUN_PAST_ROW: return "a run passes the row's end";
    case MF_TOO_LARGE: return "character too large";
    case MF_NO_ROOM: return "no room";
    case MF_NONE_TO_CHOOSE: return "no font to choose";
    case MF_OUTPUT_SHORT: return "output too short";
    case MF_STREAM_BROKEN: return "stream broken";
    case MF_OUTSIDE_PROFILE: return "outside the profile";
    default: return "no refusal of this library";
    }
}

/* ---- what calls answer and take as records ---- */

typedef struct { uint32_t refusal; uint32_t font; } mf_chosen;
/* which: MF_SOFT or MF_CARTRIDGE; place: where the font's record begins in that store, from 0 */
typedef struct { uint32_t refusal, font, which; uint64_t place; } mf_chosen_record;
/* count: the characters of a font, or the data bytes of a character */
typedef struct { uint32_t refusal; uint32_t count; } mf_told;
typedef struct { uint32_t refusal; uint32_t length; } mf_written;
/* row, filled, run: where a run passes the row's end, see mf_download_character; else 0 */
typedef struct { uint32_t refusal, row, filled, run; } mf_downloaded;
/* rule, code: 0 and 0, or the first rule broken and the lowest code that breaks it */
typedef struct { uint32_t refusal; uint32_t rule; uint32_t code; } mf_profile;
typedef struct {
    uint32_t refusal;
    uint64_t done;    /* commands */
    uint64_t refused; /* commands */
    uint64_t place;   /* where it is broken, see mf_read_stream; else 0 */
    /* of the first command that MF_RUN_PAST_ROW refused, see mf_read_stream; else 0: */
    uint32_t row;
    uint32_t filled;
    uint32_t run;
} mf_stream_read;

/* stretches: how many were skipped; done, refused: commands; see mf_salvage_stream */
typedef struct { uint32_t refusal; uint64_t stretches, done, refused; } mf_salvaged;

/* One request of a sheet: the numbers of mf_choose, in its order. */
typedef struct {
    uint32_t symbol_set;  /* 0..2047 */
    uint32_t spacing;     /* MF_FIXED or MF_PROPORTIONAL */
    uint32_t pitch;       /* hundredths of a character per inch, 0..57600 */
    uint32_t height;      /* hundredths of a point, 0..99975 */
    uint32_t style;       /* 0..1023 */
    int32_t weight;       /* MF_ULTRA_THIN .. MF_ULTRA_BLACK, -7..7 */
    uint32_t typeface;    /* 0..65535 */
    uint32_t orientation; /* of the page: MF_PORTRAIT .. MF_REVERSE_LANDSCAPE */
    uint32_t mode;        /* MF_MODE_300 or MF_MODE_600 */
} mf_request;

/* What one request of a sheet gets. */
typedef struct {
    uint32_t font;    /* 0..MF_FONT_MAX; 0 if the request is refused */
    uint32_t refusal; /* MF_DONE, MF_OUT_OF_RANGE or MF_NONE_TO_CHOOSE */
} mf_answer;

/* The library reads and writes these as numbers of 32 and 64 bits at places of its own. A C11
 * or C++11 compiler checks here that it lays them out so. */
#if defined(__cplusplus) && __cplusplus >= 201103L
#define MF_CHECK_LAYOUT(holds) static_assert(holds, "not laid out as the library has it")
#elif !defined(__cplusplus) && defined(__STDC_VERSION__) && __STDC_VERSION__ >= 201112L
#define MF_CHECK_LAYOUT(holds) _Static_assert(holds, "not laid out as the library has it")
#endif
#ifdef MF_CHECK_LAYOUT
#define MF_CHECK_FIELD(type, field, at, bytes) \
    MF_CHECK_LAYOUT(offsetof(type, field) == at && sizeof(((type *)0)->field) == bytes)
MF_CHECK_FIELD(mf_chosen, refusal, 0, 4);
MF_CHECK_FIELD(mf_chosen, font, 4, 4);
MF_CHECK_LAYOUT(sizeof(mf_chosen) == 8);
MF_CHECK_FIELD(mf_chosen_record, refusal, 0, 4);
MF_CHECK_FIELD(mf_chosen_record, font, 4, 4);
MF_CHECK_FIELD(mf_chosen_record, which, 8, 4);
MF_CHECK_FIELD(mf_chosen_record, place, 16, 8);
MF_CHECK_LAYOUT(sizeof(mf_chosen_record) == 24);
MF_CHECK_FIELD(mf_told, refusal, 0, 4);
MF_CHECK_FIELD(mf_told, count, 4, 4);
MF_CHECK_LAYOUT(sizeof(mf_told) == 8);
MF_CHECK_FIELD(mf_written, refusal, 0, 4);
MF_CHECK_FIELD(mf_written, length, 4, 4);
MF_CHECK_LAYOUT(sizeof(mf_written) == 8);
MF_CHECK_FIELD(mf_downloaded, refusal, 0, 4);
MF_CHECK_FIELD(mf_downloaded, row, 4, 4);
MF_CHECK_FIELD(mf_downloaded, filled, 8, 4);
MF_CHECK_FIELD(mf_downloaded, run, 12, 4);
MF_CHECK_LAYOUT(sizeof(mf_downloaded) == 16);
MF_CHECK_FIELD(mf_profile, refusal, 0, 4);
MF_CHECK_FIELD(mf_profile, rule, 4, 4);
MF_CHECK_FIELD(mf_profile, code, 8, 4);
MF_CHECK_LAYOUT(sizeof(mf_profile) == 12);
MF_CHECK_FIELD(mf_stream_read, refusal, 0, 4);
MF_CHECK_FIELD(mf_stream_read, done, 8, 8);
MF_CHECK_FIELD(mf_stream_read, refused, 16, 8);
MF_CHECK_FIELD(mf_stream_read, place, 24, 8);
MF_CHECK_FIELD(mf_stream_read, row, 32, 4);
MF_CHECK_FIELD(mf_stream_read, filled, 36, 4);
MF_CHECK_FIELD(mf_stream_read, run, 40, 4);
MF_CHECK_LAYOUT(sizeof(mf_stream_read) == 48);
MF_CHECK_FIELD(mf_salvaged, refusal, 0, 4);
MF_CHECK_FIELD(mf_salvaged, stretches, 8, 8);
MF_CHECK_FIELD(mf_salvaged, done, 16, 8);
MF_CHECK_FIELD(mf_salvaged, refused, 24, 8);
MF_CHECK_LAYOUT(sizeof(mf_salvaged) == 32);
MF_CHECK_FIELD(mf_request, symbol_set, 0, 4);
MF_CHECK_FIELD(mf_request, spacing, 4, 4);
MF_CHECK_FIELD(mf_request, pitch, 8, 4);
MF_CHECK_FIELD(mf_request, height, 12, 4);
MF_CHECK_FIELD(mf_request, style, 16, 4);
MF_CHECK_FIELD(mf_request, weight, 20, 4);
MF_CHECK_FIELD(mf_request, typeface, 24, 4);
MF_CHECK_FIELD(mf_request, orientation, 28, 4);
MF_CHECK_FIELD(mf_request, mode, 32, 4);
MF_CHECK_LAYOUT(sizeof(mf_request) == 36);
MF_CHECK_FIELD(mf_answer, font, 0, 4);
MF_CHECK_FIELD(mf_answer, refusal, 4, 4);
MF_CHECK_LAYOUT(sizeof(mf_answer) == 8);
#undef MF_CHECK_FIELD
#undef MF_CHECK_LAYOUT
#endif

/* ---- fields of told bytes ---- */

/* A PCL field of two bytes in kept bytes: the high byte comes first. */
static inline uint32_t mf_field(const uint8_t *kept, size_t at)
{
    return (uint32_t)kept[at] << 8 | kept[at + 1];
}

/* The same, signed: offsets and delta X. */
static inline int32_t mf_signed_field(const uint8_t *kept, size_t at)
{
    int32_t field = (int32_t)mf_field(kept, at);
    return field < 32768 ? field : field - 65536;
}

static inline int32_t mf_signed_byte(const uint8_t *kept, size_t at)
{
    return kept[at] < 128 ? kept[at] : kept[at] - 256;
}

/* What mf_tell_font tells. Quarter-dots are of the font's own resolution. */
typedef struct {
    uint32_t format;          /* 0 or 20 */
    uint32_t type;            /* 0: codes 32..127 print, 1: also 160..255, 2: all */
    uint32_t style;           /* posture (0 upright, 1 italic) + 4 x width + 32 x structure */
    uint32_t baseline;        /* dots from the cell's top down to it */
    uint32_t cell_width;      /* dots, along the line */
    uint32_t cell_height;     /* dots, across it */
    uint32_t orientation;     /* MF_PORTRAIT .. MF_REVERSE_LANDSCAPE */
    uint32_t spacing;         /* MF_FIXED or MF_PROPORTIONAL */
    uint32_t symbol_set;      /* MF_SYMBOL_SET */
    uint32_t pitch;           /* quarter-dots, 0..16800 */
    uint32_t height;          /* quarter-dots, 0..10922 */
    uint32_t pitch_extended;  /* 256ths of a quarter-dot beside the pitch */
    uint32_t height_extended; /* the same of the height */
    int32_t weight;           /* MF_ULTRA_THIN .. MF_ULTRA_BLACK */
    uint32_t typeface;        /* as 3 Courier, 4 Helv, 5 TmsRmn, 6 Letter Gothic */
    uint32_t resolution;      /* dots to the inch, 300 or 600 */
    /* The library does not look at these: they are what the font's maker wrote. */
    uint32_t x_height;            /* quarter-dots */
    int32_t width_type;           /* 0 normal, below it condensed, above it expanded */
    uint32_t serif_style;
    uint32_t quality;
    int32_t placement;
    int32_t underline_position;   /* dots from the baseline up to the underline's top row */
    uint32_t underline_thickness; /* dots */
    uint32_t text_height;         /* quarter-dots, the best move from line to line */
    uint32_t text_width;          /* quarter-dots, the average of small letters */
    uint32_t first_code, last_code;
    uint32_t cap_height;
    uint32_t maker_number;        /* the header's own "font number" */
    char name[17];                /* ended by a 0; may hold any bytes before it */
} mf_font_fields;

/* What mf_tell_character tells. */
typedef struct {
    uint32_t class_;      /* 1 plain rows, 2 runs */
    uint32_t orientation; /* the font's */
    int32_t left;         /* dots from the cursor to the right, -16384..16384 */
    int32_t top;          /* dots from the cursor up, the same */
    uint32_t width;       /* dots, 1..MF_SIDE_MAX */
    uint32_t height;      /* rows, 1..MF_SIDE_MAX */
    uint32_t delta_x;     /* quarter-dots, 0..32767 */
} mf_character_fields;

/* The fields of MF_FONT_BYTES told bytes. */
static inline mf_font_fields mf_font_fields_of(const uint8_t *kept)
{
    mf_font_fields font;
    size_t at;
    font.format = kept[2];
    font.type = kept[3];
    font.style = (uint32_t)kept[4] << 8 | kept[23];
    font.baseline = mf_field(kept, 6);
    font.cell_width = mf_field(kept, 8);
    font.cell_height = mf_field(kept, 10);
    font.orientation = kept[12];
    font.spacing = kept[13];
    font.symbol_set = mf_field(kept, 14);
    font.pitch = mf_field(kept, 16);
    font.height = mf_field(kept, 18);
    font.pitch_extended = kept[40];
    font.height_extended = kept[41];
    font.weight = mf_signed_byte(kept, 24);
    font.typeface = (uint32_t)kept[26] << 8 | kept[25];
    font.resolution = mf_field(kept, 64);
    font.x_height = mf_field(kept, 20);
    font.width_type = mf_signed_byte(kept, 22);
    font.serif_style = kept[27];
    font.quality = kept[28];
    font.placement = mf_signed_byte(kept, 29);
    font.underline_position = mf_signed_byte(kept, 30);
    font.underline_thickness = kept[31];
    font.text_height = mf_field(kept, 32);
    font.text_width = mf_field(kept, 34);
    font.first_code = mf_field(kept, 36);
    font.last_code = mf_field(kept, 38);
    font.cap_height = mf_field(kept, 42);
    font.maker_number = mf_field(kept, 44) << 16 | mf_field(kept, 46);
    for (at = 0; at < 16; at++)
        font.name[at] = (char)kept[48 + at];
    font.name[16] = '\0';
    return font;
}

/* The fields of MF_CHARACTER_BYTES told bytes. */
static inline mf_character_fields mf_character_fields_of(const uint8_t *kept)
{
    mf_character_fields character;
    character.class_ = kept[3];
    character.orientation = kept[4];
    character.left = mf_signed_field(kept, 6);
    character.top = mf_signed_field(kept, 8);
    character.width = mf_field(kept, 10);
    character.height = mf_field(kept, 12);
    character.delta_x = mf_field(kept, 14);
    return character;
}

/* A font's pitch in hundredths of a character per inch, as requests have it: with its extended
 * byte, by its resolution, rounded to the nearest; 0 if it is 0. Rounded up, it is just above
 * what the font has, so that a request for it prefers a font with more characters to the inch:
 * ask for 1 less to have this font among those not below. */
static inline uint32_t mf_pitch_of(const mf_font_fields *font)
{
    uint64_t pitch = 256 * (uint64_t)font->pitch + font->pitch_extended;
    uint64_t inch = 256 * 400 * (uint64_t)font->resolution;
    return pitch == 0 ? 0 : (uint32_t)((inch + pitch / 2) / pitch);
}

/* Its height in hundredths of a point, in the same way. What rounding loses, half a hundredth,
 * counts as nothing in choosing. */
static inline uint32_t mf_height_of(const mf_font_fields *font)
{
    uint64_t height = 256 * (uint64_t)font->height + font->height_extended;
    return (uint32_t)((height * (font->resolution == 600 ? 3u : 6u) + 128) / 256);
}

/* The other way, in whole quarter-dots of a resolution (300 or 600), rounded to the nearest: the
 * width of a character if so many hundredths of one fill an inch, 0 for 0; and so many hundredths
 * of a point, as for the move from line to line. */
static inline uint32_t mf_pitch_quarter_dots(uint32_t pitch, uint32_t resolution)
{
    uint64_t inch = 400 * (uint64_t)resolution;
    return pitch == 0 ? 0 : (uint32_t)((inch + pitch / 2) / pitch);
}

static inline uint32_t mf_height_quarter_dots(uint32_t height, uint32_t resolution)
{
    return (uint32_t)(((uint64_t)height * resolution + 900) / 1800);
}

/* Quarter-dots of any font as its dots, rounded to the nearest, halves up. */
static inline uint32_t mf_dots(uint32_t quarter_dots)
{
    return quarter_dots / 4 + (quarter_dots % 4 >= 2);
}

/* ---- the calls ---- */

/* Makes the buffer a fresh store of its whole length, whatever it held: no font, no open
 * character. Every later call gets the same whole buffer.
 * Refuses:
 *   MF_NOT_A_STORE   store_len is not MF_STORE_MIN..MF_STORE_MAX */
uint32_t mf_make_fresh(uint8_t *store, size_t store_len);

/* Downloads a font block (a PCL 5 bitmap font header of format 0 or 20) under a font number. The
 * font is kept without characters; a font that had this number is removed first with all its
 * characters.
 * A format 0 header has 64 bytes and is of 300 dots to the inch. A format 20 header has 68, the
 * last four of them its X and Y resolution (64, 66): both 300 or both 600.
 * Kept are these 64 or 68 bytes, with descriptor size 64 or 68, byte 5 zero, and pitch (16) and
 * height (18) cut to 16800 and 10922. Their extended bytes (40 for the pitch, 41 for the height)
 * are kept as sent, save that the one of a field that was cut is made 0. A font of format 0 is
 * kept with resolutions 300 and 300 after its 64 bytes.
 * Refuses, in this order (the numbers in brackets are the fields' places in the block):
 *   MF_NOT_A_STORE   not a store
 *   MF_OUT_OF_RANGE  font is above MF_FONT_MAX
 *   MF_BLOCK_LENGTH  block_len is not 64..MF_BLOCK_MAX, in format 20 not 68..MF_BLOCK_MAX
 *   MF_NOT_TAKEN     the format (2) is not 0 or 20, or the descriptor size (0) not
 *                    64..block_len, in format 20 not 68..block_len
 *   MF_FIELD_VALUE   the type (3) is not 0..2, the style word (4 high, 23 low) above 1023, the
 *                    cell width (8) or height (10) 0, the baseline (6) not below the cell
 *                    height, the orientation (12) not 0..3, the spacing (13) not 0 or 1, the
 *                    symbol set (14) above 2047, the stroke weight (24, signed) not -7..7, or
 *                    the resolutions not 300 and 300 or 600 and 600
 *   MF_NO_ROOM       no room for MF_FONT_ROOM bytes, the removed font's counted as free; the
 *                    store is as it was, with that font */
uint32_t mf_download_font(uint8_t *store, size_t store_len,
                          const uint8_t *block, size_t block_len,
                          uint32_t font);

/* Downloads a character block under a kept font's number and a code.
 * A first block (byte 1 is 0) replaces a character of that code. Kept are its 16 bytes with byte
 * 5 zero and a negative delta X (14) made 0, then its data up to a complete picture. If the
 * picture is not complete yet, the character is the open one from now on; else none is open.
 * A continuation (byte 1 is not 0) adds its data, from byte 2 on, to the open character, which
 * must be the one named. Completing it closes it; so does removing it.
 * Data of class 2 are rows: a byte that says how many times more the row is drawn, then its runs,
 * white and black in turn, a byte each, until they fill the width. MF_RUN_PAST_ROW comes with
 * three numbers that say where they are bad; in every other answer these are 0:
 *   row     the picture's row that is being read, counted from 0 at the top. A row that is drawn
 *           several times counts that often; a bad one is the first of the rows that it would
 *           make. In a continuation too it is counted from the picture's top.
 *   filled  the dots of that row that its runs so far have filled
 *   run     the run that does not fit, its byte: filled + run is above the width
 * A picture 10 dots wide and 4 rows high with the data 1 10 0 4 7 is refused with row 2, filled 4
 * and run 7: the row 1 10 is drawn twice, as rows 0 and 1; then the row 0 4 7 has runs of 4 and
 * of 7 dots, which are 11. With tell a function of yours:
 *
 *     mf_downloaded sent =
 *         mf_download_character(store, sizeof store, block, block_len, font, code);
 *     if (sent.refusal == MF_RUN_PAST_ROW)
 *         tell(sent.row, sent.filled, sent.run);
 *
 * Refuses, in this order:
 *   MF_NOT_A_STORE   not a store
 *   MF_OUT_OF_RANGE  font is above MF_FONT_MAX, or code above MF_CODE_MAX
 *   MF_BLOCK_LENGTH  block_len is not 2..MF_BLOCK_MAX
 *   MF_NO_FONT       no font of this number
 *   MF_NOT_TAKEN     byte 0 is not 4
 * a first block then
 *   MF_BLOCK_LENGTH  block_len is below 16
 *   MF_NOT_TAKEN     the descriptor size (2) is not 14, or the class (3) not 1 or 2
 *   MF_FIELD_VALUE   the orientation (4) is not the font's, the left (6) or top (8) offset not
 *                    -16384..16384, or the width (10) or height (12) not 1..MF_SIDE_MAX
 *   MF_TOO_LARGE     mf_picture_bytes(width, height) is above MF_PICTURE_MAX
 * a continuation then
 *   MF_NO_CHARACTER  the character named is not the open one
 * and both then
 *   MF_RUN_PAST_ROW  in data of class 2, a run passes the row's end before all rows are drawn
 *   MF_TOO_LARGE     the kept data would be more than 32768 bytes
 *   MF_NO_ROOM       no room for MF_CHARACTER_ROOM bytes and the data, what is replaced counted
 *                    as free: the font is removed with all its characters */
mf_downloaded mf_download_character(uint8_t *store, size_t store_len,
                                    const uint8_t *block, size_t block_len,
                                    uint32_t font, uint32_t code);

/* Removes a font with all its characters.
 * Refuses, in this order:
 *   MF_NOT_A_STORE   not a store
 *   MF_OUT_OF_RANGE  font is above MF_FONT_MAX
 *   MF_NO_FONT       no font of this number */
uint32_t mf_remove_font(uint8_t *store, size_t store_len, uint32_t font);

/* Removes one character.
 * Refuses, in this order:
 *   MF_NOT_A_STORE   not a store
 *   MF_OUT_OF_RANGE  font is above MF_FONT_MAX, or code above MF_CODE_MAX
 *   MF_NO_FONT       no font of this number
 *   MF_NO_CHARACTER  the font has no character of this code */
uint32_t mf_remove_character(uint8_t *store, size_t store_len,
                             uint32_t font, uint32_t code);

/* Answers the number of the font that fits best: the one left by these steps, each among the
 * fonts that the one before leaves.
 *   1. the symbol set asked for, else Roman-8
 *   2. the spacing asked for, else the other
 *   3. of fixed fonts, those with the fewest characters to the inch that are not below the
 *      number asked for; if all are below it, those with the most
 *   4. the nearest height; 25 hundredths of a point off or less count as none
 *   5. the style, if any has it
 *   6. the weight; else, for 0 or more, the next thicker, failing that the nearest thinner; for
 *      less than 0, the next thinner, failing that the nearest thicker
 *   7. the typeface, if any has it
 *   8. in MF_MODE_600 the fonts of 600 dots to the inch, if any is left
 *   9. the orientation, if any has it
 *  10. the lowest number
 * In MF_MODE_300 the fonts of 600 dots to the inch take no part: for every step it is as if they
 * were not there.
 * A font's pitch is the width of a character. Compared are, of its fields, 256 x pitch +
 * pitch_extended and 256 x height + height_extended, twice these for a font of 300 dots to the
 * inch: the greater the first, the fewer characters to the inch. Pitch 70 with 150 is 17 of them
 * at 300 dots to the inch, and so is 141 with 44 at 600.
 *   symbol_set   0..2047
 *   spacing      MF_FIXED or MF_PROPORTIONAL
 *   pitch        hundredths of a character per inch, 0..57600
 *   height       hundredths of a point, 0..99975
 *   style        0..1023
 *   weight       MF_ULTRA_THIN .. MF_ULTRA_BLACK, -7..7
 *   typeface     0..65535
 *   orientation  of the page: MF_PORTRAIT .. MF_REVERSE_LANDSCAPE, 0..3
 *   mode         of the printer: MF_MODE_300 or MF_MODE_600, 300 or 600
 * Refuses, in this order:
 *   MF_NOT_A_STORE     not a store
 *   MF_OUT_OF_RANGE    a number of the request is not in its range
 *   MF_NONE_TO_CHOOSE  no font that takes part has the set asked for or Roman-8 */
mf_chosen mf_choose(const uint8_t *store, size_t store_len,
                    uint32_t symbol_set, uint32_t spacing, uint32_t pitch,
                    uint32_t height, uint32_t style, int32_t weight,
                    uint32_t typeface, uint32_t orientation, uint32_t mode);

/* The same for a request in one record. */
static inline mf_chosen mf_choose_request(const uint8_t *store, size_t store_len,
                                          const mf_request *request)
{
    return mf_choose(store, store_len, request->symbol_set, request->spacing, request->pitch,
                     request->height, request->style, request->weight, request->typeface,
                     request->orientation, request->mode);
}

/* Chooses among the fonts of two stores, soft fonts and a cartridge dump in store form. Answers
 * the font's number, which of the two holds it, and where its record begins there.
 * The steps are those of mf_choose, each looking at the fonts of both stores together, with one
 * more after 8, the resolution, and before 9, the orientation:
 *      the fonts of the soft store, if any is left
 * So a soft font goes before one of the cartridge that is as good up to the resolution, also where
 * the other has the orientation or a lower number; but the symbol set asked for in the cartridge
 * goes before Roman-8 in the soft store. Fonts of one number in both stores are two fonts.
 * The nine numbers of the request have the ranges of mf_choose, and MF_MODE_300 leaves out the
 * fonts of 600 dots to the inch in both stores. Each store has a length of its own, and may be
 * without fonts. Both may be the same buffer: which is then MF_SOFT.
 * mf_record_of makes a pointer to the record of the answer, which has the font's fields. For a
 * bold font of 10 characters to the inch and 12 points, with use a function of yours:
 *
 *     mf_chosen_record chosen =
 *         mf_choose_from_two(soft, sizeof soft, cartridge, cartridge_len, MF_ROMAN_8, MF_FIXED,
 *                            1000, 1200, 0, MF_BOLD, 3, MF_PORTRAIT, MF_MODE_300);
 *     if (chosen.refusal == MF_DONE) {
 *         const uint8_t *store = chosen.which == MF_SOFT ? soft : cartridge;
 *         size_t store_len = chosen.which == MF_SOFT ? sizeof soft : cartridge_len;
 *         const uint8_t *record = mf_record_of(soft, cartridge, chosen);
 *         mf_font_fields font = mf_font_fields_of(record + MF_FONT_KEPT_AT);
 *         if (mf_draw_picture(store, store_len, picture, sizeof picture, chosen.font, 'A')
 *             == MF_DONE)
 *             use(picture, &font);
 *     }
 *
 * Refuses, in this order:
 *   MF_NOT_A_STORE     soft is not a store, or cartridge is not
 *   MF_OUT_OF_RANGE    a number of the request is not in its range
 *   MF_NONE_TO_CHOOSE  no font that takes part, of either store, has the set asked for or
 *                      Roman-8 */
mf_chosen_record mf_choose_from_two(const uint8_t *soft, size_t soft_len,
                                    const uint8_t *cartridge, size_t cartridge_len,
                                    uint32_t symbol_set, uint32_t spacing, uint32_t pitch,
                                    uint32_t height, uint32_t style, int32_t weight,
                                    uint32_t typeface, uint32_t orientation, uint32_t mode);

/* Chooses for a whole sheet: answers[i] becomes what mf_choose answers for requests[i] on this
 * store. The store is checked once for all of them, so that a sheet is much faster than a call
 * for each request.
 * Both counts are of entries, not of bytes. A request with a number out of range
 * (MF_OUT_OF_RANGE), or that no font is there for (MF_NONE_TO_CHOOSE), has this in its own answer
 * alone: the call is done, and the other requests get their fonts. Answers beyond the requests
 * keep their bytes. A sheet of 0 requests is done and writes nothing.
 *
 *     mf_request requests[2] = {
 *         {MF_ROMAN_8, MF_FIXED, 1000, 1200, 0, MF_MEDIUM, 3, MF_PORTRAIT, MF_MODE_300},
 *         {MF_ROMAN_8, MF_PROPORTIONAL, 0, 800, 0, MF_BOLD, 4, MF_PORTRAIT, MF_MODE_600}};
 *     mf_answer answers[2];
 *     if (mf_choose_sheet(store, sizeof store, requests, 2, answers, 2) == MF_DONE
 *         && answers[0].refusal == MF_DONE)
 *         use(answers[0].font);
 *
 * Refuses the sheet as a whole, with every answer left as it was, in this order:
 *   MF_NOT_A_STORE   not a store
 *   MF_OUT_OF_RANGE  request_count is above MF_SHEET_MAX
 *   MF_OUTPUT_SHORT  answer_count is below request_count */
uint32_t mf_choose_sheet(const uint8_t *store, size_t store_len,
                         const mf_request *requests, size_t request_count,
                         mf_answer *answers, size_t answer_count);

/* Copies a font's 68 kept bytes to out, 64 of the header and both resolutions (64, 66), and
 * answers how many characters it has, a number that the store holds beside the font.
 * mf_font_fields_of takes the bytes apart.
 * Refuses, in this order:
 *   MF_NOT_A_STORE   not a store
 *   MF_OUT_OF_RANGE  font is above MF_FONT_MAX
 *   MF_NO_FONT       no font of this number
 *   MF_OUTPUT_SHORT  out_len is below MF_FONT_BYTES */
mf_told mf_tell_font(const uint8_t *store, size_t store_len,
                     uint8_t *out, size_t out_len, uint32_t font);

/* Copies a character's 16 kept bytes to out and answers how many data bytes it has.
 * mf_character_fields_of takes the bytes apart.
 * Rows that no data has come for are drawn white. A character of class 1 is incomplete if it has
 * fewer data bytes than mf_picture_bytes(width, height). Of class 2 the number does not tell:
 *   right after a block of its own that was taken, send a continuation without data, the two
 *     bytes 4 and 1. It changes nothing, and answers MF_DONE if the character is incomplete,
 *     MF_NO_CHARACTER if not. Later MF_NO_CHARACTER says no more than that the character is not
 *     the open one;
 *   mf_check_profile of a fixed font of type 0 answers MF_PROFILE_CODES with the lowest of the
 *     codes 32 to 127 that is missing or incomplete;
 *   else follow its runs in what mf_write_font writes.
 * Refuses, in this order:
 *   MF_NOT_A_STORE   not a store
 *   MF_OUT_OF_RANGE  font is above MF_FONT_MAX, or code above MF_CODE_MAX
 *   MF_NO_FONT       no font of this number
 *   MF_NO_CHARACTER  the font has no character of this code
 *   MF_OUTPUT_SHORT  out_len is below MF_CHARACTER_BYTES */
mf_told mf_tell_character(const uint8_t *store, size_t store_len,
                          uint8_t *out, size_t out_len,
                          uint32_t font, uint32_t code);

/* Draws one row of a character, counted from 0 at the top: mf_row_bytes(width) bytes, highest
 * bit leftmost, 1 is black. Bits beyond the width and rows that no data has come for are 0.
 * Refuses, in this order:
 *   MF_NOT_A_STORE   not a store
 *   MF_OUT_OF_RANGE  font is above MF_FONT_MAX, or code above MF_CODE_MAX
 *   MF_NO_FONT       no font of this number
 *   MF_NO_CHARACTER  the font has no character of this code
 *   MF_OUT_OF_RANGE  row is not below the height
 *   MF_OUTPUT_SHORT  out_len is below mf_row_bytes(width) */
uint32_t mf_draw_row(const uint8_t *store, size_t store_len,
                     uint8_t *out, size_t out_len,
                     uint32_t font, uint32_t code, uint32_t row);

/* Draws all rows, from the top, without gaps: mf_picture_bytes(width, height) bytes.
 * Refuses, in this order:
 *   MF_NOT_A_STORE   not a store
 *   MF_OUT_OF_RANGE  font is above MF_FONT_MAX, or code above MF_CODE_MAX
 *   MF_NO_FONT       no font of this number
 *   MF_NO_CHARACTER  the font has no character of this code
 *   MF_OUTPUT_SHORT  out_len is below mf_picture_bytes(width, height) */
uint32_t mf_draw_picture(const uint8_t *store, size_t store_len,
                         uint8_t *out, size_t out_len,
                         uint32_t font, uint32_t code);

/* Turns a picture clockwise into a second buffer: any rows of dots in the form that
 * mf_draw_picture draws, a whole page as well as a character.
 *   picture  height rows of mf_row_bytes(width) bytes, from the top, without gaps; bits beyond
 *            the width and bytes after the rows are not looked at
 *   out      gets the turned picture, with bits beyond its width 0. A half turn needs
 *            mf_picture_bytes(width, height) bytes; a quarter and three quarters make width rows
 *            of height dots, so they need mf_picture_bytes(height, width), which may be more
 *            than MF_PICTURE_MAX.
 *   width    of the picture before the turn, 1..MF_SIDE_MAX
 *   height   the same
 *   turn     1 a quarter, 2 a half, 3 three quarters
 * It needs no store. Turned by a quarter, the left column becomes the top row, read from the
 * bottom.
 * Refuses, in this order:
 *   MF_OUT_OF_RANGE  turn, width or height is not in its range, or picture_len is below
 *                    mf_picture_bytes(width, height)
 *   MF_OUTPUT_SHORT  out_len is below what the turn needs */
uint32_t mf_turn_picture(const uint8_t *picture, size_t picture_len,
                         uint8_t *out, size_t out_len,
                         uint32_t width, uint32_t height, uint32_t turn);

/* Writes a font with its characters as a command stream and answers its length. Its header has
 * the format that it was downloaded in. Read into a fresh store of the same length, the stream
 * gives the same font again; which character was open isn't carried.
 * Refuses, in this order:
 *   MF_NOT_A_STORE   not a store
 *   MF_OUT_OF_RANGE  font is above MF_FONT_MAX
 *   MF_NO_FONT       no font of this number
 *   MF_OUTPUT_SHORT  out_len is below the stream's length (MF_WRITTEN_MAX never is) */
mf_written mf_write_font(const uint8_t *store, size_t store_len,
                         uint8_t *out, size_t out_len, uint32_t font);

/* The rules of the profile of spine labels, in their order. */
enum mf_profile_rule {
    MF_PROFILE_MET = 0,
    MF_PROFILE_TYPE = 1,      /* the font's type is 0 */
    MF_PROFILE_SPACING = 2,   /* its spacing is fixed */
    MF_PROFILE_CODES = 3,     /* codes 32 to 127 are all there, each complete */
    /* and of every character of the font, also one of another code or incomplete: */
    MF_PROFILE_LEFT = 4,      /* its left offset is at least 0 */
    MF_PROFILE_WIDTH = 5,     /* left offset plus width is at most the cell width */
    MF_PROFILE_HEIGHT = 6,    /* its height is at most the cell height */
    MF_PROFILE_DELTA_X = 7    /* its delta X is the font's pitch field, both as kept */
};

/* Checks whether a font meets that profile, which a bookbinder's machine for spine labels needs.
 * Answers MF_PROFILE_MET and code 0 if it does; else the first rule that is broken, whatever codes
 * break later ones, and the lowest code that breaks it, which is 0 for the type and the spacing. A
 * font that breaks a rule is no refusal: the answer's refusal is MF_DONE.
 * Refuses, in this order:
 *   MF_NOT_A_STORE   not a store
 *   MF_OUT_OF_RANGE  font is above MF_FONT_MAX
 *   MF_NO_FONT       no font of this number */
mf_profile mf_check_profile(const uint8_t *store, size_t store_len, uint32_t font);

/* Writes a font as mf_write_font does, if it meets the profile.
 * Refuses, in this order:
 *   MF_NOT_A_STORE      not a store
 *   MF_OUT_OF_RANGE     font is above MF_FONT_MAX
 *   MF_NO_FONT          no font of this number
 *   MF_OUTSIDE_PROFILE  the font breaks a rule of the profile
 *   MF_OUTPUT_SHORT     out_len is below the stream's length (MF_WRITTEN_MAX never is) */
mf_written mf_write_profiled(const uint8_t *store, size_t store_len,
                             uint8_t *out, size_t out_len, uint32_t font);

/* Reads a command stream into the store:
 *   ESC *c#D    font number         ESC )s#W    and # bytes of a font block
 *   ESC *c#E    code                ESC (s#W    and # bytes of a character block
 * with one to five digits for #, in W at most MF_BLOCK_MAX. Number and code start at 0.
 * Each block has the effect of its own download, so that a character block that finds no room
 * removes its font, and a font block with a number already kept replaces that font with all its
 * characters. A refused one is counted and passed over; a number or code out of range is refused
 * too and changes nothing.
 * Answers the commands done and the commands refused; place is then 0. So MF_DONE does not mean
 * that all was taken: look at refused, which must be 0 too. To learn which commands were refused,
 * and why, make their downloads one by one, as the program marlinfold-fonts does.
 * row, filled and run are those that mf_download_character answers for the first command that it
 * refuses with MF_RUN_PAST_ROW, whatever commands follow, also where the stream is broken later.
 * They are 0 if there is none; run is never 0 if there is one.
 * A stream that was cut between two commands cannot be told from a whole one. Nothing is undone:
 * to be able to go back, keep a copy of the store's bytes. mf_salvage_stream goes on where this
 * call finds the stream broken.
 * Refuses, in this order:
 *   MF_NOT_A_STORE    not a store
 *   MF_STREAM_BROKEN  another byte than ESC where a command should begin, or a command with a
 *                     wrong byte, too large a number of bytes or not all of them. Answers the
 *                     place of the byte that is no ESC, or of the ESC of the wrong command,
 *                     counted from 0, with the counts and the first bad row before it; what
 *                     stands before it stays done */
mf_stream_read mf_read_stream(uint8_t *store, size_t store_len,
                              const uint8_t *stream, size_t stream_len);

/* The number of 8 bytes, low byte first, that begins at a byte of a list or of figures. */
static inline uint64_t mf_number_at(const uint8_t *bytes, size_t at)
{
    uint64_t number = 0;
    size_t left;
    for (left = 8; left > 0; left--)
        number = number << 8 | bytes[at + left - 1];
    return number;
}

/* Reads a stream as mf_read_stream does, and goes on past its torn places: for a file that was
 * damaged, or of which parts are lost.
 * Where mf_read_stream would stop with MF_STREAM_BROKEN, bytes are skipped: from the place that it
 * would answer up to the first later place where a whole ESC *c#D command stands whose number is
 * at most MF_FONT_MAX. That command is read, and all after it, as if the stream began there: the
 * code is 0 until the next ESC *c#E. Such a command counts wherever it stands, also inside the
 * broken command or by chance in picture data. If there is none, the rest of the stream is
 * skipped. What was stored before stays, and the open character stays open.
 * A font that mf_write_font wrote has one ESC *c#D, at its front. So a tear inside a font loses
 * all of its characters from there on: reading goes on with the next font of the stream. Bytes
 * lost inside a block are noticed only at its end: the block is taken with the first bytes of what
 * follows it.
 * Answers how many stretches of bytes were skipped, and the commands done and refused over the
 * whole stream. If no stretch was skipped, the stream is not broken, and the store and both counts
 * are as after mf_read_stream. The row and run of a refused character are not answered.
 * list, apart from store and stream, gets the stretches in the order of the stream, of each the
 * place of its first byte in the stream, counted from 0, and its length, at least 1: two numbers
 * of 8 bytes, low byte first, MF_STRETCH_BYTES in all. mf_stretch_at reads them. Bytes of the list
 * after the last stretch stay as they are. The list may have any length; what is left of it below
 * MF_STRETCH_BYTES is not used. A stream that is not broken needs none, and
 * MF_LIST_MAX(stream_len) bytes are enough for any stream. With tell a function of yours:
 *
 *     mf_salvaged read =
 *         mf_salvage_stream(store, sizeof store, file, file_len, list, sizeof list);
 *     size_t which;
 *     for (which = 0; which < read.stretches; which++)
 *         tell(mf_stretch_at(list, which).place, mf_stretch_at(list, which).length);
 *
 * Refuses, in this order:
 *   MF_NOT_A_STORE   not a store
 *   MF_OUTPUT_SHORT  the list has no room for a stretch. Answers 0 for the other numbers. The list
 *                    is then full, with list_len / MF_STRETCH_BYTES stretches; the commands before
 *                    the stretch that has no room stay done, and nothing after them is read. To
 *                    try again with a longer list, take the store as it was before */
mf_salvaged mf_salvage_stream(uint8_t *store, size_t store_len,
                              const uint8_t *stream, size_t stream_len,
                              uint8_t *list, size_t list_len);

/* A stretch of a stream that was skipped: the place of its first byte, and how many bytes. */
typedef struct { uint64_t place, length; } mf_stretch;

/* A stretch of a list, counted from 0: which is below the stretches that mf_salvage_stream
 * answered. */
static inline mf_stretch mf_stretch_at(const uint8_t *list, size_t which)
{
    mf_stretch stretch;
    stretch.place = mf_number_at(list, which * MF_STRETCH_BYTES);
    stretch.length = mf_number_at(list, which * MF_STRETCH_BYTES + 8);
    return stretch;
}

/* The numbers that figures have of each code, in their order. */
enum mf_figure_number {
    MF_FIGURE_COUNT = 0,    /* the characters of this code, in all fonts of all stores */
    MF_FIGURE_DOTS = 1,     /* the black dots of their pictures */
    MF_FIGURE_LEAST = 2,    /* the least of their widths, in dots */
    MF_FIGURE_GREATEST = 3, /* the greatest of their widths */
    MF_FIGURE_SUM = 4,      /* the sum of their delta X, in quarter-dots */
    MF_FIGURE_MEAN = 5,     /* that sum divided by the count, rounded down */
    MF_FIGURE_REST = 6      /* what the division leaves over, below the count */
};

/* Adds the characters of a store to figures, for a report on a collection of up to
 * MF_COLLECTION_MAX stores, which are handed in one by one, in any order.
 * figures are MF_FIGURES_BYTES bytes of yours, apart from the store. Make all of them 0 before the
 * first store, and let nothing but this call write there. Then they are at any time the figures of
 * the characters of all stores so far together:
 *   bytes 0 to 7  how many stores there are so far: mf_figures_stores reads it
 *   from byte 8   for each code 0..255 the seven numbers of mf_figure_number: mf_figure reads one.
 *                 Those of a code begin at byte 8 + 56 x code.
 * Each number has 8 bytes, low byte first. A code that no character has is 0 in all seven.
 * Black dots are those that mf_draw_picture draws, so that bits beyond the width and repeats below
 * the last row do not count. An incomplete character counts too, with its missing rows white. A
 * store without characters counts as a store, and one that is handed in twice counts twice. Widths
 * and delta X are those that are kept, in each font's own dots: fonts of 300 and of 600 dots to
 * the inch are added up as they are.
 * The figures may be saved after any store, and taken up again as plain bytes on any machine. With
 * use a function of yours:
 *
 *     static uint8_t figures[MF_FIGURES_BYTES];
 *     uint32_t code;
 *     for (at = 0; at < count; at++)
 *         if (mf_add_figures(stores[at], lengths[at], figures, sizeof figures) != MF_DONE)
 *             return 0;
 *     for (code = 0; code <= MF_CODE_MAX; code++)
 *         if (mf_figure(figures, code, MF_FIGURE_COUNT) != 0)
 *             use(code, mf_figure(figures, code, MF_FIGURE_MEAN));
 *
 * If something else wrote there and the call is done, then the codes that the store lacks keep
 * their bytes. To the numbers of the others its characters are added, a least width of 0 counting
 * as none, and their mean and rest become those of the new sum and count, whatever they were. A
 * refusal leaves the figures as they were.
 * Refuses, in this order:
 *   MF_NOT_A_STORE   not a store
 *   MF_OUT_OF_RANGE  figures_len is not MF_FIGURES_BYTES; or there are MF_COLLECTION_MAX stores
 *                    or more so far; or of one of the 256 codes, also one that the store lacks,
 *                    count, dots or sum is above what so many stores can have: 606 characters for
 *                    each store so far, and for each of these 262144 dots and a delta X of 32767 */
uint32_t mf_add_figures(const uint8_t *store, size_t store_len,
                        uint8_t *figures, size_t figures_len);

/* The number that begins at a byte of figures. */
static inline uint64_t mf_figure_at(const uint8_t *figures, size_t at)
{
    return mf_number_at(figures, at);
}

/* How many stores were added to figures so far. */
static inline uint64_t mf_figures_stores(const uint8_t *figures)
{
    return mf_figure_at(figures, 0);
}

/* A number of a code: which is MF_FIGURE_COUNT .. MF_FIGURE_REST. For another number, and for a
 * code above MF_CODE_MAX, it is 0. */
static inline uint64_t mf_figure(const uint8_t *figures, uint32_t code, uint32_t which)
{
    if (code > MF_CODE_MAX || which > MF_FIGURE_REST)
        return 0;
    return mf_figure_at(figures, 8 + 56 * (size_t)code + 8 * (size_t)which);
}

/* ---- along a store ---- */

/* The record of the font that mf_choose_from_two chose from these two stores:
 * MF_FONT_RECORD_BYTES bytes inside the store that holds it. Nothing is copied, so that the pointer
 * is good until that store is changed. After a refusal it is soft, for an empty part of the soft
 * store: none of its bytes is meant. */
static inline const uint8_t *mf_record_of(const uint8_t *soft, const uint8_t *cartridge,
                                          mf_chosen_record chosen)
{
    return (chosen.which == MF_CARTRIDGE ? cartridge : soft) + (size_t)chosen.place;
}

/* The length of the record that begins so many bytes before a store's end, 0 where there is none.
 * A record has its length (4 bytes) and its kind (2) first, low bytes first. */
static inline size_t mf_record_length(const uint8_t *record, size_t left)
{
    if (left < 6)
        return 0;
    return (size_t)record[0] | (size_t)record[1] << 8 | (size_t)record[2] << 16 |
           (size_t)record[3] << 24;
}

/* The lowest number of a kept font from a number on, MF_FONT_MAX + 1 if there is none or it is
 * no store.
 *
 *     for (font = mf_next_font(store, sizeof store, 0); font <= MF_FONT_MAX;
 *          font = mf_next_font(store, sizeof store, font + 1)) */
static inline uint32_t mf_next_font(const uint8_t *store, size_t store_len, uint32_t from)
{
    uint8_t kept[MF_FONT_BYTES];
    size_t at = MF_STORE_MIN, length;
    uint32_t refusal = mf_tell_font(store, store_len, kept, sizeof kept, from).refusal;
    if (refusal == MF_DONE)
        return from;
    if (refusal != MF_NO_FONT)
        return MF_FONT_MAX + 1;
    /* It is a store: fonts stand by rising number, as records of kind 2 with the number next. */
    while ((length = mf_record_length(store + at, store_len - at)) != 0) {
        uint32_t font = (uint32_t)store[at + 6] | (uint32_t)store[at + 7] << 8;
        if (store[at + 4] == 2 && font > from)
            return font;
        at += length;
    }
    return MF_FONT_MAX + 1;
}

/* The bytes after a store's records, which are free; 0 if it is no store. */
static inline size_t mf_room_left(const uint8_t *store, size_t store_len)
{
    uint8_t kept[MF_FONT_BYTES];
    size_t at = MF_STORE_MIN, length;
    if (mf_tell_font(store, store_len, kept, sizeof kept, 0).refusal == MF_NOT_A_STORE)
        return 0;
    while ((length = mf_record_length(store + at, store_len - at)) != 0)
        at += length;
    return store_len - at;
}

#ifdef __cplusplus
}
#endif

#endif
