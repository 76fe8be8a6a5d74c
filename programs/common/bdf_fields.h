/* What a PCL font has and BDF has no word for, as properties of a BDF font: the same table for
 * writing and for reading. Their names begin with an underscore, as BDF asks of private ones. */
#ifndef BDF_FIELDS_H
#define BDF_FIELDS_H

#include <stddef.h>
#include <stdint.h>

/* A field of the kept header that a property carries. */
typedef struct {
    const char *property;
    size_t high, low; /* where its bytes stand; high is 0 if it has but one */
    int is_signed;
} carried_field;

enum carried_name {
    CARRIED_FORMAT, CARRIED_TYPE, CARRIED_STYLE, CARRIED_CELL_WIDTH, CARRIED_ORIENTATION,
    CARRIED_SYMBOL_SET, CARRIED_PITCH, CARRIED_PITCH_MORE, CARRIED_HEIGHT, CARRIED_HEIGHT_MORE,
    CARRIED_X_HEIGHT, CARRIED_WIDTH_TYPE, CARRIED_WEIGHT, CARRIED_TYPEFACE, CARRIED_SERIF_STYLE,
    CARRIED_QUALITY, CARRIED_PLACEMENT, CARRIED_UNDERLINE_POSITION, CARRIED_UNDERLINE_THICKNESS,
    CARRIED_TEXT_HEIGHT, CARRIED_TEXT_WIDTH, CARRIED_FIRST_CODE, CARRIED_LAST_CODE,
    CARRIED_CAP_HEIGHT, CARRIED_MAKER_HIGH, CARRIED_MAKER_LOW, CARRIED
};
extern const carried_field carried[CARRIED];

/* The least and the greatest value that the field's bytes hold. */
long carried_least(const carried_field *of);
long carried_most(const carried_field *of);

/* Its value in a header, and the header with that value. */
long carried_value(const carried_field *of, const uint8_t *header);
void carry(const carried_field *of, uint8_t *header, long value);

/* The font's number, its 16 bytes of a name, and the exact delta X of the character whose code
 * follows, where it is not the one that the other fields give. */
#define NUMBER_PROPERTY "_PCL_NUMBER"
#define NAME_PROPERTY "_PCL_NAME"
#define DELTA_X_PROPERTY "_PCL_DELTA_X_"

/* The delta X, in quarter-dots, that a character has without such a property: in a fixed font the
 * font's pitch field, in a proportional one its DWIDTH. */
uint32_t usual_delta_x(uint32_t spacing, uint32_t pitch, uint32_t dots);

/* A symbol set as BDF names it: CHARSET_REGISTRY and CHARSET_ENCODING. */
typedef struct {
    char registry[16], encoding[16];
} charset;

/* 0 if the set has no name. */
int charset_of_set(uint32_t symbol_set, charset *made);

/* The set of such a name, in small or in capital letters, -1 if there is none. */
long set_of_charset(const char *registry, const char *encoding);

/* Whether two words are the same but for capitals, spaces and hyphens. */
int same_word(const char *a, const char *b);

/* A picture's place: dots from the cursor to its left column and up to its top row. */
typedef struct {
    int32_t left, top;
    uint32_t width, height;
} placed;

/* Where it is after so many quarter turns clockwise around the cursor. As many as the number of
 * its orientation make a character stand upright. */
placed turn_placed(placed of, uint32_t quarters);

#endif
