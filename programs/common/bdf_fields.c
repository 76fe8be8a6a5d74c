#include "bdf_fields.h"

#include "marlinfold.h"
#include "text.h"

#include <stdio.h>
#include <string.h>

const carried_field carried[CARRIED] = {
    {"_PCL_FORMAT", 0, 2, 0},
    {"_PCL_TYPE", 0, 3, 0},
    {"_PCL_STYLE", 4, 23, 0},
    {"_PCL_CELL_WIDTH", 8, 9, 0},
    {"_PCL_ORIENTATION", 0, 12, 0},
    {"_PCL_SYMBOL_SET", 14, 15, 0},
    {"_PCL_PITCH", 16, 17, 0},
    {"_PCL_PITCH_EXTENDED", 0, 40, 0},
    {"_PCL_HEIGHT", 18, 19, 0},
    {"_PCL_HEIGHT_EXTENDED", 0, 41, 0},
    {"_PCL_X_HEIGHT", 20, 21, 0},
    {"_PCL_WIDTH_TYPE", 0, 22, 1},
    {"_PCL_WEIGHT", 0, 24, 1},
    {"_PCL_TYPEFACE", 26, 25, 0},
    {"_PCL_SERIF_STYLE", 0, 27, 0},
    {"_PCL_QUALITY", 0, 28, 0},
    {"_PCL_PLACEMENT", 0, 29, 1},
    {"_PCL_UNDERLINE_POSITION", 0, 30, 1},
    {"_PCL_UNDERLINE_THICKNESS", 0, 31, 0},
    {"_PCL_TEXT_HEIGHT", 32, 33, 0},
    {"_PCL_TEXT_WIDTH", 34, 35, 0},
    {"_PCL_FIRST_CODE", 36, 37, 0},
    {"_PCL_LAST_CODE", 38, 39, 0},
    {"_PCL_CAP_HEIGHT", 42, 43, 0},
    {"_PCL_MAKER_NUMBER_HIGH", 44, 45, 0},
    {"_PCL_MAKER_NUMBER_LOW", 46, 47, 0}};

long carried_least(const carried_field *of)
{
    return of->is_signed ? -128 : 0;
}

long carried_most(const carried_field *of)
{
    return of->is_signed ? 127 : of->high ? 65535 : 255;
}

long carried_value(const carried_field *of, const uint8_t *header)
{
    if (of->is_signed)
        return mf_signed_byte(header, of->low);
    return (of->high ? 256L * header[of->high] : 0) + header[of->low];
}

void carry(const carried_field *of, uint8_t *header, long value)
{
    if (of->high)
        header[of->high] = (uint8_t)((unsigned long)value >> 8 & 255);
    header[of->low] = (uint8_t)((unsigned long)value & 255);
}

uint32_t usual_delta_x(uint32_t spacing, uint32_t pitch, uint32_t dots)
{
    if (spacing == MF_FIXED)
        return pitch;
    return dots < 8192 ? 4 * dots : 32767;
}

/* ---- symbol sets ---- */

int charset_of_set(uint32_t symbol_set, charset *made)
{
    const char *name = encoding_name(symbol_set);

    if (!name)
        return 0;
    if (strncmp(name, "ISO-8859-", 9) == 0) {
        strcpy(made->registry, "ISO8859");
        strcpy(made->encoding, name + 9);
    } else if (strncmp(name, "CP", 2) == 0) {
        strcpy(made->registry, strlen(name) > 5 ? "MICROSOFT" : "IBM");
        strcpy(made->encoding, name);
    } else if (strncmp(name, "HP-", 3) == 0) {
        strcpy(made->registry, "HP");
        strcpy(made->encoding, name + 3);
    } else {
        strcpy(made->registry, "ISO646.1991");
        strcpy(made->encoding, "IRV");
    }
    return 1;
}

long set_of_charset(const char *registry, const char *encoding)
{
    charset each;
    uint32_t set;

    if (same_word(registry, "ISO10646") && same_word(encoding, "1"))
        return (long)MF_SYMBOL_SET(0, 'N'); /* its first 256 codes are those of ISO 8859-1 */
    for (set = 0; set <= 2047; set++)
        if (charset_of_set(set, &each) && same_word(registry, each.registry) &&
            same_word(encoding, each.encoding))
            return (long)set;
    return -1;
}

/* The next letter of a word, as a capital, without spaces and hyphens before it. */
static char next_capital(const char **word)
{
    char next;

    while (**word == ' ' || **word == '-')
        (*word)++;
    next = **word;
    *word += next != '\0';
    return next >= 'a' && next <= 'z' ? (char)(next - 'a' + 'A') : next;
}

int same_word(const char *a, const char *b)
{
    char capital;

    do {
        capital = next_capital(&a);
        if (capital != next_capital(&b))
            return 0;
    } while (capital);
    return 1;
}

/* ---- turning ---- */

placed turn_placed(placed of, uint32_t quarters)
{
    while (quarters--) {
        placed turned;
        turned.left = of.top - (int32_t)of.height + 1;
        turned.top = -of.left;
        turned.width = of.height;
        turned.height = of.width;
        of = turned;
    }
    return of;
}
