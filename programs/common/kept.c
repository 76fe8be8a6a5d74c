#include "kept.h"

#include "loading.h"
#include "message.h"

#include <string.h>

/* The face of one font, the last that was asked about. */
static mft_face *kept;

void forget_kept(void)
{
    mft_free_face(kept);
    kept = NULL;
}

mf_font_fields tell_font(uint32_t number, uint32_t *characters)
{
    uint8_t bytes[MF_FONT_BYTES];
    mf_told told = mf_tell_font(store, sizeof store, bytes, sizeof bytes, number);

    if (told.refusal)
        stop("font %u: %s", (unsigned)number, mf_refusal_name(told.refusal));
    *characters = told.count;
    return mf_font_fields_of(bytes);
}

const mft_face *face_of(uint32_t font)
{
    mft_made made;

    if (kept && mft_face_number(kept) == font)
        return kept;
    forget_kept();
    made = mft_make_face(store, sizeof store, font, NULL, 0);
    if (made.refusal == MFT_NO_MEMORY)
        stop("no memory for a font");
    if (made.refusal)
        refuse("font", made.refusal);
    kept = made.face;
    return kept;
}

size_t bytes_of_font(uint32_t font)
{
    static uint8_t stream[MF_WRITTEN_MAX(MF_STORE_MAX)];
    mf_written written = mf_write_font(store, sizeof store, stream, sizeof stream, font);

    if (written.refusal)
        refuse("font", written.refusal);
    return written.length;
}

int tell_character(uint32_t font, uint32_t code, mf_character_fields *told)
{
    mft_character character;
    int there = mft_tell_code(face_of(font), code, &character);

    if (there)
        *told = character.told;
    return there;
}

const uint8_t *picture_of(uint32_t font, uint32_t code)
{
    mft_character character;

    return mft_tell_code(face_of(font), code, &character) ? character.picture : NULL;
}

int is_incomplete(uint32_t font, uint32_t code)
{
    mft_character character;

    return mft_tell_code(face_of(font), code, &character) && !character.complete;
}

int tell_missing_rows(uint32_t font)
{
    uint32_t code;
    int status = COMPLETE;

    for (code = 0; code <= MF_CODE_MAX; code++)
        if (is_incomplete(font, code)) {
            tell("code %u: incomplete, rows are missing", (unsigned)code);
            status = INCOMPLETE;
        }
    return status;
}

void name_symbol_set(char *to, size_t room, uint32_t set)
{
    if (set % 32 >= 1 && set % 32 <= 26)
        snprintf(to, room, "%u%c", (unsigned)(set / 32), (int)(64 + set % 32));
    else
        snprintf(to, room, "%u", (unsigned)set);
}

void print_symbol_set(FILE *to, uint32_t set)
{
    char name[16];

    name_symbol_set(name, sizeof name, set);
    fputs(name, to);
}

/* The font's own name, if it has one: without the spaces at its end, and with a ? for each
 * byte that cannot be printed. */
static void print_name(FILE *to, const char *name)
{
    size_t length = strlen(name), at;

    while (length && name[length - 1] == ' ')
        length--;
    if (!length)
        return;
    fputs(", \"", to);
    for (at = 0; at < length; at++)
        fputc(name[at] >= ' ' && name[at] <= '~' ? name[at] : '?', to);
    fputc('"', to);
}

const char *weight_name(int32_t weight)
{
    static const char *const names[] = {
        "ultra thin", "extra thin", "thin", "extra light", "light", "demi light", "semi light",
        "medium", "semi bold", "demi bold", "bold", "extra bold", "black", "extra black",
        "ultra black"};
    return names[weight - MF_ULTRA_THIN];
}

const char *orientation_name(uint32_t orientation)
{
    static const char *const names[] = {"portrait", "landscape", "reverse portrait",
                                        "reverse landscape"};
    return names[orientation];
}

void print_font(FILE *to, uint32_t number)
{
    uint32_t characters;
    mf_font_fields font = tell_font(number, &characters);

    fprintf(to, "font %u: set ", (unsigned)number);
    print_symbol_set(to, font.symbol_set);
    fprintf(to, ", %s, pitch %.2f, height %.2f, style %u, weight %d (%s), face %u, ",
            font.spacing == MF_FIXED ? "fixed" : "proportional", mf_pitch_of(&font) / 100.0,
            mf_height_of(&font) / 100.0, (unsigned)font.style, (int)font.weight,
            weight_name(font.weight), (unsigned)font.typeface);
    fprintf(to, "%s, %u dpi, %u character%s", orientation_name(font.orientation),
            (unsigned)font.resolution, (unsigned)characters, characters == 1 ? "" : "s");
    print_name(to, font.name);
}
