#include "sheet.h"

#include "kept.h"
#include "letters.h"

#define GAP 8

sheet_field measure_sheet(uint32_t number, uint32_t resolution)
{
    mf_character_fields told;
    sheet_field made = {0, 0, 0, 0, 0, {0}, 0, 0};
    uint32_t code;

    for (code = 0; code <= MF_CODE_MAX; code++) {
        long x, y;
        if (!tell_character(number, code, &told))
            continue;
        x = told.left;
        y = -(long)told.top;
        made.left = x < made.left ? x : made.left;
        made.above = y < made.above ? y : made.above;
        x += (long)told.width;
        y += (long)told.height;
        made.right = x > made.right ? x : made.right;
        made.below = y > made.below ? y : made.below;
        made.lines += !made.used[code / 16];
        made.used[code / 16] = 1;
    }
    made.gap = (long)resolution * GAP / 300;
    made.scale = (long)resolution / 150;
    return made;
}

/* What stands above the characters. */
static void say_caption(char *words, size_t room, uint32_t number, const mf_font_fields *font)
{
    char set[16];

    name_symbol_set(set, sizeof set, font->symbol_set);
    snprintf(words, room, "font %u, set %s, pitch %.2f, height %.2f, weight %d (%s)",
             (unsigned)number, set, mf_pitch_of(font) / 100.0, mf_height_of(font) / 100.0,
             (int)font->weight, weight_name(font->weight));
}

/* Draws a line of sixteen codes with its first code beside it. */
static void draw_line(page *sheet, uint32_t font, const sheet_field *of, uint32_t first, long left,
                      long top)
{
    long wide = of->right - of->left + of->gap, middle = (of->below - of->above) / 2;
    mf_character_fields told;
    uint32_t code;
    char words[8];

    snprintf(words, sizeof words, "%3u", (unsigned)first);
    write_words(sheet, words, of->gap, top + middle - LETTER_HEIGHT * of->scale / 2, of->scale);
    for (code = first; code < first + 16; code++)
        if (tell_character(font, code, &told))
            place(sheet, font, code, &told,
                  left + (long)(code - first) * wide - of->left + told.left,
                  top - of->above - told.top);
}

page draw_sheet(uint32_t number, const mf_font_fields *font, const sheet_field *of)
{
    long letter = LETTER_HEIGHT * of->scale, high = of->below - of->above, line;
    long left = 2 * of->gap + words_width("000", of->scale), top = 3 * of->gap + letter, width;
    char words[120];
    page sheet;

    high = of->gap + (high < letter ? letter : high);
    say_caption(words, sizeof words, number, font);
    width = left + 16 * (of->right - of->left + of->gap);
    if (width < words_width(words, of->scale) + of->gap)
        width = words_width(words, of->scale) + of->gap;
    sheet = new_page(width + of->gap, top + of->lines * high);
    write_words(&sheet, words, of->gap, of->gap, of->scale);
    for (line = 0; line < 16; line++)
        if (of->used[line]) {
            draw_line(&sheet, number, of, (uint32_t)(16 * line), left, top);
            top += high;
        }
    return sheet;
}

/* ---- with a code above each character ---- */

/* A character's field with its code and the gap beside and below it. */
static long coded_width(const sheet_field *of)
{
    long wide = of->right - of->left, code = words_width("000", of->scale);

    return of->gap + (wide > code ? wide : code);
}

static long coded_height(const sheet_field *of)
{
    return of->below - of->above + LETTER_HEIGHT * of->scale + 2 * of->gap;
}

void size_coded_sheet(const sheet_field *of, long *width, long *height)
{
    *width = of->gap + 16 * coded_width(of);
    *height = of->gap + of->lines * coded_height(of);
}

static void draw_coded_line(page *sheet, uint32_t font, const sheet_field *of, uint32_t first,
                            long top)
{
    mf_character_fields told;
    uint32_t code;
    char words[8];

    for (code = first; code < first + 16; code++) {
        long left = of->gap + (long)(code - first) * coded_width(of);
        if (!tell_character(font, code, &told))
            continue;
        snprintf(words, sizeof words, "%u", (unsigned)code);
        write_words(sheet, words, left, top, of->scale);
        place(sheet, font, code, &told, left - of->left + told.left,
              top + LETTER_HEIGHT * of->scale + of->gap / 2 - of->above - told.top);
    }
}

page draw_coded_sheet(uint32_t number, const sheet_field *of)
{
    long width, height, top = of->gap;
    uint32_t line;
    page sheet;

    size_coded_sheet(of, &width, &height);
    sheet = new_page(width, height);
    for (line = 0; line < 16; line++)
        if (of->used[line]) {
            draw_coded_line(&sheet, number, of, 16 * line, top);
            top += coded_height(of);
        }
    return sheet;
}
