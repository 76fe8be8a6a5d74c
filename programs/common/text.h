/* Text as codes of a font's symbol set. */
#ifndef TEXT_H
#define TEXT_H

#include <stddef.h>
#include <stdint.h>

#define NO_CODE (-1)
#define LETTER_BYTES 16 /* the most that a letter of any locale has, and a 0 */

typedef struct {
    int code;                /* NO_CODE if the symbol set has none for it */
    char name[LETTER_BYTES]; /* as it is written, empty if it cannot be printed */
    unsigned long unicode;   /* its number there, 0 if that is not known */
} letter;

typedef struct {
    letter *letters;
    size_t count;
} text;

/* The name that iconv(3) has for a symbol set, as ISO-8859-1 for 0N; NULL if none is known here. */
const char *encoding_name(uint32_t symbol_set);

/* Each byte is a code. */
text text_of_bytes(const char *words);

/* Words in the locale's encoding, turned into codes of a symbol set. Stops if the set has no
 * name for iconv(3), or if the words are not of that encoding. */
text text_of_words(const char *words, uint32_t symbol_set);

#endif
