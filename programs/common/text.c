#define _POSIX_C_SOURCE 200809L
#include "text.h"

#include "kept.h"
#include "marlinfold.h"
#include "message.h"

#include <iconv.h>
#include <langinfo.h>
#include <locale.h>
#include <stdlib.h>
#include <string.h>
#include <wchar.h>

/* The symbol sets that iconv(3) knows by a name. The codes 32 to 126 are those of ASCII in all. */
static const struct {
    unsigned number;
    char letter;
    const char *name;
} sets[] = {{8, 'U', "HP-ROMAN8"},   {0, 'U', "ASCII"},       {0, 'N', "ISO-8859-1"},
            {2, 'N', "ISO-8859-2"},  {5, 'N', "ISO-8859-9"},  {6, 'N', "ISO-8859-10"},
            {9, 'N', "ISO-8859-15"}, {10, 'N', "ISO-8859-5"}, {11, 'N', "ISO-8859-6"},
            {12, 'N', "ISO-8859-7"}, {7, 'H', "ISO-8859-8"},  {10, 'U', "CP437"},
            {12, 'U', "CP850"},      {17, 'U', "CP852"},      {26, 'U', "CP775"},
            {9, 'T', "CP857"},       {3, 'R', "CP866"},       {19, 'U', "CP1252"},
            {9, 'E', "CP1250"},      {9, 'R', "CP1251"},      {9, 'G', "CP1253"},
            {5, 'T', "CP1254"},      {19, 'L', "CP1257"}};

const char *encoding_name(uint32_t symbol_set)
{
    size_t at;

    for (at = 0; at < sizeof sets / sizeof *sets; at++)
        if (MF_SYMBOL_SET(sets[at].number, sets[at].letter) == symbol_set)
            return sets[at].name;
    return NULL;
}

static const char *encoding_of(uint32_t symbol_set)
{
    const char *known = encoding_name(symbol_set);
    char name[16];

    if (known)
        return known;
    name_symbol_set(name, sizeof name, symbol_set);
    stop("symbol set %s has no name that is known here: --bytes takes the text's bytes as codes",
         name);
    return NULL;
}

static text new_text(const char *words)
{
    text made = {NULL, 0};

    made.letters = calloc(strlen(words) + 1, sizeof *made.letters);
    if (!made.letters)
        stop("no memory for the text");
    return made;
}

text text_of_bytes(const char *words)
{
    text made = new_text(words);

    for (; *words; words++) {
        letter *of = &made.letters[made.count++];
        of->code = (unsigned char)*words;
        if (*words > ' ' && *words <= '~')
            of->name[0] = *words;
    }
    return made;
}

/* A letter's code, one byte of the encoding that it is turned into. */
static int turned(iconv_t into, const char *bytes, size_t length)
{
    char in[LETTER_BYTES], out[LETTER_BYTES], *from = in, *to = out;
    size_t left = length, room = sizeof out;

    memcpy(in, bytes, length);
    iconv(into, NULL, NULL, NULL, NULL);
    if (iconv(into, &from, &left, &to, &room) != 0 || left || sizeof out - room != 1)
        return NO_CODE;
    return (unsigned char)out[0];
}

/* The length of the letter that stands here, and its number in Unicode. */
static size_t next_letter(const char *words, unsigned long *unicode)
{
    mbstate_t state;
    wchar_t wide = 0;
    size_t length;

    memset(&state, 0, sizeof state);
    length = mbrtowc(&wide, words, strlen(words), &state);
    if (length == (size_t)-1 || length == (size_t)-2 || length >= LETTER_BYTES)
        stop("the text has byte %u, which is no letter in %s: set LC_ALL to a locale of the "
             "text's encoding, or take its bytes as codes with --bytes",
             (unsigned char)*words, nl_langinfo(CODESET));
#ifdef __STDC_ISO_10646__
    *unicode = (unsigned long)wide;
#else
    *unicode = 0;
#endif
    return length;
}

text text_of_words(const char *words, uint32_t symbol_set)
{
    const char *encoding = encoding_of(symbol_set);
    text made = new_text(words);
    iconv_t into;

    setlocale(LC_CTYPE, "");
    into = iconv_open(encoding, nl_langinfo(CODESET));
    while (*words) {
        letter *of = &made.letters[made.count++];
        size_t length = next_letter(words, &of->unicode);
        if ((unsigned char)*words < 128 && length == 1)
            of->code = *words;
        else if (into == (iconv_t)-1)
            stop("iconv cannot turn %s into %s; --bytes takes the text's bytes as codes",
                 nl_langinfo(CODESET), encoding);
        else
            of->code = turned(into, words, length);
        if (length > 1 || (*words > ' ' && *words <= '~'))
            memcpy(of->name, words, length);
        words += length;
    }
    if (into != (iconv_t)-1)
        iconv_close(into);
    return made;
}
