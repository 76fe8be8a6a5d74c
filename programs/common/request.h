/* A request made of options. */
#ifndef REQUEST_H
#define REQUEST_H

#include "arguments.h"
#include "marlinfold.h"

/* What the options gave, in the units of mf_request; NOT_GIVEN where none was. */
typedef struct {
    long symbol_set, spacing, pitch, height, style, weight, typeface, orientation, mode;
} request_words;
extern request_words requested;

/* The rows of a program's table of options; in brackets what holds if one is left out. */
#define REQUEST_OPTIONS \
    {SYMBOL_SET, "--set", "SET", &requested.symbol_set, 0, 2047, \
     "symbol set, as 8U or as its number 277 (8U)"}, \
    {HUNDREDTHS, "--pitch", "CPI", &requested.pitch, 0, 57600, "characters to the inch (10)"}, \
    {FLAG, "--proportional", NULL, &requested.spacing, MF_PROPORTIONAL, 0, \
     "proportional spacing (fixed)"}, \
    {HUNDREDTHS, "--height", "POINTS", &requested.height, 0, 99975, "height (12)"}, \
    {NUMBER, "--style", "N", &requested.style, 0, 1023, "style word, 0 to 1023 (0)"}, \
    {NUMBER, "--weight", "N", &requested.weight, MF_ULTRA_THIN, MF_ULTRA_BLACK, \
     "stroke weight, -7 to 7, where 3 is bold (0)"}, \
    {NUMBER, "--face", "N", &requested.typeface, 0, 65535, "typeface, 0 to 65535 (3)"}, \
    {FLAG, "--landscape", NULL, &requested.orientation, MF_LANDSCAPE, 0, \
     "orientation of the page (portrait)"}, \
    {FLAG, "--reverse-portrait", NULL, &requested.orientation, MF_REVERSE_PORTRAIT, 0, \
     "the same"}, \
    {FLAG, "--reverse-landscape", NULL, &requested.orientation, MF_REVERSE_LANDSCAPE, 0, \
     "the same"}, \
    {NUMBER, "--mode", "N", &requested.mode, 300, 600, \
     "dots to the inch of the page, 300 or 600 (300)"}

/* The request, with what holds where no option was given; stops if the mode is neither 300 nor
 * 600. */
mf_request request_asked(void);

#endif
