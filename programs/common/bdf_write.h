/* A kept font as BDF, the Glyph Bitmap Distribution Format of X11. */
#ifndef BDF_WRITE_H
#define BDF_WRITE_H

#include <stdint.h>
#include <stdio.h>

/* Writes a font of the store in use to an open file, its characters upright whatever its
 * orientation. It must have characters. */
void write_bdf(FILE *to, uint32_t font);

#endif
