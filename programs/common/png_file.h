/* PNG, where the program is built with libpng: with WITH_PNG defined. */
#ifndef PNG_FILE_H
#define PNG_FILE_H

#include "output.h"
#include "page.h"

int can_write_png(void);

/* Writes a page of so many dots to the inch, one bit to a dot. */
void write_png(FILE *to, const page *from, uint32_t resolution);

/* The same to memory, in less time and a little larger. */
void gather_png(gathered *into, const page *from, uint32_t resolution);

#endif
