/* UTF-8 in bytes that may be anything. */
#ifndef UTF8_H
#define UTF8_H

#include <stddef.h>

/* How many bytes the character has that begins here, 0 if none does. The bytes end with a 0. */
size_t utf8_length(const unsigned char *at);

/* Its number in Unicode. */
unsigned long utf8_number(const unsigned char *at);

#endif
