/* JSON, an object in a line. */
#ifndef JSON_H
#define JSON_H

#include <stdint.h>

/* Begins an object on standard output with what it is about, under the name "kind". */
void json_begin(const char *kind);
void json_end(void);

void json_number(const char *name, long value);
void json_hundredths(const char *name, uint32_t value);

/* A symbol set as 8U. */
void json_symbol_set(const char *name, uint32_t set);

/* Any bytes: what is not UTF-8 becomes U+FFFD. */
void json_string(const char *name, const char *value);

#endif
