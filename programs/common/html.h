/* Parts of an HTML page. */
#ifndef HTML_H
#define HTML_H

#include "page.h"

#include <stdio.h>

/* Words for a page, also for an attribute's value: what HTML has a meaning for is escaped. Any
 * bytes may stand in them; those that are no UTF-8, or that a page doesn't show as they stand, are
 * written as \ooo, a newline as \n. */
void html_words(FILE *to, const char *words);

/* The same for a name, where a backslash is written twice, so that no two names are shown alike. */
void html_name(FILE *to, const char *name);

/* A picture of so many dots to the inch, as the value of src: PNG in base64. */
void html_picture(FILE *to, const page *from, uint32_t resolution);

#endif
