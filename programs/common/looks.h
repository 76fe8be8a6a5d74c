/* What a kept font looks like, so that equal fonts can be found without keeping them: sums that
 * change with every byte and its place. */
#ifndef LOOKS_H
#define LOOKS_H

#include <stdint.h>

typedef struct {
    uint64_t dots[2];   /* of each character its code, where it is placed and its dots */
    uint64_t fields[2]; /* the header, and how far each character moves the cursor */
} looks;

looks looks_of(uint32_t font);

int same_dots(const looks *a, const looks *b);
int same_fields(const looks *a, const looks *b);

#endif
