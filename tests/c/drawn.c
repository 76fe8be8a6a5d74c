/* drawn STORE...: the table of marlinfold-figures over files of stores together, worked out by
 * drawing every character, for a comparison with what is proved. */
#include "drawn.h"

#include <stdio.h>

static uint8_t store[MF_STORE_MAX + 1];
static drawn_figures figures;

/* Adds a file; 0 if it is no store. */
static int add(const char *name)
{
    uint8_t kept[MF_FONT_BYTES];
    FILE *file = fopen(name, "rb");
    size_t length = file ? fread(store, 1, sizeof store, file) : 0;

    if (file)
        fclose(file);
    if (mf_tell_font(store, length, kept, sizeof kept, 0).refusal == MF_NOT_A_STORE)
        return 0;
    drawn_add(&figures, store, length);
    return 1;
}

static void print_code(unsigned code)
{
    const uint64_t *of = figures.of[code];

    if (of[0] != 0)
        printf("%u %lu %lu %lu %lu %lu %lu %lu\n", code, (unsigned long)of[0],
               (unsigned long)of[1], (unsigned long)of[2], (unsigned long)of[3],
               (unsigned long)of[4], (unsigned long)of[5], (unsigned long)of[6]);
}

int main(int count, char **names)
{
    unsigned code;

    for (; count > 1; count--)
        if (!add(*++names)) {
            puts("not a store");
            return 0;
        }
    puts("code count dots min max sum mean rest");
    for (code = 0; code <= MF_CODE_MAX; code++)
        print_code(code);
    return fclose(stdout) != 0;
}
