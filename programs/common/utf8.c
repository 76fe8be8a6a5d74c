#include "utf8.h"

size_t utf8_length(const unsigned char *at)
{
    size_t length = at[0] < 0x80 ? 1 : at[0] < 0xC2 ? 0 : at[0] < 0xE0 ? 2 : at[0] < 0xF0 ? 3
                    : at[0] < 0xF5 ? 4 : 0, next;

    for (next = 1; next < length; next++)
        if (at[next] < 0x80 || at[next] > 0xBF)
            return 0;
    if ((at[0] == 0xE0 && at[1] < 0xA0) || (at[0] == 0xED && at[1] > 0x9F) ||
        (at[0] == 0xF0 && at[1] < 0x90) || (at[0] == 0xF4 && at[1] > 0x8F))
        return 0;
    return length;
}

unsigned long utf8_number(const unsigned char *at)
{
    static const unsigned char first[] = {0, 0x7F, 0x1F, 0x0F, 0x07};
    size_t length = utf8_length(at), next;
    unsigned long number = at[0] & first[length];

    for (next = 1; next < length; next++)
        number = number << 6 | (at[next] & 0x3Fu);
    return number;
}
