#include "json.h"

#include "kept.h"
#include "utf8.h"

#include <stdio.h>

void json_begin(const char *kind)
{
    printf("{\"kind\": \"%s\"", kind);
}

void json_end(void)
{
    puts("}");
}

void json_number(const char *name, long value)
{
    printf(", \"%s\": %ld", name, value);
}

void json_hundredths(const char *name, uint32_t value)
{
    printf(", \"%s\": %u.%02u", name, (unsigned)value / 100, (unsigned)value % 100);
}

void json_symbol_set(const char *name, uint32_t set)
{
    printf(", \"%s\": \"", name);
    print_symbol_set(stdout, set);
    putchar('"');
}

void json_string(const char *name, const char *value)
{
    const unsigned char *at = (const unsigned char *)value;

    printf(", \"%s\": \"", name);
    while (*at) {
        size_t length = utf8_length(at);
        if (!length)
            fputs("\\ufffd", stdout);
        else if (*at < ' ' || *at == 127)
            printf("\\u%04x", *at);
        else if (*at == '"' || *at == '\\')
            printf("\\%c", *at);
        else
            fwrite(at, 1, length, stdout);
        at += length ? length : 1;
    }
    putchar('"');
}
