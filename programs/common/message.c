#include "message.h"

#include "marlinfold.h"

#include <stdarg.h>
#include <stdio.h>
#include <stdlib.h>
#include <string.h>

const char *program_name = "marlinfold";

void begin_message(void)
{
    fprintf(stderr, "%s: ", program_name);
}

static void tell_list(const char *format, va_list given)
{
    begin_message();
    vfprintf(stderr, format, given);
    fputc('\n', stderr);
}

void tell(const char *format, ...)
{
    va_list given;
    va_start(given, format);
    tell_list(format, given);
    va_end(given);
}

void stop(const char *format, ...)
{
    va_list given;
    va_start(given, format);
    tell_list(format, given);
    va_end(given);
    exit(FAILED);
}

/* As "FILE: byte 5, font 3 (numbered 100), code 65: no room". */
static void print_note(const note *said)
{
    const char *before = ": ";

    begin_message();
    fputs(shown(said->file), stderr);
    if (said->place >= 0) {
        fprintf(stderr, "%sbyte %lld", before, (long long)said->place);
        before = ", ";
    }
    if (said->font >= 0 && !said->font_in_words) {
        fprintf(stderr, "%sfont %ld", before, said->font);
        if (said->numbered >= 0)
            fprintf(stderr, " (numbered %ld)", said->numbered);
        before = ", ";
    }
    if (said->code >= 0)
        fprintf(stderr, "%scode %ld", before, said->code);
    fprintf(stderr, ": %s\n", said->what);
}

void (*tell_note)(const note *said) = print_note;

const note no_note = {NULL, NULL, -1, -1, -1, -1, -1, 0, {0, 0, 0, 0}, ""};

void refuse(const char *what, uint32_t refusal)
{
    stop("%s: refusal %u, %s", what, (unsigned)refusal, mf_refusal_name(refusal));
}

#define SHOWN_MAX 4096

/* Writes a byte so that it can be read; answers how many bytes that takes, at most 4. */
static size_t show_byte(char *to, char byte)
{
    unsigned char value = (unsigned char)byte;

    if (value == '\n' || value == '\\')
        return (size_t)sprintf(to, "\\%c", value == '\n' ? 'n' : '\\');
    if (value < ' ' || value == 127)
        return (size_t)sprintf(to, "\\%03o", value);
    to[0] = byte;
    return 1;
}

const char *shown(const char *name)
{
    static char lines[2][SHOWN_MAX];
    static int next;
    char *to = lines[next = !next];
    size_t length = 0;

    if (strcmp(name, "-") == 0)
        return "standard input";
    for (; *name && length < SHOWN_MAX - 8; name++)
        length += show_byte(to + length, *name);
    strcpy(to + length, *name ? "..." : "");
    return to;
}
