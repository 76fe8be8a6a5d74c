#include "arguments.h"

#include "marlinfold.h"
#include "message.h"
#include "output.h"

#include <stdio.h>
#include <stdlib.h>
#include <string.h>

void stop_usage(const description *of)
{
    fprintf(stderr, "usage: %s %s (--help says more)\n", of->name, of->usage);
    exit(FAILED);
}

/* ---- values ---- */

#define LARGE 100000000L

/* Reads decimal digits; answers how many, and LARGE for a number beyond that. */
static size_t read_digits(const char *word, long *number)
{
    size_t digits = 0;
    for (*number = 0; word[digits] >= '0' && word[digits] <= '9'; digits++)
        *number = *number < LARGE / 10 ? 10 * *number + (word[digits] - '0') : LARGE;
    return digits;
}

static long whole(const option *of, const char *word)
{
    size_t sign = word[0] == '-', digits;
    long number;

    digits = read_digits(word + sign, &number);
    number = sign ? -number : number;
    if (digits == 0 || word[sign + digits] != '\0' || number < of->low || number > of->high)
        stop("%s %s: not a whole number from %ld to %ld", of->name, word, of->low, of->high);
    return number;
}

/* Hundredths of a number, as 16.67 or 10 or .5, with a third decimal rounded. */
static int read_hundredths(const char *word, long *number)
{
    size_t digits = read_digits(word, number), decimals = 0;
    const char *at = word + digits;
    long left = 100;

    *number = *number < LARGE / 100 ? 100 * *number : LARGE;
    if (*at != '.')
        return digits > 0 && *at == '\0';
    for (at++; *at >= '0' && *at <= '9'; at++, decimals++) {
        *number += decimals == 2 ? *at >= '5' : left / 10 * (*at - '0');
        left /= 10;
    }
    return digits + decimals > 0 && *at == '\0';
}

static long hundredths(const option *of, const char *word)
{
    long number;

    if (!read_hundredths(word, &number) || number < of->low || number > of->high)
        stop("%s %s: not a number from %g to %g", of->name, word, (double)of->low / 100,
             (double)of->high / 100);
    return number;
}

static long symbol_set(const option *of, const char *word)
{
    long number, set;
    size_t digits = read_digits(word, &number);
    char letter = word[digits];
    int named = letter >= 'A' && letter <= 'Z';

    set = named ? 32 * number + letter - 64 : number;
    if (digits == 0 || word[digits + (size_t)named] != '\0' || number == LARGE || set > of->high)
        stop("%s %s: not a symbol set (as 8U, with a capital, or 0 to 2047)", of->name, word);
    return set;
}

static void set_option(const option *of, const char *word)
{
    switch (of->kind) {
    case FLAG: *(long *)of->into = of->low; break;
    case NUMBER: *(long *)of->into = whole(of, word); break;
    case HUNDREDTHS: *(long *)of->into = hundredths(of, word); break;
    case SYMBOL_SET: *(long *)of->into = symbol_set(of, word); break;
    default: *(const char **)of->into = word;
    }
}

/* ---- words ---- */

/* The option that a word names, with its value after = if it has one there. */
static const option *find_option(const description *of, const char *word)
{
    size_t at;

    for (at = 0; at < of->count; at++) {
        const option *each = &of->options[at];
        size_t length = each->kind == HEADING ? 0 : strlen(each->name);
        if (length && strncmp(word, each->name, length) == 0 &&
            (word[length] == '\0' || (word[length] == '=' && each->value)))
            return each;
    }
    return NULL;
}

static void print_option(const char *name, const char *value, const char *help, int wide)
{
    int named = printf("  %s%s%s", name, value ? " " : "", value ? value : "");
    const char *end;

    for (; (end = strchr(help, '\n')); help = end + 1) {
        printf("%*s%.*s\n", wide - named, "", (int)(end - help), help);
        named = 0;
    }
    printf("%*s%s\n", wide - named, "", help);
}

static void print_help(const description *of)
{
    size_t at, longest = strlen("-h, --help");

    for (at = 0; at < of->count; at++)
        if (of->options[at].kind != HEADING) {
            const option *each = &of->options[at];
            size_t length = strlen(each->name) + (each->value ? 1 + strlen(each->value) : 0);
            longest = length > longest && length < 20 ? length : longest;
        }
    printf("usage: %s %s\n\n%s\n", of->name, of->usage, of->does);
    for (at = 0; at < of->count; at++)
        if (of->options[at].kind == HEADING)
            printf("%s\n", of->options[at].help);
        else
            print_option(of->options[at].name, of->options[at].value, of->options[at].help,
                         (int)longest + 5);
    print_option("-h, --help", NULL, "print this", (int)longest + 5);
    print_option("--version", NULL, "print the version", (int)longest + 5);
    print_option("--", NULL, "what follows is no option", (int)longest + 5);
    printf("\n%s", of->notes);
}

/* An option that every program has; any other is none of this program's. */
static void take_common(const description *of, const char *word)
{
    if (strcmp(word, "--help") == 0 || strcmp(word, "-h") == 0)
        print_help(of);
    else if (strcmp(word, "--version") == 0)
        printf("%s %s\n", of->name, MF_VERSION);
    else {
        tell("%s: no such option", word);
        stop_usage(of);
    }
    close_output(stdout, NULL);
    exit(COMPLETE);
}

/* Takes the option at a word, and answers the word after it and its value. */
static char **take_option(const description *of, char **at)
{
    const option *found = find_option(of, *at);
    const char *equals = strchr(*at, '=');

    if (!found)
        take_common(of, *at);
    else if (!found->value)
        set_option(found, NULL);
    else if (equals)
        set_option(found, equals + 1);
    else if (!at[1])
        stop("%s: without its value", found->name);
    else
        set_option(found, *++at);
    return at + 1;
}

size_t take_options(const description *of, char **words)
{
    char **at = words;
    size_t count = 0;
    int ended = 0;

    while (*at) {
        if (!ended && strcmp(*at, "--") == 0) {
            ended = 1;
            at++;
        } else if (!ended && (*at)[0] == '-' && (*at)[1] != '\0')
            at = take_option(of, at);
        else
            words[count++] = *at++;
    }
    return count;
}

size_t take_arguments(const description *of, int argc, char **argv)
{
    program_name = of->name;
    return argc < 1 ? 0 : take_options(of, argv + 1);
}
