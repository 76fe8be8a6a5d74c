/* The words of a command line, by one table of options in each program. */
#ifndef ARGUMENTS_H
#define ARGUMENTS_H

#include <stddef.h>
#include <stdint.h>

enum option_kind {
    HEADING,    /* no option: a line of --help alone */
    FLAG,       /* sets a long to the option's low */
    NUMBER,     /* a whole number from low to high, to a long */
    HUNDREDTHS, /* a number with decimals, rounded to hundredths, from low to high of them, to a
                 * long */
    SYMBOL_SET, /* as 8U or as its number, up to high, to a long */
    WORD        /* any word, to a const char * */
};

typedef struct {
    enum option_kind kind;
    const char *name;  /* as --font */
    const char *value; /* what --help calls its value; NULL if it has none */
    void *into;        /* where the value goes */
    long low, high;
    const char *help;  /* what --help says of it, lines ended by \n but the last */
} option;

/* What a program says of itself. */
typedef struct {
    const char *name;
    const char *usage; /* the words after its name */
    const char *does;  /* what --help prints before the options */
    const char *notes; /* and after them */
    const option *options;
    size_t count; /* of options */
} description;

#define NOT_GIVEN (-1000000L) /* what a long holds whose option has not come; out of any range */

/* Takes the options out of the words, --help, -h and --version among them, and stops at one that
 * the program does not have or whose value is wrong. The other words are gathered in their order
 * from the front of the list, and counted. A - alone is no option, nor is any word after --. */
size_t take_options(const description *of, char **words);

/* The same for a main's arguments: also sets the program's name. The other words stand in argv
 * from 1 on. */
size_t take_arguments(const description *of, int argc, char **argv);

void stop_usage(const description *of);

#endif
