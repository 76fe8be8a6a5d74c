/* Messages on standard error and exit statuses, the same in every program. */
#ifndef MESSAGE_H
#define MESSAGE_H

#include <stdint.h>

enum exit_status {
    COMPLETE = 0,  /* done, and nothing is missing */
    FAILED = 1,    /* not done */
    INCOMPLETE = 2 /* done, but something is missing in it, as messages say */
};

/* What every message begins with. */
extern const char *program_name;

/* Begins a line: the program's name. The caller writes the rest and ends the line. */
void begin_message(void);

/* A whole line. */
void tell(const char *format, ...);

/* The same, and the program ends with FAILED. */
void stop(const char *format, ...);

/* A run that passes the end of its row, as the library answers it. */
typedef struct {
    uint32_t row, filled, run;
    uint32_t width; /* of the row; 0 if there is no such run */
} bad_run;

/* What is to be said of a place in a file. */
typedef struct {
    const char *kind; /* in a word or two */
    const char *file;
    int64_t place;    /* counted from 0; this and the following are -1 if there is none */
    int64_t length;   /* of the bytes from there on that were skipped */
    long font;        /* as the file numbers it */
    long numbered;    /* as it is kept, if that was asked for */
    long code;
    int font_in_words; /* what is said names the font */
    bad_run bad;       /* what is said has these numbers */
    char what[400];
} note;

/* A note of nothing. */
extern const note no_note;

/* Tells it in a line. A program may put another function in its place. */
extern void (*tell_note)(const note *said);

/* Ends the program at a call that the library refused. */
void refuse(const char *what, uint32_t refusal);

/* A file's name as messages and lists have it: in one line, with \n for a newline, \\ for a
 * backslash and \ooo for other bytes that cannot be printed, and "standard input" for "-". The
 * last two answers are kept. */
const char *shown(const char *name);

#endif
