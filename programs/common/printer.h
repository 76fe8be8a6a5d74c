/* The commands of a stream as a printer gets it: joined, with text and other bytes between. */
#ifndef PRINTER_H
#define PRINTER_H

#include "input.h"

/* A command: the two bytes that name its group, the second 0 if there is but one and both 0 for
 * one of two bytes such as ESC E, its number, its letter as a capital, and how many bytes follow
 * it that are no commands. */
typedef struct {
    uint8_t group[2];
    long number;
    uint8_t letter;
    uint64_t data;
    uint64_t place;
    int ended; /* by a capital: no other is joined to it */
} printer_command;

/* What is in front of a command. */
typedef struct {
    uint64_t place;
    uint64_t bytes; /* that are no command */
    int like_one;   /* they begin as a font command does, but for its ESC */
    int padding;    /* they are NULs and ^Zs, and nothing follows them */
} left_text;

/* Before the first command. */
extern const printer_command no_command_yet;

/* Reads on to the next command, joined to the one before or after an ESC, up to the data that
 * follow it; 0 if there is no more. What stood before it is text. Stops, with a message that has
 * the byte, where a command is damaged. */
int next_command(input *from, printer_command *made, left_text *before);

/* Passes a command's data. Answers whether they hold the beginning of a font command and no
 * command follows them: then a length was wrong, and they are not what they should be. */
int pass_data(input *from, const printer_command *given);

/* Whether it is ESC, this group and letter. */
int is_command(const printer_command *given, const char *group, uint8_t letter);

/* Whether PCL 5 has a command of this group, or this one of two bytes. */
int is_known(const printer_command *given);

/* A command as it is written, in a buffer of so many bytes. */
void show_command(const printer_command *given, char *to, size_t room);

/* Stops at a place. */
void broken(const input *from, uint64_t place, const char *why);

#endif
