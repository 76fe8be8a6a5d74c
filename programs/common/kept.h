/* What the store keeps: its fonts and characters as the library tells and draws them. The face of
 * one font is kept here until another is asked about, the store is made fresh or another store is
 * taken into use. */
#ifndef KEPT_H
#define KEPT_H

#include "marlinfold-text.h"

#include <stdio.h>

/* Forgets the face. */
void forget_kept(void);

/* The face of a kept font, good until the next one is asked for. */
const mft_face *face_of(uint32_t font);

/* A kept font; stops if there is none of this number. */
mf_font_fields tell_font(uint32_t number, uint32_t *characters);

/* A kept character; answers 0 if the font has none of this code. */
int tell_character(uint32_t font, uint32_t code, mf_character_fields *told);

/* Its picture, in rows of whole bytes. */
const uint8_t *picture_of(uint32_t font, uint32_t code);

/* How many bytes the font has as a stream of its own. */
size_t bytes_of_font(uint32_t font);

/* Whether rows are missing in it. */
int is_incomplete(uint32_t font, uint32_t code);

/* Tells each character of a font in which rows are missing; the exit status. */
int tell_missing_rows(uint32_t font);

/* What a kept font is, without an end of line. */
void print_font(FILE *to, uint32_t number);

/* As 8U; a number where that has no letter. */
void print_symbol_set(FILE *to, uint32_t set);
void name_symbol_set(char *to, size_t room, uint32_t set);

/* As "bold" and "landscape". */
const char *weight_name(int32_t weight);
const char *orientation_name(uint32_t orientation);

#endif
