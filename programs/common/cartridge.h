/* A cartridge beside the font files: two stores, of which one is in use, the store of loading.h.
 * What kept.h tells is of that one; the origins of fonts stay those of the files. */
#ifndef CARTRIDGE_H
#define CARTRIDGE_H

#include "marlinfold.h"

#include <stddef.h>

/* Loads a cartridge's file, without a name none, and files into a store of their own, and stops
 * where one cannot be read or the cartridge's is neither a dump nor a font file. Answers the exit
 * status so far. The files' store is then in use. */
int load_both(const char *cartridge, char **names, size_t count);

/* Takes a store into use, MF_SOFT for that of the files or MF_CARTRIDGE. */
void use_store(uint32_t which);

/* Which store is in use. */
uint32_t store_in_use(void);

/* The font of both stores that fits best; the store that holds it is then in use. */
mf_chosen_record choose_from_both(const mf_request *asked);

#endif
