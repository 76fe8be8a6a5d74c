/* Going along the records of a store, once a call of the library has said that it is one. The
 * record form is that of the version, as for mf_next_font in marlinfold.h. */
#ifndef MFT_RECORDS_H
#define MFT_RECORDS_H

#include "marlinfold-text.h"

enum mftp_record_kind { MFTP_FONT_RECORD = 2, MFTP_CHARACTER_RECORD = 3 };

/* A record; bytes is NULL after the last one. */
typedef struct {
    const uint8_t *bytes;
    size_t length;
    size_t left;   /* bytes from its first up to the store's end */
    uint32_t kind; /* mftp_record_kind */
    uint32_t font;
} mftp_record;

/* The first record of a store, and the one after another. They stand by rising font number, a
 * font before its characters, and these by rising code. */
mftp_record mftp_first_record(const uint8_t *store, size_t store_len);
mftp_record mftp_next_record(const mftp_record *before);

/* The record of a font; NULL bytes if there is none. */
mftp_record mftp_font_record(const uint8_t *store, size_t store_len, uint32_t font);

/* Of a character's record: its code, its MF_CHARACTER_BYTES kept bytes with the data after them,
 * and how many data bytes these are. */
uint32_t mftp_code_of(const mftp_record *character);
const uint8_t *mftp_kept_of(const mftp_record *character);
uint32_t mftp_data_of(const mftp_record *character);

#endif
