/* What a face is made of. Its characters stand after it by rising code, then their pictures, and
 * at last the room in which each of them was drawn. */
#ifndef MFT_FACE_H
#define MFT_FACE_H

#include "marlinfold-text.h"

#define MFTP_NONE 0xFFFF

typedef struct {
    mf_character_fields told;
    uint32_t data, complete;
    uint32_t picture; /* from the face's first byte on */
} mftp_entry;

struct mft_face {
    mf_font_fields font;
    uint32_t number, count;
    uint32_t callers;              /* it stands in memory of the caller's */
    uint16_t place[MF_CODE_MAX + 1]; /* of a code's entry, MFTP_NONE if there is none */
    mftp_entry entries[];
};

/* The entry of a code, NULL if the font lacks it. */
const mftp_entry *mftp_entry_of(const mft_face *face, uint32_t code);

/* Its picture. */
const uint8_t *mftp_picture_of(const mft_face *face, const mftp_entry *entry);

#endif
