#include "records.h"

#define KIND_AT 4
#define FONT_AT 6
#define CODE_AT 8
#define CHARACTER_KEPT_AT 10

static uint32_t low_first(const uint8_t *bytes)
{
    return (uint32_t)bytes[0] | (uint32_t)bytes[1] << 8;
}

static mftp_record record_at(const uint8_t *bytes, size_t left)
{
    mftp_record made = {NULL, 0, 0, 0, 0};

    made.length = mf_record_length(bytes, left);
    if (made.length == 0)
        return made;
    made.bytes = bytes;
    made.left = left;
    made.kind = low_first(bytes + KIND_AT);
    made.font = low_first(bytes + FONT_AT);
    return made;
}

/* The record at a store's beginning is none of a font: it says which character is open. */
mftp_record mftp_first_record(const uint8_t *store, size_t store_len)
{
    return record_at(store + MF_STORE_MIN, store_len - MF_STORE_MIN);
}

mftp_record mftp_next_record(const mftp_record *before)
{
    return record_at(before->bytes + before->length, before->left - before->length);
}

mftp_record mftp_font_record(const uint8_t *store, size_t store_len, uint32_t font)
{
    mftp_record at = mftp_first_record(store, store_len);

    while (at.bytes && (at.kind != MFTP_FONT_RECORD || at.font != font))
        at = mftp_next_record(&at);
    return at;
}

uint32_t mftp_code_of(const mftp_record *character)
{
    return low_first(character->bytes + CODE_AT);
}

const uint8_t *mftp_kept_of(const mftp_record *character)
{
    return character->bytes + CHARACTER_KEPT_AT;
}

uint32_t mftp_data_of(const mftp_record *character)
{
    return (uint32_t)(character->length - MF_CHARACTER_ROOM);
}
