/* Making faces. The characters are told by their records, and each is drawn, and asked whether it
 * is complete, in a store that holds it alone: every call checks the whole store, and of this one
 * there is little to check. */
#include "face.h"

#include "records.h"

#include <stdlib.h>
#include <string.h>

/* A store with a font and one character takes this beside the character's data. */
#define ALONE_BYTES (MF_STORE_MIN + MF_FONT_ROOM + MF_CHARACTER_ROOM)

/* The most data that a first block has beside the character's own bytes. */
#define FIRST_DATA_MAX (MF_BLOCK_MAX - MF_CHARACTER_BYTES)

/* ---- sizes ---- */

/* The parts of a face, in bytes. */
typedef struct {
    uint32_t count;
    size_t pictures, alone;
} parts;

static size_t picture_bytes(const mftp_record *character)
{
    mf_character_fields told = mf_character_fields_of(mftp_kept_of(character));

    return mf_picture_bytes(told.width, told.height);
}

/* Whether a record is a character of the font; then it is among those that follow its own. */
static int is_of(const mftp_record *record, uint32_t font)
{
    return record->bytes && record->kind == MFTP_CHARACTER_RECORD && record->font == font;
}

static parts parts_of(const mftp_record *font)
{
    parts made = {0, 0, 0};
    mftp_record at = mftp_next_record(font);

    for (; is_of(&at, font->font); at = mftp_next_record(&at)) {
        size_t alone = ALONE_BYTES + mftp_data_of(&at);
        made.count++;
        made.pictures += picture_bytes(&at);
        made.alone = alone > made.alone ? alone : made.alone;
    }
    return made;
}

static size_t pictures_at(const parts *of)
{
    return sizeof(mft_face) + of->count * sizeof(mftp_entry);
}

static size_t bytes_of(const parts *of)
{
    return pictures_at(of) + of->pictures + of->alone;
}

/* A font's record; the refusal is that of the library, which has then seen that it is a store. */
static uint32_t find_font(const uint8_t *store, size_t store_len, uint32_t font,
                          mftp_record *found)
{
    uint8_t kept[MF_FONT_BYTES];
    uint32_t refusal = mf_tell_font(store, store_len, kept, sizeof kept, font).refusal;

    if (!refusal)
        *found = mftp_font_record(store, store_len, font);
    return refusal;
}

mft_sized mft_face_size(const uint8_t *store, size_t store_len, uint32_t font)
{
    mft_sized answer = {MF_DONE, 0};
    mftp_record found;
    parts of;

    answer.refusal = find_font(store, store_len, font, &found);
    if (answer.refusal)
        return answer;
    of = parts_of(&found);
    answer.bytes = bytes_of(&of);
    return answer;
}

/* ---- characters ---- */

/* A store for one character, in the last part of the face's memory. */
typedef struct {
    uint8_t *store;
    size_t store_len;
    uint32_t font, code;
} alone;

/* Downloads a character's kept bytes, which are a first block as they stand, and what a block of
 * the greatest length does not take as a continuation. */
static uint32_t take_character(const alone *in, const uint8_t *kept, uint32_t data)
{
    uint32_t first = data < FIRST_DATA_MAX ? data : FIRST_DATA_MAX, refusal;
    uint8_t rest[2 + MF_PICTURE_MAX - FIRST_DATA_MAX] = {4, 1};

    refusal = mf_download_character(in->store, in->store_len, kept, MF_CHARACTER_BYTES + first,
                                    in->font, in->code).refusal;
    if (refusal || first == data)
        return refusal;
    memcpy(rest + 2, kept + MF_CHARACTER_BYTES + first, data - first);
    return mf_download_character(in->store, in->store_len, rest, 2 + data - first, in->font,
                                 in->code).refusal;
}

/* Makes the store: the header is as long as its format has it. */
static uint32_t take_alone(const alone *in, const mftp_record *font, const mftp_record *character)
{
    const uint8_t *header = font->bytes + MF_FONT_KEPT_AT;
    uint32_t refusal = mf_make_fresh(in->store, in->store_len);

    if (!refusal)
        refusal = mf_download_font(in->store, in->store_len, header, mf_field(header, 0), in->font);
    if (!refusal)
        refusal = take_character(in, mftp_kept_of(character), mftp_data_of(character));
    return refusal;
}

/* As long as a character is incomplete it is open, and an open one takes a continuation without
 * data. */
static uint32_t is_complete(const alone *in)
{
    static const uint8_t empty[] = {4, 1};

    return mf_download_character(in->store, in->store_len, empty, sizeof empty, in->font,
                                 in->code).refusal != MF_DONE;
}

/* Fills a character's entry, and draws its picture after those before it. */
static uint32_t take_entry(mftp_entry *entry, uint8_t *picture, uint8_t *room,
                           const mftp_record *font, const mftp_record *character)
{
    size_t length = picture_bytes(character);
    uint32_t refusal;
    alone in;

    in.store = room;
    in.store_len = ALONE_BYTES + mftp_data_of(character);
    in.font = font->font;
    in.code = mftp_code_of(character);
    refusal = take_alone(&in, font, character);
    if (refusal)
        return refusal;
    entry->told = mf_character_fields_of(mftp_kept_of(character));
    entry->data = mftp_data_of(character);
    entry->complete = is_complete(&in);
    return mf_draw_picture(in.store, in.store_len, picture, length, in.font, in.code);
}

static uint32_t take_entries(mft_face *face, const mftp_record *font, const parts *of)
{
    uint8_t *bytes = (uint8_t *)face;
    size_t picture = pictures_at(of), room = picture + of->pictures;
    mftp_record at = mftp_next_record(font);
    uint32_t refusal = MF_DONE;

    for (; !refusal && is_of(&at, font->font); at = mftp_next_record(&at)) {
        mftp_entry *entry = &face->entries[face->count];
        refusal = take_entry(entry, bytes + picture, bytes + room, font, &at);
        entry->picture = (uint32_t)picture;
        face->place[mftp_code_of(&at)] = (uint16_t)face->count++;
        picture += picture_bytes(&at);
    }
    return refusal;
}

/* ---- faces ---- */

static uint32_t fill_face(mft_face *face, const mftp_record *font, const parts *of)
{
    size_t code;

    face->font = mf_font_fields_of(font->bytes + MF_FONT_KEPT_AT);
    face->number = font->font;
    face->count = 0;
    for (code = 0; code <= MF_CODE_MAX; code++)
        face->place[code] = MFTP_NONE;
    return take_entries(face, font, of);
}

/* Why the memory does not do for so many bytes. */
static uint32_t check_memory(const void *memory, size_t memory_len, size_t bytes)
{
    if ((uintptr_t)memory % sizeof(uint64_t) != 0)
        return MFT_UNALIGNED;
    return memory_len < bytes ? MF_OUTPUT_SHORT : MF_DONE;
}

mft_made mft_make_face(const uint8_t *store, size_t store_len, uint32_t font, void *memory,
                       size_t memory_len)
{
    mft_made answer = {MF_DONE, NULL};
    mft_face *face;
    mftp_record found;
    parts of;

    answer.refusal = find_font(store, store_len, font, &found);
    if (answer.refusal)
        return answer;
    of = parts_of(&found);
    if (memory)
        answer.refusal = check_memory(memory, memory_len, bytes_of(&of));
    if (answer.refusal)
        return answer;
    face = memory ? memory : malloc(bytes_of(&of));
    answer.refusal = face ? fill_face(face, &found, &of) : MFT_NO_MEMORY;
    if (!answer.refusal) {
        face->callers = memory != NULL;
        answer.face = face;
    } else if (!memory)
        free(face);
    return answer;
}

void mft_free_face(mft_face *face)
{
    if (face && !face->callers)
        free(face);
}

/* ---- telling ---- */

const mftp_entry *mftp_entry_of(const mft_face *face, uint32_t code)
{
    if (code > MF_CODE_MAX || face->place[code] == MFTP_NONE)
        return NULL;
    return &face->entries[face->place[code]];
}

const uint8_t *mftp_picture_of(const mft_face *face, const mftp_entry *entry)
{
    return (const uint8_t *)face + entry->picture;
}

uint32_t mft_face_number(const mft_face *face)
{
    return face->number;
}

const mf_font_fields *mft_face_font(const mft_face *face)
{
    return &face->font;
}

uint32_t mft_face_count(const mft_face *face)
{
    return face->count;
}

int mft_tell_code(const mft_face *face, uint32_t code, mft_character *told)
{
    const mftp_entry *entry = mftp_entry_of(face, code);

    if (!entry)
        return 0;
    told->told = entry->told;
    told->data = entry->data;
    told->complete = entry->complete;
    told->picture = mftp_picture_of(face, entry);
    return 1;
}
