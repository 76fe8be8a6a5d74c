/* Which letters of a line a font has. */
#include "face.h"

uint32_t mft_letter_state(const mft_face *face, const mft_line *line, size_t at)
{
    const mftp_entry *entry;

    if (at >= line->count || (line->uncoded && line->uncoded[at]))
        return MFT_UNCODED;
    entry = mftp_entry_of(face, line->codes[at]);
    if (entry)
        return entry->complete ? MFT_WHOLE : MFT_INCOMPLETE;
    return line->codes[at] == ' ' ? MFT_SPACE : MFT_LACKING;
}

mft_coverage mft_cover_line(const mft_face *face, const mft_line *line)
{
    mft_coverage made = {{0, 0, 0, 0, 0}, 0};
    size_t at;

    made.first = line->count;
    for (at = 0; at < line->count; at++) {
        uint32_t state = mft_letter_state(face, line, at);
        made.of[state]++;
        if (state > MFT_SPACE && made.first == line->count)
            made.first = at;
    }
    return made;
}
