/* again < FONTS: reads a stream into a store and writes every font of it out again, by
 * rising number. tests/run compares it with the samples, which are written alike. */
#include "marlinfold.h"

#include <stdio.h>

static uint8_t store[MF_STORE_MAX], stream[MF_STORE_MAX], out[MF_WRITTEN_MAX(MF_STORE_MAX)];

int main(void)
{
    size_t length = fread(stream, 1, sizeof stream, stdin);
    mf_stream_read read;
    uint32_t font;

    mf_make_fresh(store, sizeof store);
    read = mf_read_stream(store, sizeof store, stream, length);
    if (read.refusal || read.refused)
        return 1;
    for (font = 0; font <= MF_FONT_MAX; font++) {
        mf_written written = mf_write_font(store, sizeof store, out, sizeof out, font);
        if (written.refusal == MF_DONE)
            fwrite(out, 1, written.length, stdout);
        else if (written.refusal != MF_NO_FONT)
            return 1;
    }
    return 0;
}
