/* dump [short] < FONTS: reads a stream into a store and writes the store's bytes, with "short"
 * without the free ones at its end: a store that is full. */
#include "marlinfold.h"

#include <stdio.h>

static uint8_t store[MF_STORE_MAX], stream[MF_STORE_MAX];

int main(int count, char **words)
{
    size_t length = fread(stream, 1, sizeof stream, stdin);
    mf_stream_read read;

    (void)words;
    mf_make_fresh(store, sizeof store);
    read = mf_read_stream(store, sizeof store, stream, length);
    if (read.refusal || read.refused)
        return 1;
    length = sizeof store - (count > 1 ? mf_room_left(store, sizeof store) : 0);
    return fwrite(store, 1, length, stdout) != length;
}
