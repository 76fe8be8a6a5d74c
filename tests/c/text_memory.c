/* A face for which malloc gives no memory, and one for which it does. Linked with --wrap=malloc, so
 * that the layer's calls of it come here. */
#include "made_font.h"

#include <stdio.h>
#include <stdlib.h>

static int gives;
static size_t asked;

void *__real_malloc(size_t bytes);
void *__wrap_malloc(size_t bytes);

void *__wrap_malloc(size_t bytes)
{
    asked = bytes;
    return gives ? __real_malloc(bytes) : NULL;
}

int main(void)
{
    static const made_font upright = {MF_PORTRAIT, MF_FIXED, 30, 0, 300, 6, 7, 9};
    static const mf_character_fields as = {1, 0, 1, 4, 5, 3, 30};
    static uint8_t store[4096];
    mft_sized size;
    mft_made made;

    mf_make_fresh(store, sizeof store);
    download_made(store, sizeof store, &upright, 1);
    download_letter(store, sizeof store, 1, 'A', &as, (const uint8_t *)"\1\2\3", 3);
    size = mft_face_size(store, sizeof store, 1);
    made = mft_make_face(store, sizeof store, 1, NULL, 0);
    if (made.refusal != MFT_NO_MEMORY || made.face || asked != size.bytes)
        return 1;
    gives = 1;
    asked = 0;
    made = mft_make_face(store, sizeof store, 1, NULL, 0);
    if (made.refusal || asked != size.bytes || mft_face_count(made.face) != 1)
        return 1;
    mft_free_face(made.face);
    puts("no memory, and memory");
    return 0;
}
