#include "cartridge.h"

#include "input.h"
#include "kept.h"
#include "loading.h"
#include "marlinfold-text.h"
#include "message.h"

#include <stdlib.h>
#include <string.h>

/* Both stores as they were loaded; the store in use is a copy of one of them. */
static uint8_t soft[MF_STORE_MAX], cartridge[MF_STORE_MAX];
static uint32_t in_use = MF_SOFT;

void use_store(uint32_t which)
{
    if (which == in_use)
        return;
    memcpy(store, which == MF_SOFT ? soft : cartridge, sizeof store);
    forget_kept();
    in_use = which;
}

uint32_t store_in_use(void)
{
    return in_use;
}

static int is_store(const uint8_t *bytes, size_t length)
{
    uint8_t kept[MF_FONT_BYTES];
    return mf_tell_font(bytes, length, kept, sizeof kept, 0).refusal != MF_NOT_A_STORE;
}

/* Takes a dump, of at most as many bytes as a store has. It may be shorter: zeros after a store's
 * bytes are free room. */
static int take_dump(const input *from)
{
    memcpy(store, from->next, from->left);
    if (mf_next_font(store, sizeof store, 0) <= MF_FONT_MAX)
        return COMPLETE;
    tell("%s: no font in it", shown(from->name));
    return INCOMPLETE;
}

static int take_fonts(input *from)
{
    static loading into;

    into.next = OWN_NUMBERS;
    load_stream(&into, from);
    return load_status(&into);
}

/* Loads the cartridge's file into the store, which is fresh. */
static int load_cartridge(const char *name)
{
    input from;
    int status;

    if (!open_input(&from, name))
        exit(FAILED);
    look(&from, INPUT_AHEAD);
    if (from.left && from.next[0] != MFT_ESC && !is_store(from.next, from.left))
        stop("%s: not a cartridge: neither the bytes of a store nor a font file", shown(name));
    status = is_store(from.next, from.left) ? take_dump(&from) : take_fonts(&from);
    if (!close_input(&from))
        exit(FAILED);
    return status;
}

int load_both(const char *name, char **names, size_t count)
{
    int status = COMPLETE;

    fresh_store();
    if (name)
        status = load_cartridge(name);
    memcpy(cartridge, store, sizeof store);
    if (load_files(names, count))
        status = INCOMPLETE;
    memcpy(soft, store, sizeof store);
    in_use = MF_SOFT;
    return status;
}

mf_chosen_record choose_from_both(const mf_request *asked)
{
    mf_chosen_record chosen = mf_choose_from_two(
        soft, sizeof soft, cartridge, sizeof cartridge, asked->symbol_set, asked->spacing,
        asked->pitch, asked->height, asked->style, asked->weight, asked->typeface,
        asked->orientation, asked->mode);

    if (!chosen.refusal)
        use_store(chosen.which);
    return chosen;
}
