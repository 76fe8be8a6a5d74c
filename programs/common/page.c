#include "page.h"

#include "kept.h"
#include "message.h"
#include "png_file.h"

#include <stdlib.h>
#include <string.h>

page new_page(long width, long height)
{
    page made;

    if (width < 1 || height < 1 || width > 1000000 || height > 200000000L / (width / 8 + 1))
        stop("a page of %ld by %ld dots: too large", width, height);
    made.width = width;
    made.height = height;
    made.row_bytes = mf_row_bytes((uint32_t)width);
    made.dots = calloc(made.row_bytes, (size_t)height);
    if (!made.dots)
        stop("a page of %ld by %ld dots: no memory for it", width, height);
    return made;
}

void blacken(page *on, long x, long y)
{
    if (x >= 0 && y >= 0 && x < on->width && y < on->height)
        on->dots[(size_t)y * on->row_bytes + (size_t)x / 8] |= (uint8_t)(0x80 >> x % 8);
}

mft_page page_of(const page *on, uint32_t resolution)
{
    return mft_page_of(on->dots, on->row_bytes * (size_t)on->height, (uint32_t)on->width,
                       (uint32_t)on->height, resolution);
}

void place(page *on, uint32_t font, uint32_t code, const mf_character_fields *told, long left,
           long top)
{
    mft_page to = page_of(on, MF_MODE_300);
    uint32_t refusal = mft_put_picture(&to, picture_of(font, code),
                                       mf_picture_bytes(told->width, told->height), told->width,
                                       told->height, (int32_t)left, (int32_t)top);

    if (refusal)
        refuse("character", refusal);
}

page turn_page(page from, uint32_t quarters)
{
    page made = quarters == 2 ? new_page(from.width, from.height)
                              : new_page(from.height, from.width);
    uint32_t refusal = mf_turn_picture(from.dots, from.row_bytes * (size_t)from.height, made.dots,
                                       made.row_bytes * (size_t)made.height,
                                       (uint32_t)from.width, (uint32_t)from.height, quarters);

    if (refusal)
        refuse("turning", refusal);
    free(from.dots);
    return made;
}

enum page_form form_asked(int plain, int png, const char *name)
{
    size_t length = name ? strlen(name) : 0;

    png |= length > 4 && strcmp(name + length - 4, ".png") == 0;
    if (png && plain)
        stop("--plain: PBM in plain digits, and PNG is asked for as well");
    if (png && !can_write_png())
        stop("PNG: this program was built without libpng; pnmtopng FILE.pbm >FILE.png makes it "
             "of a PBM");
    return png ? PNG : plain ? PLAIN_PBM : PBM;
}

static void write_plain(FILE *to, const page *from)
{
    long x, y;

    for (y = 0; y < from->height; y++) {
        for (x = 0; x < from->width; x++) {
            uint8_t byte = from->dots[(size_t)y * from->row_bytes + (size_t)x / 8];
            fputc(byte & 0x80 >> x % 8 ? '1' : '0', to);
        }
        fputc('\n', to);
    }
}

void write_page(FILE *to, const page *from, enum page_form form, uint32_t resolution)
{
    if (form == PNG) {
        write_png(to, from, resolution);
        return;
    }
    fprintf(to, "%s\n%ld %ld\n", form == PLAIN_PBM ? "P1" : "P4", from->width, from->height);
    if (form == PLAIN_PBM)
        write_plain(to, from);
    else
        fwrite(from->dots, from->row_bytes, (size_t)from->height, to);
}
