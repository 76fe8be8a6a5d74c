#include "png_file.h"

#include "message.h"

#ifdef WITH_PNG

#include <png.h>

int can_write_png(void)
{
    return 1;
}

static void fail(png_structp png, png_const_charp why)
{
    (void)png;
    stop("PNG: cannot be written: %s", why);
}

static void ignore(png_structp png, png_const_charp why)
{
    (void)png;
    (void)why;
}

/* A picture under way. */
typedef struct {
    png_structp png;
    png_infop info;
} writing;

static writing begin_png(void)
{
    writing made;

    made.png = png_create_write_struct(PNG_LIBPNG_VER_STRING, NULL, fail, ignore);
    made.info = made.png ? png_create_info_struct(made.png) : NULL;
    if (!made.info)
        stop("PNG: no memory");
    return made;
}

static void end_png(writing of, const page *from, uint32_t resolution)
{
    png_uint_32 to_the_metre = (png_uint_32)((resolution * 10000u + 127) / 254);
    long y;

    png_set_IHDR(of.png, of.info, (png_uint_32)from->width, (png_uint_32)from->height, 1,
                 PNG_COLOR_TYPE_GRAY, PNG_INTERLACE_NONE, PNG_COMPRESSION_TYPE_DEFAULT,
                 PNG_FILTER_TYPE_DEFAULT);
    png_set_pHYs(of.png, of.info, to_the_metre, to_the_metre, PNG_RESOLUTION_METER);
    png_set_filter(of.png, PNG_FILTER_TYPE_BASE, PNG_FILTER_NONE);
    png_write_info(of.png, of.info);
    png_set_invert_mono(of.png); /* 0 is black in PNG */
    for (y = 0; y < from->height; y++)
        png_write_row(of.png, from->dots + (size_t)y * from->row_bytes);
    png_write_end(of.png, of.info);
    png_destroy_write_struct(&of.png, &of.info);
}

void write_png(FILE *to, const page *from, uint32_t resolution)
{
    writing made = begin_png();

    png_init_io(made.png, to);
    end_png(made, from, resolution);
}

static void gather_part(png_structp png, png_bytep bytes, png_size_t length)
{
    gather(png_get_io_ptr(png), bytes, length);
}

static void gather_no_more(png_structp png)
{
    (void)png;
}

void gather_png(gathered *into, const page *from, uint32_t resolution)
{
    writing made = begin_png();

    png_set_write_fn(made.png, into, gather_part, gather_no_more);
    png_set_compression_level(made.png, 1);
    end_png(made, from, resolution);
}

#else

int can_write_png(void)
{
    return 0;
}

void write_png(FILE *to, const page *from, uint32_t resolution)
{
    (void)to;
    (void)from;
    (void)resolution;
    stop("PNG: built without libpng");
}

void gather_png(gathered *into, const page *from, uint32_t resolution)
{
    (void)into;
    (void)from;
    (void)resolution;
    stop("PNG: built without libpng");
}

#endif
