/* Prints a report on a shelf of fonts.
 *
 *     shelf FILE...
 *
 * adds up the characters of up to 64 files: soft font streams, each read into a store of its own,
 * and saved stores. Each code that occurs has a line for all files together: how many characters
 * there are, their black dots, the least and the greatest width in dots, the sum of delta X in
 * quarter-dots, the mean of it, and what that division leaves over. The last line has the number of
 * stores and the sums of all codes.
 * What is not added is told on standard error. The exit status is 0 if all is added, 2 if something
 * is missing, and 1 if there is no report. */
#include "marlinfold.h"

#include <errno.h>
#include <stdio.h>
#include <string.h>

static uint8_t bytes[4 * MF_STORE_MAX], store[MF_STORE_MAX], figures[MF_FIGURES_BYTES];

/* The columns after the code, with their least widths. */
static const char *const names[] = {"count", "dots", "min", "max", "sum", "mean", "rest"};
static const int widths[] = {5, 9, 5, 5, 9, 5, 5};

/* Tells why something is missing; answers 0. */
static int missing(const char *name, const char *why)
{
    fprintf(stderr, "shelf: %s: %s\n", name, why);
    return 0;
}

/* Reads a whole file; answers 0 if that cannot be done. */
static int read_file(const char *name, size_t *length)
{
    FILE *file = fopen(name, "rb");
    int failed, more;

    if (!file)
        return missing(name, strerror(errno));
    *length = fread(bytes, 1, sizeof bytes, file);
    more = getc(file) != EOF;
    failed = ferror(file) ? errno : 0;
    fclose(file);
    if (failed || more)
        return missing(name, failed ? strerror(failed) : "too long");
    return 1;
}

/* Reads a stream into a fresh store; answers 0 if not all of it was taken. */
static int read_fonts(const char *name, size_t length)
{
    mf_stream_read read;

    mf_make_fresh(store, sizeof store);
    read = mf_read_stream(store, sizeof store, bytes, length);
    if (read.refusal)
        fprintf(stderr, "shelf: %s: %s at byte %lu, nothing is added from there on\n", name,
                mf_refusal_name(read.refusal), (unsigned long)read.place);
    if (read.refused)
        fprintf(stderr, "shelf: %s: %lu commands refused; marlinfold-fonts says which and why\n",
                name, (unsigned long)read.refused);
    return !read.refusal && !read.refused;
}

/* Adds a store to the figures. Nothing else writes there, so that a number out of range can only be
 * that of the stores. */
static uint32_t add_store(const char *name, const uint8_t *of, size_t length)
{
    uint32_t refusal = mf_add_figures(of, length, figures, sizeof figures);

    if (refusal == MF_OUT_OF_RANGE)
        missing(name, "not added, there are 64 stores already");
    return refusal;
}

/* Adds a file: what is no store is read as a stream. Answers 0 if something of it is missing. */
static int add_file(const char *name)
{
    size_t length = 0;
    uint32_t refusal;
    int whole;

    if (!read_file(name, &length))
        return 0;
    refusal = add_store(name, bytes, length);
    if (refusal != MF_NOT_A_STORE)
        return refusal == MF_DONE;
    whole = read_fonts(name, length);
    if (mf_next_font(store, sizeof store, 0) > MF_FONT_MAX)
        return missing(name, "no font in it, not added");
    return add_store(name, store, sizeof store) == MF_DONE && whole;
}

static void print_heading(void)
{
    size_t at;

    printf("code");
    for (at = 0; at <= MF_FIGURE_REST; at++)
        printf(" %*s", widths[at], names[at]);
    putchar('\n');
}

static void print_code(uint32_t code)
{
    uint32_t which;

    printf("%4u", (unsigned)code);
    for (which = 0; which <= MF_FIGURE_REST; which++)
        printf(" %*lu", widths[which], (unsigned long)mf_figure(figures, code, which));
    putchar('\n');
}

static unsigned long sum_of(uint32_t which)
{
    unsigned long sum = 0;
    uint32_t code;

    for (code = 0; code <= MF_CODE_MAX; code++)
        sum += (unsigned long)mf_figure(figures, code, which);
    return sum;
}

int main(int argc, char **argv)
{
    uint32_t code;
    int at, whole = 1;

    if (argc < 2)
        return !missing("usage", "shelf FILE...");
    for (at = 1; at < argc; at++)
        whole &= add_file(argv[at]);
    if (mf_figures_stores(figures) == 0)
        return 1;
    print_heading();
    for (code = 0; code <= MF_CODE_MAX; code++)
        if (mf_figure(figures, code, MF_FIGURE_COUNT) != 0)
            print_code(code);
    printf("stores %lu, characters %lu, black dots %lu\n",
           (unsigned long)mf_figures_stores(figures), sum_of(MF_FIGURE_COUNT),
           sum_of(MF_FIGURE_DOTS));
    if (ferror(stdout) || fclose(stdout))
        return !missing("standard output", strerror(errno));
    return whole ? 0 : 2;
}
