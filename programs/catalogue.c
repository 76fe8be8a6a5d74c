/* marlinfold-catalogue: makes one HTML page of the fonts of a folder. What it can do stands in
 * help, and in docs/marlinfold-catalogue.1. */
#define _POSIX_C_SOURCE 200809L
#include "arguments.h"
#include "catalogue.h"
#include "kept.h"
#include "loading.h"
#include "message.h"
#include "output.h"
#include "png_file.h"

#include <errno.h>
#include <string.h>
#include <sys/stat.h>
#include <time.h>
#include <unistd.h>

static const char *out;

static const option options[] = {
    SALVAGE_OPTION,
    {WORD, "-o", "FILE", &out, 0, 0, "write to this file (-, standard output)"}};

static const description program = {
    "marlinfold-catalogue", "[-o FILE] DIR",
    "Reads the fonts of every file in DIR and in its folders, and writes a page of HTML to\n"
    "standard output that needs nothing but itself: each font with its fields in words, every\n"
    "character with its code, and a line of text; bold fonts marked as closed series; each\n"
    "refused command and broken place or skipped stretch; whether fonts are fit for spine labels;\n"
    "which fonts are equal; and the figures of all characters by code. Each file is read into a\n"
    "store of 65536 bytes. DIR may be a file as well.\n",
    "Pictures need libpng. Built without it, the program writes the page without them.\n"
    "Exit status: 0 if every file has fonts and was taken whole, 2 if the page was written but a\n"
    "file is damaged, has no font or cannot be read, there is no file or a picture is missing,\n"
    "1 if the page was not written.\n",
    options, sizeof options / sizeof *options};

/* ---- a page that is there already ---- */

static struct {
    int there;
    dev_t device;
    ino_t inode;
} older;

static void look_for_older(void)
{
    struct stat is;

    if (!out || strcmp(out, "-") == 0 || stat(out, &is) != 0 || !S_ISREG(is.st_mode))
        return;
    older.there = 1;
    older.device = is.st_dev;
    older.inode = is.st_ino;
}

/* Whether a file is the one to be written. If it is no catalogue, it is not overwritten. */
static int is_older(const found_file *each)
{
    size_t length = strlen(catalogue_begins);
    char begins[200];
    FILE *from;
    int same;

    if (!older.there || each->why || each->device != older.device || each->inode != older.inode)
        return 0;
    from = fopen(each->path, "rb");
    same = from && fread(begins, 1, length, from) == length &&
           memcmp(begins, catalogue_begins, length) == 0;
    if (from)
        fclose(from);
    if (!same && each->bytes)
        stop("-o %s: it is read, and is not overwritten", shown(out));
    return 1;
}

/* ---- progress ---- */

/* A line on a terminal, ten times a second. */
static void show_progress(const catalogue *of)
{
    static struct timespec last;
    struct timespec now;

    if (!isatty(STDERR_FILENO) || clock_gettime(CLOCK_MONOTONIC, &now) != 0)
        return;
    if (10 * (now.tv_sec - last.tv_sec) + (now.tv_nsec - last.tv_nsec) / 100000000 < 1)
        return;
    last = now;
    fprintf(stderr, "\r%s: %lu files, %lu fonts", program_name, of->files, of->fonts);
    fflush(stderr);
}

static void end_progress(void)
{
    if (isatty(STDERR_FILENO))
        fputs("\r\033[K", stderr);
}

/* ---- the catalogue ---- */

static void visit(void *with, const found_file *each)
{
    catalogue *into = with;

    if (is_older(each))
        return;
    catalogue_file(into, each);
    show_progress(into);
}

/* Tells what is missing; the exit status. */
static int status_of(const catalogue *of, const char *folder)
{
    int faulty = of->damaged || of->fontless || of->unreadable || of->folders;

    if (!of->entries)
        tell("%s: no file in it", shown(folder));
    if (faulty)
        tell("%s: of %lu files %lu damaged, %lu without a font, %lu unreadable; of its folders %lu "
             "unreadable; the page tells each",
             shown(folder), of->files, of->damaged, of->fontless, of->unreadable, of->folders);
    if (of->undrawn)
        tell("%s: pictures that are too large to draw: %lu", shown(folder), of->undrawn);
    if (!can_write_png())
        tell("built without libpng: the page has no pictures");
    return of->entries && !faulty && !of->undrawn && can_write_png() ? COMPLETE : INCOMPLETE;
}

static void write_page_of(const catalogue *of, const char *folder)
{
    FILE *to;

    if (fflush(of->body) != 0 || ferror(of->body))
        stop("a temporary file cannot be written: %s", strerror(errno));
    to = open_output(out);
    write_catalogue(to, of, folder);
    if (ferror(of->body))
        stop("a temporary file cannot be read: %s", strerror(errno));
    close_output(to, out);
    fclose(of->body);
}

int main(int argc, char **argv)
{
    static catalogue made;
    int why;

    if (take_arguments(&program, argc, argv) != 1)
        stop_usage(&program);
    if (strcmp(argv[1], "-") == 0)
        stop("-: standard input is no folder");
    look_for_older();
    made.body = tmpfile();
    if (!made.body)
        stop("a temporary file cannot be written: %s", strerror(errno));
    why = visit_folder(argv[1], visit, &made);
    end_progress();
    if (why)
        stop("%s: cannot be read: %s", shown(argv[1]), strerror(why));
    write_page_of(&made, argv[1]);
    forget_equal();
    forget_kept();
    return status_of(&made, argv[1]);
}
