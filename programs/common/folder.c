#define _POSIX_C_SOURCE 200809L
#include "folder.h"

#include "message.h"
#include "output.h"

#include <dirent.h>
#include <errno.h>
#include <stdlib.h>
#include <string.h>
#include <sys/stat.h>

/* A visit under way. */
typedef struct {
    gathered path; /* of what is visited, ended by a 0 */
    size_t below;  /* where the names below the folder begin in it */
    visitor *visit;
    void *with;
} walk;

/* ---- names ---- */

typedef struct {
    char **names;
    size_t count, room;
} name_list;

static void add_name(name_list *to, const char *name)
{
    size_t length = strlen(name) + 1;

    if (to->count == to->room) {
        to->room = 2 * to->room + 64;
        to->names = realloc(to->names, to->room * sizeof *to->names);
    }
    if (!to->names || !(to->names[to->count] = malloc(length)))
        stop("no memory for a folder's names");
    memcpy(to->names[to->count++], name, length);
}

static int by_bytes(const void *a, const void *b)
{
    return strcmp(*(char *const *)a, *(char *const *)b);
}

static void free_names(name_list *of)
{
    while (of->count)
        free(of->names[--of->count]);
    free(of->names);
}

/* The names in a folder, in order; answers 0, or an errno. */
static int read_names(const char *path, name_list *made)
{
    static const name_list none = {NULL, 0, 0};
    DIR *folder = opendir(path);
    struct dirent *each;
    int why;

    *made = none;
    if (!folder)
        return errno;
    while (errno = 0, (each = readdir(folder)) != NULL)
        if (strcmp(each->d_name, ".") != 0 && strcmp(each->d_name, "..") != 0)
            add_name(made, each->d_name);
    why = errno;
    closedir(folder);
    if (made->count)
        qsort(made->names, made->count, sizeof *made->names, by_bytes);
    return why;
}

/* ---- visiting ---- */

static void set_path(walk *of, size_t length, const char *name)
{
    of->path.length = length;
    gather(&of->path, name, strlen(name) + 1);
}

static void call(const walk *of, enum found_kind kind, int why, const struct stat *is)
{
    found_file made;

    memset(&made, 0, sizeof made);
    made.kind = kind;
    made.path = (const char *)of->path.bytes;
    made.name = made.path + of->below;
    made.why = why;
    if (!why) {
        made.bytes = (uint64_t)is->st_size;
        made.device = is->st_dev;
        made.inode = is->st_ino;
    }
    of->visit(of->with, &made);
}

static void visit_names(walk *of, const name_list *list);

/* Visits what the path names. */
static void visit_path(walk *of)
{
    const char *path = (const char *)of->path.bytes;
    struct stat is, link;
    name_list list;
    int why;

    if (lstat(path, &link) != 0 || stat(path, &is) != 0) {
        call(of, FOUND_FILE, errno, NULL);
        return;
    }
    if (!S_ISDIR(is.st_mode) || S_ISLNK(link.st_mode)) {
        call(of, S_ISDIR(is.st_mode) ? FOUND_LINK : S_ISREG(is.st_mode) ? FOUND_FILE : FOUND_OTHER,
             0, &is);
        return;
    }
    why = read_names(path, &list);
    if (why)
        call(of, FOUND_FOLDER, why, NULL);
    visit_names(of, &list);
    free_names(&list);
}

static void visit_names(walk *of, const name_list *list)
{
    size_t end = of->path.length, at;

    for (at = 0; at < list->count; at++) {
        set_path(of, end - 1, "/");
        set_path(of, end, list->names[at]);
        visit_path(of);
    }
    set_path(of, end - 1, "");
}

int visit_folder(const char *folder, visitor *visit, void *with)
{
    walk of = {{NULL, 0, 0}, 0, NULL, NULL};
    const char *last = strrchr(folder, '/');
    struct stat is;
    name_list list;
    int why;

    of.visit = visit;
    of.with = with;
    set_path(&of, 0, folder);
    if (stat(folder, &is) != 0)
        why = errno;
    else if (!S_ISDIR(is.st_mode)) {
        why = 0;
        of.below = last ? (size_t)(last - folder) + 1 : 0;
        call(&of, S_ISREG(is.st_mode) ? FOUND_FILE : FOUND_OTHER, 0, &is);
    } else {
        of.below = strlen(folder) + 1;
        why = read_names(folder, &list);
        if (!why)
            visit_names(&of, &list);
        free_names(&list);
    }
    free(of.path.bytes);
    return why;
}
