/* The files of a folder and of the folders in it. */
#ifndef FOLDER_H
#define FOLDER_H

#include <stdint.h>
#include <sys/types.h>

enum found_kind {
    FOUND_FILE,
    FOUND_FOLDER, /* met only if it cannot be read */
    FOUND_LINK,   /* to a folder, which is not gone into: it may be one that holds the link */
    FOUND_OTHER   /* no file that has an end, as a pipe or a device */
};

typedef struct {
    enum found_kind kind;
    const char *path; /* to open it */
    const char *name; /* the same below the folder */
    int why;          /* it cannot be read: the errno; else 0 */
    uint64_t bytes;
    dev_t device;     /* this and the next say which file it is, by whatever name */
    ino_t inode;
} found_file;

/* Is called for each, in the order of the names' bytes, a folder's files at the folder's place. */
typedef void visitor(void *with, const found_file *each);

/* Visits a folder's files; of a file, that alone. Answers 0, or an errno if it cannot be read. */
int visit_folder(const char *folder, visitor *visit, void *with);

#endif
