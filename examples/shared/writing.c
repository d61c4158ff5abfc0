#define _POSIX_C_SOURCE 200809L /* for stat */
#include "writing.h"

#include "program.h"

#include <errno.h>
#include <stdio.h>
#include <stdlib.h>
#include <string.h>
#include <sys/stat.h>

/* The name under which a file is written first; the caller frees it. */
static char *new_path_of(const char *path)
{
    static const char ending[] = ".new";
    size_t room = strlen(path) + sizeof ending;
    char *new_path = memory(room, 1);
    snprintf(new_path, room, "%s%s", path, ending);
    return new_path;
}

static bool is_same_file(const char *one, const char *other)
{
    struct stat first, second;
    return stat(one, &first) == 0 && stat(other, &second) == 0 && first.st_dev == second.st_dev &&
           first.st_ino == second.st_ino;
}

void need_other_file(const char *written, const char *read)
{
    char *new_path = new_path_of(written);
    if (is_same_file(written, read) || is_same_file(new_path, read)) {
        stop("%s is read, and is not written over: give another name than %s", read, written);
    }
    free(new_path);
}

/* Writes a file; if it cannot be written whole, this is told and no file is left. */
static bool write_whole(const char *path, struct file file)
{
    errno = 0;
    FILE *stream = fopen(path, "wb");
    bool written = stream != NULL && fwrite(file.bytes, 1, file.length, stream) == file.length;
    written = stream != NULL && fclose(stream) == 0 && written;
    if (!written) {
        tell("%s cannot be written: %s", path, strerror(errno));
    }
    if (!written && stream != NULL) {
        remove(path);
    }
    return written;
}

/* Gives a new file the name of the old one, whose place it takes. */
static bool take_place(const char *new_path, const char *path)
{
    bool renamed = rename(new_path, path) == 0;
    if (!renamed) {
        tell("%s cannot be written: %s", path, strerror(errno));
        remove(new_path);
    }
    return renamed;
}

bool write_file(const char *path, struct file file)
{
    struct stat there;
    if (stat(path, &there) == 0 && !S_ISREG(there.st_mode)) {
        tell("%s cannot be written: it is no regular file", path);
        return false;
    }
    char *new_path = new_path_of(path);
    bool written = write_whole(new_path, file) && take_place(new_path, path);
    free(new_path);
    return written;
}
