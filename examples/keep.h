/*
 * Files that a program keeps. Each is written whole under a name of its own in
 * the same folder and then renamed, so that a program that is stopped, or a disk
 * that is full, leaves an older file as it was. Where a name is a symbolic link,
 * the file that it leads to is replaced. Needs POSIX.
 */
#ifndef KEEP_H
#define KEEP_H

#include <errno.h>
#include <fcntl.h>
#include <limits.h>
#include <stdio.h>
#include <stdlib.h>
#include <string.h>
#include <sys/stat.h>
#include <unistd.h>

#include "program.h"

/* Where a name leads through symbolic links, in the room given; the name itself where no file is there yet. */
static inline const char *target_of(const char *path, char room[PATH_MAX])
{
    return realpath(path, room) != NULL ? room : path;
}

/*
 * Opens a new file in the folder of the target; gives -1 where none can be made.
 * A name that is taken is left alone: it is another run's, or that of a run
 * which was killed. The target's own name is not part of it, as it may be of the
 * greatest length.
 */
static inline int open_partial(const char *target, char partial[PATH_MAX])
{
    const char *slash = strrchr(target, '/');
    int folder = slash == NULL ? 0 : (int)(slash + 1 - target), file;
    unsigned taken = 0;
    do {
        int len = snprintf(partial, PATH_MAX, "%.*s.kept-%ld-%u", folder, target, (long)getpid(), taken++);
        if (len < 0 || len >= PATH_MAX) {
            errno = ENAMETOOLONG;
            return -1;
        }
        file = open(partial, O_WRONLY | O_CREAT | O_EXCL, 0666);
    } while (file < 0 && errno == EEXIST);
    return file;
}

static inline int write_all(int file, const uint8_t *bytes, size_t len)
{
    while (len > 0) {
        ssize_t written = write(file, bytes, len);
        if (written < 0)
            return 0;
        bytes += written;
        len -= (size_t)written;
    }
    return 1;
}

/* Makes the file, or replaces an older one. A failure ends the program, with an older one as it was. */
static inline void keep(const char *path, const uint8_t *bytes, size_t len)
{
    char room[PATH_MAX], partial[PATH_MAX];
    const char *target = target_of(path, room);
    int file = open_partial(target, partial);
    if (file < 0)
        fail(path);
    if (!write_all(file, bytes, len) || fsync(file) != 0 || close(file) != 0 || rename(partial, target) != 0) {
        int error = errno;
        unlink(partial);
        errno = error;
        fail(path);
    }
}

/* Whether a file of that name is still to be made. A symbolic link that leads nowhere is there already. */
static inline int is_new(const char *path)
{
    struct stat found;
    return errno == ENOENT && *path != '\0' && lstat(path, &found) != 0;
}

/* What is written to standard output or standard error later would be lost with the file that it goes to. */
static inline void need_no_output(const char *path, const struct stat *found)
{
    struct stat output;
    for (int i = STDOUT_FILENO; i <= STDERR_FILENO; i++)
        if (fstat(i, &output) == 0 && output.st_dev == found->st_dev && output.st_ino == found->st_ino) {
            fprintf(stderr, "%s: standard output or standard error goes there\n", path);
            exit(1);
        }
}

/*
 * Before the work: ends the program where the file could not be kept, and leaves
 * an older one as it is. Gives -1. But what is there and is no regular file, as a
 * device or a pipe, must not be replaced: it is opened to be written itself, and
 * its descriptor given.
 */
static inline int open_kept(const char *path)
{
    char room[PATH_MAX], partial[PATH_MAX];
    struct stat found;
    int file = open(path, O_WRONLY);
    if (file < 0 ? !is_new(path) : fstat(file, &found) != 0)
        fail(path);
    if (file >= 0 && !S_ISREG(found.st_mode))
        return file;
    if (file >= 0) {
        need_no_output(path, &found);
        close(file);
    }
    file = open_partial(target_of(path, room), partial);
    if (file < 0 || close(file) != 0 || unlink(partial) != 0)
        fail(path);
    return -1;
}

#endif
