/* The file is written beside the one it becomes, and renamed once all of it stands on the disk. */
#define _XOPEN_SOURCE 700
#include "write.h"

#include "say.h"

#include <errno.h>
#include <fcntl.h>
#include <stdio.h>
#include <stdlib.h>
#include <string.h>
#include <sys/stat.h>
#include <unistd.h>

static int wrong(const char *name)
{
    say("%s: %s", name, strerror(errno));
    return WRONG;
}

/* Writes all, or returns 0; a file has the permissions of the one that it replaces. */
static int fill(int file, const char *bytes, size_t len, const struct stat *old)
{
    while (len > 0) {
        ssize_t count = write(file, bytes, len);
        if (count < 0)
            return 0;
        bytes += count;
        len -= (size_t)count;
    }
    if (old != NULL && fchmod(file, old->st_mode & 0777) != 0)
        return 0;
    return fsync(file) == 0;
}

static int replace(const char *own, const char *beside, const void *bytes, size_t len, const struct stat *old)
{
    int file = open(beside, O_WRONLY | O_CREAT | O_EXCL, 0666), sound, trouble;
    if (file < 0)
        return 0;
    sound = fill(file, bytes, len, old);
    trouble = errno;
    if (close(file) != 0 && sound) {
        sound = 0;
        trouble = errno;
    }
    if (sound && rename(beside, own) == 0)
        return 1;
    if (sound)
        trouble = errno;
    unlink(beside);
    errno = trouble;
    return 0;
}

/* OWN is the file's own name, no link's: a link stays a link. */
static int write_beside(const char *own, const void *bytes, size_t len, const struct stat *old)
{
    size_t room = strlen(own) + 40;
    char *beside = malloc(room);
    int sound;
    if (beside == NULL)
        return 0;
    snprintf(beside, room, "%s.%ld.new", own, (long)getpid());
    sound = replace(own, beside, bytes, len, old);
    free(beside);
    return sound;
}

int write_file(const char *name, const void *bytes, size_t len)
{
    struct stat old;
    char *own;
    int sound;
    if (stat(name, &old) != 0)
        return errno == ENOENT && write_beside(name, bytes, len, NULL) ? DONE : wrong(name);
    if (!S_ISREG(old.st_mode)) {
        say("%s: it is no regular file", name);
        return WRONG;
    }
    own = realpath(name, NULL);
    if (own == NULL)
        return wrong(name);
    sound = write_beside(own, bytes, len, &old);
    if (!sound)
        wrong(name);
    free(own);
    return sound ? DONE : WRONG;
}
