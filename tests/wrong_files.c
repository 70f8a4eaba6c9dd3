/* Makes a program wrong that keeps stores in files (LD_PRELOAD, before another library).
 *
 *   HURT_WRONG  what it does wrong:
 *               mark    it leaves no file STORE.failed
 *               look    it takes that for made, and leaves none, while it has no file for writing
 *               folder  it syncs no folder
 *               here    it takes / for the folder of a bare name
 *               lock    its lock of a file ends once it closes one descriptor of two
 *               device  it takes a block device for a file, and empties it
 *               names   it never asks again which file has a name that it opened
 *               rights  it makes a file readable by all that was to be its owner's alone
 *               group   it gives a file neither owner nor group
 *               data    it syncs of a file its bytes alone
 */
#define _GNU_SOURCE
#include <dlfcn.h>
#include <errno.h>
#include <fcntl.h>
#include <limits.h>
#include <stdlib.h>
#include <string.h>
#include <sys/file.h>
#include <sys/stat.h>
#include <sys/syscall.h>
#include <unistd.h>

#define MOST_NAMES 64

/* A name that was opened, and what the system said of its file then. */
static struct known {
    char name[NAME_MAX + 1];
    struct statx file;
} known[MOST_NAMES];
static size_t names;
static int writes; /* (it has had a file for writing) */

static int is_wrong(const char *kind)
{
    const char *found = getenv("HURT_WRONG");
    return found && !strcmp(found, kind);
}

static int ends_with(const char *name, const char *end)
{
    size_t count = strlen(name), part = strlen(end);
    return count >= part && !strcmp(name + count - part, end);
}

static const char *last_part(const char *name)
{
    const char *slash = strrchr(name, '/');
    return slash ? slash + 1 : name;
}

static mode_t kind_of(int fd)
{
    struct stat found;
    return fstat(fd, &found) ? 0 : found.st_mode & S_IFMT;
}

static struct known *known_as(const char *name)
{
    for (size_t at = 0; at < names; at++)
        if (!strcmp(known[at].name, last_part(name)))
            return &known[at];
    return NULL;
}

static void keep(int fd, const char *name)
{
    struct known *it = known_as(name);
    if (!it && names == MOST_NAMES)
        return;
    if (!it) {
        it = &known[names++];
        strcpy(it->name, last_part(name)); /* (it was opened, so it isn't too long) */
    }
    syscall(SYS_statx, fd, "", AT_EMPTY_PATH, STATX_BASIC_STATS, &it->file);
}

static int opened(int folder, const char *name, int flags, mode_t mode)
{
    int (*next)(int, const char *, int, ...) = dlsym(RTLD_NEXT, "openat64");
    if (is_wrong("mark") && flags & O_CREAT && ends_with(name, ".failed")) {
        errno = EACCES;
        return -1;
    }
    if (is_wrong("look") && !writes && flags & O_CREAT && ends_with(name, ".failed"))
        return next(AT_FDCWD, "/dev/null", O_WRONLY | O_CLOEXEC, 0);
    if (is_wrong("here") && !strcmp(name, "."))
        name = "/";
    if (is_wrong("rights") && mode == 0600)
        mode = 0666;
    int fd = next(folder, name, flags, mode);
    if (fd >= 0 && is_wrong("names"))
        keep(fd, name);
    writes |= fd >= 0 && (flags & O_ACCMODE) != O_RDONLY && kind_of(fd) == S_IFREG;
    return fd;
}

#include "opens.h"

int close(int fd)
{
    int (*next)(int) = dlsym(RTLD_NEXT, "close");
    if (is_wrong("lock") && kind_of(fd) == S_IFREG)
        syscall(SYS_flock, fd, LOCK_UN);
    return next(fd);
}

int fsync(int fd)
{
    int is_data = is_wrong("data") && kind_of(fd) == S_IFREG;
    int (*next)(int) = dlsym(RTLD_NEXT, is_data ? "fdatasync" : "fsync");
    return is_wrong("folder") && kind_of(fd) == S_IFDIR ? 0 : next(fd);
}

int statx(int folder, const char *name, int flags, unsigned mask, struct statx *found)
{
    int (*next)(int, const char *, int, unsigned, struct statx *) = dlsym(RTLD_NEXT, "statx");
    struct known *it = is_wrong("names") && flags & AT_SYMLINK_NOFOLLOW ? known_as(name) : NULL;
    int done = next(folder, name, flags, mask, found);
    if (!done && it)
        *found = it->file;
    if (!done && is_wrong("device") && S_ISBLK(found->stx_mode))
        found->stx_mode = (found->stx_mode & ~S_IFMT) | S_IFREG;
    return done;
}

int ftruncate64(int fd, off64_t length)
{
    int (*next)(int, off64_t) = dlsym(RTLD_NEXT, "ftruncate64");
    return is_wrong("device") && kind_of(fd) == S_IFBLK ? 0 : next(fd, length);
}

int ftruncate(int fd, off_t length)
{
    return ftruncate64(fd, length);
}

int fchown(int fd, uid_t owner, gid_t group)
{
    int (*next)(int, uid_t, gid_t) = dlsym(RTLD_NEXT, "fchown");
    return is_wrong("group") ? 0 : next(fd, owner, group);
}
