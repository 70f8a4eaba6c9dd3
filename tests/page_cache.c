/* Stands between a program and the files of one folder (LD_PRELOAD), and keeps what the device has
 * of them. The program works on the folder as it is, which is what memory has.
 *
 *   CACHE_FOLDER  the folder; what lies elsewhere is left alone
 *   CACHE_STATE   a folder of the same file system, in which it is kept from run to run:
 *                   N.device  what the device has of the file of inode N
 *                   N.dirty   a byte for each page of the file, 1 where a sync has to write it
 *                   names.K   the folder's names, each with its inode before it: 0 as the device
 *                             has them, then those after each change that no sync has written yet
 *                   gone.N    a file that has no name any more, so that N isn't given again
 *                   clean     a sync of the folder failed, and no name has changed after it
 *   CACHE_LOG     each call on the folder or on a file of it writes a line there
 *   CACHE_KILL    the number of such a call, from 1: the program is killed before it
 *   CACHE_STOP    the number of such a call, from 1: the program stops before it (SIGSTOP)
 *   CACHE_HALT    the same for a later call
 *   CACHE_FAIL    the number of such a call, from 1: it fails with EIO; CACHE_ERROR, of which error
 *   CACHE_HANG    the number of such a call, from 1, which is a sync: it hangs, the program is
 *                 killed meanwhile, and then it fails, which nobody learns
 *   CACHE_PART    a seed: a sync of a file that fails has written some of the pages, and else none
 *   CACHE_MAPPED  advice to drop pages isn't followed, as where another program has them mapped
 *   CACHE_UNSYNCED  a sync of the folder answers so and does nothing: the number of an error
 *
 * It is as Linux: a sync that fails leaves its pages clean, later ones don't write them, and reads
 * give what memory has, until the pages are dropped. A name is durable once its folder was synced,
 * after the change; a sync of the file itself says nothing of it. If the folder's sync fails, later
 * ones write nothing until a name changes, as on an ext4 without a journal.
 */
#define _GNU_SOURCE
#include <dirent.h>
#include <errno.h>
#include <fcntl.h>
#include <libgen.h>
#include <limits.h>
#include <signal.h>
#include <stdarg.h>
#include <stdint.h>
#include <stdio.h>
#include <stdlib.h>
#include <string.h>
#include <sys/file.h>
#include <sys/stat.h>
#include <sys/syscall.h>
#include <unistd.h>

#define MOST_FILES 64
#define PAGE 4096
#define RENAME_BOTH 2 /* (RENAME_EXCHANGE) */

enum kind { OTHER, FOLDER, FILE_OF_IT };

/* An open file of the folder, or the folder itself. */
static struct open_file {
    enum kind kind;
    unsigned long inode;
    char name[NAME_MAX + 1];
} open_files[MOST_FILES];

static const char *folder, *state;
static struct stat folder_is;
static int log_file = -1, is_mapped;
static long calls, killing, stopping, halting, failing, hanging, error_number, unsynced;
static uint64_t dice;

static void give_up(const char *why)
{
    dprintf(2, "page_cache: %s: %s\n", why, strerror(errno));
    _exit(99);
}

static long number_of(const char *name)
{
    const char *text = getenv(name);
    return text ? atol(text) : 0;
}

__attribute__((constructor)) static void begin(void)
{
    const char *log = getenv("CACHE_LOG");
    folder = getenv("CACHE_FOLDER");
    state = getenv("CACHE_STATE");
    if (!folder || !state || stat(folder, &folder_is))
        folder = NULL;
    killing = number_of("CACHE_KILL");
    stopping = number_of("CACHE_STOP");
    halting = number_of("CACHE_HALT");
    failing = number_of("CACHE_FAIL");
    hanging = number_of("CACHE_HANG");
    error_number = getenv("CACHE_ERROR") ? number_of("CACHE_ERROR") : EIO;
    unsynced = number_of("CACHE_UNSYNCED");
    is_mapped = getenv("CACHE_MAPPED") != NULL;
    dice = (uint64_t)number_of("CACHE_PART") * 0x9E3779B97F4A7C15u;
    if (log)
        log_file = (int)syscall(SYS_openat, AT_FDCWD, log,
                                O_WRONLY | O_CREAT | O_APPEND | O_CLOEXEC, 0644);
}

static int is_thrown(void)
{
    dice ^= dice >> 12;
    dice ^= dice << 25;
    dice ^= dice >> 27;
    return (dice * 0x2545F4914F6CDD1Du >> 60) & 1;
}

static void end(void)
{
    kill(getpid(), SIGKILL);
    give_up("it wasn't killed");
}

/* Counts a call on the folder or on a file of it, and says whether it fails. */
static int fails(const char *what, const char *name)
{
    calls++;
    if (log_file >= 0)
        dprintf(log_file, "%s %s\n", what, name);
    if (calls == stopping || calls == halting)
        raise(SIGSTOP);
    if (calls == killing)
        end();
    if (calls != failing && calls != hanging)
        return 0;
    errno = (int)error_number;
    return 1;
}

static struct open_file *file_at(int fd)
{
    int is_known = folder && fd >= 0 && fd < MOST_FILES && open_files[fd].kind != OTHER;
    return is_known ? &open_files[fd] : NULL;
}

static int fails_at(const char *what, int fd)
{
    struct open_file *it = file_at(fd);
    return it && fails(what, it->name);
}

static int is_folder(const char *name)
{
    struct stat found;
    return !stat(name, &found) && found.st_dev == folder_is.st_dev
           && found.st_ino == folder_is.st_ino;
}

/* What a name is, and its last part. */
static enum kind kind_of(const char *name, char *last)
{
    char one[PATH_MAX], other[PATH_MAX];
    if (!folder)
        return OTHER;
    snprintf(one, sizeof one, "%s", name);
    snprintf(other, sizeof other, "%s", name);
    snprintf(last, NAME_MAX + 1, "%s", basename(one));
    if (is_folder(name)) {
        strcpy(last, ".");
        return FOLDER;
    }
    return is_folder(dirname(other)) ? FILE_OF_IT : OTHER;
}

/* A file of the state. */
static int state_file(const char *what, unsigned long number, int flags)
{
    char name[PATH_MAX];
    snprintf(name, sizeof name, "%s/%lu.%s", state, number, what);
    int fd = (int)syscall(SYS_openat, AT_FDCWD, name, flags | O_CLOEXEC, 0644);
    if (fd < 0)
        give_up(name);
    return fd;
}

static void let_go(int fd)
{
    syscall(SYS_close, fd);
}

/* The number of the last table of names. */
static int last_names(char *name)
{
    int last = -1;
    do
        snprintf(name, PATH_MAX, "%s/names.%d", state, last + 1);
    while (!access(name, F_OK) && last++ < 1000);
    return last;
}

/* Writes down the folder's names as they are now, as the table of this number. */
static void write_names(int number)
{
    char name[PATH_MAX];
    snprintf(name, sizeof name, "%s/names.%d", state, number);
    int fd = (int)syscall(SYS_openat, AT_FDCWD, name, O_WRONLY | O_CREAT | O_TRUNC | O_CLOEXEC,
                          0644);
    DIR *list = opendir(folder);
    if (fd < 0 || !list)
        give_up("the names can't be kept");
    for (struct dirent *it; (it = readdir(list));)
        if (it->d_type == DT_REG)
            dprintf(fd, "%lu %s\n", (unsigned long)it->d_ino, it->d_name);
    closedir(list);
    let_go(fd);
}

/* Where it is kept that a sync of the folder failed. */
static const char *clean_names(void)
{
    static char name[PATH_MAX];
    snprintf(name, sizeof name, "%s/clean", state);
    return name;
}

/* The names have changed, and no sync has written that yet. */
static void names_changed(void)
{
    char name[PATH_MAX];
    write_names(last_names(name) + 1);
    syscall(SYS_unlink, clean_names());
}

/* The device has the names as they are now, unless the system takes them for written. */
static void names_written(void)
{
    char name[PATH_MAX];
    if (!access(clean_names(), F_OK))
        return;
    for (int last = last_names(name); last > 0; last--) {
        snprintf(name, sizeof name, "%s/names.%d", state, last);
        syscall(SYS_unlink, name);
    }
    write_names(0);
}

/* Pages are dirty now that these bytes were written. */
static void dirtied(unsigned long inode, off_t at, ssize_t count)
{
    if (count <= 0)
        return;
    off_t first = at / PAGE, last = (at + count - 1) / PAGE;
    int map = state_file("dirty", inode, O_WRONLY | O_CREAT);
    static char ones[PAGE];
    memset(ones, 1, sizeof ones);
    for (off_t page = first; page <= last; page += PAGE) {
        size_t part = (size_t)(last - page + 1 < PAGE ? last - page + 1 : PAGE);
        if (syscall(SYS_pwrite64, map, ones, part, page) != (ssize_t)part)
            give_up("a page can't be dirty");
    }
    let_go(map);
}

static void copy_page(int from, int to, off_t page)
{
    char bytes[PAGE] = {0};
    ssize_t count = syscall(SYS_pread64, from, bytes, PAGE, page * PAGE);
    if (count < 0 || syscall(SYS_pwrite64, to, bytes, count, page * PAGE) != count)
        give_up("a page can't be written");
}

static off_t length_of(int fd)
{
    struct stat found;
    if (fstat(fd, &found))
        give_up("a file has no length");
    return found.st_size;
}

/* A file of the folder, open once more for both: a program may have it for reading alone. */
static int again(int fd)
{
    char name[64];
    snprintf(name, sizeof name, "/proc/self/fd/%d", fd);
    int both = (int)syscall(SYS_openat, AT_FDCWD, name, O_RDWR | O_CLOEXEC, 0);
    if (both < 0)
        give_up("a file can't be opened once more");
    return both;
}

/* A sync of a file: its dirty pages are clean then. They were written, or, where it fails, none
 * was, or some were. */
static void clean(struct open_file *it, int fd, int is_failed)
{
    int memory = again(fd), device = state_file("device", it->inode, O_RDWR | O_CREAT);
    int map = state_file("dirty", it->inode, O_RDWR | O_CREAT);
    off_t pages = length_of(map);
    for (off_t page = 0; page < pages; page++) {
        char is_dirty = 0;
        syscall(SYS_pread64, map, &is_dirty, 1, page);
        if (is_dirty && (!is_failed || (dice && is_thrown())))
            copy_page(memory, device, page);
    }
    if (!is_failed && syscall(SYS_ftruncate, device, length_of(memory)))
        give_up("the length can't be written");
    if (syscall(SYS_ftruncate, map, 0))
        give_up("no page can be clean");
    let_go(memory);
    let_go(device);
    let_go(map);
}

/* Drops the pages of a range that are clean: from now on reads give what the device has. */
static void drop(struct open_file *it, int fd, off_t at, off_t count)
{
    int memory = again(fd), device = state_file("device", it->inode, O_RDONLY | O_CREAT);
    int map = state_file("dirty", it->inode, O_RDONLY | O_CREAT);
    off_t length = length_of(memory), end = count && at + count < length ? at + count : length;
    for (off_t page = (at + PAGE - 1) / PAGE; page * PAGE < end; page++) {
        char is_dirty = 0, bytes[PAGE] = {0};
        size_t part = (size_t)(length - page * PAGE < PAGE ? length - page * PAGE : PAGE);
        if (page * PAGE + (off_t)part > end)
            break; /* (a page of which only a part is meant stays) */
        syscall(SYS_pread64, map, &is_dirty, 1, page);
        if (is_dirty)
            continue;
        if (syscall(SYS_pread64, device, bytes, part, page * PAGE) < 0
            || syscall(SYS_pwrite64, memory, bytes, part, page * PAGE) != (ssize_t)part)
            give_up("a page can't be dropped");
    }
    let_go(memory);
    let_go(device);
    let_go(map);
}

static int opened(int at, const char *name, int flags, mode_t mode)
{
    char last[NAME_MAX + 1];
    struct stat found;
    enum kind kind = at == AT_FDCWD || name[0] == '/' ? kind_of(name, last) : OTHER;
    if (kind == OTHER)
        return (int)syscall(SYS_openat, at, name, flags, mode);
    int is_there = !stat(name, &found);
    if (fails(flags & O_CREAT && !is_there ? "create" : "open", last))
        return -1;
    int fd = (int)syscall(SYS_openat, at, name, flags, mode);
    if (fd < 0 || fd >= MOST_FILES || fstat(fd, &found))
        return fd;
    int is_known = kind == FOLDER || S_ISREG(found.st_mode);
    open_files[fd].kind = is_known ? kind : OTHER;
    open_files[fd].inode = found.st_ino;
    strcpy(open_files[fd].name, last);
    if (kind == FILE_OF_IT && is_known && !is_there) {
        let_go(state_file("device", found.st_ino, O_WRONLY | O_CREAT | O_TRUNC));
        let_go(state_file("dirty", found.st_ino, O_WRONLY | O_CREAT | O_TRUNC));
        names_changed();
    }
    return fd;
}

#include "opens.h"

int close(int fd)
{
    fails_at("close", fd); /* (a close that fails closes) */
    if (fd >= 0 && fd < MOST_FILES)
        open_files[fd].kind = OTHER;
    return (int)syscall(SYS_close, fd);
}

/* (a second descriptor of a file is one of the same file) */
int fcntl64(int fd, int what, ...)
{
    va_list words;
    va_start(words, what);
    long word = va_arg(words, long);
    va_end(words);
    int done = (int)syscall(SYS_fcntl, fd, what, word);
    int is_second = what == F_DUPFD || what == F_DUPFD_CLOEXEC;
    if (is_second && done >= 0 && done < MOST_FILES && file_at(fd))
        open_files[done] = open_files[fd];
    return done;
}

int fcntl(int fd, int what, ...)
{
    va_list words;
    va_start(words, what);
    long word = va_arg(words, long);
    va_end(words);
    return fcntl64(fd, what, word);
}

ssize_t read(int fd, void *bytes, size_t count)
{
    return fails_at("read", fd) ? -1 : syscall(SYS_read, fd, bytes, count);
}

ssize_t pread64(int fd, void *bytes, size_t count, off64_t at)
{
    return fails_at("read", fd) ? -1 : syscall(SYS_pread64, fd, bytes, count, at);
}

ssize_t pread(int fd, void *bytes, size_t count, off_t at)
{
    return pread64(fd, bytes, count, at);
}

/* A write of a file of the folder, at this place, or where it stands. */
static ssize_t put(int fd, const void *bytes, size_t count, off_t at, int is_placed)
{
    struct open_file *it = file_at(fd);
    if (it && fails("write", it->name))
        return -1;
    if (it && !is_placed)
        at = lseek(fd, 0, SEEK_CUR);
    ssize_t done = is_placed ? syscall(SYS_pwrite64, fd, bytes, count, at)
                             : syscall(SYS_write, fd, bytes, count);
    if (it)
        dirtied(it->inode, at, done);
    return done;
}

ssize_t write(int fd, const void *bytes, size_t count)
{
    return put(fd, bytes, count, 0, 0);
}

ssize_t __write(int fd, const void *bytes, size_t count)
{
    return put(fd, bytes, count, 0, 0);
}

ssize_t pwrite64(int fd, const void *bytes, size_t count, off64_t at)
{
    return put(fd, bytes, count, at, 1);
}

ssize_t pwrite(int fd, const void *bytes, size_t count, off_t at)
{
    return put(fd, bytes, count, at, 1);
}

static int synced(int fd, int number)
{
    struct open_file *it = file_at(fd);
    if (!it)
        return (int)syscall(number, fd);
    int is_failed = fails(number == SYS_fsync ? "fsync" : "sync", it->name);
    if (it->kind == FOLDER && unsynced && !is_failed) {
        errno = (int)unsynced;
        return -1;
    }
    if (it->kind == FOLDER && is_failed)
        let_go((int)syscall(SYS_openat, AT_FDCWD, clean_names(), O_WRONLY | O_CREAT, 0644));
    if (it->kind == FOLDER && !is_failed)
        names_written();
    if (it->kind == FILE_OF_IT)
        clean(it, fd, is_failed);
    if (calls == hanging)
        end();
    errno = (int)error_number;
    return is_failed ? -1 : 0;
}

int fdatasync(int fd)
{
    return synced(fd, SYS_fdatasync);
}

int fsync(int fd)
{
    return synced(fd, SYS_fsync);
}

int posix_fadvise64(int fd, off64_t at, off64_t count, int advice)
{
    struct open_file *it = file_at(fd);
    if (!it)
        return syscall(SYS_fadvise64, fd, at, count, advice) ? errno : 0;
    if (fails("advice", it->name))
        return (int)error_number;
    if (advice == POSIX_FADV_DONTNEED && it->kind == FILE_OF_IT && !is_mapped)
        drop(it, fd, at, count);
    return 0;
}

int posix_fadvise(int fd, off_t at, off_t count, int advice)
{
    return posix_fadvise64(fd, at, count, advice);
}

int ftruncate64(int fd, off64_t length)
{
    struct open_file *it = file_at(fd);
    if (it && fails("length", it->name))
        return -1;
    int done = (int)syscall(SYS_ftruncate, fd, length);
    if (it && !done) {
        int map = state_file("dirty", it->inode, O_WRONLY | O_CREAT);
        if (length_of(map) > (length + PAGE - 1) / PAGE
            && syscall(SYS_ftruncate, map, (length + PAGE - 1) / PAGE))
            give_up("no page can be clean");
        let_go(map);
    }
    return done;
}

int ftruncate(int fd, off_t length)
{
    return ftruncate64(fd, length);
}

int flock(int fd, int how)
{
    return fails_at("lock", fd) ? -1 : (int)syscall(SYS_flock, fd, how);
}

int fchmod(int fd, mode_t mode)
{
    return fails_at("rights", fd) ? -1 : (int)syscall(SYS_fchmod, fd, mode);
}

int fchown(int fd, uid_t owner, gid_t group)
{
    return fails_at("owner", fd) ? -1 : (int)syscall(SYS_fchown, fd, owner, group);
}

/* Takes a file of the folder out of it, and keeps it as it is. */
static int take_out(const char *name)
{
    char gone[PATH_MAX];
    struct stat found;
    if (lstat(name, &found) || !S_ISREG(found.st_mode))
        return (int)syscall(SYS_unlink, name);
    snprintf(gone, sizeof gone, "%s/gone.%lu", state, (unsigned long)found.st_ino);
    return (int)syscall(SYS_rename, name, gone);
}

int rename(const char *from, const char *to)
{
    char last[NAME_MAX + 1], other[NAME_MAX + 1];
    struct stat found;
    if (kind_of(to, last) != FILE_OF_IT || kind_of(from, other) != FILE_OF_IT)
        return (int)syscall(SYS_rename, from, to);
    if (fails("rename", last))
        return -1;
    int is_over = !lstat(to, &found);
    if (syscall(SYS_renameat2, AT_FDCWD, from, AT_FDCWD, to, is_over ? RENAME_BOTH : 0))
        return -1;
    if (is_over && take_out(from))
        give_up("a file can't be taken out");
    names_changed();
    return 0;
}

int unlink(const char *name)
{
    char last[NAME_MAX + 1];
    if (kind_of(name, last) != FILE_OF_IT)
        return (int)syscall(SYS_unlink, name);
    if (fails("remove", last) || take_out(name))
        return -1;
    names_changed();
    return 0;
}
