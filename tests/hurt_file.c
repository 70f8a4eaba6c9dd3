/* Stands between a program and one of its files (LD_PRELOAD), and hurts that file.
 *
 *   HURT_FILE   the file, by the name that it is opened by; no other is touched
 *   HURT_LOG    each call on it writes a line there
 *   HURT_SHORT  a seed: each read and write moves a random part of its bytes, one at least
 *   HURT_ROOM   so many bytes can be written; the write that goes past them is short, and each one
 *               after it fails with ENOSPC
 *   HURT_FAIL   the number of a call, from 1: it and each one after it fail with EIO
 *   HURT_ONCE   the number of a call, from 1: it alone fails with EIO
 *   HURT_TRIM   the number of a call, from 1: before it the file is cut short to HURT_TO bytes
 *   HURT_SWAP   the number of a call, from 1: before it the file gets another one's bytes, those of
 *               HURT_FROM
 *   HURT_CUT    the number of a call, from 1: the power is cut there
 *   HURT_KEEP   what then becomes of the bytes that were written since the last sync: none is
 *               there, all is, or some (a write whole, not at all, or torn); or a row of 0 and 1,
 *               one for each write, in their order: it is not there, or it is
 *   HURT_SEED   which part that is
 *   HURT_WAY    the one way in which each of some is torn: 0 nothing of it is there, 1 all, 2 its
 *               front, 3 its end, 4 some of its bytes, 5 any bytes, 6 those of open gates; a write
 *               at the file's end has the first three
 *   HURT_KILL   the number of a call, from 1: the program is killed before it. What was written
 *               stays in the system's memory, and isn't on the device
 *   HURT_LEFT   where that is kept: as the program is killed, the writes since the last sync are
 *               put there; and those that stand there as the program begins come before its own
 *   HURT_STOP   the number of a call, from 1: the program stops before it (SIGSTOP); 0: before
 *               the file is locked
 *   HURT_TOUCH  so many reads: before each of the first ones the file's last byte is changed, as by
 *               another program
 *   HURT_SLOW   each sync takes this many milliseconds longer
 *   HURT_LOCK   the number of an error: each lock of the file is answered so
 *   HURT_NAME   a name: each opening of it fails, with the error of the number HURT_ERROR
 *   HURT_NAMES  each call on any file writes a line there, with the name of the file
 *   HURT_DIE    the number of such a call, from 1: the program is killed before it
 *   HURT_BREAK  the number of such a call, from 1: it alone fails with EIO
 *   HURT_HALT   the number of such a call, from 1: the program stops before it (SIGSTOP)
 *   HURT_WRONG  makes the program one whose disk is wrong: its sync makes no call (sync), it takes
 *               a short write as whole (short), it reads from another place (place), it makes a
 *               call that failed once more (again), or nothing is wrong (none)
 *
 * Of HURT_FILE reads, writes, syncs and the close are counted, by the number of the call; of any
 * file also openings, locks, lengths, rights, renamings and removals. A cut at
 * a write comes while it is made, one at any other call before it. A positioned write that is torn
 * may leave bytes that nobody wrote, in its range. That a file is emptied is neither counted nor
 * undone by a cut.
 */
#define _GNU_SOURCE
#include <errno.h>
#include <fcntl.h>
#include <signal.h>
#include <stdint.h>
#include <stdio.h>
#include <stdlib.h>
#include <string.h>
#include <sys/file.h>
#include <sys/stat.h>
#include <sys/syscall.h>
#include <time.h>
#include <unistd.h>

/* A write since the last sync: the bytes of its range before and after it, and the file's length
 * before it. */
struct unsynced {
    off_t at;
    size_t count;
    off_t length;
    int placed;
    unsigned char *old;
    unsigned char *new;
};

#define MOST_FILES 64

static const char *path, *keep, *wrong, *left, *refused, *stop;
static char *names[MOST_FILES]; /* (of the open files) */
static int file = -1, log_file = -1, listed = -1, is_short, is_full;
static long calls, cut, failing, once, trim, swap, killing, touches, all_calls, dying, breaking;
static long halting;
static unsigned long long room;
static uint64_t dice, short_dice;
static long slow, one_way;
static struct unsynced *row;
static size_t rows, space, before; /* (those of the program before come first) */

static long number_of(const char *name)
{
    const char *text = getenv(name);
    return text ? atol(text) : 0;
}

static uint64_t seed_of(const char *name)
{
    return (uint64_t)number_of(name) * 0x9E3779B97F4A7C15u + 0x2545F4914F6CDD1Du;
}

static void give_up(const char *why)
{
    dprintf(2, "hurt_file: %s\n", why);
    _exit(99);
}

/* Room for one write more. */
static struct unsynced *next_row(void)
{
    if (rows == space) {
        space = space ? 2 * space : 64;
        row = realloc(row, space * sizeof *row);
    }
    return &row[rows++];
}

/* Takes over the writes that the program before left in the system's memory. */
static void take_left(void)
{
    struct unsynced it;
    FILE *from = fopen(left, "rb");
    while (from && fread(&it, sizeof it, 1, from)) {
        it.old = malloc(it.count + 1);
        it.new = malloc(it.count + 1);
        if (fread(it.old, 1, it.count, from) + fread(it.new, 1, it.count, from) != 2 * it.count)
            give_up("what was left ends too early");
        *next_row() = it;
    }
    if (from)
        fclose(from);
    before = rows;
}

/* Leaves the writes since the last sync to the next program. */
static void leave_rest(void)
{
    FILE *to = fopen(left, "wb");
    for (size_t at = 0; to && at < rows; at++) {
        fwrite(&row[at], sizeof row[at], 1, to);
        fwrite(row[at].old, 1, row[at].count, to);
        fwrite(row[at].new, 1, row[at].count, to);
    }
    if (!to || fclose(to))
        give_up("what is left can't be kept");
}

/* The file into which lines are written, if one is asked for. */
static int log_of(const char *name)
{
    const char *text = getenv(name);
    int flags = O_WRONLY | O_CREAT | O_APPEND | O_CLOEXEC;
    return text ? (int)syscall(SYS_openat, AT_FDCWD, text, flags, 0644) : -1;
}

__attribute__((constructor)) static void begin(void)
{
    path = getenv("HURT_FILE");
    left = getenv("HURT_LEFT");
    refused = getenv("HURT_NAME");
    stop = getenv("HURT_STOP");
    keep = getenv("HURT_KEEP") ? getenv("HURT_KEEP") : "none";
    wrong = getenv("HURT_WRONG") ? getenv("HURT_WRONG") : "";
    cut = number_of("HURT_CUT");
    failing = number_of("HURT_FAIL");
    once = number_of("HURT_ONCE");
    trim = number_of("HURT_TRIM");
    swap = number_of("HURT_SWAP");
    killing = number_of("HURT_KILL");
    touches = number_of("HURT_TOUCH");
    dying = number_of("HURT_DIE");
    breaking = number_of("HURT_BREAK");
    halting = number_of("HURT_HALT");
    is_short = getenv("HURT_SHORT") != NULL;
    is_full = getenv("HURT_ROOM") != NULL;
    room = (unsigned long long)number_of("HURT_ROOM");
    slow = number_of("HURT_SLOW");
    one_way = getenv("HURT_WAY") ? number_of("HURT_WAY") : -1;
    dice = seed_of("HURT_SEED");
    short_dice = seed_of("HURT_SHORT");
    log_file = log_of("HURT_LOG");
    listed = log_of("HURT_NAMES");
    if (left)
        take_left();
}

static uint64_t thrown(uint64_t *state, uint64_t below)
{
    *state ^= *state >> 12;
    *state ^= *state << 25;
    *state ^= *state >> 27;
    return (*state * 0x2545F4914F6CDD1Du >> 16) % below;
}

static void tell(const char *what, off_t at, size_t count)
{
    if (log_file >= 0)
        dprintf(log_file, "%s %lld %zu\n", what, (long long)at, count);
}

static off_t length_of(int fd)
{
    struct stat found;
    if (fstat(fd, &found))
        give_up("the file has no length");
    return found.st_size;
}

static void put_back(const unsigned char *bytes, size_t count, off_t at)
{
    while (count) {
        ssize_t done = syscall(SYS_pwrite64, file, bytes, count, at);
        if (done <= 0)
            give_up("a byte can't be put back");
        bytes += done;
        count -= (size_t)done;
        at += done;
    }
}

/* Puts back a part of a write. */
static void tear(const struct unsynced *it)
{
    uint64_t ways = it->placed ? 7 : 3;
    uint64_t way = one_way < 0 ? thrown(&dice, ways) : (uint64_t)one_way % ways;
    size_t part = thrown(&dice, it->count + 1);
    switch (way) {
    case 0: /* nothing of it */
        break;
    case 1: /* all of it */
        put_back(it->new, it->count, it->at);
        break;
    case 2: /* its front */
        put_back(it->new, part, it->at);
        break;
    case 3: /* its end */
        put_back(it->new + part, it->count - part, it->at + (off_t)part);
        break;
    default: /* some of its bytes, any bytes, or those of open gates */
        for (size_t i = 0; i < it->count; i++) {
            unsigned char any = way == 5 ? (unsigned char)thrown(&dice, 256) : 0xA7;
            if (way > 4 || thrown(&dice, 2))
                put_back(way > 4 ? &any : it->new + i, 1, it->at + (off_t)i);
        }
    }
}

static void end_it(void)
{
    kill(getpid(), SIGKILL);
    give_up("it wasn't killed");
}

static void cut_power(void)
{
    size_t now = rows;
    if (strcmp(keep, "all"))
        while (now--) {
            struct unsynced *it = &row[now];
            size_t there = it->at >= it->length ? 0 : (size_t)(it->length - it->at);
            put_back(it->old, there < it->count ? there : it->count, it->at);
            if (length_of(file) > it->length && syscall(SYS_ftruncate, file, it->length))
                give_up("the length can't be put back");
        }
    for (now = 0; now < rows; now++)
        if (!strcmp(keep, "some"))
            tear(&row[now]);
        else if (now < strlen(keep) && keep[now] == '1')
            put_back(row[now].new, row[now].count, row[now].at);
    tell("cut", (off_t)before, rows);
    end_it();
}

/* Counts a call on any file, and says whether it fails. */
static int breaks(const char *what, const char *name)
{
    all_calls++;
    if (listed >= 0)
        dprintf(listed, "%s %s\n", what, name);
    if (all_calls == dying)
        end_it();
    if (all_calls == halting)
        raise(SIGSTOP);
    if (all_calls != breaking)
        return 0;
    errno = EIO;
    return 1;
}

/* So does it for a file that is open. */
static int breaks_at(const char *what, int fd)
{
    return breaks(what, fd >= 0 && fd < MOST_FILES && names[fd] ? names[fd] : "-");
}

/* Gives the file another one's bytes, by a descriptor of its own. */
static void give_bytes(void)
{
    static unsigned char part[65536];
    ssize_t count;
    off_t at = 0;
    int from = (int)syscall(SYS_openat, AT_FDCWD, getenv("HURT_FROM"), O_RDONLY | O_CLOEXEC, 0);
    int to = (int)syscall(SYS_openat, AT_FDCWD, path, O_WRONLY | O_CLOEXEC, 0);
    while ((count = syscall(SYS_read, from, part, sizeof part)) > 0) {
        if (syscall(SYS_pwrite64, to, part, count, at) != count)
            give_up("the file can't get other bytes");
        at += count;
    }
    if (count || syscall(SYS_close, from) || syscall(SYS_close, to))
        give_up("there are no other bytes");
}

/* Counts a call, and says whether it fails. */
static int counted(const char *what, off_t at, size_t count)
{
    calls++;
    tell(what, at, count);
    if (stop && calls == atol(stop))
        raise(SIGSTOP);
    if (calls == killing) {
        leave_rest();
        end_it();
    }
    if (calls == trim && syscall(SYS_truncate, path, number_of("HURT_TO")))
        give_up("it can't be cut short");
    if (calls == swap)
        give_bytes();
    if ((failing && calls >= failing) || calls == once) {
        errno = EIO;
        return 1;
    }
    return 0;
}

/* Says whether a call fails; a wrong disk makes it once more. */
static int fails(const char *what, off_t at, size_t count)
{
    return counted(what, at, count) && (strcmp(wrong, "again") || counted(what, at, count));
}

/* Where a read or a write without a place begins, where that is asked for. */
static off_t place_of(int fd)
{
    return cut || log_file >= 0 ? lseek(fd, 0, SEEK_CUR) : 0;
}

/* Changes the file's last byte, by a descriptor of its own. */
static void touch(off_t at)
{
    unsigned char byte;
    int fd = (int)syscall(SYS_openat, AT_FDCWD, path, O_RDWR | O_CLOEXEC, 0);
    if (fd < 0 || syscall(SYS_pread64, fd, &byte, 1, at) != 1)
        give_up("the file can't be changed");
    byte++;
    if (syscall(SYS_pwrite64, fd, &byte, 1, at) != 1 || syscall(SYS_close, fd))
        give_up("the file can't be changed");
}

static ssize_t get(int fd, void *bytes, size_t count, off_t at, int placed)
{
    if (count && is_short)
        count = 1 + thrown(&short_dice, count);
    if (fails("read", at, count))
        return -1;
    if (calls == cut)
        cut_power();
    if (touches && touches--)
        touch(length_of(fd) - 1);
    if (!placed)
        return syscall(SYS_read, fd, bytes, count);
    return syscall(SYS_pread64, fd, bytes, count, strcmp(wrong, "place") ? at : at + 1);
}

/* Makes a write, and keeps what it takes to undo it. */
static void remember(int fd, const void *bytes, size_t count, off_t at, int placed)
{
    struct unsynced *it = next_row();
    *it = (struct unsynced){at, count, length_of(fd), placed, calloc(1, count + 1),
                            malloc(count + 1)};
    memcpy(it->new, bytes, count);
    if (syscall(SYS_pread64, fd, it->old, count, at) < 0)
        give_up("the old bytes can't be read");
    put_back(bytes, count, at);
    if (!placed)
        lseek(fd, at + (off_t)count, SEEK_SET);
}

static ssize_t put(int fd, const void *bytes, size_t whole, off_t at, int placed)
{
    size_t count = whole;
    if (count && is_short)
        count = 1 + thrown(&short_dice, count);
    if (is_full && count > room)
        count = (size_t)room;
    if (fails("write", at, count))
        return -1;
    if (is_full && whole && !count) {
        errno = ENOSPC;
        return -1;
    }
    room -= is_full ? count : 0;
    if (!cut && !killing) {
        ssize_t done = placed ? syscall(SYS_pwrite64, fd, bytes, count, at)
                              : syscall(SYS_write, fd, bytes, count);
        return placed && done >= 0 && !strcmp(wrong, "short") ? (ssize_t)whole : done;
    }
    remember(fd, bytes, count, at, placed);
    if (calls == cut)
        cut_power();
    return (ssize_t)(placed && !strcmp(wrong, "short") ? whole : count);
}

static int synced(int fd, int number)
{
    struct timespec longer = {slow / 1000, slow % 1000 * 1000000};
    nanosleep(&longer, NULL);
    if (!strcmp(wrong, "sync"))
        return 0;
    if (fails("sync", 0, 0))
        return -1;
    if (calls == cut)
        cut_power();
    if (syscall(number, fd))
        return -1;
    while (rows) {
        rows--;
        free(row[rows].old);
        free(row[rows].new);
    }
    before = 0;
    return 0;
}

static int opened(int folder, const char *name, int flags, mode_t mode)
{
    if (breaks("open", name))
        return -1;
    if (refused && !strcmp(name, refused)) {
        errno = (int)number_of("HURT_ERROR");
        return -1;
    }
    int fd = (int)syscall(SYS_openat, folder, name, flags, mode);
    if (fd >= 0 && fd < MOST_FILES)
        names[fd] = strdup(name);
    if (fd >= 0 && path && !strcmp(name, path)) {
        if (file >= 0)
            give_up("the file is open twice");
        file = fd;
        tell(flags & O_TRUNC ? "empty" : "open", flags & O_ACCMODE, 0);
    }
    return fd;
}

#include "opens.h"

int close(int fd)
{
    breaks_at("close", fd); /* (a close that fails closes) */
    if (fd >= 0 && fd < MOST_FILES) {
        free(names[fd]);
        names[fd] = NULL;
    }
    if (fd == file && fd >= 0) {
        counted("close", 0, 0);
        if (calls == cut)
            cut_power();
        file = -1;
    }
    return (int)syscall(SYS_close, fd);
}

ssize_t read(int fd, void *bytes, size_t count)
{
    if (breaks_at("read", fd))
        return -1;
    if (fd != file)
        return syscall(SYS_read, fd, bytes, count);
    return get(fd, bytes, count, place_of(fd), 0);
}

ssize_t write(int fd, const void *bytes, size_t count)
{
    if (breaks_at("write", fd))
        return -1;
    if (fd != file)
        return syscall(SYS_write, fd, bytes, count);
    return put(fd, bytes, count, place_of(fd), 0);
}

ssize_t __write(int fd, const void *bytes, size_t count)
{
    return write(fd, bytes, count);
}

ssize_t pread64(int fd, void *bytes, size_t count, off64_t at)
{
    if (breaks_at("read", fd))
        return -1;
    if (fd != file)
        return syscall(SYS_pread64, fd, bytes, count, at);
    return get(fd, bytes, count, at, 1);
}

ssize_t pread(int fd, void *bytes, size_t count, off_t at)
{
    return pread64(fd, bytes, count, at);
}

ssize_t pwrite64(int fd, const void *bytes, size_t count, off64_t at)
{
    if (breaks_at("write", fd))
        return -1;
    if (fd != file)
        return syscall(SYS_pwrite64, fd, bytes, count, at);
    return put(fd, bytes, count, at, 1);
}

ssize_t pwrite(int fd, const void *bytes, size_t count, off_t at)
{
    return pwrite64(fd, bytes, count, at);
}

int fdatasync(int fd)
{
    if (breaks_at("sync", fd))
        return -1;
    return fd == file ? synced(fd, SYS_fdatasync) : (int)syscall(SYS_fdatasync, fd);
}

int fsync(int fd)
{
    if (breaks_at("sync", fd))
        return -1;
    return fd == file ? synced(fd, SYS_fsync) : (int)syscall(SYS_fsync, fd);
}

int ftruncate64(int fd, off64_t length)
{
    if (breaks_at("length", fd))
        return -1;
    if (fd == file && length)
        give_up("the file gets another length");
    if (fd == file)
        tell("empty", 0, 0);
    return (int)syscall(SYS_ftruncate, fd, length);
}

int ftruncate(int fd, off_t length)
{
    return ftruncate64(fd, length);
}

int flock(int fd, int how)
{
    if (breaks_at("lock", fd))
        return -1;
    if (fd == file && stop && !atol(stop))
        raise(SIGSTOP);
    if (fd == file && number_of("HURT_LOCK")) {
        errno = (int)number_of("HURT_LOCK");
        return -1;
    }
    return (int)syscall(SYS_flock, fd, how);
}

int fchmod(int fd, mode_t mode)
{
    return breaks_at("rights", fd) ? -1 : (int)syscall(SYS_fchmod, fd, mode);
}

int fchown(int fd, uid_t owner, gid_t group)
{
    return breaks_at("owner", fd) ? -1 : (int)syscall(SYS_fchown, fd, owner, group);
}

int rename(const char *from, const char *to)
{
    return breaks("rename", to) ? -1 : (int)syscall(SYS_rename, from, to);
}

int unlink(const char *name)
{
    return breaks("remove", name) ? -1 : (int)syscall(SYS_unlink, name);
}
