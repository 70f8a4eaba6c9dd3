/* A device that fails on demand, at once or after a while, for tests/real_ext4: a file
 * system (FUSE, without a library) with one file, `img`, whose bytes are those of another file.
 *
 *     failing_device MOUNTPOINT BACKING RANGES
 *
 * While the file RANGES exists, a write of a byte in one of its ranges fails with EIO. Each line is
 * a range and a number of milliseconds, `FROM TO WHILE`: the whole file system hangs for this time
 * before the write fails. It ends when it is unmounted. It needs root and /dev/fuse.
 */
#include <errno.h>
#include <fcntl.h>
#include <linux/fuse.h>
#include <stdio.h>
#include <string.h>
#include <sys/mount.h>
#include <sys/stat.h>
#include <sys/uio.h>
#include <unistd.h>

enum { TOP = 1, IMG = 2, LONGEST = 128 << 10, ROOM = 2 << 20, ALWAYS = 100 };

typedef unsigned long long number;

static int device, backing;
static const char *ranges;

static void reply(number to, int error, const void *bytes, size_t count)
{
    struct fuse_out_header head = {.len = sizeof head + count, .error = -error, .unique = to};
    struct iovec parts[2] = {{&head, sizeof head}, {(void *)bytes, count}};
    if (writev(device, parts, count ? 2 : 1) < 0 && errno != ENOENT)
        perror("failing_device: reply");
}

static void describe(struct fuse_attr *it, number inode)
{
    struct stat found;
    fstat(backing, &found);
    *it = (struct fuse_attr){.ino = inode, .nlink = 1, .blksize = 4096, .mode = S_IFDIR | 0755};
    if (inode == IMG) {
        it->mode = S_IFREG | 0644;
        it->size = (number)found.st_size;
        it->blocks = it->size / 512;
    }
}

/* Says whether a write of these bytes fails, once it has hung as long as it is to. */
static int fails(number at, number count)
{
    number from, to, hangs, longest = 0;
    int found = 0;
    FILE *list = fopen(ranges, "r");
    while (list && fscanf(list, "%llu %llu %llu", &from, &to, &hangs) == 3) {
        if (at >= to || from >= at + count)
            continue;
        found = 1;
        longest = hangs > longest ? hangs : longest;
    }
    if (list)
        fclose(list);
    usleep((useconds_t)(longest * 1000));
    return found;
}

static void begin(number to, const struct fuse_init_in *it)
{
    struct fuse_init_out out = {.major = 7, .minor = 31, .max_readahead = it->max_readahead,
                                .flags = FUSE_BIG_WRITES, .max_write = LONGEST,
                                .max_background = 16, .time_gran = 1};
    reply(to, 0, &out, sizeof out);
}

static void look_up(number to, const char *name)
{
    struct fuse_entry_out out = {.nodeid = IMG, .attr_valid = ALWAYS, .entry_valid = ALWAYS};
    describe(&out.attr, IMG);
    int is_there = !strcmp(name, "img");
    reply(to, is_there ? 0 : ENOENT, &out, is_there ? sizeof out : 0);
}

static void read_part(number to, const struct fuse_read_in *it)
{
    static char bytes[ROOM];
    ssize_t count = pread(backing, bytes, it->size, (off_t)it->offset);
    reply(to, count < 0 ? errno : 0, bytes, count < 0 ? 0 : (size_t)count);
}

static void write_part(number to, const struct fuse_write_in *it)
{
    struct fuse_write_out out = {0};
    if (fails(it->offset, it->size)) {
        reply(to, EIO, NULL, 0);
        return;
    }
    ssize_t count = pwrite(backing, it + 1, it->size, (off_t)it->offset);
    out.size = count < 0 ? 0 : (unsigned)count;
    reply(to, count < 0 ? errno : 0, &out, count < 0 ? 0 : sizeof out);
}

static void answer(const struct fuse_in_header *head, const void *rest)
{
    struct fuse_attr_out attributes = {.attr_valid = ALWAYS};
    struct fuse_open_out opened = {.fh = 1};
    struct fuse_statfs_out sizes = {{.bsize = 4096, .namelen = 255, .frsize = 4096}};
    switch (head->opcode) {
    case FUSE_INIT:
        begin(head->unique, rest);
        break;
    case FUSE_LOOKUP:
        look_up(head->unique, rest);
        break;
    case FUSE_GETATTR:
    case FUSE_SETATTR:
        describe(&attributes.attr, head->nodeid);
        reply(head->unique, 0, &attributes, sizeof attributes);
        break;
    case FUSE_OPEN:
    case FUSE_OPENDIR:
        reply(head->unique, 0, &opened, sizeof opened);
        break;
    case FUSE_READ:
        read_part(head->unique, rest);
        break;
    case FUSE_WRITE:
        write_part(head->unique, rest);
        break;
    case FUSE_STATFS:
        reply(head->unique, 0, &sizes, sizeof sizes);
        break;
    case FUSE_FORGET:
    case FUSE_BATCH_FORGET:
    case FUSE_INTERRUPT:
        break;
    case FUSE_READDIR:
    case FUSE_RELEASE:
    case FUSE_RELEASEDIR:
    case FUSE_FSYNC:
    case FUSE_FSYNCDIR:
    case FUSE_FLUSH:
    case FUSE_ACCESS:
        reply(head->unique, 0, NULL, 0);
        break;
    default:
        reply(head->unique, ENOSYS, NULL, 0);
    }
}

int main(int count, char **words)
{
    static char request[ROOM] __attribute__((aligned(8)));
    char how[200];
    if (count != 4)
        return 2;
    ranges = words[3];
    backing = open(words[2], O_RDWR);
    device = open("/dev/fuse", O_RDWR);
    snprintf(how, sizeof how, "fd=%d,rootmode=40000,user_id=0,group_id=0", device);
    if (backing < 0 || device < 0 || mount("failing_device", words[1], "fuse", 0, how)) {
        perror("failing_device");
        return 1;
    }
    puts("mounted");
    fflush(stdout);
    for (;;) {
        ssize_t length = read(device, request, sizeof request);
        const struct fuse_in_header *head = (const void *)request;
        if (length < 0 && errno != EINTR && errno != ENOENT)
            return 0;
        if (length < 0)
            continue;
        if (head->opcode == FUSE_DESTROY)
            return 0;
        answer(head, head + 1);
    }
}
