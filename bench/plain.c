/* What an opening of a large store can't do without: the file is locked and synced, both slots and
 * a segment are read, and what a checkpoint writes is written: plain BYTES FILE.
 *
 * It makes the three reads and the seven calls of a checkpoint, whose image has so many bytes, and
 * nothing else. The file has its bytes after it. */
#include <fcntl.h>
#include <stdio.h>
#include <stdlib.h>
#include <sys/file.h>
#include <unistd.h>

enum { SLOT = 2097152, SEGMENT = 1048576 };

static void must(int is_done)
{
    if (!is_done) {
        perror("plain");
        exit(1);
    }
}

int main(int count, char **words)
{
    must(count == 3);
    size_t image = (size_t)atol(words[1]);
    int file = open(words[2], O_RDWR);
    must(file >= 0 && !flock(file, LOCK_EX | LOCK_NB) && !fdatasync(file));
    char *first = malloc(SLOT), *second = malloc(SLOT), *segment = malloc(SEGMENT);
    must(first && second && segment);
    must(pread(file, first, SLOT, 0) == SLOT);
    must(pread(file, second, SLOT, SLOT) == SLOT);
    must(pread(file, segment, SEGMENT, 2 * SLOT) == SEGMENT);
    must(pwrite(file, second, 1, SLOT) == 1 && !fdatasync(file));
    must(pwrite(file, second + 1, image, SLOT + 1) == (ssize_t)image);
    must(pwrite(file, segment, 1, 2 * SLOT) == 1 && !fdatasync(file));
    must(pwrite(file, second, 1, SLOT) == 1 && !fdatasync(file));
    return 0;
}
