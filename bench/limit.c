/* What a disk takes of batches with an fdatasync behind each: appended to a file, where each sync writes the file's length
 * too, and over zeros that were written ahead, where it writes data alone.
 *
 * Arguments: a folder, the bytes of a batch, and how many batches. It prints the nanoseconds of all of them, for both. */
#include <fcntl.h>
#include <stdio.h>
#include <stdlib.h>
#include <string.h>
#include <time.h>
#include <unistd.h>

enum { AHEAD = 4 << 20 };

static char zeros[AHEAD];

static void fail(const char *what) {
    perror(what);
    exit(1);
}

static long long now(void) {
    struct timespec time;
    clock_gettime(CLOCK_MONOTONIC, &time);
    return time.tv_sec * 1000000000LL + time.tv_nsec;
}

static void put(int fd, const char *bytes, long size, long at) {
    if (pwrite(fd, bytes, size, at) != size) fail("write");
}

/* The nanoseconds of all batches. With zeros ahead, the batch that no longer fits into them goes out with the next ones. */
static long long taken(const char *batch, long size, long batches, long ahead) {
    int fd = open("limit", O_CREAT | O_TRUNC | O_WRONLY, 0600);
    if (fd < 0) fail("open");
    long end = 0, length = ahead;
    put(fd, zeros, ahead, 0);
    if (fdatasync(fd)) fail("fdatasync");
    long long start = now();
    for (long i = 0; i < batches; i++) {
        for (; ahead && end + size > length; length += ahead) put(fd, zeros, ahead, length);
        put(fd, batch, size, end);
        if (fdatasync(fd)) fail("fdatasync");
        end += size;
    }
    long long nanoseconds = now() - start;
    close(fd);
    unlink("limit");
    return nanoseconds;
}

int main(int count, char **words) {
    if (count != 4 || chdir(words[1])) return 2;
    long size = atol(words[2]), batches = atol(words[3]);
    char *batch = malloc(size);
    if (!batch) fail("memory");
    memset(batch, 'x', size);
    long long appended = taken(batch, size, batches, 0);
    printf("%lld %lld\n", appended, taken(batch, size, batches, AHEAD));
    return 0;
}
