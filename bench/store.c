/* What bench/store.py compares a stored server with: the writes of its log alone, and the reading of a file.
 *
 *     store write FILE BATCHES BYTES PLACES    prints seconds; writes this many batches of this many bytes
 *     store read FILE                          prints seconds; the bytes are dropped
 *
 * A batch is written after its closed gate, which is a byte, together with the next gate. It is synced, and then its
 * gate is opened by a write of one byte, and synced. The server's logs do the same, but for long bodies, which they
 * write piece by piece. The batches come from this many places in memory in turn: from one place, its bytes stay in the
 * processor's cache; from many, they don't, as those of a server's bodies. It needs a C compiler on Linux.
 */
#define _GNU_SOURCE
#include <fcntl.h>
#include <stdio.h>
#include <stdlib.h>
#include <string.h>
#include <time.h>
#include <unistd.h>

enum { PIECE = 1 << 20 };

static void stop(const char *what)
{
    perror(what);
    exit(1);
}

static double now(void)
{
    struct timespec time;
    clock_gettime(CLOCK_MONOTONIC, &time);
    return time.tv_sec + time.tv_nsec / 1e9;
}

/* Writes the bytes at a place, and syncs. */
static void put(int file, const char *bytes, size_t count, off_t place)
{
    while (count > 0) {
        ssize_t put = pwrite(file, bytes, count, place);
        if (put <= 0) {
            stop("store: cannot write");
        }
        bytes += put;
        count -= put;
        place += put;
    }
    if (fdatasync(file) != 0) {
        stop("store: cannot sync");
    }
}

static void work_write(const char *name, size_t batches, size_t bytes, size_t places)
{
    size_t each = bytes + 1;
    char *bodies = malloc(places * each);
    int file = open(name, O_RDWR | O_CREAT | O_EXCL, 0600);
    if (bodies == NULL || file < 0) {
        stop(name);
    }
    for (size_t at = 0; at < places * each; at++) {
        bodies[at] = at % each == bytes ? 0 : at * 31 + at / 251;
    }
    put(file, bodies + bytes, 1, 0);
    double start = now();
    off_t gate = 0;
    for (size_t batch = 0; batch < batches; batch++) {
        put(file, bodies + batch % places * each, each, gate + 1);
        put(file, "\1", 1, gate);
        gate += bytes + 1;
    }
    printf("%f\n", now() - start);
}

static void work_read(const char *name)
{
    static char piece[PIECE];
    double start = now();
    int file = open(name, O_RDONLY);
    ssize_t came;
    if (file < 0) {
        stop(name);
    }
    while ((came = read(file, piece, PIECE)) > 0) {
    }
    if (came < 0) {
        stop("store: cannot read");
    }
    printf("%f\n", now() - start);
}

int main(int count, char **words)
{
    if (count == 6 && strcmp(words[1], "write") == 0) {
        work_write(words[2], strtoull(words[3], NULL, 10), strtoull(words[4], NULL, 10), strtoull(words[5], NULL, 10));
    } else if (count == 3 && strcmp(words[1], "read") == 0) {
        work_read(words[2]);
    } else {
        fprintf(stderr, "usage: store write FILE BATCHES BYTES PLACES, or store read FILE\n");
        return 1;
    }
    return 0;
}
