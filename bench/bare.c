/* A bare server over a log, and its clients, in one process: what bench/store.py compares a stored server with.
 *
 *     bare FILE CONNECTIONS BODIES TOGETHER    prints seconds
 *
 * Each of so many connections sends so many bodies of 1 MiB, one after another, and waits for an answer after each.
 * There is no HTTP: a body is its bytes, and an answer two bytes. A thread for each connection receives a body, and
 * waits until it is written. Whoever finds nobody writing writes the bodies that wait, at most TOGETHER of them, as
 * one batch, as the server's log does: after a closed gate, each from where it is, then a sync, the gate, a sync. It
 * needs a C compiler on Linux.
 */
#define _GNU_SOURCE
#include <arpa/inet.h>
#include <fcntl.h>
#include <netinet/in.h>
#include <pthread.h>
#include <stdbool.h>
#include <stdio.h>
#include <stdlib.h>
#include <string.h>
#include <sys/socket.h>
#include <time.h>
#include <unistd.h>

enum { BODY = 1 << 20, MOST = 64, OF_BLOCK = 16, OF_CHANGE = 53 };

struct change {
    const char *body;
    bool is_done;
};

static int file, listener, bodies, together;
static off_t end;
static bool is_writing;
static struct change *waiting[MOST];
static int count;
static pthread_mutex_t line = PTHREAD_MUTEX_INITIALIZER;
static pthread_cond_t bell = PTHREAD_COND_INITIALIZER;

static void stop(const char *what)
{
    perror(what);
    exit(1);
}

static double now(void)
{
    struct timespec time;
    clock_gettime(CLOCK_MONOTONIC, &time);
    return time.tv_sec + time.tv_nsec / 1e9;
}

/* Writes bytes at a place, and returns the place after them. */
static off_t put(const char *bytes, size_t size, off_t place)
{
    while (size > 0) {
        ssize_t some = pwrite(file, bytes, size, place);
        if (some <= 0) {
            stop("bare: cannot write");
        }
        bytes += some;
        size -= some;
        place += some;
    }
    return place;
}

static void settle(void)
{
    if (fdatasync(file) != 0) {
        stop("bare: cannot sync");
    }
}

/* Writes a batch after its gate, with the next gate, and then opens the gate. */
static void write_batch(struct change **batch, int size)
{
    static const char front[OF_BLOCK], head[OF_CHANGE], closed[1], open[1] = {1};
    off_t place = put(front, OF_BLOCK - 1, end + 1);
    for (int at = 0; at < size; at++) {
        place = put(head, OF_CHANGE, place);
        place = put(batch[at]->body, BODY, place);
    }
    put(closed, 1, place);
    settle();
    put(open, 1, end);
    settle();
    end = place;
}

/* Waits until a body is written, and writes batches meanwhile if nobody else does. */
static void store(const char *body)
{
    struct change change = {body, false}, *batch[MOST];
    pthread_mutex_lock(&line);
    waiting[count++] = &change;
    while (!change.is_done) {
        if (is_writing || count == 0) {
            pthread_cond_wait(&bell, &line);
            continue;
        }
        int size = count < together ? count : together;
        memcpy(batch, waiting, size * sizeof *batch);
        count -= size;
        memmove(waiting, waiting + size, count * sizeof *waiting);
        is_writing = true;
        pthread_mutex_unlock(&line);
        write_batch(batch, size);
        pthread_mutex_lock(&line);
        is_writing = false;
        for (int at = 0; at < size; at++) {
            batch[at]->is_done = true;
        }
        pthread_cond_broadcast(&bell);
    }
    pthread_mutex_unlock(&line);
}

static void *serve(void *unused)
{
    int peer = accept(listener, NULL, NULL);
    for (int number = 0; number < bodies; number++) {
        /* As a server keeps its uploads, so the bodies stay. */
        char *body = malloc(BODY);
        if (body == NULL || recv(peer, body, BODY, MSG_WAITALL) != BODY) {
            stop("bare: cannot receive a body");
        }
        store(body);
        if (send(peer, "ok", 2, 0) != 2) {
            stop("bare: cannot answer");
        }
    }
    return unused;
}

static void *ask(void *address)
{
    char *body = calloc(1, BODY), answer[2];
    int peer = socket(AF_INET, SOCK_STREAM, 0);
    if (body == NULL || connect(peer, address, sizeof(struct sockaddr_in)) != 0) {
        stop("bare: cannot connect");
    }
    for (int number = 0; number < bodies; number++) {
        for (size_t sent = 0; sent < BODY;) {
            ssize_t some = send(peer, body + sent, BODY - sent, 0);
            if (some <= 0) {
                stop("bare: cannot send");
            }
            sent += some;
        }
        if (recv(peer, answer, 2, MSG_WAITALL) != 2) {
            stop("bare: cannot receive an answer");
        }
    }
    return NULL;
}

int main(int words, char **word)
{
    struct sockaddr_in address = {.sin_family = AF_INET};
    socklen_t size = sizeof address;
    pthread_t threads[2 * MOST];
    int connections = words == 5 ? atoi(word[2]) : 0;
    if (connections < 1 || connections > MOST) {
        fputs("bare FILE CONNECTIONS BODIES TOGETHER\n", stderr);
        return 2;
    }
    bodies = atoi(word[3]);
    together = atoi(word[4]);
    file = open(word[1], O_RDWR | O_CREAT | O_EXCL, 0600);
    listener = socket(AF_INET, SOCK_STREAM, 0);
    address.sin_addr.s_addr = htonl(INADDR_LOOPBACK);
    if (file < 0 || bind(listener, (void *)&address, size) != 0 || listen(listener, MOST) != 0
        || getsockname(listener, (void *)&address, &size) != 0) {
        stop(word[1]);
    }
    double begun = now();
    for (int at = 0; at < connections; at++) {
        pthread_create(&threads[2 * at], NULL, serve, NULL);
        pthread_create(&threads[2 * at + 1], NULL, ask, &address);
    }
    for (int at = 0; at < 2 * connections; at++) {
        pthread_join(threads[at], NULL);
    }
    printf("%.6f\n", now() - begun);
    return 0;
}
