/* The watcher of bench/lock.py: asks for the state of an upload again and again, and prints how long the answers took.
 *
 *     watch PORT PATH [PORT PATH]..
 *
 * For each pair a thread sends a HEAD on a kept connection, waits for the answer, and sends the next one at once. If
 * the server closes, as it does after the 10,000th, the thread connects again, which isn't counted. The watcher prints
 * "begun" once all threads have had their first answer. At the end of its input it prints a line for each pair: the
 * number of answers, and the mean and the longest wait for one, in milliseconds. A thread sleeps while it waits, and
 * runs on any processor: one that spins, or keeps to one processor, has to wait for others itself if processors are
 * few. The watcher needs a C compiler on Linux. If an answer isn't 200, it exits with status 1.
 */
#include "talk.h"
#include <pthread.h>
#include <stdatomic.h>

enum { MAX_WATCHED = 16 };

/* An upload whose state is asked for. */
struct watched {
    pthread_t thread;
    struct talk talk;
    char head[HEAD];
    size_t size;
    size_t count;
    double sum, longest;
};

static atomic_int is_over;
static pthread_barrier_t begin;

/* Asks once, and returns the seconds until the answer has come. */
static double ask(struct watched *watched)
{
    double start = now();
    send_all(&watched->talk, watched->head, watched->size);
    read_head(&watched->talk, 200, 200);
    return now() - start;
}

/* Connects, and asks once, which isn't counted. */
static void open_watched(struct watched *watched)
{
    open_talk(&watched->talk);
    ask(watched);
}

static void *watch(void *given)
{
    struct watched *watched = given;
    open_watched(watched);
    pthread_barrier_wait(&begin);
    do {
        if (closes(&watched->talk)) {
            close(watched->talk.socket);
            open_watched(watched);
        }
        double waited = ask(watched);
        watched->count++;
        watched->sum += waited;
        watched->longest = waited > watched->longest ? waited : watched->longest;
    } while (!is_over);
    return NULL;
}

int main(int count, char **words)
{
    static struct watched all[MAX_WATCHED];
    int pairs = (count - 1) / 2;
    if (pairs < 1 || pairs > MAX_WATCHED || count % 2 == 0) {
        stop("usage: watch PORT PATH [PORT PATH]..");
    }
    pthread_barrier_init(&begin, NULL, pairs + 1);
    for (int pair = 0; pair < pairs; pair++) {
        struct watched *watched = &all[pair];
        watched->talk.port = atoi(words[1 + 2 * pair]);
        watched->size = snprintf(watched->head, HEAD, "HEAD %s HTTP/1.1\r\nHost: a\r\n\r\n", words[2 + 2 * pair]);
        pthread_create(&watched->thread, NULL, watch, watched);
    }
    pthread_barrier_wait(&begin);
    printf("begun\n");
    fflush(stdout);
    while (getchar() != EOF) {
    }
    is_over = 1;
    for (int pair = 0; pair < pairs; pair++) {
        pthread_join(all[pair].thread, NULL);
        printf("%zu %f %f\n", all[pair].count, all[pair].sum / all[pair].count * 1e3, all[pair].longest * 1e3);
    }
    return 0;
}
