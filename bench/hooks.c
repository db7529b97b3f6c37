/* A hook server for bench/hooks.py, and a client that times one request again and again, on the loopback.
 *
 *     hooks serve FILE                            prints its port; the first request that comes is written into FILE
 *     hooks ask PORT CONNECTIONS REQUESTS FILE    prints seconds, and the median and the 99th of 100 of the
 *                                                 microseconds that an answer takes
 *
 * The hook server has a thread for each connection, and answers each request alike. At first it holds its answers back.
 * For each line `HELD COUNT` of its input it waits until so many answers are held back, sends them, answers at once
 * from then on, and prints the seconds until COUNT answers were sent. It ends with its input.
 *
 * The client sends the request in FILE so many times over each connection, and waits for each answer. The first tenth
 * of the answers of a connection is left out of its microseconds. It sends a request in one piece, and reads an answer
 * so, and does nothing else: to a server that answers alike, that is a bare exchange. Both need a C compiler on Linux,
 * and exit with status 1 if something is wrong.
 */
#include "talk.h"
#include <pthread.h>
#include <stdatomic.h>

enum { MOST = 64, PATIENCE = 600 };

static pthread_mutex_t lock = PTHREAD_MUTEX_INITIALIZER;
static pthread_cond_t bell = PTHREAD_COND_INITIALIZER;

/* The hook server. */

static const char ANSWER[] = "HTTP/1.1 200 OK\r\nContent-Type: application/json\r\nContent-Length: 2\r\n\r\n{}";

static const char *sample; /* the file of the first request */
static atomic_flag is_kept = ATOMIC_FLAG_INIT;
static atomic_int is_open; /* whether answers are sent at once */
static atomic_long answers;
static long held, last; /* how many answers are held back, and the number of the one that is waited for */
static double end; /* when that was sent */

/* Reads the next request, as a reply is read, with its body behind its head. Returns whether one came. */
static int next_request(struct talk *talk)
{
    if (!next_head(talk)) {
        return 0;
    }
    if (talk->used + talk->rest > HEAD) {
        stop("a request of more than %d bytes", HEAD);
    }
    while (talk->rest > 0) {
        ssize_t came = recv(talk->socket, talk->read + talk->used, talk->rest, 0);
        if (came <= 0) {
            return 0;
        }
        talk->have += came;
        talk->used += came;
        talk->rest -= came;
    }
    return 1;
}

/* Writes a request into the file, with the byte in which the text of its head ends as it came. */
static void keep(struct talk *talk)
{
    FILE *file = fopen(sample, "w");
    talk->body[-2] = '\r';
    if (file == NULL || fwrite(talk->read, 1, talk->used, file) != talk->used || fclose(file) != 0) {
        stop("cannot write %s: %m", sample);
    }
}

/* Waits while answers are held back. */
static void hold(void)
{
    pthread_mutex_lock(&lock);
    held++;
    pthread_cond_broadcast(&bell);
    while (!is_open) {
        pthread_cond_wait(&bell, &lock);
    }
    pthread_mutex_unlock(&lock);
}

/* Counts an answer that was sent, and notes when, if it is the one that is waited for. */
static void count_answer(void)
{
    if (atomic_fetch_add(&answers, 1) + 1 == last) {
        pthread_mutex_lock(&lock);
        end = now();
        pthread_cond_broadcast(&bell);
        pthread_mutex_unlock(&lock);
    }
}

static void *answer_all(void *given)
{
    struct talk *talk = given;
    while (next_request(talk)) {
        if (!atomic_flag_test_and_set(&is_kept)) {
            keep(talk);
        }
        if (!is_open) {
            hold();
        }
        if (!try_to_send(talk, ANSWER, sizeof ANSWER - 1)) {
            break;
        }
        count_answer();
    }
    close(talk->socket);
    free(talk);
    return NULL;
}

static void *accept_all(void *listener)
{
    int on = 1;
    for (int peer; (peer = accept(*(int *)listener, NULL, NULL)) >= 0;) {
        pthread_t thread;
        struct talk *talk = calloc(1, sizeof *talk);
        if (talk == NULL) {
            stop("no memory");
        }
        talk->socket = peer;
        setsockopt(peer, IPPROTO_TCP, TCP_NODELAY, &on, sizeof on);
        if (pthread_create(&thread, NULL, answer_all, talk) != 0) {
            stop("no thread");
        }
        pthread_detach(thread);
    }
    stop("cannot accept: %m");
    return NULL;
}

/* Waits until so many answers are held back, and sends them. Returns the seconds until `count` answers were sent. */
static double let_go(long wanted, long count)
{
    pthread_mutex_lock(&lock);
    while (held < wanted) {
        pthread_cond_wait(&bell, &lock);
    }
    double start = now();
    last = count;
    end = count == 0 ? start : 0;
    is_open = 1;
    pthread_cond_broadcast(&bell);
    while (end == 0) {
        pthread_cond_wait(&bell, &lock);
    }
    pthread_mutex_unlock(&lock);
    return end - start;
}

static void work_serve(void)
{
    struct sockaddr_in address = {.sin_family = AF_INET};
    socklen_t size = sizeof address;
    pthread_t thread;
    int listener = socket(AF_INET, SOCK_STREAM, 0);
    long wanted, count;
    address.sin_addr.s_addr = htonl(INADDR_LOOPBACK);
    if (listener < 0 || bind(listener, (struct sockaddr *)&address, size) != 0 || listen(listener, MOST) != 0
        || getsockname(listener, (struct sockaddr *)&address, &size) != 0) {
        stop("cannot listen: %m");
    }
    pthread_create(&thread, NULL, accept_all, &listener);
    printf("%d\n", ntohs(address.sin_port));
    fflush(stdout);
    while (scanf("%ld %ld", &wanted, &count) == 2) {
        alarm(PATIENCE);
        printf("%f\n", let_go(wanted, count));
        fflush(stdout);
        alarm(0);
    }
}

/* The client. */

struct asker {
    pthread_t thread;
    struct talk talk;
    double *took; /* the seconds of each request */
};

static char request[HEAD];
static size_t request_size;
static int port, requests;
static pthread_barrier_t begin;

static void *ask_all(void *given)
{
    struct asker *asker = given;
    asker->talk.port = port;
    open_talk(&asker->talk);
    pthread_barrier_wait(&begin);
    for (int number = 0; number < requests; number++) {
        double start = now();
        send_all(&asker->talk, request, request_size);
        read_head(&asker->talk, 200, 201);
        asker->took[number] = now() - start;
        if (asker->talk.rest > 0) {
            stop("a body of %zu bytes more", asker->talk.rest);
        }
        if (closes(&asker->talk)) {
            close(asker->talk.socket);
            open_talk(&asker->talk);
        }
    }
    return NULL;
}

static void read_request(const char *name)
{
    FILE *file = fopen(name, "r");
    request_size = file == NULL ? 0 : fread(request, 1, HEAD, file);
    if (request_size == 0) {
        stop("no request in %s: %m", name);
    }
}

static int in_order(const void *one, const void *other)
{
    double difference = *(const double *)one - *(const double *)other;
    return (difference > 0) - (difference < 0);
}

/* Prints the median and the 99th of 100 of the times, all but the first ones of each connection. */
static void say_times(const struct asker *askers, int connections)
{
    size_t first = requests / 10, each = requests - first, count = connections * each;
    double *times = calloc(count, sizeof *times);
    if (times == NULL) {
        stop("no memory");
    }
    for (int number = 0; number < connections; number++) {
        memcpy(times + number * each, askers[number].took + first, each * sizeof *times);
    }
    qsort(times, count, sizeof *times, in_order);
    printf("%f %f\n", times[count / 2] * 1e6, times[count * 99 / 100] * 1e6);
}

static void work_ask(int connections)
{
    static struct asker askers[MOST];
    pthread_barrier_init(&begin, NULL, connections + 1);
    for (int number = 0; number < connections; number++) {
        struct asker *asker = &askers[number];
        asker->took = calloc(requests, sizeof *asker->took);
        if (asker->took == NULL || pthread_create(&asker->thread, NULL, ask_all, asker) != 0) {
            stop("no memory, or no thread");
        }
    }
    pthread_barrier_wait(&begin);
    double start = now();
    for (int number = 0; number < connections; number++) {
        pthread_join(askers[number].thread, NULL);
    }
    printf("%f ", now() - start);
    say_times(askers, connections);
}

int main(int count, char **words)
{
    if (count == 3 && strcmp(words[1], "serve") == 0) {
        sample = words[2];
        work_serve();
        return 0;
    }
    int connections = count == 6 && strcmp(words[1], "ask") == 0 ? atoi(words[3]) : 0;
    if (connections < 1 || connections > MOST || (requests = atoi(words[4])) < 1) {
        stop("usage: hooks serve FILE, or hooks ask PORT CONNECTIONS REQUESTS FILE");
    }
    port = atoi(words[2]);
    read_request(words[5]);
    work_ask(connections);
    return 0;
}
