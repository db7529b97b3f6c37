/* The client of bench/serve.py, bench/shards.py and bench/store.py: does one kind of work on the server at a port of
 * the loopback, and prints what it took.
 *
 *     client PORT tus|put append CONNECTIONS REQUESTS BYTES   seconds, and the name of what came first
 *     client PORT tus|put check NAME BYTES                    nothing; fetches the bytes and checks them
 *     client PORT tus|put fetch NAME BYTES TIMES              seconds; the bytes that come are dropped
 *     client PORT tus|put visit NAME CONNECTIONS              seconds, one connection after another
 *     client PORT tus|put beside BYTES                        the longest wait of a small request beside one of BYTES
 *     client PORT tus|put stay CONNECTIONS                    "open", and then waits for the end of its input
 *     client PORT tus lanes TURNS REQUESTS EVENTS             seconds for requests on an upload of lane 1, and for as
 *                                                             many while events of lane 0 wait for their hook
 *     client PORT tus together CONNECTIONS BYTES              "open" once as many PATCHes have half of their bytes; and
 *                                                             after the end of its input seconds until all are answered
 *
 * `tus` makes uploads and appends to them by PATCH, `put` writes files by PUT, and `apart` is `tus` with each
 * connection from an address of its own. PORT may be several ports, with commas between them, which the connections
 * take in turn. Each connection has a thread, except with `together`, and waits for each reply before the next request.
 * The client needs a C compiler on Linux, and exits with status 1 if a reply is wrong.
 */
#include "talk.h"
#include <pthread.h>
#include <sys/uio.h>

enum { PIECE = 1 << 20, NUMBERS = 3, PORTS = 16 };

static int ports[PORTS], port_count;
static int speaks_tus, is_apart;
static char piece[PIECE]; /* all bodies are made of it */

/* Reads a whole reply whose body has come with its head, and connects again if the server closes after it. */
static void read_reply(struct talk *talk, int status, int other)
{
    read_head(talk, status, other);
    if (talk->rest > 0) {
        stop("a body of %zu bytes more", talk->rest);
    }
    if (closes(talk)) {
        close(talk->socket);
        open_talk(talk);
    }
}

/* Connects, and makes the upload of this connection; a file is made by the first PUT. */
static void make(struct talk *talk, int number, size_t length)
{
    char head[HEAD];
    talk->port = ports[number % port_count];
    talk->from = is_apart ? number + 1 : 0;
    open_talk(talk);
    if (!speaks_tus) {
        snprintf(talk->path, NAME, "/%d", number);
        return;
    }
    int size = snprintf(head, HEAD,
        "POST /files/ HTTP/1.1\r\nHost: a\r\nTus-Resumable: 1.0.0\r\nUpload-Length: %zu\r\n\r\n", length);
    send_all(talk, head, size);
    read_reply(talk, 201, 201);
    const char *place = field(talk, "Location");
    if (place == NULL || sscanf(place, "%127[^\r]", talk->path) != 1) {
        stop("no Location");
    }
}

static int append_head(const struct talk *talk, char *head, size_t request, size_t bytes)
{
    if (speaks_tus) {
        return snprintf(head, HEAD,
            "PATCH %s HTTP/1.1\r\nHost: a\r\nTus-Resumable: 1.0.0\r\n"
            "Content-Type: application/offset+octet-stream\r\nUpload-Offset: %zu\r\nContent-Length: %zu\r\n\r\n",
            talk->path, request * bytes, bytes);
    }
    return snprintf(head, HEAD, "PUT %s-%zu HTTP/1.1\r\nHost: a\r\nContent-Length: %zu\r\n\r\n",
        talk->path, request, bytes);
}

/* Sends the request of this number, as much of its bytes as the system takes with the head, and then the others; and
 * reads the reply. */
static void append(struct talk *talk, size_t request, size_t bytes)
{
    char head[HEAD];
    size_t size = append_head(talk, head, request, bytes);
    struct iovec parts[2] = {{head, size}, {piece, bytes < PIECE ? bytes : PIECE}};
    ssize_t sent = writev(talk->socket, parts, 2);
    if (sent < (ssize_t)size) {
        stop("cannot send: %m");
    }
    for (size_t place = sent - size; place < bytes;) {
        size_t from = place % PIECE;
        size_t part = bytes - place < PIECE - from ? bytes - place : PIECE - from;
        send_all(talk, piece + from, part);
        place += part;
    }
    read_reply(talk, speaks_tus ? 204 : 201, 204);
}

/* A thread that appends. */
struct worker {
    pthread_t thread;
    struct talk talk;
    int number;
    size_t requests, bytes;
};

static pthread_barrier_t begin;

static void *append_all(void *given)
{
    struct worker *worker = given;
    make(&worker->talk, worker->number, worker->requests * worker->bytes);
    pthread_barrier_wait(&begin);
    for (size_t request = 0; request < worker->requests; request++) {
        append(&worker->talk, request, worker->bytes);
    }
    return NULL;
}

/* The name of what was appended first, for GET and HEAD. */
static const char *name_of_first(const struct talk *talk)
{
    static char name[NAME + 2];
    snprintf(name, sizeof name, speaks_tus ? "%s" : "%s-0", talk->path);
    return name;
}

static void work_append(int connections, size_t requests, size_t bytes)
{
    struct worker *workers = calloc(connections, sizeof *workers);
    pthread_barrier_init(&begin, NULL, connections + 1);
    for (int number = 0; number < connections; number++) {
        struct worker *worker = &workers[number];
        worker->number = number;
        worker->requests = requests;
        worker->bytes = bytes;
        pthread_create(&worker->thread, NULL, append_all, worker);
    }
    pthread_barrier_wait(&begin);
    double start = now();
    for (int number = 0; number < connections; number++) {
        pthread_join(workers[number].thread, NULL);
    }
    printf("%f %s\n", now() - start, name_of_first(&workers[0].talk));
}

static void compare(const char *bytes, size_t count, size_t place)
{
    while (count > 0) {
        size_t from = place % PIECE;
        size_t part = count < PIECE - from ? count : PIECE - from;
        if (memcmp(bytes, piece + from, part) != 0) {
            stop("other bytes than were sent");
        }
        bytes += part;
        count -= part;
        place += part;
    }
}

/* Fetches the bytes, and checks them or drops them. */
static void fetch(struct talk *talk, const char *name, size_t bytes, int looks)
{
    static char into[PIECE];
    char head[HEAD];
    send_all(talk, head, snprintf(head, HEAD, "GET %s HTTP/1.1\r\nHost: a\r\n\r\n", name));
    read_head(talk, 200, 200);
    size_t place = bytes - talk->rest;
    if (looks) {
        compare(talk->body, place, 0);
    }
    while (talk->rest > 0) {
        ssize_t came = recv(talk->socket, into, PIECE, 0);
        if (came <= 0) {
            stop("the body broke off: %m");
        }
        if (looks) {
            compare(into, came, place);
        }
        place += came;
        talk->rest -= came;
    }
    if (place != bytes) {
        stop("%zu bytes came", place);
    }
}

static void work_fetch(const char *name, size_t bytes, int times, int looks)
{
    struct talk talk = {.port = ports[0]};
    open_talk(&talk);
    double start = now();
    for (int time = 0; time < times; time++) {
        fetch(&talk, name, bytes, looks);
    }
    printf("%f\n", now() - start);
}

/* Sends small requests while the large one goes on, and prints the longest wait for one of them. */
static void work_beside(size_t bytes)
{
    struct worker large = {.requests = 1, .bytes = bytes};
    struct talk small = {0};
    size_t most = 1 << 20;
    double longest = 0;
    pthread_barrier_init(&begin, NULL, 2);
    pthread_create(&large.thread, NULL, append_all, &large);
    make(&small, 1, most);
    pthread_barrier_wait(&begin);
    for (size_t request = 0; request < most && pthread_tryjoin_np(large.thread, NULL) != 0; request++) {
        double start = now();
        append(&small, request, 1);
        double waited = now() - start;
        longest = waited > longest ? waited : longest;
        usleep(100);
    }
    printf("%f\n", longest);
}

static void work_visit(const char *name, int connections)
{
    char head[HEAD];
    int size = snprintf(head, HEAD, "HEAD %s HTTP/1.1\r\nHost: a\r\nConnection: close\r\n\r\n", name);
    double start = now();
    for (int visit = 0; visit < connections; visit++) {
        struct talk talk = {.port = ports[0]};
        open_talk(&talk);
        send_all(&talk, head, size);
        read_head(&talk, 200, 200);
        if (recv(talk.socket, talk.read, HEAD, 0) != 0) {
            stop("the server does not close: %m");
        }
        close(talk.socket);
    }
    printf("%f\n", now() - start);
}

/* An upload of one of two lanes, by its id. */
static struct talk upload_of(int lane)
{
    for (;;) {
        struct talk talk = {0};
        make(&talk, 0, 1 << 30);
        if (strtol(talk.path + strlen(talk.path) - 1, NULL, 16) % 2 == lane) {
            return talk;
        }
        close(talk.socket);
    }
}

/* The seconds of `requests` small requests after those before. */
static double append_small(struct talk *talk, size_t *before, size_t requests)
{
    double start = now();
    for (size_t end = *before + requests; *before < end; ++*before) {
        append(talk, *before, 1);
    }
    return now() - start;
}

static void work_lanes(int turns, size_t requests, size_t events)
{
    struct talk slow = upload_of(0), quick = upload_of(1);
    size_t of_slow = 0, of_quick = 0;
    double alone = 0, beside = 0;
    for (int turn = 0; turn < turns; turn++) {
        sleep(2);
        alone += append_small(&quick, &of_quick, requests);
        append_small(&slow, &of_slow, events);
        beside += append_small(&quick, &of_quick, requests);
    }
    printf("%f %f\n", alone, beside);
}

static void work_stay(int connections)
{
    struct talk *talks = calloc(connections, sizeof *talks);
    for (int number = 0; number < connections; number++) {
        make(&talks[number], number, 1024);
        append(&talks[number], 0, 1024);
    }
    printf("open\n");
    fflush(stdout);
    while (getchar() != EOF) {
    }
}

/* Has bodies of less than a piece all under way at once, and then completes them. */
static void work_together(int connections, size_t bytes)
{
    struct talk *talks = calloc(connections, sizeof *talks);
    char head[HEAD];
    for (int number = 0; number < connections; number++) {
        make(&talks[number], number, bytes);
        send_all(&talks[number], head, append_head(&talks[number], head, 0, bytes));
        send_all(&talks[number], piece, bytes / 2);
    }
    printf("open\n");
    fflush(stdout);
    while (getchar() != EOF) {
    }
    double start = now();
    for (int number = 0; number < connections; number++) {
        send_all(&talks[number], piece + bytes / 2, bytes - bytes / 2);
    }
    for (int number = 0; number < connections; number++) {
        read_head(&talks[number], 204, 204);
    }
    printf("%f\n", now() - start);
}

/* Does the work that the words name; whether there is such a work. */
static int work_on(const char *work, const char *name, const size_t *numbers)
{
    if (strcmp(work, "append") == 0) {
        work_append(numbers[0], numbers[1], numbers[2]);
    } else if (strcmp(work, "check") == 0) {
        work_fetch(name, numbers[1], 1, 1);
    } else if (strcmp(work, "fetch") == 0) {
        work_fetch(name, numbers[1], numbers[2], 0);
    } else if (strcmp(work, "visit") == 0) {
        work_visit(name, numbers[1]);
    } else if (strcmp(work, "beside") == 0) {
        work_beside(numbers[0]);
    } else if (strcmp(work, "stay") == 0) {
        work_stay(numbers[0]);
    } else if (strcmp(work, "lanes") == 0) {
        work_lanes(numbers[0], numbers[1], numbers[2]);
    } else if (strcmp(work, "together") == 0) {
        work_together(numbers[0], numbers[1]);
    } else {
        return 0;
    }
    return 1;
}

int main(int count, char **words)
{
    size_t numbers[NUMBERS] = {0};
    if (count < 5) {
        stop("usage: client PORT tus|put WORK WORD..");
    }
    for (char *word = strtok(words[1], ","); word != NULL && port_count < PORTS; word = strtok(NULL, ",")) {
        ports[port_count++] = atoi(word);
    }
    is_apart = strcmp(words[2], "apart") == 0;
    speaks_tus = is_apart || strcmp(words[2], "tus") == 0;
    for (int word = 4; word < count && word < 4 + NUMBERS; word++) {
        numbers[word - 4] = strtoull(words[word], NULL, 10);
    }
    for (size_t place = 0; place < PIECE; place++) {
        piece[place] = place * 31 + place / 251;
    }
    if (!work_on(words[3], words[4], numbers)) {
        stop("no such work: %s", words[3]);
    }
    return 0;
}
