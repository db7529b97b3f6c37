/* The client of bench/soak.py: changes uploads over many connections, and compares their events with what was
 * acknowledged.
 *
 *     soak PORT EVENTS CONNECTIONS UPLOADS
 *
 * EVENTS is the number of an open file with the lines of `serve --events`; UPLOADS is the most uploads that will be
 * made. Each connection has a thread. A line `TOGETHER BYTES CHANGES` of the input has the threads make CHANGES
 * changes, and a few more: each makes TOGETHER uploads, appends BYTES times a byte to each, which completes it, removes
 * them, and starts again. Up to 16 requests are sent before their replies are read. If too many events wait to be read,
 * the connections wait too. Once the events of everything that was acknowledged have been read, the client prints a
 * line: how many changes were acknowledged so far, how many uploads were made, and how many requests were refused or
 * had no answer; and, for this line of the input, how long a connection waited at most for its next reply, how many
 * events waited at most, and the seconds.
 *
 * At the end of its input the client reads the events to their end, and prints how many there were, how many there
 * should be, how many didn't follow those before them (bench/told.h), and how many uploads have other events than were
 * acknowledged. It needs a C compiler on Linux.
 */
#include "talk.h"
#include "told.h"
#include <pthread.h>

enum { TOGETHER = 16, REQUEST = 320, MESSAGES = 10000 };

/* How many events may wait to be read, in any number of lanes, before the connections wait too, and how many
 * microseconds they wait before they look again.
 */
enum { MAX_WAITING = 10000, NAP = 5000 };

/* After this many seconds without a reply a connection is given up, and so are events that don't come. */
enum { MAX_SECONDS = 60 };

enum kind { MAKE, APPEND, REMOVE };

/* An upload that was made, and the number of its acknowledged events. */
struct upload {
    uint64_t id[2];
    uint32_t events;
    uint32_t is_removed;
};

/* A request that was written. For one that makes an upload, `upload` has no meaning. */
struct request {
    enum kind kind;
    size_t upload, offset;
};

/* The thread of a connection, and what it has done. */
struct worker {
    pthread_t thread;
    struct talk talk;
    int is_open;
    int left; /* how many requests the connection will take */
    struct request requests[TOGETHER];
    char text[TOGETHER * REQUEST];
    int count;
    size_t size;
    struct upload *uploads;
    size_t made, room;
    size_t changes, refused;
    double longest;
    long waiting;
};

static int connections;
static struct worker *workers;
static size_t together, bytes; /* of the current line of the input */
static atomic_long to_do; /* changes */
static atomic_long expected; /* events of what was acknowledged */
static atomic_long lost; /* events that were expected, and didn't come */
static atomic_int has_refused;

static void open_anew(struct worker *worker)
{
    struct timeval most = {.tv_sec = MAX_SECONDS};
    if (worker->is_open) {
        close(worker->talk.socket);
    }
    open_talk(&worker->talk);
    setsockopt(worker->talk.socket, SOL_SOCKET, SO_RCVTIMEO, &most, sizeof most);
    worker->is_open = 1;
    worker->left = MESSAGES;
}

/* Notes the upload that the reply reports, which has its first event. */
static void note_made(struct worker *worker)
{
    struct upload made = {.events = 1};
    const char *place = field(&worker->talk, "Location");
    if (place == NULL || strncmp(place, "/files/", 7) != 0 || !read_id(place + 7, made.id)) {
        stop("no Location of an upload");
    }
    if (worker->made == worker->room) {
        worker->room = 2 * worker->room + 1024;
        worker->uploads = realloc(worker->uploads, worker->room * sizeof made);
    }
    worker->uploads[worker->made++] = made;
}

/* Notes what a reply acknowledges, and returns how many events that has. */
static int acknowledge(struct worker *worker, const struct request *request)
{
    if (request->kind == MAKE) {
        note_made(worker);
        return 1;
    }
    struct upload *upload = &worker->uploads[request->upload];
    int events = request->kind == APPEND && request->offset + 1 == bytes ? 2 : 1;
    upload->events += events;
    upload->is_removed = request->kind == REMOVE;
    return events;
}

static void note_refusal(struct worker *worker, const char *why, int status)
{
    worker->refused++;
    if (!atomic_exchange(&has_refused, 1)) {
        fprintf(stderr, "the first refusal, after some %ld events: %s %d\n", atomic_load(&expected), why, status);
    }
}

/* Notes the reply to a request. */
static void note_reply(struct worker *worker, const struct request *request)
{
    static const int wanted[] = {[MAKE] = 201, [APPEND] = 204, [REMOVE] = 204};
    if (worker->talk.status != wanted[request->kind]) {
        note_refusal(worker, "status", worker->talk.status);
        return;
    }
    atomic_fetch_add(&expected, acknowledge(worker, request));
    worker->changes++;
}

/* The number of events that wait to be read. */
static long count_waiting(void)
{
    return atomic_load(&expected) - atomic_load(&heard) - atomic_load(&lost);
}

/* Waits until at most this many events wait. */
static void await_events(long most)
{
    long before = count_waiting();
    for (double end = now() + MAX_SECONDS; count_waiting() > most;) {
        if (now() > end) {
            atomic_fetch_add(&lost, count_waiting());
        }
        usleep(NAP);
        if (count_waiting() < before) {
            before = count_waiting();
            end = now() + MAX_SECONDS;
        }
    }
}

/* Sends the requests that were written, and reads the replies. Returns whether all came. */
static int talk_of_all(struct worker *worker)
{
    double since = now();
    int answered = 0;
    if (try_to_send(&worker->talk, worker->text, worker->size)) {
        while (answered < worker->count && next_head(&worker->talk) && worker->talk.rest == 0) {
            double time = now();
            worker->longest = time - since > worker->longest ? time - since : worker->longest;
            since = time;
            note_reply(worker, &worker->requests[answered++]);
        }
    }
    for (int request = answered; request < worker->count; request++) {
        note_refusal(worker, "no answer", 0);
    }
    return answered == worker->count;
}

static void send_together(struct worker *worker)
{
    long waiting = count_waiting();
    worker->waiting = waiting > worker->waiting ? waiting : worker->waiting;
    await_events(MAX_WAITING);
    if (worker->left < worker->count) {
        open_anew(worker);
    }
    worker->left -= worker->count;
    if (!talk_of_all(worker)) {
        worker->left = 0;
    }
    worker->count = worker->size = 0;
}

/* Writes a request to a buffer, and returns its size. */
static int write_request(struct worker *worker, const struct request *request, char *to)
{
    const char *version = "HTTP/1.1\r\nHost: a\r\nTus-Resumable: 1.0.0\r\n";
    if (request->kind == MAKE) {
        return snprintf(to, REQUEST, "POST /files/ %sUpload-Length: %zu\r\n\r\n", version, bytes);
    }
    const uint64_t *id = worker->uploads[request->upload].id;
    if (request->kind == REMOVE) {
        return snprintf(to, REQUEST, "DELETE /files/%016lx%016lx %s\r\n", id[0], id[1], version);
    }
    return snprintf(to, REQUEST,
        "PATCH /files/%016lx%016lx %sContent-Type: application/offset+octet-stream\r\n"
        "Upload-Offset: %zu\r\nContent-Length: 1\r\n\r\nx",
        id[0], id[1], version, request->offset);
}

/* Adds a request to the others, and sends them if there are enough. */
static void put(struct worker *worker, enum kind kind, size_t upload, size_t offset)
{
    struct request request = {kind, upload, offset};
    worker->requests[worker->count++] = request;
    worker->size += write_request(worker, &request, worker->text + worker->size);
    if (worker->count == TOGETHER) {
        send_together(worker);
    }
}

/* Sends the requests that are left. */
static void send_rest(struct worker *worker)
{
    if (worker->count > 0) {
        send_together(worker);
    }
}

/* Makes uploads, fills them, and removes them. */
static void take_turn(struct worker *worker)
{
    size_t first = worker->made;
    for (size_t upload = 0; upload < together; upload++) {
        put(worker, MAKE, 0, 0);
    }
    send_rest(worker);
    size_t made = worker->made - first;
    for (size_t byte = 0; byte < made * bytes; byte++) {
        put(worker, APPEND, first + byte % made, byte / made);
    }
    send_rest(worker);
    for (size_t upload = 0; upload < made; upload++) {
        put(worker, REMOVE, first + upload, 0);
    }
    send_rest(worker);
}

static void *take_turns(void *given)
{
    struct worker *worker = given;
    long changes = together * (bytes + 2);
    worker->longest = 0;
    worker->waiting = 0;
    while (atomic_fetch_sub(&to_do, changes) > 0) {
        take_turn(worker);
    }
    return NULL;
}

/* Has all connections work, and prints the results. */
static void work(void)
{
    struct worker sum = {0};
    double start = now();
    for (int number = 0; number < connections; number++) {
        pthread_create(&workers[number].thread, NULL, take_turns, &workers[number]);
    }
    for (int number = 0; number < connections; number++) {
        const struct worker *worker = &workers[number];
        pthread_join(worker->thread, NULL);
        sum.changes += worker->changes;
        sum.made += worker->made;
        sum.refused += worker->refused;
        sum.longest = worker->longest > sum.longest ? worker->longest : sum.longest;
        sum.waiting = worker->waiting > sum.waiting ? worker->waiting : sum.waiting;
    }
    double seconds = now() - start;
    await_events(0);
    printf("%zu %zu %zu %f %ld %f\n", sum.changes, sum.made, sum.refused, sum.longest, sum.waiting, seconds);
    fflush(stdout);
}

/* Compares the events with what was acknowledged, and prints the results. */
static void judge(void)
{
    size_t made = 0, others = 0;
    for (int number = 0; number < connections; number++) {
        const struct worker *worker = &workers[number];
        made += worker->made;
        for (size_t place = 0; place < worker->made; place++) {
            const struct upload *upload = &worker->uploads[place];
            const struct told *told = find(upload->id);
            others += told->events != upload->events || told->is_removed != upload->is_removed;
        }
    }
    others += told_of > made ? told_of - made : 0;
    printf("%ld %ld %zu %zu\n", atomic_load(&heard), atomic_load(&expected), astray, others);
}

int main(int count, char **words)
{
    pthread_t hearer;
    char line[HEAD];
    if (count != 5) {
        stop("usage: soak PORT EVENTS CONNECTIONS UPLOADS");
    }
    connections = atoi(words[3]);
    workers = calloc(connections, sizeof *workers);
    for (int number = 0; number < connections; number++) {
        workers[number].talk.port = atoi(words[1]);
    }
    make_table(atoi(words[2]), strtoull(words[4], NULL, 10));
    pthread_create(&hearer, NULL, hear_all, NULL);
    while (fgets(line, HEAD, stdin) != NULL) {
        long changes;
        if (sscanf(line, "%zu %zu %ld", &together, &bytes, &changes) != 3) {
            stop("no work: %s", line);
        }
        to_do = changes;
        work();
    }
    pthread_join(hearer, NULL);
    judge();
    return 0;
}
