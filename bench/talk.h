/* Shared by the clients of bench/: a connection to a port of the loopback, sending on it, and the heads of replies. If
 * a reply isn't the expected one, or the connection breaks off, the program exits with status 1; `try_to_send` and
 * `next_head` leave that to the caller.
 */
#define _GNU_SOURCE
#include <arpa/inet.h>
#include <netinet/in.h>
#include <netinet/tcp.h>
#include <stdarg.h>
#include <stdio.h>
#include <stdlib.h>
#include <string.h>
#include <strings.h>
#include <sys/socket.h>
#include <time.h>
#include <unistd.h>

enum { HEAD = 4096, NAME = 128 };

/* A connection, and the upload or file that its requests are about. */
struct talk {
    int port;
    int from; /* the address of the loopback that it comes from; 0 leaves that to the system */
    int socket;
    char path[NAME];
    char read[HEAD + 1];
    size_t have; /* the number of bytes in `read` */
    size_t used; /* how many of these belong to the reply whose head was read last */
    int status; /* of this reply */
    char *body; /* the bytes that were read after its head */
    size_t rest; /* how many bytes of its body are still to be read */
};

static void stop(const char *format, ...)
{
    va_list words;
    va_start(words, format);
    vfprintf(stderr, format, words);
    va_end(words);
    fputc('\n', stderr);
    exit(1);
}

static double now(void)
{
    struct timespec time;
    clock_gettime(CLOCK_MONOTONIC, &time);
    return time.tv_sec + time.tv_nsec / 1e9;
}

static void open_talk(struct talk *talk)
{
    struct sockaddr_in address = {.sin_family = AF_INET, .sin_port = htons(talk->port)};
    struct sockaddr_in own = {.sin_family = AF_INET};
    int on = 1;
    address.sin_addr.s_addr = htonl(INADDR_LOOPBACK);
    own.sin_addr.s_addr = htonl(INADDR_LOOPBACK + talk->from);
    talk->socket = socket(AF_INET, SOCK_STREAM, 0);
    if (talk->from != 0) {
        setsockopt(talk->socket, IPPROTO_IP, IP_BIND_ADDRESS_NO_PORT, &on, sizeof on);
    }
    if (talk->from != 0 && bind(talk->socket, (struct sockaddr *)&own, sizeof own) != 0) {
        stop("cannot bind: %m");
    }
    if (talk->socket < 0 || connect(talk->socket, (struct sockaddr *)&address, sizeof address) != 0) {
        stop("cannot connect: %m");
    }
    setsockopt(talk->socket, IPPROTO_TCP, TCP_NODELAY, &on, sizeof on);
    talk->have = talk->used = talk->rest = 0;
}

/* Sends the bytes, and returns whether all were taken. */
static int try_to_send(const struct talk *talk, const char *bytes, size_t count)
{
    while (count > 0) {
        ssize_t sent = send(talk->socket, bytes, count, MSG_NOSIGNAL);
        if (sent <= 0) {
            return 0;
        }
        bytes += sent;
        count -= sent;
    }
    return 1;
}

static inline void send_all(const struct talk *talk, const char *bytes, size_t count)
{
    if (!try_to_send(talk, bytes, count)) {
        stop("cannot send: %m");
    }
}

/* The start of the value of a field of the reply, or NULL if there is no such field. */
static const char *field(const struct talk *talk, const char *name)
{
    size_t size = strlen(name);
    for (const char *line = strchr(talk->read, '\n'); line != NULL; line = strchr(line, '\n')) {
        line++;
        if (strncasecmp(line, name, size) == 0 && strncmp(line + size, ": ", 2) == 0) {
            return line + size + 2;
        }
    }
    return NULL;
}

/* Reads the head of the next reply, of several that come one after another, and returns whether one came. The body of
 * the reply before it must have been read.
 */
static int next_head(struct talk *talk)
{
    char *end;
    talk->have -= talk->used;
    memmove(talk->read, talk->read + talk->used, talk->have);
    talk->used = 0;
    talk->read[talk->have] = 0;
    while ((end = strstr(talk->read, "\r\n\r\n")) == NULL) {
        ssize_t came = recv(talk->socket, talk->read + talk->have, HEAD - talk->have, 0);
        if (came <= 0) {
            return 0;
        }
        talk->have += came;
        talk->read[talk->have] = 0;
    }
    talk->body = end + 4;
    end[2] = 0;
    talk->status = atoi(talk->read + strlen("HTTP/1.1 "));
    const char *length = field(talk, "Content-Length");
    size_t size = length ? strtoull(length, NULL, 10) : 0;
    size_t came = talk->read + talk->have - talk->body;
    size_t taken = came < size ? came : size;
    talk->rest = size - taken;
    talk->used = talk->body + taken - talk->read;
    return 1;
}

/* Reads the head of a reply, which must have one of these two statuses. */
static inline void read_head(struct talk *talk, int status, int other)
{
    if (!next_head(talk)) {
        stop("no whole head: %m");
    }
    if (talk->status != status && talk->status != other) {
        stop("status %d, not %d", talk->status, status);
    }
}

/* Whether the server closes after the reply that was read. */
static inline int closes(const struct talk *talk)
{
    const char *value = field(talk, "Connection");
    return value != NULL && strncasecmp(value, "close\r\n", 7) == 0;
}
