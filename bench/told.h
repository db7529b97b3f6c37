/* The events of uploads for bench/soak.c: the lines of `serve --events`, read from a pipe as they come, and a table of
 * what they report about each upload. It is included after talk.h.
 *
 * An event follows those of its upload if it has the next number. The first, and no other, is `post-create`, at offset
 * 0; `post-receive` is one byte further, `post-finish` is at the length, and nothing comes after `post-terminate`.
 */
#include <fcntl.h>
#include <stdatomic.h>
#include <stdint.h>

enum { BLOCK = 1 << 20 };

/* What the lines reported about an upload. */
struct told {
    uint64_t id[2];
    uint32_t events, offset, is_removed;
};

static int lines; /* the file of the events */
static struct told *table; /* the id of a free place is 0 */
static size_t places; /* a power of 2 */
static atomic_long heard; /* lines */
static size_t told_of, astray; /* uploads that lines report, and lines that don't follow */

/* Makes a table for this many uploads, and room in the pipe. */
static void make_table(int file, size_t uploads)
{
    lines = file;
    fcntl(lines, F_SETPIPE_SZ, BLOCK);
    for (places = 1024; places < 2 * uploads; places *= 2) {
    }
    table = calloc(places, sizeof *table);
    if (table == NULL) {
        stop("no memory for %zu uploads", uploads);
    }
}

/* Reads the 32 digits of an id, and returns whether they are there. */
static int read_id(const char *text, uint64_t id[2])
{
    for (int half = 0; half < 2; half++) {
        id[half] = 0;
        for (int place = 0; place < 16; place++, text++) {
            int is_digit = *text >= '0' && *text <= '9';
            if (!is_digit && (*text < 'a' || *text > 'f')) {
                return 0;
            }
            id[half] = id[half] << 4 | (is_digit ? *text - '0' : *text - 'a' + 10);
        }
    }
    return 1;
}

/* The entry of the upload with this id, or the free place for it. */
static struct told *find(const uint64_t id[2])
{
    size_t place = id[1] & (places - 1);
    while ((table[place].id[0] | table[place].id[1]) != 0 && memcmp(table[place].id, id, sizeof table->id) != 0) {
        place = (place + 1) & (places - 1);
    }
    return &table[place];
}

/* Whether an event may come after those that were reported of its upload. */
static int follows(const struct told *told, uint32_t number, const char *hook, uint32_t offset, uint32_t length)
{
    if (told->is_removed || number != told->events + 1) {
        return 0;
    }
    if (number == 1 || strcmp(hook, "post-create") == 0) {
        return number == 1 && strcmp(hook, "post-create") == 0 && offset == 0;
    }
    if (strcmp(hook, "post-receive") == 0) {
        return offset == told->offset + 1 && offset <= length;
    }
    return offset == told->offset
        && (strcmp(hook, "post-terminate") == 0 || (strcmp(hook, "post-finish") == 0 && offset == length));
}

/* Notes the event of a line, and returns whether it is an event, and follows. */
static int note_line(const char *line)
{
    uint64_t id[2];
    uint32_t number, offset, length;
    char hook[16], end[6];
    if (!read_id(line, id) || sscanf(line + 32, " %u %15s %u/%u %5s", &number, hook, &offset, &length, end) != 5) {
        return 0;
    }
    struct told *told = find(id);
    if ((told->id[0] | told->id[1]) == 0) {
        if (++told_of >= places) {
            stop("events of more uploads than there are to be");
        }
        memcpy(told->id, id, sizeof id);
    }
    int is_right = strcmp(end, "done") == 0 && follows(told, number, hook, offset, length);
    told->events++;
    told->offset = offset;
    told->is_removed = strcmp(hook, "post-terminate") == 0;
    return is_right;
}

static void hear(const char *line)
{
    if (!note_line(line) && astray++ == 0) {
        fprintf(stderr, "the first line astray: %s\n", line);
    }
    atomic_fetch_add(&heard, 1);
}

/* Reads the events to their end. It naps if few have come, so that the server needn't wake it for each. */
static void *hear_all(void *given)
{
    static char text[BLOCK];
    size_t have = 0;
    for (ssize_t came; (came = read(lines, text + have, BLOCK - have)) > 0;) {
        char *line = text, *end;
        have += came;
        while ((end = memchr(line, '\n', text + have - line)) != NULL) {
            *end = 0;
            hear(line);
            line = end + 1;
        }
        have -= line - text;
        memmove(text, line, have);
        if (came < BLOCK / 16) {
            usleep(1000);
        }
    }
    astray += have > 0;
    return given;
}
