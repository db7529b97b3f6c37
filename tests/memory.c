/*
 * Refuses memory to a program, as a system does that has none left. tests/memory.py builds this library and loads it
 * before the C library (LD_PRELOAD).
 *
 * Every request is counted from 1: malloc, calloc, realloc, aligned_alloc, memalign, posix_memalign, and
 * pthread_create, which asks for the stack of a thread. Requests that the C library makes for itself through these
 * names count too (pthread_create makes one by calloc); memory that it takes from the system by mmap doesn't count.
 * Requests whose number is from `first` to `last` are refused: they fail as out of memory, and nothing else is done.
 * `whose` says whose requests are counted: those of all threads (0), of the first one (1), or of all others (2). Only
 * the requests of the first thread come in the same order in each run. Requests for fewer than `least` bytes aren't
 * counted; a thread counts as no bytes. Requests that aren't counted aren't refused.
 *
 * The six numbers of `struct control` are in the file that MEMORY_CONTROL names, in this order. The test reads and
 * writes them while the program runs. Without MEMORY_CONTROL nothing is counted and nothing is refused.
 */
#define _GNU_SOURCE
#include <dlfcn.h>
#include <errno.h>
#include <fcntl.h>
#include <pthread.h>
#include <stdatomic.h>
#include <stddef.h>
#include <stdlib.h>
#include <sys/mman.h>
#include <unistd.h>

struct control {
    atomic_ulong asked;
    atomic_ulong refused;
    atomic_ulong first;
    atomic_ulong last;
    atomic_ulong whose;
    atomic_ulong least;
};

enum { OF_ALL, OF_FIRST, OF_OTHERS };

typedef int starter(pthread_t *, const pthread_attr_t *, void *(*)(void *), void *);

/* The C library's own names of its functions. The linker finds them, so finding them asks for no memory. */
extern void *__libc_malloc(size_t);
extern void *__libc_calloc(size_t, size_t);
extern void *__libc_realloc(void *, size_t);
extern void *__libc_memalign(size_t, size_t);

static struct control *control;
static starter *start_thread;

/* Whether this is the first thread of the program. Such a variable exists before memory can be asked for. */
static __thread int is_first __attribute__((tls_model("initial-exec")));

/* Runs before the program's `main`. */
__attribute__((constructor)) static void begin(void)
{
    is_first = 1;
    start_thread = (starter *)dlsym(RTLD_NEXT, "pthread_create");
    const char *path = getenv("MEMORY_CONTROL");
    if (path == NULL)
        return;
    int file = open(path, O_RDWR | O_CLOEXEC);
    if (file < 0)
        abort();
    void *found = mmap(NULL, sizeof(struct control), PROT_READ | PROT_WRITE, MAP_SHARED, file, 0);
    close(file);
    if (found == MAP_FAILED)
        abort();
    control = found;
}

/* Counts a request for `size` bytes, and returns whether it is refused. */
static int is_refused(size_t size)
{
    if (control == NULL || size < atomic_load(&control->least))
        return 0;
    unsigned long whose = atomic_load(&control->whose);
    if (whose != OF_ALL && (whose == OF_FIRST) != is_first)
        return 0;
    unsigned long number = atomic_fetch_add(&control->asked, 1) + 1;
    if (number < atomic_load(&control->first) || number > atomic_load(&control->last))
        return 0;
    atomic_fetch_add(&control->refused, 1);
    errno = ENOMEM;
    return 1;
}

void *malloc(size_t size)
{
    return is_refused(size) ? NULL : __libc_malloc(size);
}

void *calloc(size_t count, size_t size)
{
    return is_refused(count * size) ? NULL : __libc_calloc(count, size);
}

void *realloc(void *old, size_t size)
{
    return is_refused(size) ? NULL : __libc_realloc(old, size);
}

void *aligned_alloc(size_t alignment, size_t size)
{
    return is_refused(size) ? NULL : __libc_memalign(alignment, size);
}

void *memalign(size_t alignment, size_t size)
{
    return is_refused(size) ? NULL : __libc_memalign(alignment, size);
}

int posix_memalign(void **place, size_t alignment, size_t size)
{
    void *found = is_refused(size) ? NULL : __libc_memalign(alignment, size);
    if (found == NULL)
        return ENOMEM;
    *place = found;
    return 0;
}

int pthread_create(pthread_t *thread, const pthread_attr_t *attributes, void *(*work)(void *), void *given)
{
    return is_refused(0) ? EAGAIN : start_thread(thread, attributes, work, given);
}
