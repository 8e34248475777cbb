/* Refuses one allocation of a process, the one that REFUSE_AT numbers, or one start of a thread, the one that REFUSE_THREAD numbers,
   each counted from 1. Where it does, it creates the file that REFUSE_NOTE names. How many allocations were asked for stands in the file that REFUSE_COUNT names, as a number of the processor:
   programs end without the C library's last steps. Loaded in front of the C library by .ci/allocations and .ci/plays. */
#define _GNU_SOURCE
#include <dlfcn.h>
#include <errno.h>
#include <fcntl.h>
#include <pthread.h>
#include <stdatomic.h>
#include <stddef.h>
#include <stdlib.h>
#include <sys/mman.h>
#include <unistd.h>

static atomic_long own_calls;

/* Where calls are counted. */
static atomic_long *calls(void) {
    static atomic_long *calls;
    if (calls) return calls;
    const char *name = getenv("REFUSE_COUNT");
    int file = name ? open(name, O_CREAT | O_TRUNC | O_RDWR, 0600) : -1;
    void *there = MAP_FAILED;
    if (file >= 0 && !ftruncate(file, sizeof *calls)) there = mmap(NULL, sizeof *calls, PROT_READ | PROT_WRITE, MAP_SHARED, file, 0);
    if (file >= 0) close(file);
    calls = there == MAP_FAILED ? &own_calls : there;
    return calls;
}

/* The number that a variable has, 0 where it has none, read once. */
static long wanted(const char *name, atomic_long *kept) {
    long number = atomic_load(kept);
    if (number < 0) {
        const char *text = getenv(name);
        number = text ? atol(text) : 0;
        atomic_store(kept, number);
    }
    return number;
}

/* Tells that something was refused. */
static void leave_note(void) {
    const char *note = getenv("REFUSE_NOTE");
    int file = note ? open(note, O_CREAT | O_WRONLY, 0600) : -1;
    if (file >= 0) close(file);
}

static int is_refused(void) {
    static atomic_long at = -1;
    if (atomic_fetch_add(calls(), 1) + 1 != wanted("REFUSE_AT", &at)) return 0;
    leave_note();
    errno = ENOMEM;
    return 1;
}

int pthread_create(pthread_t *thread, const pthread_attr_t *attributes, void *(*start)(void *), void *argument) {
    static atomic_long at = -1, started;
    if (atomic_fetch_add(&started, 1) + 1 == wanted("REFUSE_THREAD", &at)) {
        leave_note();
        return EAGAIN;
    }
    int (*create)(pthread_t *, const pthread_attr_t *, void *(*)(void *), void *) = dlsym(RTLD_NEXT, "pthread_create");
    return create(thread, attributes, start, argument);
}

extern void *__libc_malloc(size_t);
extern void *__libc_calloc(size_t, size_t);
extern void *__libc_realloc(void *, size_t);
extern void *__libc_memalign(size_t, size_t);

void *malloc(size_t size) { return is_refused() ? NULL : __libc_malloc(size); }
void *calloc(size_t count, size_t size) { return is_refused() ? NULL : __libc_calloc(count, size); }
void *realloc(void *from, size_t size) { return is_refused() ? NULL : __libc_realloc(from, size); }
void *memalign(size_t align, size_t size) { return is_refused() ? NULL : __libc_memalign(align, size); }
void *aligned_alloc(size_t align, size_t size) { return is_refused() ? NULL : __libc_memalign(align, size); }
int posix_memalign(void **to, size_t align, size_t size) {
    if (is_refused()) return ENOMEM;
    *to = __libc_memalign(align, size);
    return *to ? 0 : ENOMEM;
}
