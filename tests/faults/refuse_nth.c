/* refuse_nth.c: refuses one allocation of a program, and counts all of them. tests/harness.py preloads it.
 *
 * It comes before malloc, calloc and realloc of the GNU C library, in all threads. REFUSE_NUMBER is the number of the allocation that
 * is answered NULL, from 1 in the order in which they come. If it is 0, none is. REFUSE_ALSO may be the number of one more. The file
 * REFUSE_COUNTS has room for five unsigned longs: how many allocations came, from how many threads, and how many bytes they asked for
 * together; how many came before the first thread was to start; and how many were refused to the start of a thread. It is mapped, so
 * they are in it however the program ends. What the C library allocates by these three counts too, as for the start of a thread. A
 * thread's stack, which it maps, does not.
 */
#define _GNU_SOURCE
#include <dlfcn.h>
#include <errno.h>
#include <fcntl.h>
#include <pthread.h>
#include <stdatomic.h>
#include <stdlib.h>
#include <sys/mman.h>
#include <unistd.h>

extern void *__libc_malloc(size_t size);
extern void *__libc_calloc(size_t many, size_t size);
extern void *__libc_realloc(void *old, size_t size);

struct counts {
    atomic_ulong allocations, threads, bytes, before_threads, of_starts;
};

typedef int starting(pthread_t *, const pthread_attr_t *, void *(*)(void *), void *);

/* Before `begin` there is no number, and the counts go nowhere. */
static struct counts nowhere, *counts = &nowhere;
static unsigned long number, also;
static starting *start;
static atomic_int has_started;
static __thread int has_allocated __attribute__((tls_model("initial-exec")));
static __thread int is_starting __attribute__((tls_model("initial-exec")));

__attribute__((constructor)) static void begin(void) {
    int file = open(getenv("REFUSE_COUNTS"), O_RDWR);
    start = (starting *)dlsym(RTLD_NEXT, "pthread_create");
    if (start == NULL) abort();
    void *mapped = mmap(NULL, sizeof *counts, PROT_READ | PROT_WRITE, MAP_SHARED, file, 0);
    if (mapped == MAP_FAILED) abort();
    close(file);
    counts = mapped;
    number = strtoul(getenv("REFUSE_NUMBER"), NULL, 10);
    also = strtoul(getenv("REFUSE_ALSO"), NULL, 10);
}

static int is_refused(size_t size) {
    if (!has_allocated) {
        has_allocated = 1;
        atomic_fetch_add(&counts->threads, 1);
    }
    atomic_fetch_add(&counts->bytes, size);
    unsigned long this = atomic_fetch_add(&counts->allocations, 1) + 1;
    if (this != number && this != also) return 0;
    if (is_starting) atomic_fetch_add(&counts->of_starts, 1);
    errno = ENOMEM; /* pthread_create answers it if its own allocation is refused */
    return 1;
}

void *malloc(size_t size) { return is_refused(size) ? NULL : __libc_malloc(size); }
void *calloc(size_t many, size_t size) { return is_refused(many * size) ? NULL : __libc_calloc(many, size); }
void *realloc(void *old, size_t size) { return is_refused(size) ? NULL : __libc_realloc(old, size); }

int pthread_create(pthread_t *thread, const pthread_attr_t *attributes, void *(*run)(void *), void *given) {
    if (!atomic_exchange(&has_started, 1)) atomic_store(&counts->before_threads, atomic_load(&counts->allocations));
    is_starting = 1;
    int answer = start(thread, attributes, run, given);
    is_starting = 0;
    return answer;
}
