/* Refuses allocations of a program by their numbers, from 1 on: those from REFUSE_FROM up to REFUSE_TO, and none where
   these aren't given. It is preloaded by tools/refuse_memory. All threads share the numbers, which are kept in the
   file REFUSE_COUNT, so that they are there however the program ends. */
#define _GNU_SOURCE
#include <errno.h>
#include <fcntl.h>
#include <stdatomic.h>
#include <stdlib.h>
#include <string.h>
#include <sys/mman.h>
#include <unistd.h>

/* What the C library has behind its own names. */
extern void *__libc_malloc(size_t size);
extern void *__libc_calloc(size_t count, size_t size);
extern void *__libc_realloc(void *old, size_t size);
extern void *__libc_memalign(size_t align, size_t size);

static atomic_ulong unseen;
static atomic_ulong *calls = &unseen;
static unsigned long first = 1, last = 0;

static int is_refused(void) {
    unsigned long number = atomic_fetch_add(calls, 1) + 1;
    return first <= number && number <= last;
}

static void *refusal(void) {
    errno = ENOMEM;
    return NULL;
}

void *malloc(size_t size) {
    return is_refused() ? refusal() : __libc_malloc(size);
}

void *calloc(size_t count, size_t size) {
    return is_refused() ? refusal() : __libc_calloc(count, size);
}

void *realloc(void *old, size_t size) {
    return is_refused() ? refusal() : __libc_realloc(old, size);
}

void *memalign(size_t align, size_t size) {
    return is_refused() ? refusal() : __libc_memalign(align, size);
}

void *aligned_alloc(size_t align, size_t size) {
    return memalign(align, size);
}

int posix_memalign(void **place, size_t align, size_t size) {
    void *found = memalign(align, size);
    if (!found)
        return ENOMEM;
    *place = found;
    return 0;
}

/* What was allocated before this isn't counted: it is the loader's. */
__attribute__((constructor)) static void begin(void) {
    const char *from = getenv("REFUSE_FROM"), *to = getenv("REFUSE_TO"), *path = getenv("REFUSE_COUNT");
    int file = path ? open(path, O_RDWR | O_CREAT | O_TRUNC, 0600) : -1;
    if (file < 0 || ftruncate(file, sizeof *calls))
        return;
    void *shared = mmap(NULL, sizeof *calls, PROT_READ | PROT_WRITE, MAP_SHARED, file, 0);
    close(file);
    if (shared == MAP_FAILED)
        return;
    calls = shared;
    first = from ? strtoul(from, NULL, 10) : 1;
    last = to ? strtoul(to, NULL, 10) : 0;
}
