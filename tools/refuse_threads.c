/* Refuses starts of threads of a program by their numbers, from 1 on: those from REFUSE_FROM up to REFUSE_TO. For each it
   appends a byte to the file REFUSE_TOLD. It is preloaded by tools/editors. */
#define _GNU_SOURCE
#include <dlfcn.h>
#include <errno.h>
#include <fcntl.h>
#include <pthread.h>
#include <stdatomic.h>
#include <stdlib.h>
#include <unistd.h>

typedef int starts(pthread_t *thread, const pthread_attr_t *attributes, void *(*begin)(void *), void *given);

static atomic_ulong calls;
static unsigned long first = 1, last = 0;
static int told = -1;

int pthread_create(pthread_t *thread, const pthread_attr_t *attributes, void *(*begin)(void *), void *given) {
    unsigned long number = atomic_fetch_add(&calls, 1) + 1;
    if (first <= number && number <= last) {
        if (write(told, ".", 1) != 1)
            abort();
        return EAGAIN;
    }
    return ((starts *)dlsym(RTLD_NEXT, "pthread_create"))(thread, attributes, begin, given);
}

__attribute__((constructor)) static void begin(void) {
    const char *from = getenv("REFUSE_FROM"), *to = getenv("REFUSE_TO"), *path = getenv("REFUSE_TOLD");
    if (!from || !to || !path)
        return;
    told = open(path, O_WRONLY | O_CREAT | O_TRUNC | O_APPEND, 0600);
    first = strtoul(from, NULL, 10);
    last = strtoul(to, NULL, 10);
}
