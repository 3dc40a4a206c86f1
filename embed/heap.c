/* The heap under the library: C's own. Another allocator may stand in its place, which aligns to 16 bytes. */
#include <stdbool.h>
#include <stddef.h>
#include <stdlib.h>

struct tried {
    bool is_there;
    void *at;
};

static unsigned char nowhere;

static struct tried tried(void *at)
{
    struct tried result = {at != NULL, at != NULL ? at : &nowhere};
    return result;
}

struct tried rattle_alloc(size_t size, size_t align)
{
    return tried(malloc(size != 0 ? size : align));
}

struct tried rattle_realloc(void *at, size_t kept, size_t size, size_t align)
{
    (void)kept;
    return tried(realloc(at, size != 0 ? size : align));
}

void rattle_dealloc(void *at)
{
    free(at);
}
