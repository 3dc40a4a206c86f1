/* The heap of the engine in a page, for one thread. Blocks lie one behind another; free ones that touch are joined, and
 * stand in lists by the power of two that their size reaches. How far the memory may grow is set by whoever makes it;
 * where it doesn't grow any more an allocation is refused. */
#include "types.h"

enum { PAGE = 65536, BINS = 40, WALK = 16 };

/* A block's head. What is handed out lies behind it, aligned to 16 bytes. */
typedef struct block {
    size_t before; /* the size of the block before this one, with its head */
    size_t size;   /* with the head, a multiple of 16; 1 more where the block is free */
} block;

typedef struct free_block {
    block head;
    struct free_block *next, *previous;
} free_block;

_Static_assert(sizeof(block) == 16 && sizeof(free_block) == 32, "what is handed out is aligned to 16 bytes");

extern unsigned char __heap_base;
static block *end; /* the head behind the last block; it is never free */
static free_block *bins[BINS];

static size_t size_of(const block *at)
{
    return at->size & ~(size_t)1;
}

static int is_free(const block *at)
{
    return at->size & 1;
}

static block *behind(const block *at)
{
    return (block *)((uintptr_t)at + size_of(at));
}

static size_t bin_of(size_t size)
{
    return 63 - (size_t)__builtin_clzll(size);
}

static void enter(block *at)
{
    free_block *free = (free_block *)at;
    free_block **bin = &bins[bin_of(size_of(at))];
    free->next = *bin;
    free->previous = NULL;
    if (*bin != NULL)
        (*bin)->previous = free;
    *bin = free;
}

static void leave(block *at)
{
    free_block *free = (free_block *)at;
    if (free->previous != NULL)
        free->previous->next = free->next;
    else
        bins[bin_of(size_of(at))] = free->next;
    if (free->next != NULL)
        free->next->previous = free->previous;
}

static void set_size(block *at, size_t size, int free)
{
    at->size = size | (size_t)free;
    behind(at)->before = size;
}

/* Has this block taken, and what it has beyond a size freed. */
static void take(block *at, size_t size)
{
    const size_t more = size_of(at) - size;
    if (more < sizeof(free_block)) {
        at->size = size_of(at);
        return;
    }
    set_size(at, size, 0);
    block *rest = behind(at);
    set_size(rest, more, 1);
    enter(rest);
}

/* Returns a free block of at least this size, out of its list, or NULL. */
static block *find(size_t size)
{
    const size_t bin = bin_of(size);
    free_block *at = bins[bin];
    for (int n = 0; at != NULL && n < WALK && size_of(&at->head) < size; n++)
        at = at->next;
    if (at == NULL || size_of(&at->head) < size) {
        at = NULL;
        for (size_t larger = bin + 1; at == NULL && larger < BINS; larger++)
            at = bins[larger];
    }
    if (at != NULL)
        leave(&at->head);
    return (block *)at;
}

/* Returns a block of this size behind all others, or NULL. It is not in a list. */
static block *grow(size_t size)
{
    if (end == NULL) {
        end = (block *)(((uintptr_t)&__heap_base + 15) & ~(uintptr_t)15);
        *end = (block){0, sizeof(block)};
    }
    const size_t have = __builtin_wasm_memory_size(0) * PAGE;
    const size_t want = (uintptr_t)end + size + sizeof(block);
    if (want > have) {
        const size_t pages = (want - have + PAGE - 1) / PAGE;
        __builtin_wasm_memory_grow(0, pages);
        /* What that answers has 32 bits in the page, so the size tells whether it grew. */
        if (__builtin_wasm_memory_size(0) * PAGE < want)
            return NULL;
    }
    block *at = end;
    end = (block *)((uintptr_t)at + size);
    end->size = sizeof(block);
    set_size(at, size, 0);
    return at;
}

void *terra_web_alloc(size_t asked)
{
    const size_t limit = (size_t)1 << 31;
    if (asked > limit)
        return NULL;
    size_t size = (asked + sizeof(block) + 15) & ~(size_t)15;
    if (size < sizeof(free_block))
        size = sizeof(free_block);
    block *at = find(size);
    if (at == NULL && (at = grow(size)) == NULL)
        return NULL;
    take(at, size);
    return at + 1;
}

void terra_web_free(void *given)
{
    block *at = (block *)given - 1;
    size_t size = size_of(at);
    block *next = behind(at);
    if (next != end && is_free(next)) {
        leave(next);
        size += size_of(next);
    }
    block *before = (block *)((uintptr_t)at - at->before);
    if (at->before != 0 && is_free(before)) {
        leave(before);
        size += size_of(before);
        at = before;
    }
    set_size(at, size, 1);
    enter(at);
}

/* ---- what the engine calls: these three, as in ../../heap.c */

struct tried {
    uint64_t is_there;
    void *at;
};

static unsigned char nowhere;

struct tried rattle_alloc(size_t size, size_t align)
{
    void *at = terra_web_alloc(size != 0 ? size : align);
    return (struct tried){at != NULL, at != NULL ? at : &nowhere};
}

struct tried rattle_realloc(void *at, size_t kept, size_t size, size_t align)
{
    const size_t room = size_of((block *)at - 1) - sizeof(block);
    if (size != 0 && size <= room && size >= room / 2)
        return (struct tried){1, at};
    struct tried made = rattle_alloc(size, align);
    if (made.is_there) {
        __builtin_memcpy(made.at, at, kept < size ? kept : size);
        terra_web_free(at);
    }
    return made;
}

void rattle_dealloc(void *at)
{
    terra_web_free(at);
}
