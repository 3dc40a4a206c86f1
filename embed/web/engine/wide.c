/* What clang calls for numbers of 128 bits, which WebAssembly lacks. */
#include "types.h"

typedef unsigned __int128 wide;

static wide of_halves(uint64_t low, uint64_t high)
{
    union {
        struct {
            uint64_t low, high;
        } halves;
        wide whole;
    } both = {{low, high}};
    return both.whole;
}

static uint64_t low_half(wide a)
{
    return (uint64_t)a;
}

static uint64_t high_half(wide a)
{
    union {
        wide whole;
        struct {
            uint64_t low, high;
        } halves;
    } both = {a};
    return both.halves.high;
}

/* The product of two numbers of 64 bits, by their halves of 32. */
static wide product(uint64_t a, uint64_t b)
{
    const uint64_t mask = 0xffffffff;
    const uint64_t low = (a & mask) * (b & mask);
    const uint64_t left = (a >> 32) * (b & mask), right = (a & mask) * (b >> 32);
    const uint64_t middle = (low >> 32) + (left & mask) + (right & mask);
    return of_halves(middle << 32 | (low & mask),
                     (a >> 32) * (b >> 32) + (left >> 32) + (right >> 32) + (middle >> 32));
}

wide __multi3(wide a, wide b)
{
    const wide whole = product(low_half(a), low_half(b));
    return of_halves(low_half(whole), high_half(whole) + low_half(a) * high_half(b) + high_half(a) * low_half(b));
}

wide __ashlti3(wide a, int by)
{
    if (by == 0)
        return a;
    if (by >= 64)
        return of_halves(0, low_half(a) << (by - 64));
    return of_halves(low_half(a) << by, high_half(a) << by | low_half(a) >> (64 - by));
}

wide __lshrti3(wide a, int by)
{
    if (by == 0)
        return a;
    if (by >= 64)
        return of_halves(high_half(a) >> (by - 64), 0);
    return of_halves(low_half(a) >> by | high_half(a) << (64 - by), high_half(a) >> by);
}
