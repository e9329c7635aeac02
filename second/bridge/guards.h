/*
 * guards.h: memory that bridge.c and smoothing.c lend to an archive for its results, between two guards, so that a
 * write outside it is seen. It comes after ends.h.
 */
#include <stdlib.h>
#include <string.h>

/* As many cells as the largest grid has points: whoever writes a whole result into a slice that is too short, even an
 * empty one, stays inside. Of a screen that is one window; a write farther out damages the heap. */
enum { GUARD = 4096 };

/* A result between two guards. All is in one block; size and guard are bytes. */
struct result {
    size_t length, size, guard;
    unsigned char pattern, *block;
    void *address;
};

/* Aligned and not null, with glibc also for a size of 0. */
static void *allocate(size_t size) {
    void *block = malloc(size);
    if (block == NULL)
        fail("out of memory");
    return block;
}

static struct result take_result(size_t cell, unsigned char pattern, bool null) {
    struct result result = {.length = take_number(), .guard = GUARD * cell, .pattern = pattern};
    result.size = result.length * cell;
    result.block = allocate(result.guard + result.size + result.guard);
    memset(result.block, pattern, result.guard + result.size + result.guard);
    result.address = null && result.length == 0 ? NULL : result.block + result.guard;
    return result;
}

/* Each byte is like the one after it: this is quick under an emulator too. */
static bool is_whole(const unsigned char *guard, size_t size, unsigned char pattern) {
    return guard[0] == pattern && memcmp(guard, guard + 1, size - 1) == 0;
}

static bool is_written_outside(const struct result *result) {
    const unsigned char *before = result->block, *after = before + result->guard + result->size;
    return !is_whole(before, result->guard, result->pattern) || !is_whole(after, result->guard, result->pattern);
}
