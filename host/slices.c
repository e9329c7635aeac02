/* slices.c: see slices.h. */
#define _DEFAULT_SOURCE

#include "slices.h"

#include <stdio.h>
#include <stdlib.h>
#include <string.h>
#include <sys/mman.h>
#include <unistd.h>

static enum memory chosen = BY_MALLOC;

void choose_memory(enum memory memory) { chosen = memory; }

static _Noreturn void out_of_memory(void) {
    fprintf(stderr, "host: out of memory: free some and run again\n");
    exit(2);
}

/* A wall on either side. Alignment is the entry's, since all lengths are whole entries and a page is many. */
static struct slice walled_slice(size_t length, size_t entry) {
    size_t page = (size_t)sysconf(_SC_PAGESIZE), size = length * entry;
    size_t inside = (size + page - 1) / page * page;
    struct slice slice = {.length = length, .entry = entry, .mapped = inside + 2 * page};
    char *block = mmap(NULL, slice.mapped, PROT_NONE, MAP_PRIVATE | MAP_ANONYMOUS, -1, 0);
    if (block == MAP_FAILED || (inside > 0 && mprotect(block + page, inside, PROT_READ | PROT_WRITE) != 0))
        out_of_memory();
    slice.block = block;
    slice.at = chosen == BEFORE_A_WALL ? block + page + inside - size : block + page;
    return slice;
}

struct slice make_slice(size_t length, size_t entry) {
    if (chosen != BY_MALLOC)
        return walled_slice(length, entry);
    struct slice slice = {.length = length, .entry = entry, .block = malloc(length * entry)};
    /* for no entries NULL would do, and glibc gives another address */
    if (slice.block == NULL && length > 0)
        out_of_memory();
    slice.at = slice.block;
    return slice;
}

struct slice copy_slice(const struct slice *from, size_t length) {
    struct slice slice = make_slice(length, from->entry);
    size_t common = length < from->length ? length : from->length;
    fill_slice(&slice, 0);
    if (common > 0)
        memcpy(slice.at, from->at, common * from->entry);
    return slice;
}

void fill_slice(const struct slice *slice, unsigned char pattern) {
    if (slice->length > 0)
        memset(slice->at, pattern, slice->length * slice->entry);
}

void free_slice(struct slice *slice) {
    if (slice->mapped > 0)
        munmap(slice->block, slice->mapped);
    else
        free(slice->block);
    *slice = (struct slice){0};
}
