/*
 * slices.h: memory for the slices that are lent to the archive, each a block of its own and exactly as long as it says.
 * A memory checker then sees a read or a write past any of them.
 */
#ifndef SLICES_H
#define SLICES_H

#include <stddef.h>

/* By malloc, for a memory checker. Or between pages that nobody may touch, the slice at the end of its own or at their
 * start: there the processor itself stops a read or a write past that end. */
enum memory { BY_MALLOC, BEFORE_A_WALL, BEHIND_A_WALL };

/* For all slices that are made from then on. */
void choose_memory(enum memory memory);

struct slice {
    void *at;
    size_t length, entry;
    void *block;
    size_t mapped; /* 0 if the block came from malloc */
};

/* The entries hold what the block held. */
struct slice make_slice(size_t length, size_t entry);

/* The same entries, as many of them as the new length has. */
struct slice copy_slice(const struct slice *from, size_t length);

void fill_slice(const struct slice *slice, unsigned char pattern);

void free_slice(struct slice *slice);

#endif
