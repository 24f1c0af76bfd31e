/* Memory between two pages that trap: a read or write beside a buffer ends the program. What is lent is painted before a call. */
#ifndef GUARD_H
#define GUARD_H

#include <stddef.h>
#include <stdint.h>

struct guarded {
    uint8_t *first;
    size_t bytes; /* whole pages */
};

struct guarded guard_map(size_t bytes);

/* A block of that many bytes right above the lower trap, or right below the upper one. */
void *guard_low(struct guarded g, size_t bytes);
void *guard_high(struct guarded g, size_t bytes);

/* Such a block with a copy of some bytes, or painted. */
void *guard_copy(struct guarded g, const void *from, size_t bytes, int high);
void *guard_paint(struct guarded g, size_t bytes, int high);

int is_painted(const void *from, size_t bytes);
int is_zero(const uint32_t *from, size_t count);
int is_zero_bytes(const void *from, size_t bytes);

#endif
