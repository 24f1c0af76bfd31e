/* Memory between two pages that trap. */
#define _GNU_SOURCE
#include "guard.h"

#include <stdio.h>
#include <stdlib.h>
#include <string.h>
#include <sys/mman.h>
#include <unistd.h>

enum { PAINT = 0xA5 };

struct guarded guard_map(size_t bytes) {
    size_t page = (size_t)sysconf(_SC_PAGESIZE);
    size_t inner = (bytes + page - 1) / page * page;
    uint8_t *all = mmap(NULL, inner + 2 * page, PROT_NONE, MAP_PRIVATE | MAP_ANONYMOUS, -1, 0);
    if (all == MAP_FAILED || mprotect(all + page, inner, PROT_READ | PROT_WRITE) != 0) {
        perror("guard_map");
        exit(2);
    }
    return (struct guarded){all + page, inner};
}

void *guard_low(struct guarded g, size_t bytes) {
    return bytes <= g.bytes ? g.first : NULL;
}

void *guard_high(struct guarded g, size_t bytes) {
    return bytes <= g.bytes ? g.first + (g.bytes - bytes) : NULL;
}

void *guard_copy(struct guarded g, const void *from, size_t bytes, int high) {
    void *place = high ? guard_high(g, bytes) : guard_low(g, bytes);
    if (bytes)
        memcpy(place, from, bytes);
    return place;
}

void *guard_paint(struct guarded g, size_t bytes, int high) {
    void *place = high ? guard_high(g, bytes) : guard_low(g, bytes);
    memset(place, PAINT, bytes);
    return place;
}

/* All bytes are this one: the first is, and each is like the one before it. */
static int is_all(const void *from, size_t bytes, int byte) {
    const uint8_t *first = from;
    return bytes == 0 || (first[0] == byte && memcmp(first, first + 1, bytes - 1) == 0);
}

int is_painted(const void *from, size_t bytes) {
    return is_all(from, bytes, PAINT);
}

int is_zero(const uint32_t *from, size_t count) {
    return is_all(from, count * sizeof *from, 0);
}

int is_zero_bytes(const void *from, size_t bytes) {
    return is_all(from, bytes, 0);
}
