/* Random documents: made by the grammar, shaped near the sizes, or mutated from given ones. Deterministic. */
#ifndef RANDOM_H
#define RANDOM_H

#include <stddef.h>
#include <stdint.h>

enum { TEXT_ROOM = 20000 };

struct text {
    size_t length;
    uint8_t bytes[TEXT_ROOM];
};

struct corpus {
    struct text **texts;
    size_t count;
};

void random_start(uint64_t seed);
uint32_t random_below(uint32_t n);

/* The next document. Most are short, one in some fifty is long. */
void random_document(struct text *t, const struct corpus *given);

#endif
