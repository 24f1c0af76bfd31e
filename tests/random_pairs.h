/* Random pairs of a type table and a document: given ones, mostly with a few changes in the document's tokens. Deterministic. */
#ifndef RANDOM_PAIRS_H
#define RANDOM_PAIRS_H

#include "random.h"

struct some_bytes {
    size_t length;
    const uint8_t *bytes;
};

/* A table, and others that differ from it by a change. */
enum { MOST_VARIANTS = 8 };
struct family {
    struct some_bytes tables[1 + MOST_VARIANTS];
    uint32_t count;
};

/* Given pairs: a document, and the family of its table. */
struct given_pair {
    const struct family *family;
    struct some_bytes document;
};
struct given_pairs {
    struct given_pair *all;
    uint32_t count;
};

struct pair {
    struct some_bytes table;
    struct text document;
};

/* The next pair, after random_start. Its table is one of the given ones. */
void random_pair(struct pair *p, const struct given_pairs *given);

/* One change in a document's tokens, by words of its own and of the table. */
void change_document(struct text *t, struct some_bytes table);

#endif
