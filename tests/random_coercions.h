/* Random calls that coerce variables or arguments: given ones, mostly with a few changes in the values of the variables text or of the
   document. Deterministic. */
#ifndef RANDOM_COERCIONS_H
#define RANDOM_COERCIONS_H

#include "random_pairs.h"

enum { MOST_FIELDS = 64, MOST_OPERATIONS = 8 };

/* Given calls: a document, the family of its table, what else it was called with. */
struct given_call {
    const struct family *family;
    struct some_bytes document, operation, variables;
};
struct given_calls {
    struct given_call *all;
    uint32_t count;
};

struct call {
    struct some_bytes table, operation;
    struct text document, variables;
    int of_arguments;
    uint32_t row; /* of the arguments */

    const struct given_call *from; /* the rest is the maker's; zeros before the first call */
    uint32_t left;                 /* calls that still have this document */
    uint32_t fields[MOST_FIELDS], field_count;
    struct some_bytes operations[MOST_OPERATIONS];
    uint32_t operation_count;
};

/* The next call, after random_start. Some that come after each other have one table and document. */
void random_call(struct call *c, const struct given_calls *given);

/* Makes a string in the variables text longer by so many bytes; 0 if there is none or no room. */
int stretch_variables(struct call *c, size_t more);

#endif
