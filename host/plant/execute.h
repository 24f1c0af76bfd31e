/* Executes an operation: walks its plan level by level with the plant's answers, and completes them by their types. */
#ifndef EXECUTE_H
#define EXECUTE_H

#include "answer.h"
#include "request.h"
#include "response.h"

/* An operation that runs. */
struct running {
    struct request *request;
    struct plant *plant;
    json_t *errors; /* an array, in the order in which they came up */
};

/* A field that is asked for: the rows that have its response key, the first of which says which field it is. */
struct asked {
    const uint32_t *rows;
    size_t count;
    const char *type;  /* the object's */
    struct words name; /* the field's */
    const struct path *path;
};

/* The data of the response; null where an error went up to the root. */
json_t *execute_operation(struct running *r);

/* An object of the type of a record, with its fields from some blocks of the plan; NULL if a Non-Null field of it has failed. */
json_t *execute_object(struct running *r, struct piece record, struct thing thing, const uint32_t *blocks, size_t count, const struct asked *asked);

/* An answer completed by a type; NULL if it failed and the type is Non-Null, so that what holds it fails too. The error is then told. */
json_t *complete(struct running *r, const struct asked *asked, struct words type, const struct answer *answer);

/* Tells an error at a field; always NULL. */
json_t *fail(struct running *r, const struct asked *asked, const char *format, ...) __attribute__((format(printf, 3, 4)));

#endif
