/* A request that the core has accepted: a document, an operation of it, its variables; checked, planned once, its variables coerced. */
#ifndef REQUEST_H
#define REQUEST_H

#include "../plans.h"
#include "../refusal.h"
#include "../value.h"
#include "gateway.h"

/* The coerced arguments of a field, or the report of why there are none. */
struct arguments {
    uint8_t *bytes; /* NULL until they are asked for, and where they are refused */
    uint32_t report[GW_REPORT_SIZE];
    int is_known;
};

struct request {
    struct text table, document, variables;
    struct words operation_name; /* none for the only operation */
    struct gw_given given;       /* the same, for words of refusals */

    /* What prepare_request finds out. */
    uint32_t rows[GW_ROWS_SIZE], plan[GW_PLAN_SIZE], report[GW_REPORT_SIZE];
    struct pair pair; /* the document's rows beside the table */
    uint32_t operation;
    struct piece root; /* the record of the operation's own type */
    struct plan_names names;
    uint8_t true_variables[GW_VARIABLES_SIZE];
    struct arguments arguments[GW_MOST_ROWS];
};

/* Checks the document, plans its operation and coerces its variables. 0 if one of them is refused: then r->report says why. */
int prepare_request(struct request *r);

/* The coerced arguments of the field at a row: the same for all objects that it is asked of, so that they are coerced once. 0 if they are
   refused: then *report says why. */
int arguments_at(struct request *r, uint32_t row, struct value *arguments, const uint32_t **report);

/* The number of a record in the table. */
uint32_t record_number(const struct request *r, struct piece record);

/* Frees what a request holds. */
void drop_request(struct request *r);

#endif
