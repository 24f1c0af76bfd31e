/* Calls of gw_plan and gw_walk whose buffers lie between pages that trap, with all that holds for every call checked. */
#ifndef PLAN_CALLS_H
#define PLAN_CALLS_H

#include "gateway.h"
#include "random_plans.h"

enum { TAIL = 64, NAME_ROOM = 20000, PLAN_ROOM = GW_PLAN_SIZE + TAIL };

/* To begin with: maps the pages. */
void map_rooms(void);

/* What is lent to a call; lengths can be told longer than they are, where what is beyond must not be read. */
extern struct lent_call {
    int is_walk;
    const uint8_t *table, *document, *operation, *variables;
    const uint32_t *blocks;
    uint32_t *plan, *pairs, *report; /* a walk only reads the plan */
    size_t table_len, document_len, operation_len, variables_len, blocks_len, plan_len, pairs_len, report_len;
    size_t table_there, document_there;
    uint32_t object;
} now;

/* What was seen so far: answers, kinds of steps in plans; how many calls, steps walked; the most. */
extern struct seen_calls {
    uint64_t plans[GW_REFUSE_TOO_LONG + 1], walks[GW_REFUSE_TOO_LONG + 1], kinds[GW_STEP_LIST + 1];
    uint64_t plans_done, walks_done, steps_walked;
    uint32_t most_steps, most_pairs;
} seen;

/* Ends the program with status 1 where something does not hold, and tells what was lent. */
void expect(int holds, const char *what);

/* Whether the report is 0 from a place on. */
int zero_from(size_t i);

/* Whether 1 or 2 is due, by the output's length and its fixed size. */
int is_early(size_t out_len, size_t out_size);

struct plan_inputs {
    struct some_bytes table, document, operation;
};

/* Lends inputs and painted outputs, all right above the lower trap or, high, right below the upper one. */
void lend_plan(const struct plan_inputs *in, size_t plan_len, size_t report_len, int high);
void lend_walk(struct some_bytes table, const uint32_t *plan, size_t plan_len, const struct ask *a, size_t pairs_len, size_t report_len,
               int high);

/* Calls on what is lent; checked_.. also checks all that holds for every call, a walk in full against a plain walker. */
uint32_t plan_now(void);
uint32_t walk_now(void);
uint32_t checked_plan(void);
uint32_t checked_walk(void);

/* Short and long buffers and inputs, NULL for no length; the status to end with. */
int run_plan_buffers(void);

#endif
