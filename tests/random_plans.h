/* Random plans and walks: plans of documents with a few changes in their numbers, and plans made by chance. Deterministic. */
#ifndef RANDOM_PLANS_H
#define RANDOM_PLANS_H

#include "gateway.h"
#include "random_pairs.h"

enum { MOST_ASKED = 80, VARIABLES_ROOM = 96 };

/* What a walk is asked for, beside the table and the plan. */
struct ask {
    uint32_t object, blocks[MOST_ASKED];
    uint8_t variables[VARIABLES_ROOM];
    size_t blocks_len, variables_len;
};

/* After random_start: a change in a plan that has GW_PLAN_SIZE numbers; a plan that is well-formed by the table, mostly short. */
void change_plan(uint32_t *plan, struct some_bytes table);
void make_plan(uint32_t *plan, struct some_bytes table);

/* A walk of a plan, mostly of some of its blocks, for an object of the table. */
void make_ask(struct ask *a, const uint32_t *plan, struct some_bytes table);

/* An object's record by chance, or the n-th one, counted round; what is no record where there is none. */
uint32_t any_object(struct some_bytes table);
uint32_t nth_object(struct some_bytes table, uint32_t n);

#endif
