/* How the host shows a plan and the pairs of a walk. */
#ifndef SHOW_PLAN_H
#define SHOW_PLAN_H

#include "plans.h"

/* A plan as it was made of an operation. */
struct made_plan {
    const struct pair *p;
    uint32_t operation;
    const uint32_t *plan;
    const struct plan_names *names;
};

/* The blocks with their steps, a line each, in numbers and in words, indented by what leaves past them. */
void show_plan(const struct made_plan *m);

/* The same as a graph for graphviz: blocks as boxes, leaving as dashed arrows, from a field to its block dotted ones. */
void show_dot(const struct made_plan *m);

/* The pairs, a line each, with the names of key and field and the block of the field's selections. */
void show_pairs(const uint32_t *pairs, uint32_t count, const struct plan_names *names);

/* The same as members of a JSON object. */
void json_plan(const uint32_t *plan, const struct plan_names *names);
void json_pairs(const uint32_t *pairs, uint32_t count, const struct plan_names *names);

#endif
