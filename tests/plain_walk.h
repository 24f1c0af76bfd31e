/* A plain walker of plans, apart from the library: it says what a walk must leave, and how many steps it takes. */
#ifndef PLAIN_WALK_H
#define PLAIN_WALK_H

#include "gateway.h"

struct asked_walk {
    const uint8_t *table;
    const uint32_t *plan, *blocks;
    const uint8_t *variables;
    size_t table_len, plan_len, blocks_len, variables_len;
    uint32_t object;
};

/* What is due: 0, 14 or 15; the pairs, then zeros; how many there are, and how many steps were walked. */
struct due_walk {
    uint32_t answer, count, pairs[GW_PAIRS_SIZE];
    uint64_t steps;
};

/* Of a table that gw_check_table accepts. */
void plain_walk(const struct asked_walk *asked, struct due_walk *due);

/* How many records such a table has, and the tag of one of them; 0 for none. */
uint32_t record_count(const uint8_t *table, size_t length);
int record_tag(const uint8_t *table, size_t length, uint32_t number);

#endif
