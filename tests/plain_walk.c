/* A plain walker of plans. */
#include "plain_walk.h"

#include <string.h>

/* ---- the table: a house field's content lies behind its tag and two length bytes */

enum { HEAD = 3 };

static size_t length_at(const uint8_t *field) {
    return (size_t)field[1] * 256 + field[2];
}

/* The record of a number; NULL for none. */
static const uint8_t *record_at(const uint8_t *table, size_t length, uint32_t number) {
    for (size_t at = 0; at + HEAD <= length; at += HEAD + length_at(table + at))
        if (number-- == 0)
            return table + at;
    return NULL;
}

uint32_t record_count(const uint8_t *table, size_t length) {
    uint32_t count = 0;
    while (record_at(table, length, count))
        count++;
    return count;
}

int record_tag(const uint8_t *table, size_t length, uint32_t number) {
    const uint8_t *record = record_at(table, length, number);
    return record ? record[0] : 0;
}

static int is_same(const uint8_t *a, const uint8_t *b) {
    return length_at(a) == length_at(b) && memcmp(a + HEAD, b + HEAD, length_at(a)) == 0;
}

/* Whether a record holds a field of this tag with the content of another field. */
static int holds(const uint8_t *record, int tag, const uint8_t *like) {
    const uint8_t *end = record + HEAD + length_at(record);
    for (const uint8_t *at = record + HEAD; at < end; at += HEAD + length_at(at))
        if (at[0] == tag && is_same(at, like))
            return 1;
    return 0;
}

/* Whether a condition applies to an object; both are records, whose names stand first in them. */
static int applies(const uint8_t *object, const uint8_t *condition) {
    switch (condition[0]) {
    case GW_TAG_OBJECT: return object == condition;
    case GW_TAG_INTERFACE: return holds(object, GW_TAG_IMPLEMENTS, condition + HEAD);
    default: return holds(condition, GW_TAG_UNION_MEMBER, object + HEAD);
    }
}

/* ---- the plan */

static const uint32_t *step_of(const struct asked_walk *a, uint32_t step) {
    return a->plan + GW_PLAN_STEP_0 + (size_t)GW_STEP_SIZE * step;
}

static uint32_t first_of(const struct asked_walk *a, uint32_t block) {
    return a->plan[GW_PLAN_FIRSTS + block];
}

static uint32_t end_of(const struct asked_walk *a, uint32_t block) {
    return block + 1 < a->plan[GW_PLAN_BLOCKS] ? first_of(a, block + 1) : a->plan[GW_PLAN_STEPS];
}

static int is_step(const struct asked_walk *a, uint32_t at, uint32_t end) {
    const uint32_t *step = step_of(a, at);
    uint32_t first = step[GW_STEP_FIRST], second = step[GW_STEP_SECOND];
    int leaves = second > at && second <= end;
    switch (step[GW_STEP_KIND]) {
    case GW_STEP_IF_TRUE: case GW_STEP_UNLESS_TRUE: return leaves && first < GW_MOST_VARIABLES;
    case GW_STEP_IF_MET: return leaves && first < GW_MOST_FRAGMENTS;
    case GW_STEP_UNLESS_APPLIES: {
        int tag = record_tag(a->table, a->table_len, first);
        return leaves && (tag == GW_TAG_OBJECT || tag == GW_TAG_INTERFACE || tag == GW_TAG_UNION);
    }
    case GW_STEP_LIST: return first < GW_MOST_ROWS && second < GW_MOST_ROWS;
    default: return 0;
    }
}

static int is_plan(const struct asked_walk *a) {
    if (a->plan_len < GW_PLAN_SIZE)
        return 0;
    uint32_t blocks = a->plan[GW_PLAN_BLOCKS], steps = a->plan[GW_PLAN_STEPS];
    if (blocks < 1 || blocks > GW_MOST_BLOCKS || steps > GW_MOST_STEPS || first_of(a, 0) != 0)
        return 0;
    for (uint32_t b = 0; b < blocks; b++)
        if (first_of(a, b) > end_of(a, b))
            return 0;
    for (uint32_t b = 0; b < blocks; b++)
        for (uint32_t at = first_of(a, b); at < end_of(a, b); at++)
            if (!is_step(a, at, end_of(a, b)))
                return 0;
    return 1;
}

/* ---- the walk */

static int is_walk(const struct asked_walk *a) {
    if (record_tag(a->table, a->table_len, a->object) != GW_TAG_OBJECT || a->blocks_len > GW_MOST_WALKED || a->variables_len < GW_VARIABLES_SIZE)
        return 0;
    if (!is_plan(a))
        return 0;
    for (size_t i = 0; i < a->blocks_len; i++)
        if (a->blocks[i] >= a->plan[GW_PLAN_BLOCKS])
            return 0;
    return 1;
}

/* What a walk remembers: the fragments that were met; the records that were asked for, whether they apply. */
struct memory {
    uint64_t met;
    enum { UNKNOWN, APPLIES, APPLIES_NOT } records[GW_MOST_RECORDS];
};

static int does_apply(const struct asked_walk *a, uint32_t record, struct memory *m) {
    if (m->records[record] == UNKNOWN) {
        const uint8_t *object = record_at(a->table, a->table_len, a->object), *condition = record_at(a->table, a->table_len, record);
        m->records[record] = applies(object, condition) ? APPLIES : APPLIES_NOT;
    }
    return m->records[record] == APPLIES;
}

static int is_left(const struct asked_walk *a, const uint32_t *step, struct memory *m) {
    uint32_t first = step[GW_STEP_FIRST];
    switch (step[GW_STEP_KIND]) {
    case GW_STEP_IF_TRUE: return a->variables[first] == 1;
    case GW_STEP_UNLESS_TRUE: return a->variables[first] != 1;
    case GW_STEP_IF_MET: {
        int was = m->met >> first & 1;
        m->met |= (uint64_t)1 << first;
        return was;
    }
    default: return !does_apply(a, first, m);
    }
}

/* The pairs as they are listed; how many, at most one over the limit. */
static uint32_t list(const struct asked_walk *a, uint32_t *pairs, uint64_t *steps) {
    struct memory m = {0};
    uint32_t count = 0;
    for (size_t i = 0; i < a->blocks_len; i++)
        for (uint32_t at = first_of(a, a->blocks[i]), end = end_of(a, a->blocks[i]); at < end; ++*steps) {
            const uint32_t *step = step_of(a, at++);
            if (step[GW_STEP_KIND] != GW_STEP_LIST) {
                at = is_left(a, step, &m) ? step[GW_STEP_SECOND] : at;
                continue;
            }
            if (count == GW_MOST_PAIRS)
                return count + 1;
            memcpy(pairs + GW_PAIR_SIZE * count++, step + GW_STEP_FIRST, GW_PAIR_SIZE * sizeof *pairs);
        }
    return count;
}

/* Keys by first listing, the pairs of one key as listed. */
static void group(const uint32_t *listed, uint32_t count, uint32_t *pairs) {
    uint8_t taken[GW_MOST_PAIRS] = {0};
    for (uint32_t i = 0; i < count; i++) {
        if (taken[i])
            continue;
        for (uint32_t k = i; k < count; k++)
            if (listed[GW_PAIR_SIZE * k] == listed[GW_PAIR_SIZE * i]) {
                memcpy(pairs, listed + GW_PAIR_SIZE * k, GW_PAIR_SIZE * sizeof *pairs);
                pairs += GW_PAIR_SIZE;
                taken[k] = 1;
            }
    }
}

void plain_walk(const struct asked_walk *asked, struct due_walk *due) {
    uint32_t listed[GW_PAIRS_SIZE];
    memset(due, 0, sizeof *due);
    if (!is_walk(asked)) {
        due->answer = GW_REFUSE_WALK;
        return;
    }
    uint32_t count = list(asked, listed, &due->steps);
    if (count > GW_MOST_PAIRS) {
        due->answer = GW_REFUSE_TOO_MANY_PAIRS;
        return;
    }
    due->count = count;
    group(listed, count, due->pairs);
}
