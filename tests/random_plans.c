/* Random plans and walks. Most changes put a number near a limit, so that a plan just is or just is not well-formed. */
#include "random_plans.h"

#include "plain_walk.h"

#include <string.h>

#define PICK(list) ((list)[random_below(sizeof(list) / sizeof *(list))])

static int one_in(uint32_t n) {
    return random_below(n) == 0;
}

static uint32_t *step_of(uint32_t *plan, uint32_t step) {
    return plan + GW_PLAN_STEP_0 + (size_t)GW_STEP_SIZE * step;
}

/* ---- records */

uint32_t nth_object(struct some_bytes table, uint32_t n) {
    uint32_t objects = 0, count = record_count(table.bytes, table.length);
    for (uint32_t i = 0; i < count; i++)
        objects += record_tag(table.bytes, table.length, i) == GW_TAG_OBJECT;
    for (uint32_t i = 0; i < count && objects; i++)
        if (record_tag(table.bytes, table.length, i) == GW_TAG_OBJECT && n-- % objects == 0)
            return i;
    return count;
}

uint32_t any_object(struct some_bytes table) {
    return nth_object(table, random_below(GW_MOST_RECORDS));
}

/* An object, interface or union, where a few tries find one. */
static uint32_t any_condition(struct some_bytes table) {
    uint32_t count = record_count(table.bytes, table.length);
    for (int tries = 0; tries < 8 && count; tries++) {
        uint32_t record = random_below(count);
        int tag = record_tag(table.bytes, table.length, record);
        if (tag >= GW_TAG_OBJECT && tag <= GW_TAG_UNION)
            return record;
    }
    return any_object(table);
}

/* ---- a plan made by chance */

static void make_step(uint32_t *plan, uint32_t at, uint32_t end, struct some_bytes table, uint32_t rows) {
    uint32_t *step = step_of(plan, at), kind = one_in(2) ? GW_STEP_LIST : 1 + random_below(4);
    step[GW_STEP_KIND] = kind;
    step[GW_STEP_SECOND] = at + 1 + random_below(one_in(3) ? end - at : end - at < 4 ? end - at : 4);
    switch (kind) {
    case GW_STEP_LIST:
        step[GW_STEP_FIRST] = random_below(rows);
        step[GW_STEP_SECOND] = random_below(GW_MOST_ROWS);
        break;
    case GW_STEP_UNLESS_APPLIES: step[GW_STEP_FIRST] = any_condition(table); break;
    default: step[GW_STEP_FIRST] = one_in(4) ? random_below(64) : random_below(5);
    }
}

void make_plan(uint32_t *plan, struct some_bytes table) {
    static const uint32_t most_blocks[] = {1, 2, 4, 8, 8, 8, 70, GW_MOST_BLOCKS};
    static const uint32_t most_steps[] = {0, 4, 12, 12, 40, 40, 40, 200, 600, GW_MOST_STEPS};
    static const uint32_t most_rows[] = {1, 3, 8, 8, 100, GW_MOST_ROWS};
    uint32_t blocks = 1 + random_below(PICK(most_blocks)), steps = PICK(most_steps), rows = PICK(most_rows), first = 0;
    memset(plan, 0, GW_PLAN_SIZE * sizeof *plan);
    if (!one_in(8))
        steps = random_below(steps + 1);
    plan[GW_PLAN_BLOCKS] = blocks;
    plan[GW_PLAN_STEPS] = steps;
    for (uint32_t b = 0; b < blocks; b++) {
        uint32_t left = blocks - b - 1, end = left ? first + random_below(2 * (steps - first) / (left + 1) + 1) : steps;
        end = end > steps ? steps : end;
        plan[GW_PLAN_FIRSTS + b] = first;
        for (uint32_t at = first; at < end; at++)
            make_step(plan, at, end, table, rows);
        first = end;
    }
}

/* ---- changes */

static uint32_t near(uint32_t number) {
    static const uint32_t limits[] = {0, 1, 5, 6, 63, 64, 255, 256, 2047, 2048, 2049, 4095, 4096, 4097, 0x7FFFFFFF, 0x80000000, UINT32_MAX};
    return one_in(2) ? number + 1 - 2 * random_below(2) : one_in(12) ? random_below(UINT32_MAX) : PICK(limits);
}

/* A step of those that the plan says it has. */
static uint32_t any_step(const uint32_t *plan) {
    uint32_t steps = plan[GW_PLAN_STEPS];
    return random_below(steps < 1 ? 1 : steps > GW_MOST_STEPS ? GW_MOST_STEPS : steps);
}

static uint32_t any_block(const uint32_t *plan) {
    uint32_t blocks = plan[GW_PLAN_BLOCKS];
    return random_below(blocks < 1 ? 1 : blocks > GW_MOST_BLOCKS ? GW_MOST_BLOCKS : blocks);
}

static void copy_step(uint32_t *plan) {
    uint32_t *to = step_of(plan, any_step(plan)), *from = step_of(plan, any_step(plan)), was[GW_STEP_SIZE];
    memcpy(was, to, sizeof was);
    memmove(to, from, sizeof was);
    if (one_in(2))
        memcpy(from, was, sizeof was);
}

void change_plan(uint32_t *plan, struct some_bytes table) {
    uint32_t *step = step_of(plan, any_step(plan)), *first = plan + GW_PLAN_FIRSTS + any_block(plan), place;
    switch (random_below(14)) {
    case 0: plan[GW_PLAN_BLOCKS] = near(plan[GW_PLAN_BLOCKS]); break;
    case 1: plan[GW_PLAN_STEPS] = near(plan[GW_PLAN_STEPS]); break;
    case 2: *first = near(*first); break;
    case 3: *first = any_step(plan); break;
    case 4: step[GW_STEP_KIND] = near(step[GW_STEP_KIND]); break;
    case 5: step[GW_STEP_KIND] = 1 + random_below(5); break;
    case 6: step[GW_STEP_FIRST] = near(step[GW_STEP_FIRST]); break;
    case 7: step[GW_STEP_FIRST] = random_below(record_count(table.bytes, table.length) + 1); break;
    case 8: step[GW_STEP_SECOND] = near(step[GW_STEP_SECOND]); break;
    case 9: step[GW_STEP_SECOND] = any_step(plan) + random_below(2); break;
    case 10: case 11: copy_step(plan); break;
    case 12: /* behind all that is used, where anything may stand */
        place = random_below(GW_PLAN_SIZE);
        if (place >= GW_PLAN_FIRSTS + plan[GW_PLAN_BLOCKS] && (place < GW_PLAN_STEP_0 || place - GW_PLAN_STEP_0 >= 3u * plan[GW_PLAN_STEPS]))
            plan[place] = near(7);
        break;
    default: plan[random_below(GW_PLAN_SIZE)] = near(1);
    }
}

/* ---- walks */

static void ask_blocks(struct ask *a, const uint32_t *plan) {
    static const uint32_t lengths[] = {GW_MOST_WALKED - 1, GW_MOST_WALKED, GW_MOST_WALKED + 1, MOST_ASKED};
    a->blocks_len = one_in(30) ? PICK(lengths) : one_in(25) ? 0 : 1 + random_below(one_in(3) ? 1 : 6);
    for (size_t i = 0; i < a->blocks_len; i++)
        a->blocks[i] = any_block(plan);
    if (a->blocks_len && one_in(30))
        a->blocks[random_below((uint32_t)a->blocks_len)] = near(plan[GW_PLAN_BLOCKS]);
    if (a->blocks_len && one_in(3))
        a->blocks[0] = 0;
}

static void ask_variables(struct ask *a) {
    uint32_t way = random_below(8);
    a->variables_len = one_in(60) ? random_below(GW_VARIABLES_SIZE) : one_in(6) ? GW_VARIABLES_SIZE + random_below(9) : GW_VARIABLES_SIZE;
    for (size_t i = 0; i < a->variables_len; i++)
        a->variables[i] = (uint8_t)(way == 0 ? random_below(256) : way == 1 ? 1 : way == 2 ? 0 : random_below(2));
}

void make_ask(struct ask *a, const uint32_t *plan, struct some_bytes table) {
    a->object = one_in(50) ? near(random_below(record_count(table.bytes, table.length) + 1)) : any_object(table);
    ask_blocks(a, plan);
    ask_variables(a);
}
