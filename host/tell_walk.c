/* Why a plan cannot be walked as was asked. */
#include "tell.h"

#include "plans.h"

#include <inttypes.h>
#include <string.h>

static int record_tag(const struct text *table, uint32_t record) {
    return nth(table, whole(table), is_record, record).tag;
}

/* What is wrong with a step of a block that ends there; NULL for nothing. */
static const char *step_fault(const struct telling *t, uint32_t at, uint32_t end) {
    const uint32_t *step = step_at(t->given->plan, at);
    uint32_t kind = step[GW_STEP_KIND], first = step[GW_STEP_FIRST], second = step[GW_STEP_SECOND];
    if (kind < GW_STEP_IF_TRUE || kind > GW_STEP_LIST)
        return "is of no kind";
    if (kind == GW_STEP_LIST)
        return first >= GW_MOST_ROWS ? "lists a key past all rows" : second >= GW_MOST_ROWS ? "lists a row past all rows" : NULL;
    if (kind == GW_STEP_UNLESS_APPLIES) {
        int tag = record_tag(&t->table, first);
        if (tag != GW_TAG_OBJECT && tag != GW_TAG_INTERFACE && tag != GW_TAG_UNION)
            return "asks for a record that is no object, interface or union";
    } else if (first >= (kind == GW_STEP_IF_MET ? GW_MOST_FRAGMENTS : GW_MOST_VARIABLES)) {
        return kind == GW_STEP_IF_MET ? "asks for a fragment past the 64th" : "asks for a variable past the 64th";
    }
    return second <= at ? "leaves to no later step" : second > end ? "leaves past the end of its block" : NULL;
}

/* Tells what is wrong with the plan itself; 0 for nothing. */
static int tell_plan_fault(struct telling *t) {
    const uint32_t *plan = t->given->plan;
    uint32_t blocks = plan[GW_PLAN_BLOCKS], steps = plan[GW_PLAN_STEPS];
    if (blocks < 1 || blocks > GW_MOST_BLOCKS || steps > GW_MOST_STEPS) {
        say(&t->text, "the plan is not well-formed: %" PRIu32 " blocks and %" PRIu32 " steps", blocks, steps);
        return 1;
    }
    for (uint32_t b = 0; b < blocks; b++)
        if ((b == 0 && first_step(plan, b) != 0) || first_step(plan, b) > past_steps(plan, b)) {
            say(&t->text, "the plan is not well-formed: block %" PRIu32 " begins at step %" PRIu32, b, first_step(plan, b));
            return 1;
        }
    for (uint32_t b = 0; b < blocks; b++)
        for (uint32_t at = first_step(plan, b); at < past_steps(plan, b); at++)
            if (step_fault(t, at, past_steps(plan, b))) {
                say(&t->text, "the plan is not well-formed: step %" PRIu32 " %s", at, step_fault(t, at, past_steps(plan, b)));
                return 1;
            }
    return 0;
}

/* "Machine is an interface", of the record or of the name that was looked up. */
static void tell_type(struct telling *t) {
    struct piece record = nth(&t->table, whole(&t->table), is_record, t->given->object);
    struct words name = t->given->type ? (struct words){(const uint8_t *)t->given->type, strlen(t->given->type)}
                      : record.tag ? text_of(&t->table, name_of(&t->table, record)) : (struct words){NULL, 0};
    if (name.bytes)
        say_words(&t->text, name);
    else
        say(&t->text, "record %" PRIu32, t->given->object);
    say(&t->text, " is %s; a walk is for an object type", name.bytes ? meaning_words(&t->table, name) : "no type");
}

void tell_walk(struct telling *t) {
    const struct gw_given *g = t->given;
    if (!g->plan || tell_plan_fault(t))
        return;
    if (record_tag(&t->table, g->object) != GW_TAG_OBJECT) {
        tell_type(t);
        return;
    }
    if (g->blocks_len > GW_MOST_WALKED) {
        say(&t->text, "%zu blocks are more than 64", g->blocks_len);
        return;
    }
    for (size_t i = 0; i < g->blocks_len; i++)
        if (g->blocks[i] >= g->plan[GW_PLAN_BLOCKS]) {
            say(&t->text, "the plan has no block %" PRIu32 ", only 0 to %" PRIu32, g->blocks[i], g->plan[GW_PLAN_BLOCKS] - 1);
            return;
        }
    say(&t->text, "fewer than 64 variable bytes are given");
}
