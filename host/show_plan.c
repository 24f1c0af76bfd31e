/* How the host shows plans and walks. */
#include "show_plan.h"

#include "json.h"
#include "show.h"
#include "tell.h"

#include <inttypes.h>
#include <stdio.h>

static void show_record(const struct text *table, uint32_t record) {
    say_name(&screen, table, nth(table, whole(table), is_record, record));
}

/* The n-th fragment of a document. */
static uint32_t nth_fragment(const struct pair *p, uint32_t n) {
    for (uint32_t i = 0; i < p->count; i++)
        if (kind_at(p, i) == GW_KIND_FRAGMENT && n-- == 0)
            return i;
    return NO_ROW;
}

/* "machine", or "a: machine" where the key is an alias */
static void show_field(const struct field_names *f) {
    if (!f->key.bytes) {
        printf("?");
        return;
    }
    if (!same_words(f->key, f->name)) {
        say_words(&screen, f->key);
        printf(": ");
    }
    say_words(&screen, f->name);
}

/* ---- words of steps and blocks */

static void show_leave(const struct made_plan *m, const uint32_t *step) {
    uint32_t first = step[GW_STEP_FIRST];
    switch (step[GW_STEP_KIND]) {
    case GW_STEP_IF_TRUE: case GW_STEP_UNLESS_TRUE:
        printf(step[GW_STEP_KIND] == GW_STEP_IF_TRUE ? "if $" : "unless $");
        say_words(&screen, m->names->variables[first]);
        printf(" is true");
        break;
    case GW_STEP_UNLESS_APPLIES:
        printf("unless ");
        show_record(m->p->table, first);
        printf(" applies");
        break;
    default:
        printf("if ");
        say_words(&screen, name_at(m->p, nth_fragment(m->p, first)));
        printf(" was met, else mark it");
    }
}

static void show_listed(const struct made_plan *m, uint32_t row) {
    const struct field_names *f = &m->names->fields[row];
    printf("list ");
    show_field(f);
    printf(" at ");
    say_place(&screen, m->p, row);
    if (f->block)
        printf(", block %" PRIu32, f->block);
}

/* Whether some step lists a row; a field with a block that none lists was dropped. */
static int is_listed(const uint32_t *plan, uint32_t row) {
    for (uint32_t i = 0; i < plan[GW_PLAN_STEPS]; i++)
        if (step_at(plan, i)[GW_STEP_KIND] == GW_STEP_LIST && step_at(plan, i)[GW_STEP_SECOND] == row)
            return 1;
    return 0;
}

static void show_block_name(const struct made_plan *m, uint32_t block, uint32_t row) {
    printf("block %" PRIu32 ": ", block);
    if (block == 0) {
        say_operation(&screen, m->p, row);
        return;
    }
    show_field(&m->names->fields[row]);
    printf(" at ");
    say_place(&screen, m->p, row);
    if (!is_listed(m->plan, row))
        printf(", dropped");
}

/* How many places a step is left to from before it, in its block. */
static int depth_at(const uint32_t *plan, uint32_t first, uint32_t at) {
    uint32_t inner = UINT32_MAX;
    int depth = 0;
    for (uint32_t i = first; i < at; i++) {
        const uint32_t *step = step_at(plan, i);
        if (step[GW_STEP_KIND] == GW_STEP_LIST || step[GW_STEP_SECOND] <= at)
            continue;
        depth += step[GW_STEP_SECOND] != inner; /* what stands further in leaves no further out */
        inner = step[GW_STEP_SECOND];
    }
    return depth;
}

static void show_step(const struct made_plan *m, uint32_t first, uint32_t at) {
    const uint32_t *step = step_at(m->plan, at);
    printf("%6" PRIu32 "  %4" PRIu32 " %5" PRIu32 " %6" PRIu32 "  %*s", at, step[GW_STEP_KIND], step[GW_STEP_FIRST], step[GW_STEP_SECOND],
           2 * depth_at(m->plan, first, at), "");
    if (step[GW_STEP_KIND] == GW_STEP_LIST) {
        show_listed(m, step[GW_STEP_SECOND]);
    } else {
        printf("leave to %" PRIu32 " ", step[GW_STEP_SECOND]);
        show_leave(m, step);
    }
    printf("\n");
}

void show_plan(const struct made_plan *m) {
    static uint32_t rows[GW_MOST_BLOCKS];
    uint32_t count = block_rows(m->p, m->operation, rows);
    printf("  step  kind first second\n");
    for (uint32_t b = 0; b < count; b++) {
        show_block_name(m, b, rows[b]);
        printf("\n");
        for (uint32_t at = first_step(m->plan, b); at < past_steps(m->plan, b); at++)
            show_step(m, first_step(m->plan, b), at);
    }
}

/* ---- a graph. Names are letters, digits and _, so that nothing needs quoting. */

static void show_box(const struct made_plan *m, uint32_t block, uint32_t row) {
    printf("  subgraph cluster_%" PRIu32 " {\n    label=\"", block);
    show_block_name(m, block, row);
    printf("\";\n");
    for (uint32_t at = first_step(m->plan, block); at < past_steps(m->plan, block); at++) {
        const uint32_t *step = step_at(m->plan, at);
        printf("    s%" PRIu32 " [label=\"%" PRIu32 ": ", at, at);
        if (step[GW_STEP_KIND] == GW_STEP_LIST)
            show_listed(m, step[GW_STEP_SECOND]);
        else
            show_leave(m, step);
        printf("\"%s];\n", step[GW_STEP_KIND] == GW_STEP_LIST ? ", style=filled" : "");
    }
    printf("    e%" PRIu32 " [label=\"end\", shape=plain];\n  }\n", block);
}

/* The node of a step, or of its block's end. */
static void show_node(const struct made_plan *m, uint32_t block, uint32_t at) {
    if (at < past_steps(m->plan, block))
        printf("s%" PRIu32, at);
    else
        printf("e%" PRIu32, block);
}

static void show_arrows(const struct made_plan *m, uint32_t block) {
    for (uint32_t at = first_step(m->plan, block); at < past_steps(m->plan, block); at++) {
        const uint32_t *step = step_at(m->plan, at);
        uint32_t listed = step[GW_STEP_KIND] == GW_STEP_LIST, target = listed ? m->names->fields[step[GW_STEP_SECOND]].block : 0;
        printf("  s%" PRIu32 " -> ", at);
        show_node(m, block, at + 1);
        printf(";\n");
        if (!listed) {
            printf("  s%" PRIu32 " -> ", at);
            show_node(m, block, step[GW_STEP_SECOND]);
            printf(" [style=dashed, label=\"leave\"];\n");
        } else if (target) {
            printf("  s%" PRIu32 " -> ", at);
            show_node(m, target, first_step(m->plan, target));
            printf(" [style=dotted, lhead=cluster_%" PRIu32 "];\n", target);
        }
    }
}

void show_dot(const struct made_plan *m) {
    static uint32_t rows[GW_MOST_BLOCKS];
    uint32_t count = block_rows(m->p, m->operation, rows);
    printf("digraph plan {\n  compound=true;\n  node [shape=box];\n");
    for (uint32_t b = 0; b < count; b++)
        show_box(m, b, rows[b]);
    for (uint32_t b = 0; b < count; b++)
        show_arrows(m, b);
    printf("}\n");
}

/* ---- pairs */

void show_pairs(const uint32_t *pairs, uint32_t count, const struct plan_names *names) {
    if (count)
        printf("   key   row\n");
    for (uint32_t i = 0; i < count; i++) {
        uint32_t key = pairs[GW_PAIR_SIZE * i + GW_PAIR_KEY], row = pairs[GW_PAIR_SIZE * i + GW_PAIR_ROW];
        printf("%6" PRIu32 "%6" PRIu32 "  ", key, row);
        show_field(&names->fields[row]);
        if (names->fields[row].block)
            printf(", block %" PRIu32, names->fields[row].block);
        printf("\n");
    }
}

/* ---- as JSON */

static void json_words(struct words w) {
    json_bytes(w.bytes, w.length);
}

static void json_steps(const uint32_t *plan) {
    json_key("blocks");
    json_open('[');
    for (uint32_t b = 0; b < plan[GW_PLAN_BLOCKS]; b++)
        json_number(first_step(plan, b));
    json_close(']');
    json_key("steps");
    json_open('[');
    for (uint32_t at = 0; at < plan[GW_PLAN_STEPS]; at++) {
        json_open('[');
        for (int i = 0; i < GW_STEP_SIZE; i++)
            json_number(step_at(plan, at)[i]);
        json_close(']');
    }
    json_close(']');
}

static void json_field(const struct plan_names *names, uint32_t row) {
    const struct field_names *f = &names->fields[row];
    json_key("row"), json_number(row);
    if (!f->key.bytes)
        return;
    json_key("response_key"), json_words(f->key);
    json_key("field"), json_words(f->name);
    if (f->block)
        json_key("block"), json_number(f->block);
}

void json_plan(const uint32_t *plan, const struct plan_names *names) {
    json_steps(plan);
    json_key("variables");
    json_open('[');
    for (uint32_t i = 0; i < names->variable_count; i++)
        json_words(names->variables[i]);
    json_close(']');
    json_key("fields");
    json_open('[');
    for (uint32_t row = 0; row < GW_MOST_ROWS; row++)
        if (names->fields[row].key.bytes) {
            json_open('{');
            json_field(names, row);
            json_close('}');
        }
    json_close(']');
}

void json_pairs(const uint32_t *pairs, uint32_t count, const struct plan_names *names) {
    json_key("pairs");
    json_open('[');
    for (uint32_t i = 0; i < count; i++) {
        json_open('{');
        json_key("key"), json_number(pairs[GW_PAIR_SIZE * i + GW_PAIR_KEY]);
        json_field(names, pairs[GW_PAIR_SIZE * i + GW_PAIR_ROW]);
        json_close('}');
    }
    json_close(']');
}
