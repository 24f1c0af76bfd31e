/* Calls of gw_plan and gw_walk between pages that trap. */
#include "plan_calls.h"

#include "guard.h"
#include "plain_walk.h"
#include "random_tables.h"

#include <inttypes.h>
#include <stdio.h>
#include <stdlib.h>
#include <string.h>

static struct guarded table_room, document_room, operation_room, plan_room, blocks_room, variables_room, pairs_room, report_room;

struct lent_call now;
struct seen_calls seen;

void map_rooms(void) {
    table_room = guard_map(TABLE_ROOM);
    document_room = guard_map(TEXT_ROOM);
    operation_room = guard_map(NAME_ROOM);
    plan_room = guard_map(PLAN_ROOM * 4);
    blocks_room = guard_map(MOST_ASKED * 4);
    variables_room = guard_map(VARIABLES_ROOM);
    pairs_room = guard_map((GW_PAIRS_SIZE + TAIL) * 4);
    report_room = guard_map((GW_REPORT_SIZE + TAIL) * 4);
}

/* ---- telling what is wrong */

static void print_some(const char *what, const uint8_t *bytes, size_t length) {
    fprintf(stderr, "\n  %s: ", what);
    for (size_t i = 0; i < length && i < 2000; i++)
        fprintf(stderr, "%02x", bytes[i]);
}

static void print_few(const char *what, const uint32_t *numbers, size_t count, size_t most) {
    fprintf(stderr, "\n  %s:", what);
    for (size_t i = 0; i < count && i < most; i++)
        fprintf(stderr, " %" PRIu32, numbers[i]);
}

static void fail(const char *what) {
    fprintf(stderr, "harness_plan: %s\n  %s, lengths: table %zu, document %zu, operation %zu, plan %zu, blocks %zu, variables %zu", what,
            now.is_walk ? "walk" : "plan", now.table_len, now.document_len, now.operation_len, now.plan_len, now.blocks_len, now.variables_len);
    fprintf(stderr, ", pairs %zu, report %zu, object %" PRIu32, now.pairs_len, now.report_len, now.object);
    print_some("table", now.table, now.table_there);
    print_some("document", now.document, now.document_there);
    print_some("operation", now.operation, now.operation_len);
    if (now.plan_len >= GW_PLAN_SIZE) {
        print_few("plan", now.plan, now.plan_len, GW_PLAN_FIRSTS + 40);
        print_few("steps", now.plan + GW_PLAN_STEP_0, GW_PLAN_SIZE - GW_PLAN_STEP_0, 600);
    }
    print_few("pairs", now.pairs, now.pairs_len, 64);
    print_few("report", now.report, now.report_len, GW_REPORT_SIZE);
    fprintf(stderr, "\n");
    exit(1);
}

void expect(int holds, const char *what) {
    if (!holds)
        fail(what);
}

int zero_from(size_t i) {
    return is_zero(now.report + i, GW_REPORT_SIZE - i);
}

/* ---- gw_plan */

void lend_plan(const struct plan_inputs *in, size_t plan_len, size_t report_len, int high) {
    memset(&now, 0, sizeof now);
    now.table = guard_copy(table_room, in->table.bytes, in->table.length, high);
    now.table_len = now.table_there = in->table.length;
    now.document = guard_copy(document_room, in->document.bytes, in->document.length, high);
    now.document_len = now.document_there = in->document.length;
    now.operation = guard_copy(operation_room, in->operation.bytes, in->operation.length, high);
    now.operation_len = in->operation.length;
    now.plan = guard_paint(plan_room, plan_len * 4, high);
    now.plan_len = plan_len;
    now.report = guard_paint(report_room, report_len * 4, high);
    now.report_len = report_len;
}

uint32_t plan_now(void) {
    return gw_plan(now.table, now.table_len, now.document, now.document_len, now.operation, now.operation_len, now.plan, now.plan_len, now.report,
                   now.report_len);
}

/* Whether 1 or 2 is due. */
int is_early(size_t out_len, size_t out_size) {
    return now.report_len < GW_REPORT_SIZE || out_len < out_size || now.document_len > GW_MOST_TEXT || now.table_len > GW_MOST_TABLE;
}

/* The buffers after refusal 1 or 2. */
static void check_untouched(uint32_t answer, const uint32_t *out, size_t out_len, size_t out_size) {
    expect(is_painted(out, out_len * 4), "a refusal 1 or 2 touched the output");
    if (now.report_len < GW_REPORT_SIZE) {
        expect(answer == GW_REFUSE_BUFFER, "a short report is not refused by 1");
        expect(is_painted(now.report, now.report_len * 4), "a short report was touched");
        return;
    }
    uint32_t number = out_len < out_size ? GW_REFUSE_BUFFER : GW_REFUSE_OVER_LENGTH;
    uint32_t input = number == GW_REFUSE_BUFFER ? 0 : now.document_len > GW_MOST_TEXT ? GW_INPUT_DOCUMENT : GW_INPUT_TABLE;
    expect(answer == number && now.report[0] == number && now.report[1] == input && zero_from(2), "1 or 2 is told wrongly");
}

/* The tails behind report and output. */
static void check_tails(const uint32_t *out, size_t out_len, size_t out_size) {
    if (now.report_len >= GW_REPORT_SIZE)
        expect(is_painted(now.report + GW_REPORT_SIZE, (now.report_len - GW_REPORT_SIZE) * 4), "the report's tail was touched");
    if (out_len >= out_size)
        expect(is_painted(out + out_size, (out_len - out_size) * 4), "the output's tail was touched");
}

/* A plan that was made: its counts, that unused places are 0, and that it is well-formed. */
static void check_plan(void) {
    static struct due_walk due;
    static const uint8_t variables[GW_VARIABLES_SIZE];
    uint32_t blocks = now.report[1], steps = now.report[2];
    struct asked_walk asked = {.table = now.table, .table_len = now.table_len, .plan = now.plan, .plan_len = now.plan_len, .variables = variables,
                               .variables_len = GW_VARIABLES_SIZE, .object = nth_object((struct some_bytes){now.table_len, now.table}, 0)};
    expect(zero_from(3) && now.plan[GW_PLAN_BLOCKS] == blocks && now.plan[GW_PLAN_STEPS] == steps, "the counts are not the plan's");
    plain_walk(&asked, &due);
    expect(due.answer == GW_ACCEPTED, "the plan is not well-formed");
    expect(is_zero(now.plan + GW_PLAN_FIRSTS + blocks, GW_MOST_BLOCKS - blocks), "places of blocks that are not used are not zero");
    expect(is_zero(now.plan + GW_PLAN_STEP_0 + GW_STEP_SIZE * steps, GW_STEP_SIZE * (GW_MOST_STEPS - steps)),
           "places of steps that are not used are not zero");
    for (uint32_t i = 0; i < steps; i++)
        seen.kinds[now.plan[GW_PLAN_STEP_0 + GW_STEP_SIZE * i]]++;
    if (steps > seen.most_steps)
        seen.most_steps = steps;
}

/* What gw_check says of table and document is what this call says, up to 12. */
static void check_plan_answer(uint32_t answer) {
    static uint32_t rows[GW_ROWS_SIZE];
    uint32_t report[GW_REPORT_SIZE];
    uint32_t due = gw_check(now.table, now.table_len, now.document, now.document_len, rows, GW_ROWS_SIZE, report, GW_REPORT_SIZE);
    expect(answer == now.report[0] && answer <= GW_REFUSE_TOO_LONG, "the answer is not the report's");
    seen.plans[answer]++;
    if (due != GW_ACCEPTED)
        expect(memcmp(now.report, report, sizeof report) == 0, "the report is not that of gw_check");
    else if (answer == GW_ACCEPTED)
        check_plan();
    else
        expect((answer == GW_REFUSE_NO_OPERATION || answer == GW_REFUSE_TOO_MANY_STEPS) && zero_from(1), "12 or 13 is told wrongly");
    if (answer != GW_ACCEPTED)
        expect(is_zero(now.plan, GW_PLAN_SIZE), "a refusal left the plan unclear");
}

uint32_t checked_plan(void) {
    uint32_t answer = plan_now();
    seen.plans_done++;
    check_tails(now.plan, now.plan_len, GW_PLAN_SIZE);
    if (is_early(now.plan_len, GW_PLAN_SIZE))
        check_untouched(answer, now.plan, now.plan_len, GW_PLAN_SIZE);
    else
        check_plan_answer(answer);
    return answer;
}

/* ---- gw_walk */

void lend_walk(struct some_bytes table, const uint32_t *plan, size_t plan_len, const struct ask *a, size_t pairs_len, size_t report_len,
               int high) {
    memset(&now, 0, sizeof now);
    now.is_walk = 1;
    now.table = guard_copy(table_room, table.bytes, table.length, high);
    now.table_len = now.table_there = table.length;
    now.plan = guard_copy(plan_room, plan, plan_len * 4, high);
    now.plan_len = plan_len;
    now.object = a->object;
    now.blocks = guard_copy(blocks_room, a->blocks, a->blocks_len * 4, high);
    now.blocks_len = a->blocks_len;
    now.variables = guard_copy(variables_room, a->variables, a->variables_len, high);
    now.variables_len = a->variables_len;
    now.pairs = guard_paint(pairs_room, pairs_len * 4, high);
    now.pairs_len = pairs_len;
    now.report = guard_paint(report_room, report_len * 4, high);
    now.report_len = report_len;
}

uint32_t walk_now(void) {
    return gw_walk(now.table, now.table_len, now.plan, now.plan_len, now.object, now.blocks, now.blocks_len, now.variables, now.variables_len,
                   now.pairs, now.pairs_len, now.report, now.report_len);
}

/* What gw_check_table says, or what the plain walker does. */
static void check_walk_answer(uint32_t answer) {
    static struct due_walk due;
    uint32_t report[GW_REPORT_SIZE];
    expect(answer == now.report[0] && answer <= GW_REFUSE_TOO_LONG, "the answer is not the report's");
    seen.walks[answer]++;
    if (gw_check_table(now.table, now.table_len, report, GW_REPORT_SIZE) != GW_ACCEPTED) {
        expect(memcmp(now.report, report, sizeof report) == 0, "the report is not that of gw_check_table");
        expect(is_zero(now.pairs, GW_PAIRS_SIZE), "a refusal left the pairs unclear");
        return;
    }
    struct asked_walk asked = {now.table,    now.plan,       now.blocks,        now.variables, now.table_len,
                               now.plan_len, now.blocks_len, now.variables_len, now.object};
    plain_walk(&asked, &due);
    expect(answer == due.answer && now.report[1] == due.count && zero_from(2), "the report is not the plain walker's");
    expect(memcmp(now.pairs, due.pairs, sizeof due.pairs) == 0, "the pairs are not the plain walker's, or the rest is not zero");
    seen.steps_walked += due.steps;
    if (due.count > seen.most_pairs)
        seen.most_pairs = due.count;
}

uint32_t checked_walk(void) {
    uint32_t answer = walk_now();
    seen.walks_done++;
    check_tails(now.pairs, now.pairs_len, GW_PAIRS_SIZE);
    if (is_early(now.pairs_len, GW_PAIRS_SIZE))
        check_untouched(answer, now.pairs, now.pairs_len, GW_PAIRS_SIZE);
    else
        check_walk_answer(answer);
    return answer;
}
