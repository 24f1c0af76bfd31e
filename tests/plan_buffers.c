/* Buffers and inputs of other lengths, for gw_plan and gw_walk. */
#include "plan_calls.h"

#include "random_tables.h"

#include <inttypes.h>
#include <stdio.h>
#include <string.h>

/* type Query { a: Int q: Query }, a document that fits it, and a walk of its plan */
static const uint8_t small_table[] = "\x02\x00\x24\x10\x00\x05Query\x12\x00\x0a\x10\x00\x01"
                                     "a\x14\x00\x03Int\x12\x00\x0c\x10\x00\x01q\x14\x00\x05Query";
static const uint8_t small_document[] = "query Q($v: Boolean) { a @skip(if: $v) ...F b: q { ...F } } fragment F on Query { q { a } }";
static const struct plan_inputs small = {
    {sizeof small_table - 1, small_table}, {sizeof small_document - 1, small_document}, {1, (const uint8_t *)"Q"}};
static const struct ask small_ask = {.object = 0, .blocks = {0, 1, 0, 2}, .blocks_len = 4, .variables_len = GW_VARIABLES_SIZE};
static uint32_t small_plan[PLAN_ROOM];

/* A small input with blanks or nothing behind it, of a length. */
static struct some_bytes input_of(struct some_bytes from, uint8_t *room, size_t length) {
    memset(room, ' ', length);
    memcpy(room, from.bytes, length < from.length ? length : from.length);
    return (struct some_bytes){length, room};
}

/* Where a length alone decides the answer, not a byte is read: the input is a page that traps. */
static void run_unread(void) {
    static const size_t lengths[] = {GW_MOST_TEXT + 1, 2 * GW_MOST_TEXT, GW_MOST_TABLE + 1, UINT32_MAX, PTRDIFF_MAX};
    static const struct plan_inputs none;
    static const struct ask no_ask;
    for (size_t l = 0; l < sizeof lengths / sizeof *lengths; l++)
        for (size_t report = 0; report <= GW_REPORT_SIZE; report++) {
            for (int which = 1; which < 4; which++) {
                lend_plan(&none, GW_PLAN_SIZE - (l == 0), report, 1);
                now.document_len = which & 1 ? lengths[l] : 0;
                now.table_len = which & 2 ? lengths[l] : 0;
                if (is_early(now.plan_len, GW_PLAN_SIZE))
                    checked_plan();
            }
            lend_walk(none.table, small_plan, 0, &no_ask, GW_PAIRS_SIZE - (l == 0), report, 1);
            now.table_len = lengths[l];
            if (is_early(now.pairs_len, GW_PAIRS_SIZE))
                checked_walk();
        }
}

/* Of a longer plan, of more variables, nothing beyond the size is read: there stands a page that traps. */
static void run_beyond(void) {
    static const size_t more[] = {1, 2, 4096, 1 << 20};
    for (size_t i = 0; i < sizeof more / sizeof *more; i++) {
        lend_walk(small.table, small_plan, GW_PLAN_SIZE, &small_ask, GW_PAIRS_SIZE, GW_REPORT_SIZE, 1);
        now.plan_len += more[i];
        now.variables_len += more[i];
        expect(checked_walk() == GW_ACCEPTED, "a longer plan is not walked");
    }
}

static void run_plan_lengths(void) {
    static const size_t names[] = {0, 1, 2, 255, 256, NAME_ROOM};
    static uint8_t table[TABLE_ROOM], document[TEXT_ROOM], name[NAME_ROOM];
    static const size_t tables[] = {0, 1, GW_MOST_TABLE, GW_MOST_TABLE + 1, TABLE_ROOM};
    static const size_t documents[] = {0, 1, GW_MOST_TEXT, GW_MOST_TEXT + 1, TEXT_ROOM};
    for (size_t length = 0; length <= GW_PLAN_SIZE + TAIL; length++) {
        lend_plan(&small, length, GW_REPORT_SIZE, length & 1);
        checked_plan();
    }
    for (size_t report = 0; report <= GW_REPORT_SIZE + 4; report++)
        for (size_t length = GW_PLAN_SIZE - 2; length <= GW_PLAN_SIZE + 2; length++) {
            lend_plan(&small, length, report, report & 1);
            checked_plan();
        }
    for (size_t i = 0; i < 6 * 6 * 6; i++) {
        struct plan_inputs in = small;
        if (i / 36)
            in.table = input_of(small.table, table, tables[i / 36 - 1]);
        if (i / 6 % 6)
            in.document = input_of(small.document, document, documents[i / 6 % 6 - 1]);
        in.operation = input_of(small.operation, name, names[i % 6]);
        lend_plan(&in, GW_PLAN_SIZE, GW_REPORT_SIZE, (int)(i & 1));
        checked_plan();
    }
}

static void run_walk_lengths(void) {
    static uint8_t table[TABLE_ROOM];
    static const size_t tables[] = {0, 1, sizeof small_table - 2, GW_MOST_TABLE, GW_MOST_TABLE + 1, TABLE_ROOM};
    for (size_t report = 0; report <= GW_REPORT_SIZE + 4; report++)
        for (size_t length = 0; length <= GW_PAIRS_SIZE + TAIL; length += report == GW_REPORT_SIZE ? 1 : length + 3 < GW_PAIRS_SIZE ? 511 : 1) {
            lend_walk(small.table, small_plan, GW_PLAN_SIZE, &small_ask, length, report, length & 1);
            checked_walk();
        }
    for (size_t length = 0; length <= GW_PLAN_SIZE + TAIL; length++) {
        lend_walk(small.table, small_plan, length, &small_ask, GW_PAIRS_SIZE, GW_REPORT_SIZE, 1);
        expect(checked_walk() == (length < GW_PLAN_SIZE ? GW_REFUSE_WALK : GW_ACCEPTED), "a plan's length is judged wrongly");
    }
    for (size_t length = 0; length <= MOST_ASKED; length++) {
        struct ask a = small_ask;
        a.variables_len = length;
        lend_walk(small.table, small_plan, GW_PLAN_SIZE, &a, GW_PAIRS_SIZE, GW_REPORT_SIZE, 1);
        expect(checked_walk() == (length < GW_VARIABLES_SIZE ? GW_REFUSE_WALK : GW_ACCEPTED), "the length of the variables is judged wrongly");
        a = small_ask;
        a.blocks_len = length;
        lend_walk(small.table, small_plan, GW_PLAN_SIZE, &a, GW_PAIRS_SIZE, GW_REPORT_SIZE, 1);
        expect(checked_walk() == (length > GW_MOST_WALKED ? GW_REFUSE_WALK : GW_ACCEPTED), "the count of blocks is judged wrongly");
    }
    for (size_t i = 0; i < sizeof tables / sizeof *tables; i++) {
        lend_walk(input_of(small.table, table, tables[i]), small_plan, GW_PLAN_SIZE, &small_ask, GW_PAIRS_SIZE, GW_REPORT_SIZE, i & 1);
        checked_walk();
    }
}

/* NULL where the length is 0. */
static void check_null(void) {
    static const struct plan_inputs none;
    static const struct ask no_ask = {.variables_len = GW_VARIABLES_SIZE};
    memset(&now, 0, sizeof now);
    expect(plan_now() == GW_REFUSE_BUFFER, "a plan with NULL all over");
    expect(walk_now() == GW_REFUSE_BUFFER, "a walk with NULL all over");
    lend_plan(&none, GW_PLAN_SIZE, GW_REPORT_SIZE, 1);
    now.table = now.document = now.operation = NULL;
    expect(checked_plan() == GW_REFUSE_SCHEMA && now.report[2] == GW_RULE_ROOT, "a table of no bytes at NULL");
    struct plan_inputs some = {.table = small.table};
    lend_plan(&some, GW_PLAN_SIZE, GW_REPORT_SIZE, 1);
    now.document = now.operation = NULL;
    expect(checked_plan() == GW_REFUSE_NO_GOING, "a document of no bytes at NULL");
    lend_plan(&small, 0, GW_REPORT_SIZE, 1);
    now.plan = NULL;
    expect(plan_now() == GW_REFUSE_BUFFER && now.report[0] == GW_REFUSE_BUFFER && zero_from(1), "no plan at NULL");
    lend_walk(small.table, small_plan, GW_PLAN_SIZE, &no_ask, GW_PAIRS_SIZE, GW_REPORT_SIZE, 1);
    now.blocks = NULL;
    expect(checked_walk() == GW_ACCEPTED && now.report[1] == 0, "no blocks at NULL");
    lend_walk(small.table, small_plan, 0, &small_ask, GW_PAIRS_SIZE, GW_REPORT_SIZE, 1);
    now.plan = NULL;
    expect(checked_walk() == GW_REFUSE_WALK, "no plan to walk at NULL");
}

int run_plan_buffers(void) {
    lend_plan(&small, GW_PLAN_SIZE, GW_REPORT_SIZE, 1);
    expect(checked_plan() == GW_ACCEPTED, "the small document is not planned");
    memcpy(small_plan, now.plan, GW_PLAN_SIZE * 4);
    run_unread();
    run_beyond();
    run_plan_lengths();
    run_walk_lengths();
    check_null();
    printf("harness_plan: %" PRIu64 " plans and %" PRIu64 " walks with buffers and inputs of other lengths, and NULL for no length, are right\n",
           seen.plans_done, seen.walks_done);
    return seen.plans[GW_ACCEPTED] && seen.walks[GW_ACCEPTED] ? 0 : 1;
}
