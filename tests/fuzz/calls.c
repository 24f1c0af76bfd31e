/* The calls of a case. Inputs and outputs lie at pages that trap, the rest of their room is poisoned where the address sanitizer is, and
   each call is made twice, at the other end of the rooms the second time. What must hold of every call is checked after each. */
#include "case.h"

#include "gateway.h"
#include "guard.h"
#include "plain_walk.h"
#include "random_plans.h"

#include <inttypes.h>
#include <stdio.h>
#include <stdlib.h>
#include <string.h>

#if defined(__SANITIZE_ADDRESS__)
#define POISONS 1
#elif defined(__has_feature)
#if __has_feature(address_sanitizer)
#define POISONS 1
#endif
#endif
#ifdef POISONS
#include <sanitizer/asan_interface.h>
#else
#define ASAN_POISON_MEMORY_REGION(a, n) ((void)(a), (void)(n))
#define ASAN_UNPOISON_MEMORY_REGION(a, n) ((void)(a), (void)(n))
#endif

enum { EXTRA = 16, ANSWERS = GW_REFUSE_TOO_LONG + 1 };

/* ---- what is known of each call */

#define BIT(answer) (1u << (answer))
#define OF_TABLE (BIT(7) | BIT(8) | BIT(9))
#define OF_TEXT (BIT(3) | BIT(4) | BIT(5) | BIT(6) | BIT(8))
#define OF_ALL (BIT(0) | BIT(1) | BIT(2))

static const struct {
    const char *name;
    size_t out_size;      /* units of the output */
    size_t out_unit;      /* bytes of a unit */
    uint32_t answers;     /* a bit each */
    uint8_t shown;        /* numbers behind the 0 of an accepted call */
    uint8_t text_shown;   /* numbers behind 3 to 6 */
    uint8_t reads;        /* a bit for each section */
} calls[CALLS] = {
    {"gw_parse", GW_ROWS_SIZE, 4, OF_ALL | OF_TEXT, 1, 1, BIT(DOCUMENT)},
    {"gw_check_table", 0, 4, OF_ALL | OF_TABLE, 0, 0, BIT(TABLE)},
    {"gw_check", GW_ROWS_SIZE, 4, OF_ALL | OF_TABLE | OF_TEXT | BIT(10), 1, 1, BIT(TABLE) | BIT(DOCUMENT)},
    {"gw_coerce_variables", GW_MOST_COERCED, 1, OF_ALL | OF_TABLE | OF_TEXT | BIT(10) | BIT(11) | BIT(12) | BIT(16), 1, 2,
     BIT(TABLE) | BIT(DOCUMENT) | BIT(OPERATION) | BIT(VARIABLES)},
    {"gw_coerce_arguments", GW_MOST_COERCED, 1, OF_ALL | OF_TABLE | OF_TEXT | BIT(10) | BIT(11) | BIT(12) | BIT(16), 1, 2,
     BIT(TABLE) | BIT(DOCUMENT) | BIT(OPERATION) | BIT(VARIABLES)},
    {"gw_plan", GW_PLAN_SIZE, 4, OF_ALL | OF_TABLE | OF_TEXT | BIT(10) | BIT(12) | BIT(13), 2, 1, BIT(TABLE) | BIT(DOCUMENT) | BIT(OPERATION)},
    {"gw_walk", GW_PAIRS_SIZE, 4, OF_ALL | OF_TABLE | BIT(14) | BIT(15), 1, 0, BIT(TABLE) | BIT(VARIABLES) | BIT(NUMBERS)},
};

static uint64_t made[CALLS][ANSWERS];

/* ---- what is lent */

static struct {
    int call, high;
    struct section in[SECTIONS]; /* as given; told lengths and places are below */
    const uint8_t *at[SECTIONS]; /* blocks for the numbers */
    size_t told[SECTIONS];
    const uint32_t *plan_at;
    uint32_t *report;
    void *out;
    size_t plan_len, report_len, out_len;
    uint32_t number;
    int early; /* 1, 2 or 0, by the lengths alone */
    uint32_t over; /* which input a 2 shows */
} now;

static uint32_t given_blocks[BLOCKS_MOST], given_plan[GW_PLAN_SIZE + EXTRA];
static size_t given_count;

static void expect(int holds, const char *what) {
    if (holds)
        return;
    fprintf(stderr, "fuzz: %s: %s\n", calls[now.call].name, what);
    if (now.report_len >= GW_REPORT_SIZE) {
        fprintf(stderr, "fuzz: report");
        for (int i = 0; i < GW_REPORT_SIZE; i++)
            fprintf(stderr, " %" PRIu32, now.report[i]);
        fprintf(stderr, "\n");
    }
    abort();
}

static struct guarded in_rooms[SECTIONS], plan_room, out_room, report_room;

static void map_all(void) {
    if (report_room.first)
        return;
    for (int s = 0; s < SECTIONS; s++)
        in_rooms[s] = guard_map(SECTION_MOST);
    plan_room = guard_map(sizeof given_plan);
    out_room = guard_map((GW_PLAN_SIZE + EXTRA) * 4);
    report_room = guard_map((GW_REPORT_SIZE + EXTRA) * 4);
}

/* A block in a room whose other bytes are not to be touched. */
static void *placed(struct guarded room, size_t bytes) {
    uint8_t *place = now.high ? guard_high(room, bytes) : guard_low(room, bytes);
    ASAN_UNPOISON_MEMORY_REGION(room.first, room.bytes);
    ASAN_POISON_MEMORY_REGION(room.first, (size_t)(place - room.first));
    ASAN_POISON_MEMORY_REGION(place + bytes, room.bytes - (size_t)(place - room.first) - bytes);
    return place;
}

static const void *placed_copy(struct guarded room, const void *from, size_t bytes) {
    void *place = placed(room, bytes);
    if (bytes)
        memcpy(place, from, bytes);
    return place;
}

static void *placed_paint(struct guarded room, size_t bytes) {
    void *place = placed(room, bytes);
    memset(place, 0xA5, bytes);
    return place;
}

static int reads(int section) {
    return calls[now.call].reads >> section & 1;
}

/* Places the inputs that the call reads. Those that are told too long are not there at all: the place is the page that traps. */
static void place_inputs(const struct fuzz_case *c) {
    static const uint8_t lie[SECTIONS] = {1, 2, 0, 4, 0};
    static const size_t most[SECTIONS] = {GW_MOST_TABLE, GW_MOST_TEXT, SIZE_MAX, GW_MOST_TEXT, SIZE_MAX};
    static const uint32_t order[] = {DOCUMENT, VARIABLES, TABLE}, shown[] = {GW_INPUT_DOCUMENT, GW_INPUT_VARIABLES, GW_INPUT_TABLE};
    int walk = now.call == CALL_WALK;
    for (int s = 0; s < NUMBERS; s++) {
        int lies = reads(s) && (c->lies & lie[s]) && !(walk && s == VARIABLES);
        now.in[s] = lies ? (struct section){NULL, 0} : c->sections[s];
        now.at[s] = placed_copy(in_rooms[s], now.in[s].bytes, now.in[s].length);
        now.told[s] = lies ? most[s] + 1 + (c->lies >> 4) * 4096 : now.in[s].length;
        if (lies)
            now.at[s] = in_rooms[s].first + in_rooms[s].bytes;
        else if (now.in[s].length == 0 && c->lies & 8)
            now.at[s] = NULL;
    }
    for (int i = 0; i < 3 && now.early == 0; i++)
        if (reads(order[i]) && now.told[order[i]] > most[order[i]] && !(walk && order[i] == VARIABLES)) {
            now.early = GW_REFUSE_OVER_LENGTH;
            now.over = shown[i];
        }
}

static void place_numbers(const struct fuzz_case *c) {
    size_t more = c->lies >> 4, size = GW_PLAN_SIZE;
    now.plan_len = c->lies & 2 ? size + more + 1 : c->lies & 4 ? size - 911 * more - 1 : size;
    now.plan_at = placed_copy(plan_room, given_plan, now.plan_len * 4);
    now.at[NUMBERS] = placed_copy(in_rooms[NUMBERS], given_blocks, given_count * 4);
    if (given_count == 0 && c->lies & 8)
        now.at[NUMBERS] = NULL;
}

static size_t length_by(int way, size_t size, int shorter) {
    if (way < 2)
        return size;
    if (way == 2)
        return size + 1 + (size_t)shorter % (EXTRA - 1);
    return shorter >= 12 ? 0 : size > (size_t)shorter ? size - 1 - (size_t)shorter : 0;
}

/* Lends everything for a call. */
static void lend(const struct fuzz_case *c, int call, int high) {
    now.call = call;
    now.high = high;
    now.number = widened(c->number);
    now.report_len = length_by(c->what >> 3 & 3, GW_REPORT_SIZE, c->lies >> 4);
    now.out_len = calls[call].out_size ? length_by(c->what >> 5 & 3, calls[call].out_size, c->lies >> 4) : 0;
    now.early = now.report_len < GW_REPORT_SIZE || now.out_len < calls[call].out_size ? GW_REFUSE_BUFFER : 0;
    place_inputs(c);
    if (call == CALL_WALK)
        place_numbers(c);
    now.report = placed_paint(report_room, now.report_len * 4);
    now.out = placed_paint(out_room, now.out_len * calls[call].out_unit);
}

static uint32_t call_now(void) {
    const uint8_t *table = now.at[TABLE], *document = now.at[DOCUMENT], *name = now.at[OPERATION], *variables = now.at[VARIABLES];
    size_t table_len = now.told[TABLE], document_len = now.told[DOCUMENT], name_len = now.told[OPERATION];
    size_t variables_len = now.told[VARIABLES];
    switch (now.call) {
    case CALL_PARSE: return gw_parse(document, document_len, now.out, now.out_len, now.report, now.report_len);
    case CALL_TABLE: return gw_check_table(table, table_len, now.report, now.report_len);
    case CALL_CHECK: return gw_check(table, table_len, document, document_len, now.out, now.out_len, now.report, now.report_len);
    case CALL_VARIABLES:
        return gw_coerce_variables(table, table_len, document, document_len, name, name_len, variables, variables_len, now.out, now.out_len,
                                   now.report, now.report_len);
    case CALL_ARGUMENTS:
        return gw_coerce_arguments(table, table_len, document, document_len, name, name_len, variables, variables_len, now.number, now.out,
                                   now.out_len, now.report, now.report_len);
    case CALL_PLAN:
        return gw_plan(table, table_len, document, document_len, name, name_len, now.out, now.out_len, now.report, now.report_len);
    default:
        return gw_walk(table, table_len, now.plan_at, now.plan_len, now.number, (const uint32_t *)(const void *)now.at[NUMBERS], given_count,
                       variables, variables_len, now.out, now.out_len, now.report, now.report_len);
    }
}

/* ---- what must hold */

/* How many numbers a report shows behind its answer. */
static size_t shown_by(uint32_t answer) {
    switch (answer) {
    case GW_ACCEPTED: return calls[now.call].shown;
    case GW_REFUSE_OVER_LENGTH: case GW_REFUSE_FRAMING: case GW_REFUSE_TOO_MANY: return 1;
    case GW_REFUSE_NO_TOKEN: case GW_REFUSE_NO_GOING: case GW_REFUSE_TOO_DEEP: case GW_REFUSE_TOO_MANY_ROWS:
        return calls[now.call].text_shown;
    case GW_REFUSE_SCHEMA: return 5;
    case GW_REFUSE_QUERY: return 2;
    case GW_REFUSE_VALUE: return 3;
    default: return 0;
    }
}

static void check_report(uint32_t answer) {
    if (now.report_len < GW_REPORT_SIZE) {
        expect(is_painted(now.report, now.report_len * 4), "a report that is too short was written");
        return;
    }
    expect(now.report[0] == answer, "report and answer differ");
    size_t shown = shown_by(answer);
    expect(is_zero(now.report + 1 + shown, GW_REPORT_SIZE - 1 - shown), "the report shows more than it may");
    expect(is_painted(now.report + GW_REPORT_SIZE, (now.report_len - GW_REPORT_SIZE) * 4), "written behind the report");
    if (answer == GW_REFUSE_OVER_LENGTH)
        expect(now.report[1] == now.over, "the input that is too long");
}

/* Whether places of the output are 0, from one of its units to another. */
static int is_clear(size_t from, size_t to) {
    size_t unit = calls[now.call].out_unit;
    return is_zero_bytes((const uint8_t *)now.out + from * unit, (to - from) * unit);
}

/* The output's used part by the report; of a plan the unused places lie in two parts. */
static void check_accepted(void) {
    size_t size = calls[now.call].out_size;
    switch (now.call) {
    case CALL_PARSE: case CALL_CHECK:
        expect(now.report[1] >= 1 && now.report[1] <= GW_MOST_ROWS && is_clear(GW_ROW_SIZE * (size_t)now.report[1], size), "the rows' count");
        break;
    case CALL_VARIABLES: case CALL_ARGUMENTS:
        expect(now.report[1] >= 3 && now.report[1] <= GW_MOST_COERCED && is_clear(now.report[1], size), "the value's length");
        break;
    case CALL_PLAN: {
        const uint32_t *plan = now.out;
        size_t blocks = now.report[1], steps = now.report[2];
        expect(blocks >= 1 && blocks <= GW_MOST_BLOCKS && steps <= GW_MOST_STEPS, "the plan's counts");
        expect(plan[GW_PLAN_BLOCKS] == blocks && plan[GW_PLAN_STEPS] == steps, "the plan's counts are not the report's");
        expect(is_clear(GW_PLAN_FIRSTS + blocks, GW_PLAN_STEP_0) && is_clear(GW_PLAN_STEP_0 + GW_STEP_SIZE * steps, size), "unused places");
        break;
    }
    case CALL_WALK:
        expect(now.report[1] <= GW_MOST_PAIRS && is_clear(GW_PAIR_SIZE * (size_t)now.report[1], size), "the pairs' count");
        break;
    }
}

static void check_output(uint32_t answer) {
    size_t size = calls[now.call].out_size, unit = calls[now.call].out_unit;
    if (answer == GW_REFUSE_BUFFER || answer == GW_REFUSE_OVER_LENGTH) {
        expect(is_painted(now.out, now.out_len * unit), "the output was written before a 1 or 2");
        return;
    }
    expect(is_painted((const uint8_t *)now.out + size * unit, (now.out_len - size) * unit), "written behind the output");
    if (answer == GW_ACCEPTED)
        check_accepted();
    else
        expect(is_clear(0, size), "the output of a refusal is not 0");
}

static void check_inputs(void) {
    for (int s = 0; s < NUMBERS; s++)
        expect(now.in[s].length == 0 || memcmp(now.at[s], now.in[s].bytes, now.in[s].length) == 0, "an input was changed");
    if (now.call == CALL_WALK) {
        expect(memcmp(now.plan_at, given_plan, now.plan_len * 4) == 0, "the plan was changed");
        expect(given_count == 0 || memcmp(now.at[NUMBERS], given_blocks, given_count * 4) == 0, "the blocks were changed");
    }
}

static uint32_t checked_call(const struct fuzz_case *c, int call, int high) {
    lend(c, call, high);
    uint32_t answer = call_now();
    expect(answer < ANSWERS && calls[call].answers >> answer & 1, "an answer that the call does not have");
    expect(now.early ? answer == (uint32_t)now.early : answer != GW_REFUSE_BUFFER && answer != GW_REFUSE_OVER_LENGTH, "1 and 2");
    check_report(answer);
    check_output(answer);
    check_inputs();
    made[call][answer]++;
    return answer;
}

/* ---- a call, twice */

static uint32_t first_report[GW_REPORT_SIZE + EXTRA];
static uint8_t first_out[(GW_PLAN_SIZE + EXTRA) * 4];

/* Keeps what a call left. */
static void keep(uint32_t *report, void *out) {
    memcpy(report, now.report, now.report_len * 4);
    if (now.out_len)
        memcpy(out, now.out, now.out_len * calls[now.call].out_unit);
}

static uint32_t call_twice(const struct fuzz_case *c, int call) {
    int high = c->what >> 7;
    uint32_t answer = checked_call(c, call, high);
    keep(first_report, first_out);
    expect(checked_call(c, call, !high) == answer, "the second answer is another one");
    expect(memcmp(first_report, now.report, now.report_len * 4) == 0, "the second report is another one");
    expect(now.out_len == 0 || memcmp(first_out, now.out, now.out_len * calls[call].out_unit) == 0, "the second output is another one");
    return answer;
}

/* ---- all calls on one case, which must agree with each other */

static struct {
    uint32_t answers[CALLS], reports[CALLS][GW_REPORT_SIZE];
    uint32_t rows[GW_ROWS_SIZE];
} all;

static int same_report(int a, int b) {
    return memcmp(all.reports[a], all.reports[b], sizeof all.reports[a]) == 0;
}

static void call_into_all(const struct fuzz_case *c, int call) {
    all.answers[call] = checked_call(c, call, c->what >> 7);
    memcpy(all.reports[call], now.report, sizeof all.reports[call]);
}

/* gw_check says what gw_check_table and gw_parse say, or 0 or 10. */
static void agree_checks(const struct fuzz_case *c) {
    call_into_all(c, CALL_TABLE);
    call_into_all(c, CALL_PARSE);
    memcpy(all.rows, now.out, sizeof all.rows);
    call_into_all(c, CALL_CHECK);
    if (all.answers[CALL_TABLE] != GW_ACCEPTED)
        expect(same_report(CALL_CHECK, CALL_TABLE), "not as gw_check_table");
    else if (all.answers[CALL_PARSE] != GW_ACCEPTED)
        expect(same_report(CALL_CHECK, CALL_PARSE), "not as gw_parse");
    else if (all.answers[CALL_CHECK] == GW_ACCEPTED)
        expect(memcmp(all.rows, now.out, sizeof all.rows) == 0, "other rows than gw_parse");
    else
        expect(all.answers[CALL_CHECK] == GW_REFUSE_QUERY, "neither 0 nor 10");
}

/* A coercion says what gw_check says of table and document; a 3 to 6 shows the text behind the offset, which is 0 for the document. */
static void agree_coercion(const struct fuzz_case *c, int call) {
    call_into_all(c, call);
    if (all.answers[CALL_CHECK] != GW_ACCEPTED)
        expect(same_report(call, CALL_CHECK), "not as gw_check");
    else if (all.answers[call] >= GW_REFUSE_NO_TOKEN && all.answers[call] <= GW_REFUSE_TOO_MANY_ROWS)
        expect(all.reports[call][2] == GW_INPUT_VARIABLES, "not the variables text");
    else
        expect(all.answers[call] == GW_ACCEPTED || all.answers[call] > GW_REFUSE_QUERY, "of a document that is accepted");
}

/* A plan that gw_plan made can be walked for any object, in its own blocks: 0 or 15, and what is listed are fields of the document. */
static void walk_own(const struct fuzz_case *c) {
    struct fuzz_case own = *c;
    struct some_bytes table = {c->sections[TABLE].length, c->sections[TABLE].bytes};
    static uint8_t variables[GW_VARIABLES_SIZE];
    size_t n = c->sections[VARIABLES].length;
    memset(variables, 0, sizeof variables);
    if (n)
        memcpy(variables, c->sections[VARIABLES].bytes, n < sizeof variables ? n : sizeof variables);
    for (size_t i = 0; i < sizeof variables; i++)
        variables[i] &= 1;
    own.sections[VARIABLES] = (struct section){variables, sizeof variables};
    memcpy(given_plan, now.out, GW_PLAN_SIZE * 4);
    given_count = 1 + given_count % GW_MOST_WALKED;
    for (size_t i = 0; i < given_count; i++)
        given_blocks[i] %= given_plan[GW_PLAN_BLOCKS];
    own.number = (uint16_t)nth_object(table, c->number);
    call_into_all(&own, CALL_WALK);
    expect(all.answers[CALL_WALK] == GW_ACCEPTED || all.answers[CALL_WALK] == GW_REFUSE_TOO_MANY_PAIRS, "a plan of gw_plan was refused");
    const uint32_t *pairs = now.out;
    for (uint32_t i = 0; i < all.reports[CALL_WALK][1]; i++) {
        uint32_t key = pairs[GW_PAIR_SIZE * i + GW_PAIR_KEY], row = pairs[GW_PAIR_SIZE * i + GW_PAIR_ROW];
        expect(key <= row && row < all.reports[CALL_CHECK][1] && all.rows[GW_ROW_SIZE * row + GW_ROW_KIND] == GW_KIND_FIELD, "no field");
    }
}

static void call_all(const struct fuzz_case *c) {
    struct fuzz_case plain = *c;
    plain.what &= 0x80;
    plain.lies &= 8;
    static const size_t most[SECTIONS] = {GW_MOST_TABLE, GW_MOST_TEXT, SECTION_MOST, GW_MOST_TEXT, SECTION_MOST};
    for (int s = 0; s < SECTIONS; s++)
        if (plain.sections[s].length > most[s])
            return; /* what is too long is for a call alone */
    agree_checks(&plain);
    agree_coercion(&plain, CALL_VARIABLES);
    agree_coercion(&plain, CALL_ARGUMENTS);
    call_into_all(&plain, CALL_PLAN);
    if (all.answers[CALL_CHECK] != GW_ACCEPTED) {
        expect(same_report(CALL_PLAN, CALL_CHECK), "not as gw_check");
        return;
    }
    int none = all.answers[CALL_PLAN] == GW_REFUSE_NO_OPERATION;
    expect(none == (all.answers[CALL_VARIABLES] == GW_REFUSE_NO_OPERATION), "an operation that one of two calls finds");
    if (all.answers[CALL_PLAN] == GW_ACCEPTED)
        walk_own(&plain);
}

void call_case(const uint8_t *bytes, size_t length) {
    struct fuzz_case c = cut_case(bytes, length);
    int call = c.what & 7;
    map_all();
    memset(given_plan, 0, sizeof given_plan);
    if (call == CALL_WALK || call == CALL_ALL)
        given_count = cut_numbers(c.sections[NUMBERS], given_blocks, given_plan);
    if (call == CALL_ALL)
        call_all(&c);
    else
        call_twice(&c, call);
}

void print_calls(void) {
    uint64_t total = 0;
    for (int call = 0; call < CALLS; call++) {
        uint64_t sum = 0;
        for (int answer = 0; answer < ANSWERS; answer++)
            sum += made[call][answer];
        total += sum;
        printf("fuzz: %s %" PRIu64 " calls; by answer", calls[call].name, sum);
        for (int answer = 0; answer < ANSWERS; answer++)
            if (made[call][answer])
                printf(" %d: %" PRIu64, answer, made[call][answer]);
        printf("\n");
    }
    printf("fuzz: %" PRIu64 " calls\n", total);
}
