/* Runs gw_check_table on given and random type tables and looks at every number it leaves.

     harness_tables vectors CASES               the cases of `table_reader.py cases` or `tables.py cases`, compared in full
     harness_tables buffers                     short and long reports, long tables, NULL for no length
     harness_tables random COUNT CASES FILE..   tables mutated from given ones; checks what holds for every table
     harness_tables sample COUNT CASES FILE..   prints such tables with their answers, for `table_reader.py compare`

   Table and report lie between pages that trap. Ends with status 1 at the first thing that is wrong. */
#include "gateway.h"
#include "guard.h"
#include "lines.h"
#include "random.h"
#include "random_tables.h"

#include <inttypes.h>
#include <stdio.h>
#include <stdlib.h>
#include <string.h>

enum { TAIL = 64, SEED = 2016 };

static struct guarded table_room, report_room;

/* ---- telling what is wrong */

static struct {
    const uint8_t *table;
    size_t table_len;
    uint32_t *report;
    size_t report_len;
} now;

static void fail(const char *what) {
    fprintf(stderr, "harness_tables: %s\n  lengths: table %zu, report %zu\n  table: ", what, now.table_len, now.report_len);
    for (size_t i = 0; i < now.table_len && i < 2000; i++)
        fprintf(stderr, "%02x", now.table[i]);
    fprintf(stderr, "\n  report:");
    for (size_t i = 0; i < now.report_len && i < GW_REPORT_SIZE; i++)
        fprintf(stderr, " %" PRIu32, now.report[i]);
    fprintf(stderr, "\n");
    exit(1);
}

static void expect(int holds, const char *what) {
    if (!holds)
        fail(what);
}

/* ---- one call */

static void lend(const uint8_t *table, size_t length, size_t report_len, int high) {
    now.table = guard_copy(table_room, table, length, high);
    now.table_len = length;
    now.report = guard_paint(report_room, report_len * 4, high);
    now.report_len = report_len;
}

static int zero_from(size_t i) {
    return is_zero(now.report + i, GW_REPORT_SIZE - i);
}

static uint32_t records_of(const uint8_t *bytes, size_t length) {
    uint32_t count = 0;
    for (size_t at = 0; at + 3 <= length; count++)
        at += 3 + (size_t)bytes[at + 1] * 256 + bytes[at + 2];
    return count;
}

static uint64_t seen_answers[10], seen_rules[17];

/* Which of member, part and argument a rule shows: 0 none, 1 always a number, 2 either. */
static const uint8_t shows[17][3] = {
    [GW_RULE_NAME_REPEATED] = {1, 0, 2}, [GW_RULE_RESERVED_MEMBER] = {1, 0, 2}, [GW_RULE_ENUM_VALUE] = {1, 0, 0},
    [GW_RULE_NO_TYPE] = {1, 0, 2}, [GW_RULE_BASE] = {1, 0, 2}, [GW_RULE_NOT_OBJECT_OR_INTERFACE] = {1, 0, 0},
    [GW_RULE_IMPLEMENTED_TWICE] = {1, 0, 0}, [GW_RULE_FIELD_MISSING] = {1, 1, 0}, [GW_RULE_FIELD_TYPE] = {1, 1, 0},
    [GW_RULE_ARGUMENT_MISSING] = {1, 1, 1}, [GW_RULE_ARGUMENT_TYPE] = {1, 1, 1}, [GW_RULE_ARGUMENT_EXTRA] = {1, 1, 1},
    [GW_RULE_ROOT] = {2, 0, 0}};

static void check_break(void) {
    static const uint32_t most[3] = {GW_MOST_MEMBERS, GW_MOST_MEMBERS, GW_MOST_ARGUMENTS};
    uint32_t definition = now.report[1], rule = now.report[2], records = records_of(now.table, now.table_len);
    expect(rule >= GW_RULE_RESERVED_NAME && rule <= GW_RULE_ROOT, "a rule is unknown");
    expect(definition < records || (definition == records && rule == GW_RULE_ROOT), "a definition is unknown");
    for (int i = 0; i < 3; i++) {
        uint32_t n = now.report[3 + i];
        expect(n == GW_NO_PLACE ? shows[rule][i] != 1 : shows[rule][i] != 0 && n < most[i], "a place is not one of its rule");
    }
    expect(definition < records || now.report[3] == GW_NO_PLACE, "a root that nobody wrote has a place");
    expect(zero_from(6), "the report's rest is not zero");
    seen_rules[rule]++;
}

static void check_answer(uint32_t answer) {
    expect(answer == now.report[0], "the answer is not the report's");
    switch (answer) {
    case GW_ACCEPTED: expect(zero_from(1), "an accepted table shows something"); break;
    case GW_REFUSE_OVER_LENGTH: expect(now.report[1] == GW_INPUT_TABLE && zero_from(2), "the report of 2 is wrong"); break;
    case GW_REFUSE_FRAMING: case GW_REFUSE_TOO_MANY:
        expect(now.report[1] < now.table_len && zero_from(2), "the report of 7 or 8 is wrong");
        break;
    case GW_REFUSE_SCHEMA: check_break(); break;
    default: fail("an answer is unknown");
    }
    expect((answer == GW_REFUSE_OVER_LENGTH) == (now.table_len > GW_MOST_TABLE), "2 where the length is right, or another where it is not");
    seen_answers[answer]++;
}

/* Calls on what is lent and checks all that holds for every call. */
static uint32_t checked_call(void) {
    uint32_t answer = gw_check_table(now.table, now.table_len, now.report, now.report_len);
    if (now.report_len < GW_REPORT_SIZE) {
        expect(answer == GW_REFUSE_BUFFER, "a short report is not refused by 1");
        expect(is_painted(now.report, now.report_len * 4), "a short report was touched");
        return answer;
    }
    expect(is_painted(now.report + GW_REPORT_SIZE, (now.report_len - GW_REPORT_SIZE) * 4), "the report's tail was touched");
    check_answer(answer);
    return answer;
}

/* The records before the one that holds a wrong offset, or an offset over a size, have no such fault. */
static void check_before(const struct table *t, uint32_t answer, uint32_t offset, int high) {
    size_t at = 0;
    while (at + 3 <= t->length) {
        size_t past = at + 3 + (size_t)t->bytes[at + 1] * 256 + t->bytes[at + 2];
        if (past > offset)
            break;
        at = past;
    }
    lend(t->bytes, at, GW_REPORT_SIZE, high);
    uint32_t before = checked_call();
    expect(before != GW_REFUSE_FRAMING && (answer == GW_REFUSE_FRAMING || before != GW_REFUSE_TOO_MANY), "records before a fault are at fault");
}

/* ---- the cases: lines of table_reader.py */

static int read_case(FILE *file, struct table *t, uint32_t *report) {
    if (!has_line(file))
        return 0;
    t->length = read_hex(file, t->bytes, TABLE_ROOM);
    read_numbers(file, report, GW_REPORT_SIZE);
    read_end(file);
    return 1;
}

static void check_case(const struct table *t, const uint32_t *report, int high, size_t tail) {
    lend(t->bytes, t->length, GW_REPORT_SIZE + tail, high);
    checked_call();
    expect(memcmp(now.report, report, GW_REPORT_SIZE * 4) == 0, "the report is not the case's");
}

static int run_vectors(const char *path) {
    static struct table t;
    uint32_t report[GW_REPORT_SIZE];
    FILE *file = opened(path);
    int count = 0;
    for (; read_case(file, &t, report); count++) {
        if (t.length >= TABLE_ROOM && report[0] != GW_REFUSE_OVER_LENGTH)
            fail("a case is longer than there is room");
        for (int high = 0; high < 2; high++)
            for (size_t tail = 0; tail <= TAIL; tail += TAIL)
                check_case(&t, report, high, tail);
    }
    printf("harness_tables: %d cases, each in 4 placings, agree\n", count);
    return count ? 0 : 1;
}

/* ---- reports and tables of other lengths */

/* Where the length alone decides the answer, not a byte is read: the table is a page that traps. */
static int run_unread(void) {
    static const size_t lengths[] = {GW_MOST_TABLE + 1, 2 * GW_MOST_TABLE, UINT32_MAX, (size_t)1 << 32, PTRDIFF_MAX};
    int calls = 0;
    for (size_t l = 0; l < sizeof lengths / sizeof *lengths; l++)
        for (size_t report = 0; report <= GW_REPORT_SIZE; report++, calls++) {
            lend(NULL, 0, report, 1);
            now.table_len = lengths[l];
            checked_call();
        }
    for (size_t report = 0; report < GW_REPORT_SIZE; report++, calls++) {
        lend(NULL, 0, report, 1);
        now.table_len = GW_MOST_TABLE;
        checked_call();
    }
    return calls;
}

static int run_buffers(void) {
    static struct table t;
    static const size_t lengths[] = {0, 1, 2, 3, 10, GW_MOST_TABLE - 1, GW_MOST_TABLE, GW_MOST_TABLE + 1, TABLE_ROOM};
    int calls = run_unread();
    for (int fill = 0; fill < 256; fill += 51)
        for (size_t l = 0; l < sizeof lengths / sizeof *lengths; l++)
            for (size_t report = 0; report <= GW_REPORT_SIZE + 4; report++, calls++) {
                memset(t.bytes, fill, sizeof t.bytes);
                lend(t.bytes, lengths[l], report, calls & 1);
                checked_call();
            }
    expect(gw_check_table(NULL, 0, NULL, 0) == GW_REFUSE_BUFFER, "twice NULL");
    lend(t.bytes, 0, GW_REPORT_SIZE, 1);
    now.table = NULL;
    expect(checked_call() == GW_REFUSE_SCHEMA && now.report[1] == 0 && now.report[2] == GW_RULE_ROOT, "a table of no bytes at NULL");
    printf("harness_tables: %d calls with reports and tables of other lengths, and NULL for no length, are right\n", calls);
    return 0;
}

/* ---- the runs */

static void add_table(struct tables *given, const struct table *t) {
    given->all = realloc(given->all, (given->count + 1) * sizeof *given->all);
    given->all[given->count] = malloc(sizeof *t);
    *given->all[given->count++] = *t;
}

static void read_tables(struct tables *given, int count, char **paths) {
    static struct table t;
    uint32_t report[GW_REPORT_SIZE];
    FILE *file = opened(paths[0]);
    /* few of those with wrong framing, as their children have it too */
    for (int i = 0; read_case(file, &t, report); i++)
        if (report[0] != GW_REFUSE_OVER_LENGTH && (report[0] != GW_REFUSE_FRAMING || i % 16 == 0))
            add_table(given, &t);
    fclose(file);
    for (int i = 1; i < count; i++) {
        file = opened(paths[i]);
        t.length = fread(t.bytes, 1, GW_MOST_TABLE, file);
        add_table(given, &t);
        fclose(file);
    }
}

static void free_tables(struct tables *given) {
    for (size_t i = 0; i < given->count; i++)
        free(given->all[i]);
    free(given->all);
}

static void print_case(const struct table *t) {
    print_hex(t->bytes, t->length);
    print_numbers(now.report, GW_REPORT_SIZE);
    putchar('\n');
}

static int run_sample(long count, const struct tables *given) {
    static struct table t;
    random_start(SEED + 1);
    for (long i = 0; i < count; i++) {
        random_table(&t, given);
        lend(t.bytes, t.length, GW_REPORT_SIZE, i & 1);
        checked_call();
        print_case(&t);
    }
    return 0;
}

static void print_seen(void) {
    static const int answers[] = {0, 2, 7, 8, 9};
    printf("harness_tables: answers");
    for (size_t i = 0; i < sizeof answers / sizeof *answers; i++) {
        printf(" %d: %" PRIu64, answers[i], seen_answers[answers[i]]);
        expect(answers[i] == 2 || seen_answers[answers[i]] > 0, "a refusal never came");
    }
    printf("\nharness_tables: rules");
    for (int rule = 1; rule <= 16; rule++) {
        printf(" %d: %" PRIu64, rule, seen_rules[rule]);
        expect(seen_rules[rule] > 0, "a rule was never broken");
    }
    printf("\n");
}

static int run_random(long count, const struct tables *given) {
    static struct table t;
    uint64_t bytes = 0;
    long faults = 0;
    random_start(SEED);
    for (long i = 0; i < count; i++) {
        random_table(&t, given);
        lend(t.bytes, t.length, GW_REPORT_SIZE + (i % 16 == 0 ? 1 + random_below(TAIL) : 0), i & 1);
        uint32_t answer = checked_call();
        bytes += t.length;
        if (answer == GW_REFUSE_FRAMING || answer == GW_REFUSE_TOO_MANY) {
            check_before(&t, answer, now.report[1], i & 1);
            faults++;
        }
    }
    printf("harness_tables: %ld random tables, %" PRIu64 " bytes; the records before a fault of %ld of them\n", count, bytes, faults);
    print_seen();
    return 0;
}

int main(int argc, char **argv) {
    table_room = guard_map(TABLE_ROOM);
    report_room = guard_map((GW_REPORT_SIZE + TAIL) * 4);
    if (argc == 3 && strcmp(argv[1], "vectors") == 0)
        return run_vectors(argv[2]);
    if (argc == 2 && strcmp(argv[1], "buffers") == 0)
        return run_buffers();
    if (argc < 4 || (strcmp(argv[1], "random") != 0 && strcmp(argv[1], "sample") != 0)) {
        fprintf(stderr, "usage: harness_tables vectors CASES | buffers | random COUNT CASES FILE.. | sample COUNT CASES FILE..\n");
        return 2;
    }
    struct tables given = {NULL, 0};
    read_tables(&given, argc - 3, argv + 3);
    long count = atol(argv[2]);
    int status = strcmp(argv[1], "sample") == 0 ? run_sample(count, &given) : run_random(count, &given);
    free_tables(&given);
    return status;
}
