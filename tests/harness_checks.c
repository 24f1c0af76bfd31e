/* Runs gw_check on given and random pairs of a type table and a document and looks at every number it leaves.

     harness_checks vectors CASES..         the cases of `check_reader.py cases` or `pairs.py`, compared in full
     harness_checks buffers                 short and long buffers, long inputs, NULL for no length
     harness_checks random COUNT CASES..    pairs changed from the cases'; checks what holds for every pair
     harness_checks sample COUNT CASES..    prints such pairs with their answers, for `check_reader.py compare`

   The buffers lie between pages that trap. Ends with status 1 at the first thing that is wrong. */
#include "gateway.h"
#include "guard.h"
#include "lines.h"
#include "random_pairs.h"
#include "random_tables.h"

#include <inttypes.h>
#include <stdio.h>
#include <stdlib.h>
#include <string.h>

enum { TAIL = 64, SEED = 2016, MOST_RULE = GW_QUERY_RULE_ARGUMENT };

static struct guarded table_room, document_room, rows_room, report_room;

/* What is lent to a call; the first lengths can be told longer than they are, where they alone decide. */
static struct {
    const uint8_t *table, *document;
    size_t table_len, document_len, rows_len, report_len;
    uint32_t *rows, *report;
    size_t table_there, document_there;
} now;

/* ---- telling what is wrong */

static void print_some(const char *what, const uint8_t *bytes, size_t length) {
    fprintf(stderr, "\n  %s: ", what);
    for (size_t i = 0; i < length && i < 2000; i++)
        fprintf(stderr, "%02x", bytes[i]);
}

static void fail(const char *what) {
    fprintf(stderr, "harness_checks: %s\n  lengths: table %zu, document %zu, rows %zu, report %zu", what, now.table_len,
            now.document_len, now.rows_len, now.report_len);
    print_some("table", now.table, now.table_there);
    print_some("document", now.document, now.document_there);
    fprintf(stderr, "\n  report:");
    for (size_t i = 0; i < now.report_len && i < GW_REPORT_SIZE; i++)
        fprintf(stderr, " %" PRIu32, now.report[i]);
    fprintf(stderr, "\n");
    exit(1);
}

static void expect(int holds, const char *what) {
    if (!holds)
        fail(what);
}

/* ---- one call */

static void lend(struct some_bytes table, struct some_bytes document, size_t rows_len, size_t report_len, int high) {
    now.table = guard_copy(table_room, table.bytes, table.length, high);
    now.table_len = now.table_there = table.length;
    now.document = guard_copy(document_room, document.bytes, document.length, high);
    now.document_len = now.document_there = document.length;
    now.rows = guard_paint(rows_room, rows_len * 4, high);
    now.rows_len = rows_len;
    now.report = guard_paint(report_room, report_len * 4, high);
    now.report_len = report_len;
}

static int zero_from(size_t i) {
    return is_zero(now.report + i, GW_REPORT_SIZE - i);
}

/* Whether 1 or 2 is due. */
static int is_early(void) {
    return now.report_len < GW_REPORT_SIZE || now.rows_len < GW_ROWS_SIZE || now.document_len > GW_MOST_TEXT || now.table_len > GW_MOST_TABLE;
}

/* The buffers after refusal 1 or 2. */
static void check_untouched(uint32_t answer) {
    expect(is_painted(now.rows, now.rows_len * 4), "a refusal 1 or 2 touched the rows");
    if (now.report_len < GW_REPORT_SIZE) {
        expect(answer == GW_REFUSE_BUFFER, "a short report is not refused by 1");
        expect(is_painted(now.report, now.report_len * 4), "a short report was touched");
        return;
    }
    uint32_t number = now.rows_len < GW_ROWS_SIZE ? GW_REFUSE_BUFFER : GW_REFUSE_OVER_LENGTH;
    uint32_t input = number == GW_REFUSE_BUFFER ? 0 : now.document_len > GW_MOST_TEXT ? GW_INPUT_DOCUMENT : GW_INPUT_TABLE;
    expect(answer == number && now.report[0] == number && now.report[1] == input && zero_from(2), "1 or 2 is told wrongly");
}

static uint64_t seen_answers[GW_REFUSE_QUERY + 1], seen_rules[MOST_RULE + 1];

/* The kinds of rows at which a rule can be broken. */
static const uint8_t kinds_of[MOST_RULE + 1][2] = {
    [GW_QUERY_RULE_OPERATION_REPEATED] = {GW_KIND_OPERATION}, [GW_QUERY_RULE_OPERATION_UNNAMED] = {GW_KIND_OPERATION},
    [GW_QUERY_RULE_FRAGMENT_REPEATED] = {GW_KIND_FRAGMENT}, [GW_QUERY_RULE_CONDITION] = {GW_KIND_TYPE_REFERENCE},
    [GW_QUERY_RULE_FIELD] = {GW_KIND_FIELD}, [GW_QUERY_RULE_LEAF] = {GW_KIND_FIELD}, [GW_QUERY_RULE_SPREAD] = {GW_KIND_SPREAD},
    [GW_QUERY_RULE_CIRCLE] = {GW_KIND_FRAGMENT}, [GW_QUERY_RULE_DIRECTIVE] = {GW_KIND_DIRECTIVE},
    [GW_QUERY_RULE_UNDEFINED] = {GW_KIND_VARIABLE}, [GW_QUERY_RULE_VARIABLE_TYPE] = {GW_KIND_VARIABLE, GW_KIND_VARIABLE_DEFINITION},
    [GW_QUERY_RULE_NAME_TWICE] = {GW_KIND_ARGUMENT, GW_KIND_VARIABLE_DEFINITION}, [GW_QUERY_RULE_NO_ROOT] = {GW_KIND_OPERATION},
    [GW_QUERY_RULE_ARGUMENT] = {GW_KIND_ARGUMENT}};

/* A broken rule, of a document with these rows. */
static void check_break(const uint32_t *rows, uint32_t count) {
    uint32_t row = now.report[1], rule = now.report[2];
    expect(rule >= GW_QUERY_RULE_OPERATION_REPEATED && rule <= MOST_RULE, "a rule is unknown");
    expect(row < count, "a row is past the document's");
    uint32_t kind = rows[GW_ROW_SIZE * row + GW_ROW_KIND];
    expect(kind == kinds_of[rule][0] || kind == kinds_of[rule][1], "a rule is broken at a row of another kind");
    expect(zero_from(3), "the report's rest is not zero");
    seen_rules[rule]++;
}

/* What the other two calls say of table and document is what this one says, up to the rules. */
static void check_answer(uint32_t answer) {
    static uint32_t rows[GW_ROWS_SIZE];
    uint32_t report[GW_REPORT_SIZE];
    uint32_t due = gw_check_table(now.table, now.table_len, report, GW_REPORT_SIZE);
    if (due == GW_ACCEPTED)
        due = gw_parse(now.document, now.document_len, rows, GW_ROWS_SIZE, report, GW_REPORT_SIZE);
    expect(answer == now.report[0] && answer <= GW_REFUSE_QUERY, "the answer is not the report's");
    seen_answers[answer]++;
    if (answer == GW_REFUSE_QUERY) {
        expect(due == GW_ACCEPTED, "a rule is broken where table or text are refused");
        check_break(rows, report[1]);
    } else {
        expect(memcmp(now.report, report, sizeof report) == 0, "the report is not that of gw_check_table or gw_parse");
    }
    if (answer == GW_ACCEPTED)
        expect(memcmp(now.rows, rows, sizeof rows) == 0, "the rows are not those of gw_parse");
    else
        expect(is_zero(now.rows, GW_ROWS_SIZE), "a refusal left the rows unclear");
}

/* Calls on what is lent and checks all that holds for every call. */
static uint32_t checked_call(void) {
    uint32_t answer = gw_check(now.table, now.table_len, now.document, now.document_len, now.rows, now.rows_len, now.report, now.report_len);
    if (now.report_len >= GW_REPORT_SIZE)
        expect(is_painted(now.report + GW_REPORT_SIZE, (now.report_len - GW_REPORT_SIZE) * 4), "the report's tail was touched");
    if (is_early()) {
        check_untouched(answer);
        return answer;
    }
    expect(is_painted(now.rows + GW_ROWS_SIZE, (now.rows_len - GW_ROWS_SIZE) * 4), "the rows' tail was touched");
    check_answer(answer);
    return answer;
}

/* ---- the cases: lines of check_reader.py */

struct given {
    uint8_t table[TABLE_ROOM], document[TEXT_ROOM];
    size_t table_len, document_len;
    uint32_t report[GW_REPORT_SIZE], count, rows[GW_ROWS_SIZE];
};

static struct given given;

static int read_case(FILE *file) {
    if (!has_line(file))
        return 0;
    given.table_len = read_hex(file, given.table, TABLE_ROOM);
    given.document_len = read_hex(file, given.document, TEXT_ROOM);
    read_numbers(file, given.report, GW_REPORT_SIZE);
    read_numbers(file, &given.count, 1);
    if (given.count > GW_ROWS_SIZE)
        given.count = GW_ROWS_SIZE;
    read_numbers(file, given.rows, given.count);
    read_end(file);
    return 1;
}

static void check_case(int high, size_t tail) {
    lend((struct some_bytes){given.table_len, given.table}, (struct some_bytes){given.document_len, given.document}, GW_ROWS_SIZE + tail,
         GW_REPORT_SIZE + tail, high);
    checked_call();
    expect(memcmp(now.report, given.report, sizeof given.report) == 0, "the report is not the case's");
    expect(memcmp(now.rows, given.rows, given.count * 4) == 0, "the rows are not the case's");
}

static int run_vectors(int count, char **paths) {
    int cases = 0;
    for (int i = 0; i < count; i++) {
        FILE *file = opened(paths[i]);
        for (; read_case(file); cases++)
            for (int high = 0; high < 2; high++)
                for (size_t tail = 0; tail <= TAIL; tail += TAIL)
                    check_case(high, tail);
        fclose(file);
    }
    printf("harness_checks: %d cases, each in 4 placings, agree\n", cases);
    return cases ? 0 : 1;
}

/* ---- buffers and inputs of other lengths */

/* type Query { a: Int }, and a document that fits it */
static const uint8_t small_table[] = "\x02\x00\x15\x10\x00\x05Query\x12\x00\x0a\x10\x00\x01"
                                     "a\x14\x00\x03Int";
static const uint8_t small_document[] = "{ a ...F } fragment F on Query { b: a @skip(if: false) }";

/* A small input with blanks or nothing behind it, of a length. */
static struct some_bytes input_of(const void *small, size_t size, uint8_t *room, size_t length) {
    memset(room, ' ', length);
    memcpy(room, small, length < size ? length : size);
    return (struct some_bytes){length, room};
}

/* Where a length alone decides the answer, not a byte is read: the input is a page that traps. */
static int run_unread(void) {
    static const size_t lengths[] = {GW_MOST_TEXT + 1, 2 * GW_MOST_TEXT, GW_MOST_TABLE + 1, UINT32_MAX, PTRDIFF_MAX};
    struct some_bytes none = {0, NULL};
    int calls = 0;
    for (size_t l = 0; l < sizeof lengths / sizeof *lengths; l++)
        for (size_t report = 0; report <= GW_REPORT_SIZE; report++)
            for (int which = 0; which < 3; which++, calls++) {
                lend(none, none, GW_ROWS_SIZE - (l == 0), report, 1);
                now.document_len = which != 1 ? lengths[l] : 0;
                now.table_len = which != 0 ? lengths[l] : 0;
                if (is_early())
                    checked_call();
            }
    return calls;
}

/* NULL where the length is 0. */
static void check_null(struct some_bytes table) {
    struct some_bytes none = {0, NULL};
    expect(gw_check(NULL, 0, NULL, 0, NULL, 0, NULL, 0) == GW_REFUSE_BUFFER, "four times NULL");
    for (int high = 0; high < 2; high++) {
        lend(table, none, GW_ROWS_SIZE, GW_REPORT_SIZE, high);
        now.document = NULL;
        expect(checked_call() == GW_REFUSE_NO_GOING && now.report[1] == 0, "a document of no bytes at NULL");
        lend(none, none, GW_ROWS_SIZE, GW_REPORT_SIZE, high);
        now.table = now.document = NULL;
        expect(checked_call() == GW_REFUSE_SCHEMA && now.report[2] == GW_RULE_ROOT, "a table of no bytes at NULL");
        lend(table, none, 0, GW_REPORT_SIZE, high);
        now.rows = NULL;
        expect(gw_check(now.table, now.table_len, NULL, 0, NULL, 0, now.report, GW_REPORT_SIZE) == GW_REFUSE_BUFFER, "no rows at NULL");
        expect(now.report[0] == GW_REFUSE_BUFFER && zero_from(1), "the report for no rows at NULL");
    }
}

/* The next length of the rows: every one where all is small, else those near the ends. */
static size_t next_rows(size_t rows, int all) {
    size_t near = GW_ROWS_SIZE - 40;
    return all || rows < 40 || rows >= near ? rows + 1 : rows + 997 < near ? rows + 997 : near;
}

static int run_buffers(void) {
    static uint8_t table_bytes[TABLE_ROOM], document_bytes[TEXT_ROOM];
    static const size_t tables[] = {sizeof small_table - 1, 0, 1, GW_MOST_TABLE, GW_MOST_TABLE + 1, TABLE_ROOM};
    static const size_t documents[] = {sizeof small_document - 1, 0, 1, GW_MOST_TEXT, GW_MOST_TEXT + 1, TEXT_ROOM};
    int calls = run_unread();
    for (size_t l = 0; l < sizeof tables / sizeof *tables * 6; l++) {
        struct some_bytes table = input_of(small_table, sizeof small_table - 1, table_bytes, tables[l / 6]);
        struct some_bytes document = input_of(small_document, sizeof small_document - 1, document_bytes, documents[l % 6]);
        for (size_t report = 0; report <= GW_REPORT_SIZE + 4; report++)
            for (size_t rows = 0; rows <= GW_ROWS_SIZE + TAIL; rows = next_rows(rows, l == 0), calls++) {
                lend(table, document, rows, report, calls & 1);
                checked_call();
            }
    }
    check_null(input_of(small_table, sizeof small_table - 1, table_bytes, sizeof small_table - 1));
    printf("harness_checks: %d calls with buffers and inputs of other lengths, and NULL for no length, are right\n", calls);
    return seen_answers[GW_ACCEPTED] ? 0 : 1;
}

/* ---- the given pairs */

static struct some_bytes kept(const uint8_t *bytes, size_t length) {
    uint8_t *copy = malloc(length + 1);
    if (length)
        memcpy(copy, bytes, length);
    return (struct some_bytes){length, copy};
}

static int is_same(struct some_bytes a, const uint8_t *bytes, size_t length) {
    return a.length == length && memcmp(a.bytes, bytes, length) == 0;
}

static struct {
    struct family **all;
    size_t count;
} families;

/* Tables that differ from a given one by a change and are accepted; the last one is refused. */
static void add_variants(struct family *f) {
    static struct table t;
    struct table *only[] = {&t};
    struct tables all = {only, 1};
    uint32_t report[GW_REPORT_SIZE];
    for (int tries = 0; tries < 150 && f->count <= MOST_VARIANTS; tries++) {
        t.length = f->tables[0].length;
        memcpy(t.bytes, f->tables[0].bytes, t.length);
        change_table(&t, &all);
        int refused = gw_check_table(t.bytes, t.length, report, GW_REPORT_SIZE) != GW_ACCEPTED;
        if (refused == (f->count == MOST_VARIANTS) && !is_same(f->tables[0], t.bytes, t.length))
            f->tables[f->count++] = kept(t.bytes, t.length);
    }
}

static const struct family *family_of(const uint8_t *table, size_t length) {
    for (size_t i = 0; i < families.count; i++)
        if (is_same(families.all[i]->tables[0], table, length))
            return families.all[i];
    struct family *f = malloc(sizeof *f);
    f->tables[0] = kept(table, length);
    f->count = 1;
    add_variants(f);
    families.all = realloc(families.all, (families.count + 1) * sizeof *families.all);
    return families.all[families.count++] = f;
}

static void read_pairs(struct given_pairs *pairs, int count, char **paths) {
    random_start(SEED);
    for (int i = 0; i < count; i++) {
        FILE *file = opened(paths[i]);
        while (read_case(file))
            if (given.report[0] != GW_REFUSE_OVER_LENGTH) {
                pairs->all = realloc(pairs->all, (pairs->count + 1) * sizeof *pairs->all);
                pairs->all[pairs->count++] = (struct given_pair){family_of(given.table, given.table_len), kept(given.document, given.document_len)};
            }
        fclose(file);
    }
}

static void free_pairs(struct given_pairs *pairs) {
    for (uint32_t i = 0; i < pairs->count; i++)
        free((void *)pairs->all[i].document.bytes);
    free(pairs->all);
    for (size_t i = 0; i < families.count; i++) {
        for (uint32_t k = 0; k < families.all[i]->count; k++)
            free((void *)families.all[i]->tables[k].bytes);
        free(families.all[i]);
    }
    free(families.all);
}

/* ---- the runs */

static void call_on(const struct pair *p, size_t tail, int high) {
    lend(p->table, (struct some_bytes){p->document.length, p->document.bytes}, GW_ROWS_SIZE + tail, GW_REPORT_SIZE + tail, high);
    checked_call();
}

static void print_case(const struct pair *p) {
    uint32_t count = now.report[0] == GW_ACCEPTED ? now.report[1] * GW_ROW_SIZE : 0;
    print_hex(p->table.bytes, p->table.length);
    putchar(' ');
    print_hex(p->document.bytes, p->document.length);
    print_numbers(now.report, GW_REPORT_SIZE);
    print_numbers(&count, 1);
    print_numbers(now.rows, count);
    putchar('\n');
}

static int run_sample(long count, const struct given_pairs *pairs) {
    static struct pair p;
    random_start(SEED + 1);
    for (long i = 0; i < count; i++) {
        random_pair(&p, pairs);
        call_on(&p, 0, i & 1);
        print_case(&p);
    }
    return 0;
}

static void print_seen(void) {
    static const int answers[] = {0, 3, 4, 7, 9, 10};
    printf("harness_checks: answers");
    for (size_t i = 0; i < sizeof answers / sizeof *answers; i++) {
        printf(" %d: %" PRIu64, answers[i], seen_answers[answers[i]]);
        expect(seen_answers[answers[i]] > 0, "an answer never came");
    }
    printf("\nharness_checks: rules");
    for (int rule = 1; rule <= MOST_RULE; rule++) {
        printf(" %d: %" PRIu64, rule, seen_rules[rule]);
        expect(seen_rules[rule] > 0, "a rule was never broken");
    }
    printf("\n");
}

static int run_random(long count, const struct given_pairs *pairs) {
    static struct pair p;
    uint64_t tables = 0, documents = 0;
    random_start(SEED);
    for (long i = 0; i < count; i++) {
        random_pair(&p, pairs);
        call_on(&p, i % 16 == 0 ? 1 + random_below(TAIL) : 0, i & 1);
        tables += p.table.length;
        documents += p.document.length;
    }
    printf("harness_checks: %ld random pairs, of %zu families of tables; %" PRIu64 " bytes of tables, %" PRIu64 " of documents\n", count,
           families.count, tables, documents);
    print_seen();
    return 0;
}

int main(int argc, char **argv) {
    table_room = guard_map(TABLE_ROOM);
    document_room = guard_map(TEXT_ROOM);
    rows_room = guard_map((GW_ROWS_SIZE + TAIL) * 4);
    report_room = guard_map((GW_REPORT_SIZE + TAIL) * 4);
    if (argc >= 3 && strcmp(argv[1], "vectors") == 0)
        return run_vectors(argc - 2, argv + 2);
    if (argc == 2 && strcmp(argv[1], "buffers") == 0)
        return run_buffers();
    if (argc < 4 || (strcmp(argv[1], "random") != 0 && strcmp(argv[1], "sample") != 0)) {
        fprintf(stderr, "usage: harness_checks vectors CASES.. | buffers | random COUNT CASES.. | sample COUNT CASES..\n");
        return 2;
    }
    struct given_pairs pairs = {NULL, 0};
    read_pairs(&pairs, argc - 3, argv + 3);
    long count = atol(argv[2]);
    int status = strcmp(argv[1], "sample") == 0 ? run_sample(count, &pairs) : run_random(count, &pairs);
    free_pairs(&pairs);
    return status;
}
