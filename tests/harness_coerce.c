/* Runs gw_coerce_variables and gw_coerce_arguments on given and random tables, documents, names, variables texts and rows and looks at
   every number and byte they leave.

     harness_coerce vectors CASES..         the cases of `coerce_reader.py cases` or `coercions.py`, compared in full
     harness_coerce buffers                 short and long buffers, long inputs, NULL for no length
     harness_coerce random COUNT CASES..    calls changed from the cases'; checks what holds for every call
     harness_coerce sample COUNT CASES..    prints such calls with their answers, for `coerce_reader.py compare`

   The buffers lie between pages that trap. Ends with status 1 at the first thing that is wrong. */
#include "gateway.h"
#include "guard.h"
#include "lines.h"
#include "random_coercions.h"
#include "random_tables.h"

#include <inttypes.h>
#include <stdio.h>
#include <stdlib.h>
#include <string.h>

enum { TAIL = 64, SEED = 2016, NAME_ROOM = 20000, MOST_REASON = GW_REASON_SURROGATE, TEXTS = 2 };

static struct guarded table_room, document_room, operation_room, variables_room, value_room, report_room;

/* What is lent to a call; the lengths of table and texts can be told longer than they are, where they alone decide. */
static struct {
    const uint8_t *table, *document, *operation, *variables;
    size_t table_len, document_len, operation_len, variables_len, value_len, report_len;
    int of_arguments;
    uint32_t row;
    uint8_t *value;
    uint32_t *report;
    size_t table_there, document_there, variables_there;
} now;

/* ---- telling what is wrong */

static void print_some(const char *what, const uint8_t *bytes, size_t length) {
    fprintf(stderr, "\n  %s: ", what);
    for (size_t i = 0; i < length && i < 2000; i++)
        fprintf(stderr, "%02x", bytes[i]);
}

static void fail(const char *what) {
    fprintf(stderr, "harness_coerce: %s\n  %s, row %" PRIu32 "\n  lengths: table %zu, document %zu, operation %zu, variables %zu", what,
            now.of_arguments ? "arguments" : "variables", now.row, now.table_len, now.document_len, now.operation_len, now.variables_len);
    fprintf(stderr, ", value %zu, report %zu", now.value_len, now.report_len);
    print_some("table", now.table, now.table_there);
    print_some("document", now.document, now.document_there);
    print_some("operation", now.operation, now.operation_len);
    print_some("variables", now.variables, now.variables_there);
    print_some("value", now.value, now.value_len < 64 ? now.value_len : 64);
    fprintf(stderr, "\n  report:");
    for (size_t i = 0; i < now.report_len && i < GW_REPORT_SIZE; i++)
        fprintf(stderr, " %" PRIu32, now.report[i]);
    fprintf(stderr, "\n");
    exit(1);
}

static void expect(int holds, const char *what) {
    if (!holds)
        fail(what);
}

/* ---- one call */

struct inputs {
    struct some_bytes table, document, operation, variables;
};

static void lend(const struct inputs *in, size_t value_len, size_t report_len, int high) {
    now.table = guard_copy(table_room, in->table.bytes, in->table.length, high);
    now.table_len = now.table_there = in->table.length;
    now.document = guard_copy(document_room, in->document.bytes, in->document.length, high);
    now.document_len = now.document_there = in->document.length;
    now.operation = guard_copy(operation_room, in->operation.bytes, in->operation.length, high);
    now.operation_len = in->operation.length;
    now.variables = guard_copy(variables_room, in->variables.bytes, in->variables.length, high);
    now.variables_len = now.variables_there = in->variables.length;
    now.value = guard_paint(value_room, value_len, high);
    now.value_len = value_len;
    now.report = guard_paint(report_room, report_len * 4, high);
    now.report_len = report_len;
}

static uint32_t call_now(void) {
    if (now.of_arguments)
        return gw_coerce_arguments(now.table, now.table_len, now.document, now.document_len, now.operation, now.operation_len, now.variables,
                                   now.variables_len, now.row, now.value, now.value_len, now.report, now.report_len);
    return gw_coerce_variables(now.table, now.table_len, now.document, now.document_len, now.operation, now.operation_len, now.variables,
                               now.variables_len, now.value, now.value_len, now.report, now.report_len);
}

static int zero_from(size_t i) {
    return is_zero(now.report + i, GW_REPORT_SIZE - i);
}

/* Whether 1 or 2 is due. */
static int is_early(void) {
    return now.report_len < GW_REPORT_SIZE || now.value_len < GW_MOST_COERCED || now.document_len > GW_MOST_TEXT ||
           now.variables_len > GW_MOST_TEXT || now.table_len > GW_MOST_TABLE;
}

/* The buffers after refusal 1 or 2. */
static void check_untouched(uint32_t answer) {
    expect(is_painted(now.value, now.value_len), "a refusal 1 or 2 touched the value");
    if (now.report_len < GW_REPORT_SIZE) {
        expect(answer == GW_REFUSE_BUFFER, "a short report is not refused by 1");
        expect(is_painted(now.report, now.report_len * 4), "a short report was touched");
        return;
    }
    uint32_t number = now.value_len < GW_MOST_COERCED ? GW_REFUSE_BUFFER : GW_REFUSE_OVER_LENGTH;
    uint32_t input = number == GW_REFUSE_BUFFER ? 0 : now.document_len > GW_MOST_TEXT ? GW_INPUT_DOCUMENT
                     : now.variables_len > GW_MOST_TEXT ? GW_INPUT_VARIABLES : GW_INPUT_TABLE;
    expect(answer == number && now.report[0] == number && now.report[1] == input && zero_from(2), "1 or 2 is told wrongly");
}

static uint64_t seen_answers[GW_REFUSE_TOO_LONG + 1], seen_reasons[TEXTS][MOST_REASON + 1], seen_tags[GW_VALUE_OWN_SCALAR + 1];
static uint32_t longest;

/* ---- a coerced value */

/* The field at `at`: its content must lie before `end`. Returns its length. */
static size_t length_at(size_t at, size_t end) {
    expect(end - at >= 3, "a field of the value is cut short");
    size_t length = (size_t)now.value[at + 1] * 256 + now.value[at + 2];
    expect(length <= end - at - 3, "a field of the value is longer than its holder");
    return length;
}

static size_t check_field(size_t at, size_t end);

static void check_entries(size_t at, size_t end) {
    while (at < end) {
        expect(now.value[at] == GW_VALUE_ENTRY, "an object holds something else than entries");
        size_t past = at + 3 + length_at(at, end);
        expect(past - at > 3 && now.value[at + 3] == GW_TAG_NAME && length_at(at + 3, past) > 0, "an entry has no name");
        expect(check_field(at + 6 + length_at(at + 3, past), past) == past, "an entry holds more than a value");
        at = past;
    }
}

/* A value: how long its content can be, and what is in it. Returns where it ends. */
static size_t check_field(size_t at, size_t end) {
    size_t length = length_at(at, end), past = at + 3 + length;
    uint8_t tag = now.value[at];
    expect(tag >= GW_VALUE_NULL && tag <= GW_VALUE_OWN_SCALAR && tag != GW_VALUE_ENTRY, "a tag is not a value's");
    seen_tags[tag]++;
    switch (tag) {
    case GW_VALUE_NULL: expect(length == 0, "a null has content"); break;
    case GW_VALUE_INT: expect(length == 4, "an Int has not four bytes"); break;
    case GW_VALUE_BOOLEAN: expect(length == 1 && now.value[at + 3] <= 1, "a boolean is neither 0 nor 1"); break;
    case GW_VALUE_FLOAT: case GW_VALUE_ENUM: case GW_VALUE_OWN_SCALAR: expect(length > 0, "a text has no bytes"); break;
    case GW_VALUE_OBJECT: check_entries(at + 3, past); break;
    case GW_VALUE_LIST:
        for (size_t item = at + 3; item < past;)
            item = check_field(item, past);
    }
    return past;
}

static void check_value(void) {
    uint32_t bytes = now.report[1];
    expect(zero_from(2) && bytes <= GW_MOST_COERCED, "the report of a value is wrong");
    expect(now.value[0] == GW_VALUE_OBJECT && check_field(0, bytes) == bytes, "the value is not one object of the length that is told");
    expect(is_zero_bytes(now.value + bytes, GW_MOST_COERCED - bytes), "the value's rest is not zero");
    if (bytes > longest)
        longest = bytes;
}

/* ---- a value that cannot be coerced */

/* The kinds of rows at which a reason can stand. */
static const uint8_t kinds_of[MOST_REASON + 1][8] = {
    [GW_REASON_KIND] = {GW_KIND_INTEGER, GW_KIND_FLOAT, GW_KIND_STRING, GW_KIND_BOOLEAN, GW_KIND_ENUM, GW_KIND_LIST, GW_KIND_OBJECT},
    [GW_REASON_RANGE] = {GW_KIND_INTEGER}, [GW_REASON_MISSING] = {GW_KIND_OBJECT, GW_KIND_FIELD, GW_KIND_VARIABLE_DEFINITION},
    [GW_REASON_NULL] = {GW_KIND_NULL, GW_KIND_VARIABLE}, [GW_REASON_UNKNOWN] = {GW_KIND_OBJECT_FIELD},
    [GW_REASON_REPEATED] = {GW_KIND_OBJECT_FIELD}, [GW_REASON_ENUM] = {GW_KIND_ENUM}, [GW_REASON_SURROGATE] = {GW_KIND_STRING}};

/* The rows of the variables text, read as an argument; 0 where it is too long or too deep for that. */
static uint32_t variables_rows(uint32_t *rows, uint32_t *before) {
    static uint8_t document[GW_MOST_TEXT + 8];
    uint32_t report[GW_REPORT_SIZE];
    size_t n = now.variables_len;
    memcpy(document, "{a(x:", 5);
    memcpy(document + 5, now.variables, n);
    memcpy(document + 5 + n, "\n)}", 3);
    *before = 3; /* operation, field, argument */
    return gw_parse(document, n + 8, rows, GW_ROWS_SIZE, report, GW_REPORT_SIZE) == GW_ACCEPTED ? report[1] : 0;
}

static void check_reason(const uint32_t *document_rows, uint32_t document_count) {
    static uint32_t rows[GW_ROWS_SIZE];
    uint32_t text = now.report[1], row = now.report[2], reason = now.report[3], before = 0, count = document_count;
    expect(text == GW_INPUT_DOCUMENT || text == GW_INPUT_VARIABLES, "a value is in no text");
    expect(reason >= GW_REASON_KIND && reason <= MOST_REASON, "a reason is unknown");
    expect(zero_from(4), "the report's rest is not zero");
    seen_reasons[text][reason]++;
    if (text == GW_INPUT_VARIABLES && (count = variables_rows(rows, &before)) == 0)
        return;
    expect(row + before < count, "a row is past the text's");
    uint32_t kind = (text == GW_INPUT_VARIABLES ? rows : document_rows)[GW_ROW_SIZE * (row + before) + GW_ROW_KIND];
    expect(memchr(kinds_of[reason], (int)kind, sizeof kinds_of[reason]) != NULL, "a reason stands at a row of another kind");
}

/* What gw_check says of table and document is what this call says, up to 12. */
static void check_answer(uint32_t answer) {
    static uint32_t rows[GW_ROWS_SIZE];
    uint32_t report[GW_REPORT_SIZE];
    uint32_t due = gw_check(now.table, now.table_len, now.document, now.document_len, rows, GW_ROWS_SIZE, report, GW_REPORT_SIZE);
    expect(answer == now.report[0] && answer <= GW_REFUSE_TOO_LONG, "the answer is not the report's");
    seen_answers[answer]++;
    if (due != GW_ACCEPTED)
        expect(memcmp(now.report, report, sizeof report) == 0, "the report is not that of gw_check");
    else if (answer == GW_ACCEPTED)
        check_value();
    else if (answer == GW_REFUSE_VALUE)
        check_reason(rows, report[1]);
    else if (answer >= GW_REFUSE_NO_TOKEN && answer <= GW_REFUSE_TOO_MANY_ROWS)
        expect(now.report[1] <= now.variables_len && now.report[2] == GW_INPUT_VARIABLES && zero_from(3), "the variables text is told wrongly");
    else
        expect((answer == GW_REFUSE_NO_OPERATION || answer == GW_REFUSE_TOO_LONG) && zero_from(1), "12 or 16 is told wrongly");
    if (answer != GW_ACCEPTED)
        expect(is_zero_bytes(now.value, GW_MOST_COERCED), "a refusal left the value unclear");
}

/* Calls on what is lent and checks all that holds for every call. */
static uint32_t checked_call(void) {
    uint32_t answer = call_now();
    if (now.report_len >= GW_REPORT_SIZE)
        expect(is_painted(now.report + GW_REPORT_SIZE, (now.report_len - GW_REPORT_SIZE) * 4), "the report's tail was touched");
    if (is_early()) {
        check_untouched(answer);
        return answer;
    }
    expect(is_painted(now.value + GW_MOST_COERCED, now.value_len - GW_MOST_COERCED), "the value's tail was touched");
    check_answer(answer);
    return answer;
}

/* The arguments' call coerces the variables first: where these are refused by the text or a value, it says the same. */
static void check_variables_first(void) {
    static uint8_t value[GW_MOST_COERCED];
    uint32_t report[GW_REPORT_SIZE];
    if (now.report[0] == GW_REFUSE_NO_OPERATION)
        return;
    uint32_t due = gw_coerce_variables(now.table, now.table_len, now.document, now.document_len, now.operation, now.operation_len, now.variables,
                                       now.variables_len, value, GW_MOST_COERCED, report, GW_REPORT_SIZE);
    if (due == GW_ACCEPTED || due == GW_REFUSE_TOO_LONG)
        expect(now.report[0] == GW_ACCEPTED || now.report[0] == GW_REFUSE_TOO_LONG ||
                   (now.report[0] == GW_REFUSE_VALUE && now.report[1] == GW_INPUT_DOCUMENT),
               "arguments are refused for variables that are coerced");
    else
        expect(memcmp(now.report, report, sizeof report) == 0, "arguments do not tell what is wrong with the variables");
}

/* ---- the cases: lines of coerce_reader.py */

static struct {
    uint8_t table[TABLE_ROOM], document[TEXT_ROOM], operation[NAME_ROOM], variables[TEXT_ROOM], value[GW_MOST_COERCED];
    struct inputs in;
    size_t value_len;
    uint32_t call[2], report[GW_REPORT_SIZE]; /* whether it is the arguments', and the row */
} given;

static int read_case(FILE *file) {
    if (!has_line(file))
        return 0;
    given.in.table = (struct some_bytes){read_hex(file, given.table, sizeof given.table), given.table};
    given.in.document = (struct some_bytes){read_hex(file, given.document, sizeof given.document), given.document};
    given.in.operation = (struct some_bytes){read_hex(file, given.operation, sizeof given.operation), given.operation};
    given.in.variables = (struct some_bytes){read_hex(file, given.variables, sizeof given.variables), given.variables};
    given.value_len = read_hex(file, given.value, sizeof given.value);
    read_numbers(file, given.call, 2);
    read_numbers(file, given.report, GW_REPORT_SIZE);
    read_end(file);
    return 1;
}

static void check_case(int high, size_t tail) {
    lend(&given.in, GW_MOST_COERCED + tail, GW_REPORT_SIZE + tail, high);
    now.of_arguments = given.call[0] != 0;
    now.row = given.call[1];
    checked_call();
    expect(memcmp(now.report, given.report, sizeof given.report) == 0, "the report is not the case's");
    expect(memcmp(now.value, given.value, given.value_len) == 0, "the value is not the case's");
}

static int run_vectors(int count, char **paths) {
    int cases = 0;
    for (int i = 0; i < count; i++) {
        FILE *file = opened(paths[i]);
        for (; read_case(file); cases++)
            for (int high = 0; high < 2; high++)
                for (size_t tail = 0; tail <= TAIL; tail += TAIL)
                    check_case(high, tail);
        fclose(file);
    }
    printf("harness_coerce: %d cases, each in 4 placings, agree\n", cases);
    return cases ? 0 : 1;
}

/* ---- buffers and inputs of other lengths */

/* type Query { a(x: [Int]): Int }, a document that fits it, and its variables; the field's row is 3 */
static const uint8_t small_table[] = "\x02\x00\x24\x10\x00\x05Query\x12\x00\x19\x10\x00\x01"
                                     "a\x14\x00\x03Int\x13\x00\x0c\x10\x00\x01x\x14\x00\x05[Int]";
static const uint8_t small_document[] = "query Q($v: [Int]) { a(x: $v) ...F } fragment F on Query { b: a @skip(if: false) }";
static const uint8_t small_variables[] = "{ v: [1 null -2147483648] }";
enum { SMALL_ROW = 3, LENGTHS = 6 };

/* A small input with blanks or nothing behind it, of a length. */
static struct some_bytes input_of(const void *small, size_t size, uint8_t *room, size_t length) {
    memset(room, ' ', length);
    memcpy(room, small, length < size ? length : size);
    return (struct some_bytes){length, room};
}

/* Where a length alone decides the answer, not a byte is read: the input is a page that traps. */
static int run_unread(void) {
    static const size_t lengths[] = {GW_MOST_TEXT + 1, 2 * GW_MOST_TEXT, GW_MOST_TABLE + 1, UINT32_MAX, PTRDIFF_MAX};
    static const struct inputs none;
    int calls = 0;
    for (size_t l = 0; l < sizeof lengths / sizeof *lengths; l++)
        for (size_t report = 0; report <= GW_REPORT_SIZE; report++)
            for (int which = 1; which < 8; which++, calls++) {
                lend(&none, GW_MOST_COERCED - (l == 0), report, 1);
                now.of_arguments = calls & 1;
                now.document_len = which & 1 ? lengths[l] : 0;
                now.variables_len = which & 2 ? lengths[l] : 0;
                now.table_len = which & 4 ? lengths[l] : 0;
                if (is_early())
                    checked_call();
            }
    return calls;
}

/* NULL where the length is 0. */
static void check_null(struct inputs in) {
    struct some_bytes none = {0, NULL};
    for (int high = 0; high < 4; high++) {
        memset(&now, 0, sizeof now);
        now.of_arguments = high & 1;
        now.row = SMALL_ROW;
        expect(call_now() == GW_REFUSE_BUFFER, "six times NULL");
        struct inputs some = in;
        some.variables = some.operation = none;
        lend(&some, GW_MOST_COERCED, GW_REPORT_SIZE, high >> 1);
        now.variables = now.operation = NULL;
        expect(checked_call() == GW_REFUSE_NO_GOING && now.report[2] == GW_INPUT_VARIABLES, "variables of no bytes at NULL");
        some.document = none;
        lend(&some, GW_MOST_COERCED, GW_REPORT_SIZE, high >> 1);
        now.variables = now.operation = now.document = NULL;
        expect(checked_call() == GW_REFUSE_NO_GOING && now.report[2] == GW_INPUT_DOCUMENT, "a document of no bytes at NULL");
        some.table = none;
        lend(&some, GW_MOST_COERCED, GW_REPORT_SIZE, high >> 1);
        now.variables = now.operation = now.document = now.table = NULL;
        expect(checked_call() == GW_REFUSE_SCHEMA && now.report[2] == GW_RULE_ROOT, "a table of no bytes at NULL");
        lend(&in, 0, GW_REPORT_SIZE, high >> 1);
        now.value = NULL;
        expect(call_now() == GW_REFUSE_BUFFER && now.report[0] == GW_REFUSE_BUFFER && zero_from(1), "no value at NULL");
    }
}

/* The next length of the value: every one where all is small, else some at the ends. */
static size_t next_value(size_t length, int all) {
    return all || length >= GW_MOST_COERCED - 1 ? length + 1 : length == 0 ? 1 : length == 1 ? 4099 : GW_MOST_COERCED - 1;
}

static int run_lengths(const struct inputs *in, int all, int *calls) {
    size_t most = GW_MOST_COERCED + (all ? TAIL : 3);
    for (size_t report = all ? 0 : GW_REPORT_SIZE - 1; report <= GW_REPORT_SIZE + (all ? 4 : 1); report++)
        for (size_t length = 0; length <= most; length = next_value(length, all), ++*calls) {
            lend(in, length, report, *calls & 1);
            checked_call();
        }
    return 0;
}

static int run_buffers(void) {
    static uint8_t table[TABLE_ROOM], document[TEXT_ROOM], variables[TEXT_ROOM], name[NAME_ROOM];
    static const size_t tables[LENGTHS] = {sizeof small_table - 1, 0, 1, GW_MOST_TABLE, GW_MOST_TABLE + 1, TABLE_ROOM};
    static const size_t documents[LENGTHS] = {sizeof small_document - 1, 0, 1, GW_MOST_TEXT, GW_MOST_TEXT + 1, TEXT_ROOM};
    static const size_t texts[LENGTHS] = {sizeof small_variables - 1, 0, 1, GW_MOST_TEXT, GW_MOST_TEXT + 1, TEXT_ROOM};
    static const size_t names[] = {1, 0, 2, 255, 256, NAME_ROOM};
    struct inputs in;
    int calls = run_unread();
    for (size_t l = 0; l < LENGTHS * LENGTHS * LENGTHS; l++) {
        in.table = input_of(small_table, sizeof small_table - 1, table, tables[l / LENGTHS / LENGTHS]);
        in.document = input_of(small_document, sizeof small_document - 1, document, documents[l / LENGTHS % LENGTHS]);
        in.variables = input_of(small_variables, sizeof small_variables - 1, variables, texts[l % LENGTHS]);
        for (int n = 0; n < 2 * LENGTHS; n++) {
            in.operation = input_of("Q", 1, name, names[n / 2]);
            now.of_arguments = n & 1;
            now.row = SMALL_ROW;
            run_lengths(&in, l == 0 && n < 2, &calls);
        }
    }
    in.table = (struct some_bytes){sizeof small_table - 1, small_table};
    in.document = (struct some_bytes){sizeof small_document - 1, small_document};
    in.variables = (struct some_bytes){sizeof small_variables - 1, small_variables};
    in.operation = (struct some_bytes){0, NULL};
    check_null(in);
    printf("harness_coerce: %d calls with buffers and inputs of other lengths, and NULL for no length, are right\n", calls);
    return seen_answers[GW_ACCEPTED] && seen_answers[GW_REFUSE_NO_OPERATION] ? 0 : 1;
}

/* ---- the given calls */

static struct some_bytes kept(struct some_bytes some) {
    uint8_t *copy = malloc(some.length + 1);
    if (some.length)
        memcpy(copy, some.bytes, some.length);
    return (struct some_bytes){some.length, copy};
}

static int is_same(struct some_bytes a, struct some_bytes b) {
    return a.length == b.length && memcmp(a.bytes, b.bytes, a.length) == 0;
}

static struct {
    struct family **all;
    size_t count;
} families;

/* Tables that differ from a given one by a change and are accepted; the last one is refused. */
static void add_variants(struct family *f) {
    static struct table t;
    struct table *only[] = {&t};
    struct tables all = {only, 1};
    uint32_t report[GW_REPORT_SIZE];
    for (int tries = 0; tries < 150 && f->count <= MOST_VARIANTS; tries++) {
        t.length = f->tables[0].length;
        memcpy(t.bytes, f->tables[0].bytes, t.length);
        change_table(&t, &all);
        struct some_bytes changed = {t.length, t.bytes};
        int refused = gw_check_table(t.bytes, t.length, report, GW_REPORT_SIZE) != GW_ACCEPTED;
        if (refused == (f->count == MOST_VARIANTS) && !is_same(f->tables[0], changed))
            f->tables[f->count++] = kept(changed);
    }
}

static const struct family *family_of(struct some_bytes table) {
    for (size_t i = 0; i < families.count; i++)
        if (is_same(families.all[i]->tables[0], table))
            return families.all[i];
    struct family *f = malloc(sizeof *f);
    f->tables[0] = kept(table);
    f->count = 1;
    add_variants(f);
    families.all = realloc(families.all, (families.count + 1) * sizeof *families.all);
    return families.all[families.count++] = f;
}

static void read_calls(struct given_calls *calls, int count, char **paths) {
    random_start(SEED);
    for (int i = 0; i < count; i++) {
        FILE *file = opened(paths[i]);
        while (read_case(file))
            if (given.report[0] != GW_REFUSE_OVER_LENGTH) {
                if ((calls->count & (calls->count - 1)) == 0) /* room for twice as many */
                    calls->all = realloc(calls->all, (2 * calls->count + 1) * sizeof *calls->all);
                calls->all[calls->count++] =
                    (struct given_call){family_of(given.in.table), kept(given.in.document), kept(given.in.operation), kept(given.in.variables)};
            }
        fclose(file);
    }
}

static void free_calls(struct given_calls *calls) {
    for (uint32_t i = 0; i < calls->count; i++) {
        free((void *)calls->all[i].document.bytes);
        free((void *)calls->all[i].operation.bytes);
        free((void *)calls->all[i].variables.bytes);
    }
    free(calls->all);
    for (size_t i = 0; i < families.count; i++) {
        for (uint32_t k = 0; k < families.all[i]->count; k++)
            free((void *)families.all[i]->tables[k].bytes);
        free(families.all[i]);
    }
    free(families.all);
}

/* ---- the runs */

static void call_on(const struct call *c, size_t tail, int high) {
    struct inputs in = {c->table, {c->document.length, c->document.bytes}, c->operation, {c->variables.length, c->variables.bytes}};
    lend(&in, GW_MOST_COERCED + tail, GW_REPORT_SIZE + tail, high);
    now.of_arguments = c->of_arguments;
    now.row = c->row;
    checked_call();
}

/* The next call; now and then the one before it with a string so much longer that its value comes to the limit. */
static void next_call(struct call *c, const struct given_calls *calls, size_t tail, int high) {
    static int again;
    if (!again || !stretch_variables(c, GW_MOST_COERCED - now.report[1] + random_below(3) - 1))
        random_call(c, calls);
    call_on(c, tail, high);
    again = !again && now.report[0] == GW_ACCEPTED && now.report[1] < GW_MOST_COERCED && random_below(15) == 0;
}

static void print_case(const struct call *c) {
    uint32_t call[] = {c->of_arguments != 0, c->row};
    print_hex(c->table.bytes, c->table.length);
    putchar(' ');
    print_hex(c->document.bytes, c->document.length);
    putchar(' ');
    print_hex(c->operation.bytes, c->operation.length);
    putchar(' ');
    print_hex(c->variables.bytes, c->variables.length);
    putchar(' ');
    print_hex(now.value, now.report[0] == GW_ACCEPTED ? now.report[1] : 0);
    print_numbers(call, 2);
    print_numbers(now.report, GW_REPORT_SIZE);
    putchar('\n');
}

static int run_sample(long count, const struct given_calls *calls) {
    static struct call c;
    random_start(SEED + 1);
    for (long i = 0; i < count; i++) {
        next_call(&c, calls, 0, i & 1);
        print_case(&c);
    }
    return 0;
}

static void print_seen(void) {
    static const int answers[] = {0, 3, 4, 5, 10, 11, 12, 16};
    printf("harness_coerce: answers");
    for (size_t i = 0; i < sizeof answers / sizeof *answers; i++) {
        printf(" %d: %" PRIu64, answers[i], seen_answers[answers[i]]);
        expect(seen_answers[answers[i]] > 0, "an answer never came");
    }
    for (int text = 0; text < TEXTS; text++) {
        printf("\nharness_coerce: reasons in the %s", text == GW_INPUT_DOCUMENT ? "document" : "variables text");
        for (int reason = 1; reason <= MOST_REASON; reason++) {
            printf(" %d: %" PRIu64, reason, seen_reasons[text][reason]);
            expect(seen_reasons[text][reason] > 0, "a reason never came");
        }
    }
    printf("\nharness_coerce: tags");
    for (int tag = GW_VALUE_NULL; tag <= GW_VALUE_OWN_SCALAR; tag++)
        if (tag != GW_VALUE_ENTRY) {
            printf(" %d: %" PRIu64, tag, seen_tags[tag]);
            expect(seen_tags[tag] > 0, "a tag never came");
        }
    printf("\nharness_coerce: the longest value has %" PRIu32 " bytes\n", longest);
}

static int run_random(long count, const struct given_calls *calls) {
    static struct call c;
    uint64_t documents = 0, variables = 0;
    random_start(SEED);
    for (long i = 0; i < count; i++) {
        next_call(&c, calls, i % 16 == 0 ? 1 + random_below(TAIL) : 0, i & 1);
        if (c.of_arguments && !is_early())
            check_variables_first();
        documents += c.document.length;
        variables += c.variables.length;
    }
    printf("harness_coerce: %ld random calls, of %zu families of tables; %" PRIu64 " bytes of documents, %" PRIu64 " of variables texts\n", count,
           families.count, documents, variables);
    print_seen();
    return 0;
}

int main(int argc, char **argv) {
    table_room = guard_map(TABLE_ROOM);
    document_room = guard_map(TEXT_ROOM);
    operation_room = guard_map(NAME_ROOM);
    variables_room = guard_map(TEXT_ROOM);
    value_room = guard_map(GW_MOST_COERCED + TAIL);
    report_room = guard_map((GW_REPORT_SIZE + TAIL) * 4);
    if (argc >= 3 && strcmp(argv[1], "vectors") == 0)
        return run_vectors(argc - 2, argv + 2);
    if (argc == 2 && strcmp(argv[1], "buffers") == 0)
        return run_buffers();
    if (argc < 4 || (strcmp(argv[1], "random") != 0 && strcmp(argv[1], "sample") != 0)) {
        fprintf(stderr, "usage: harness_coerce vectors CASES.. | buffers | random COUNT CASES.. | sample COUNT CASES..\n");
        return 2;
    }
    struct given_calls calls = {NULL, 0};
    read_calls(&calls, argc - 3, argv + 3);
    long count = atol(argv[2]);
    int status = strcmp(argv[1], "sample") == 0 ? run_sample(count, &calls) : run_random(count, &calls);
    free_calls(&calls);
    return status;
}
