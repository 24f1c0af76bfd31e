/* Runs gw_parse on given and random documents and looks at every number it leaves.

     harness vectors CASES            the cases of `reader.py cases`, compared in full
     harness buffers                  short and long buffers, long documents
     harness every                    prints short documents, all of some kinds, with their answers, for `reader.py compare`
     harness random COUNT CASES FILE..   random documents; checks what holds for every document
     harness sample COUNT CASES FILE..   prints random documents with their answers, as `every`

   The buffers lie between pages that trap. Ends with status 1 at the first thing that is wrong. */
#include "every.h"
#include "gateway.h"
#include "guard.h"
#include "lines.h"
#include "random.h"

#include <inttypes.h>
#include <stdio.h>
#include <stdlib.h>
#include <string.h>

enum { TAIL = 64, SEED = 2016 };

static struct guarded document_room, rows_room, report_room;

/* What is lent to a call, and on which side of it the trap lies. */
struct lent {
    const uint8_t *document;
    size_t document_len;
    uint32_t *rows;
    size_t rows_len;
    uint32_t *report;
    size_t report_len;
};

/* ---- telling what is wrong */

static struct lent now;

static void fail(const char *what) {
    fprintf(stderr, "harness: %s\n  lengths: document %zu, rows %zu, report %zu\n  document: ", what,
            now.document_len, now.rows_len, now.report_len);
    for (size_t i = 0; i < now.document_len && i < 400; i++)
        fprintf(stderr, "%02x", now.document[i]);
    fprintf(stderr, "\n  report:");
    for (size_t i = 0; i < now.report_len && i < GW_REPORT_SIZE; i++)
        fprintf(stderr, " %" PRIu32, now.report[i]);
    fprintf(stderr, "\n");
    exit(1);
}

static void expect(int holds, const char *what) {
    if (!holds)
        fail(what);
}

/* ---- one call */

static void lend(const uint8_t *document, size_t length, size_t rows_len, size_t report_len, int high) {
    now = (struct lent){guard_copy(document_room, document, length, high), length, guard_paint(rows_room, rows_len * 4, high), rows_len,
                        guard_paint(report_room, report_len * 4, high), report_len};
}

static uint32_t call(void) {
    return gw_parse(now.document, now.document_len, now.rows, now.rows_len, now.report, now.report_len);
}

/* The buffers after refusal 1 or 2. */
static void check_untouched(uint32_t answer) {
    expect(is_painted(now.rows, now.rows_len * 4), "a refusal 1 or 2 touched the rows");
    if (now.report_len < GW_REPORT_SIZE) {
        expect(answer == GW_REFUSE_BUFFER, "a short report is not refused by 1");
        expect(is_painted(now.report, now.report_len * 4), "a short report was touched");
        return;
    }
    expect(answer == (now.rows_len < GW_ROWS_SIZE ? GW_REFUSE_BUFFER : GW_REFUSE_OVER_LENGTH), "not refused by 1 or 2");
    expect(now.report[0] == answer && is_zero(now.report + 1, GW_REPORT_SIZE - 1), "the report of 1 or 2 is wrong");
}

static int is_name(const uint8_t *s, size_t n) {
    for (size_t i = 0; i < n; i++) {
        int letter = s[i] == '_' || (s[i] >= 'A' && s[i] <= 'Z') || (s[i] >= 'a' && s[i] <= 'z');
        if (!letter && !(i > 0 && s[i] >= '0' && s[i] <= '9'))
            return 0;
    }
    return n > 0;
}

static uint64_t seen_kinds[GW_KIND_OBJECT + 1], seen_answers[9];

static int has_name(uint32_t kind) {
    return (kind >= GW_KIND_FRAGMENT && kind <= GW_KIND_OBJECT_FIELD && kind != GW_KIND_INLINE) ||
           kind == GW_KIND_VARIABLE || kind == GW_KIND_ENUM;
}

static uint32_t most_extra(uint32_t kind) {
    return kind == GW_KIND_OPERATION ? GW_EXTRA_SUBSCRIPTION : kind == GW_KIND_BOOLEAN ? GW_EXTRA_TRUE
         : kind == GW_KIND_TYPE_REFERENCE ? (1u << 2 * GW_MOST_WRAPPERS) - 1 : 0;
}

static void check_row(uint32_t i) {
    const uint32_t *row = now.rows + GW_ROW_SIZE * i, *before = row - GW_ROW_SIZE;
    uint32_t kind = row[GW_ROW_KIND], parent = row[GW_ROW_PARENT];
    uint32_t start = row[GW_ROW_START], end = row[GW_ROW_END], name = row[GW_ROW_NAME_START], size = row[GW_ROW_NAME_LENGTH];
    expect((kind >= GW_KIND_OPERATION && kind <= GW_KIND_OBJECT_FIELD) || (kind >= GW_KIND_VARIABLE && kind <= GW_KIND_OBJECT), "a kind is unknown");
    seen_kinds[kind]++;
    expect(start < end && end <= now.document_len, "a row has no place in the text");
    expect(i == 0 || before[GW_ROW_START] < start, "rows are not in order of start");
    int top = kind == GW_KIND_OPERATION || kind == GW_KIND_FRAGMENT;
    expect(top ? parent == GW_NO_PARENT : parent < i, "a parent is wrong");
    const uint32_t *holder = now.rows + GW_ROW_SIZE * (top ? i : parent);
    expect(holder[GW_ROW_START] <= start && end <= holder[GW_ROW_END], "a row is not inside its parent");
    expect(row[GW_ROW_EXTRA] <= most_extra(kind), "an extra is too large");
    if (size == 0)
        expect(name == 0 && !has_name(kind), "a name is missing");
    else
        expect((has_name(kind) || kind == GW_KIND_OPERATION) && name >= start && name + size <= end &&
               is_name(now.document + name, size), "a name is wrong");
}

static void check_answer(uint32_t answer) {
    uint32_t shown = now.report[1];
    expect(answer == now.report[0], "the answer is not the report's");
    expect(answer <= GW_REFUSE_TOO_MANY && answer != 1 && answer != 2 && answer != 7, "an answer is unknown");
    expect(is_zero(now.report + 2, GW_REPORT_SIZE - 2), "the report's rest is not zero");
    seen_answers[answer]++;
    if (answer != GW_ACCEPTED) {
        expect(shown <= now.document_len, "an offset is past the text");
        expect(is_zero(now.rows, GW_ROWS_SIZE), "a refusal left the rows unclear");
        return;
    }
    expect(shown > 1 && shown <= GW_MOST_ROWS, "a count of rows is wrong");
    for (uint32_t i = 0; i < shown; i++)
        check_row(i);
    expect(is_zero(now.rows + GW_ROW_SIZE * shown, GW_ROWS_SIZE - GW_ROW_SIZE * shown), "the unused rows are not zero");
}

/* Calls on what is lent and checks all that holds for every call. */
static uint32_t checked_call(void) {
    uint32_t answer = call();
    int early = now.report_len < GW_REPORT_SIZE || now.rows_len < GW_ROWS_SIZE || now.document_len > GW_MOST_TEXT;
    if (now.report_len >= GW_REPORT_SIZE)
        expect(is_painted(now.report + GW_REPORT_SIZE, (now.report_len - GW_REPORT_SIZE) * 4), "the report's tail was touched");
    if (early) {
        check_untouched(answer);
        return answer;
    }
    expect(is_painted(now.rows + GW_ROWS_SIZE, (now.rows_len - GW_ROWS_SIZE) * 4), "the rows' tail was touched");
    check_answer(answer);
    return answer;
}

/* What stands before a refused place is a document or can become one: read alone it is accepted, or refused by 4 at its end. */
static void check_prefix(const struct text *t, uint32_t offset, int high) {
    lend(t->bytes, offset, GW_ROWS_SIZE, GW_REPORT_SIZE, high);
    uint32_t answer = checked_call();
    expect(answer == GW_ACCEPTED || (answer == GW_REFUSE_NO_GOING && now.report[1] == offset), "what stands before a refusal is refused elsewhere");
}

/* ---- the cases: lines of `reader.py cases` */

struct given {
    struct text text;
    uint32_t report[GW_REPORT_SIZE];
    size_t count;
    uint32_t *rows;
};

static int read_case(FILE *file, struct given *g) {
    uint32_t count;
    if (!has_line(file))
        return 0;
    g->text.length = read_hex(file, g->text.bytes, TEXT_ROOM);
    read_numbers(file, g->report, GW_REPORT_SIZE);
    read_numbers(file, &count, 1);
    g->count = count <= GW_ROWS_SIZE ? count : GW_ROWS_SIZE;
    read_numbers(file, g->rows, g->count);
    read_end(file);
    return 1;
}

static void check_case(const struct given *g, int high, size_t tail) {
    lend(g->text.bytes, g->text.length, GW_ROWS_SIZE + tail, GW_REPORT_SIZE + tail, high);
    checked_call();
    expect(memcmp(now.report, g->report, sizeof g->report) == 0, "the report is not the case's");
    expect(memcmp(now.rows, g->rows, g->count * 4) == 0, "the rows are not the case's");
}

static int run_vectors(const char *path) {
    FILE *file = opened(path);
    struct given *g = malloc(sizeof *g);
    g->rows = malloc(GW_ROWS_SIZE * 4);
    int count = 0;
    for (; read_case(file, g); count++)
        for (int high = 0; high < 2; high++)
            for (size_t tail = 0; tail <= TAIL; tail += TAIL)
                check_case(g, high, tail);
    fclose(file);
    free(g->rows);
    free(g);
    printf("harness: %d vectors, each in 4 placings, agree\n", count);
    return count ? 0 : 1;
}

/* ---- buffers of every length */

static const uint8_t small[] = "{ a: machine(id: 4) { tag ...F } } fragment F on Fan { rpm }";

/* NULL where the length is 0. */
static void check_null(const uint8_t *text) {
    expect(gw_parse(NULL, 0, NULL, 0, NULL, 0) == GW_REFUSE_BUFFER, "three times NULL");
    for (int high = 0; high < 2; high++) {
        lend(text, 0, GW_ROWS_SIZE, GW_REPORT_SIZE, high);
        now.document = NULL;
        expect(checked_call() == GW_REFUSE_NO_GOING && now.report[1] == 0, "a document of no bytes at NULL");
        lend(text, 3, 0, GW_REPORT_SIZE, high);
        now.rows = NULL;
        expect(gw_parse(now.document, 3, NULL, 0, now.report, GW_REPORT_SIZE) == GW_REFUSE_BUFFER, "no rows at NULL");
        expect(now.report[0] == GW_REFUSE_BUFFER && is_zero(now.report + 1, GW_REPORT_SIZE - 1), "the report for no rows at NULL");
    }
}

/* The next length of the rows: every one for the first document, for the others those near the ends. */
static size_t next_rows(size_t rows, int all) {
    size_t near = GW_ROWS_SIZE - 40;
    return all || rows < 40 || rows >= near ? rows + 1 : rows + 997 < near ? rows + 997 : near;
}

static int run_buffers(void) {
    int calls = 0;
    size_t lengths[] = {sizeof small - 1, 0, 1, GW_MOST_TEXT, GW_MOST_TEXT + 1, TEXT_ROOM};
    static uint8_t text[TEXT_ROOM];
    memset(text, ' ', sizeof text);
    memcpy(text, small, sizeof small - 1);
    for (size_t l = 0; l < sizeof lengths / sizeof *lengths; l++)
        for (size_t report = 0; report <= GW_REPORT_SIZE + 4; report++)
            for (size_t rows = 0; rows <= GW_ROWS_SIZE + TAIL; rows = next_rows(rows, l == 0), calls++) {
                lend(text, lengths[l], rows, report, calls & 1);
                checked_call();
            }
    check_null(text);
    printf("harness: %d calls with buffers of other lengths, and NULL for no length, are right\n", calls);
    return 0;
}

/* ---- random documents */

static void add_text(struct corpus *c, const struct text *t) {
    c->texts = realloc(c->texts, (c->count + 1) * sizeof *c->texts);
    c->texts[c->count] = malloc(sizeof *t);
    *c->texts[c->count++] = *t;
}

static void read_corpus(struct corpus *c, int count, char **paths) {
    struct given *g = malloc(sizeof *g);
    g->rows = malloc(GW_ROWS_SIZE * 4);
    FILE *file = opened(paths[0]);
    while (read_case(file, g))
        add_text(c, &g->text);
    fclose(file);
    for (int i = 1; i < count; i++) {
        file = opened(paths[i]);
        g->text.length = fread(g->text.bytes, 1, GW_MOST_TEXT, file);
        add_text(c, &g->text);
        fclose(file);
    }
    free(g->rows);
    free(g);
}

static void free_corpus(struct corpus *c) {
    for (size_t i = 0; i < c->count; i++)
        free(c->texts[i]);
    free(c->texts);
}

static void print_case(const struct text *t) {
    uint32_t count = now.report[0] == GW_ACCEPTED ? now.report[1] * GW_ROW_SIZE : 0;
    print_hex(t->bytes, t->length);
    print_numbers(now.report, GW_REPORT_SIZE);
    print_numbers(&count, 1);
    print_numbers(now.rows, count);
    putchar('\n');
}

static void print_answer(const struct text *t) {
    lend(t->bytes, t->length, GW_ROWS_SIZE, GW_REPORT_SIZE, t->length & 1);
    checked_call();
    print_case(t);
}

static int run_sample(long count, const struct corpus *given) {
    static struct text t;
    random_start(SEED + 1);
    for (long i = 0; i < count; i++) {
        random_document(&t, given);
        print_answer(&t);
    }
    return 0;
}

static void print_seen(void) {
    static const int answers[] = {0, 3, 4, 5, 6, 8};
    printf("harness: answers");
    for (size_t i = 0; i < sizeof answers / sizeof *answers; i++) {
        printf(" %d: %" PRIu64, answers[i], seen_answers[answers[i]]);
        expect(seen_answers[answers[i]] > 0, "a refusal never came");
    }
    printf("\nharness: kinds");
    for (int k = GW_KIND_OPERATION; k <= GW_KIND_OBJECT; k++)
        if (k <= GW_KIND_OBJECT_FIELD || k >= GW_KIND_VARIABLE) {
            printf(" %d: %" PRIu64, k, seen_kinds[k]);
            expect(seen_kinds[k] > 0, "a kind never came");
        }
    printf("\n");
}

static int run_random(long count, const struct corpus *given) {
    static struct text t;
    long prefixes = 0, longs = 0;
    uint64_t bytes = 0;
    random_start(SEED);
    for (long i = 0; i < count; i++) {
        random_document(&t, given);
        size_t tail = i % 16 == 0 ? 1 + random_below(TAIL) : 0;
        lend(t.bytes, t.length, GW_ROWS_SIZE + tail, GW_REPORT_SIZE + tail, i & 1);
        uint32_t answer = checked_call();
        bytes += t.length;
        longs += t.length > GW_MOST_TEXT;
        if (answer > GW_REFUSE_OVER_LENGTH) {
            check_prefix(&t, now.report[1], i & 1);
            prefixes++;
        }
    }
    printf("harness: %ld random documents, %" PRIu64 " bytes, %ld of them over length; %ld beginnings of refused ones\n", count,
           bytes, longs, prefixes);
    print_seen();
    return 0;
}

int main(int argc, char **argv) {
    document_room = guard_map(TEXT_ROOM);
    rows_room = guard_map((GW_ROWS_SIZE + TAIL) * 4);
    report_room = guard_map((GW_REPORT_SIZE + TAIL) * 4);
    if (argc == 3 && strcmp(argv[1], "vectors") == 0)
        return run_vectors(argv[2]);
    if (argc == 2 && strcmp(argv[1], "buffers") == 0)
        return run_buffers();
    if (argc == 2 && strcmp(argv[1], "every") == 0) {
        every_document(print_answer);
        return 0;
    }
    if (argc < 4) {
        fprintf(stderr, "usage: harness vectors CASES | buffers | every | random COUNT CASES FILE.. | sample COUNT CASES FILE..\n");
        return 2;
    }
    struct corpus given = {NULL, 0};
    read_corpus(&given, argc - 3, argv + 3);
    long count = atol(argv[2]);
    int status = strcmp(argv[1], "sample") == 0 ? run_sample(count, &given) : run_random(count, &given);
    free_corpus(&given);
    return status;
}
