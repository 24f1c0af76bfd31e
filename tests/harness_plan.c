/* Runs gw_plan and gw_walk on given and random tables, documents, names, plans, types, blocks and variables and looks at every number they
   leave.

     harness_plan vectors CASES..         the cases of `plan_reader.py cases` or `plans.py`, compared in full
     harness_plan buffers                 short and long buffers and inputs, NULL for no length
     harness_plan random COUNT CASES..    so many plans that are changed or made by chance, beside those of changed documents, each walked
                                          at least once; each walk is compared with a plain walker
     harness_plan sample COUNT CASES..    prints so many changed documents, planned and walked for their object types, and now and then a
                                          changed plan, with the answers, for `plan_reader.py compare`

   The buffers lie between pages that trap. Ends with status 1 at the first thing that is wrong. */
#include "gateway.h"
#include "lines.h"
#include "plan_calls.h"
#include "random_tables.h"

#include <inttypes.h>
#include <stdio.h>
#include <stdlib.h>
#include <string.h>

enum { SEED = 2016, MOST_WALKS = 64, MOST_OBJECTS = 8 };

/* ---- the cases: lines of plan_reader.py */

static struct {
    int is_plan;
    uint8_t table[TABLE_ROOM], document[TEXT_ROOM], operation[NAME_ROOM];
    struct plan_inputs in;
    uint32_t plan[PLAN_ROOM], report[GW_REPORT_SIZE];
    uint32_t plan_len, walk_count;
    struct given_walk {
        struct ask ask;
        uint32_t report[GW_REPORT_SIZE], pairs[GW_PAIRS_SIZE];
    } walks[MOST_WALKS];
} given;

static uint32_t read_number(FILE *file) {
    uint32_t number;
    read_numbers(file, &number, 1);
    return number;
}

static void no_room(int there_is) {
    if (!there_is) {
        fprintf(stderr, "harness_plan: a case is too large\n");
        exit(2);
    }
}

static void read_plan(FILE *file) {
    memset(given.plan, 0, sizeof given.plan);
    for (uint32_t left = read_number(file); left > 0; left--) {
        uint32_t place = read_number(file);
        no_room(place < PLAN_ROOM);
        given.plan[place] = read_number(file);
    }
}

static void read_walk(FILE *file, struct given_walk *w) {
    w->ask.object = read_number(file);
    w->ask.blocks_len = read_number(file);
    no_room(w->ask.blocks_len <= MOST_ASKED);
    read_numbers(file, w->ask.blocks, w->ask.blocks_len);
    fgetc(file);
    w->ask.variables_len = read_hex(file, w->ask.variables, sizeof w->ask.variables);
    read_numbers(file, w->report, GW_REPORT_SIZE);
    uint32_t count = read_number(file);
    no_room(count <= GW_PAIRS_SIZE);
    memset(w->pairs, 0, sizeof w->pairs);
    read_numbers(file, w->pairs, count);
}

static int read_case(FILE *file) {
    char word[5] = "";
    if (!has_line(file))
        return 0;
    no_room(fread(word, 1, 4, file) == 4 && fgetc(file) == ' ');
    given.is_plan = strcmp(word, "plan") == 0;
    given.in.table = (struct some_bytes){read_hex(file, given.table, sizeof given.table), given.table};
    given.plan_len = GW_PLAN_SIZE;
    if (given.is_plan) {
        given.in.document = (struct some_bytes){read_hex(file, given.document, sizeof given.document), given.document};
        given.in.operation = (struct some_bytes){read_hex(file, given.operation, sizeof given.operation), given.operation};
        read_numbers(file, given.report, GW_REPORT_SIZE);
    } else {
        given.plan_len = read_number(file);
    }
    no_room(given.plan_len <= PLAN_ROOM);
    read_plan(file);
    given.walk_count = read_number(file);
    no_room(given.walk_count <= MOST_WALKS);
    for (uint32_t i = 0; i < given.walk_count; i++)
        read_walk(file, &given.walks[i]);
    read_end(file);
    return 1;
}

static void check_case(int high, size_t tail) {
    if (given.is_plan) {
        lend_plan(&given.in, GW_PLAN_SIZE + tail, GW_REPORT_SIZE + tail, high);
        checked_plan();
        expect(memcmp(now.report, given.report, sizeof given.report) == 0, "the report is not the case's");
        expect(given.report[0] == GW_REFUSE_OVER_LENGTH || memcmp(now.plan, given.plan, GW_PLAN_SIZE * 4) == 0, "the plan is not the case's");
    }
    for (uint32_t i = 0; i < given.walk_count; i++) {
        struct given_walk *w = &given.walks[i];
        lend_walk(given.in.table, given.plan, given.plan_len + (given.plan_len == GW_PLAN_SIZE ? tail : 0), &w->ask, GW_PAIRS_SIZE + tail,
                  GW_REPORT_SIZE + tail, high);
        checked_walk();
        expect(memcmp(now.report, w->report, sizeof w->report) == 0, "the report is not the case's");
        expect(w->report[0] == GW_REFUSE_OVER_LENGTH || memcmp(now.pairs, w->pairs, sizeof w->pairs) == 0, "the pairs are not the case's");
    }
}

static int run_vectors(int count, char **paths) {
    uint64_t plans = 0, walks = 0;
    for (int i = 0; i < count; i++) {
        FILE *file = opened(paths[i]);
        for (; read_case(file); plans += (uint64_t)given.is_plan, walks += given.walk_count)
            for (int high = 0; high < 2; high++)
                for (size_t tail = 0; tail <= TAIL; tail += TAIL)
                    check_case(high, tail);
        fclose(file);
    }
    printf("harness_plan: %" PRIu64 " plans and %" PRIu64 " walks, each in 4 placings, agree\n", plans, walks);
    return plans && walks ? 0 : 1;
}

/* ---- the given documents and plans */

static struct some_bytes kept(struct some_bytes some) {
    uint8_t *copy = malloc(some.length + 1);
    if (some.length)
        memcpy(copy, some.bytes, some.length);
    return (struct some_bytes){some.length, copy};
}

static struct {
    struct family **all;
    size_t count;
} families;

static const struct family *family_of(struct some_bytes table) {
    for (size_t i = 0; i < families.count; i++) {
        struct some_bytes one = families.all[i]->tables[0];
        if (one.length == table.length && memcmp(one.bytes, table.bytes, one.length) == 0)
            return families.all[i];
    }
    struct family *f = malloc(sizeof *f);
    f->tables[0] = kept(table);
    f->count = 1;
    families.all = realloc(families.all, (families.count + 1) * sizeof *families.all);
    return families.all[families.count++] = f;
}

/* Plans to walk that came without a document, each as far as it is not 0. */
struct given_plan {
    const struct family *family;
    uint32_t *numbers;
    size_t count;
};
static struct {
    struct given_plan *all;
    uint32_t count;
} given_plans;

static void keep_plan(void) {
    size_t count = GW_PLAN_SIZE;
    while (count && !given.plan[count - 1])
        count--;
    uint32_t *numbers = malloc(count * 4 + 4);
    memcpy(numbers, given.plan, count * 4);
    given_plans.all = realloc(given_plans.all, (given_plans.count + 1) * sizeof *given_plans.all);
    given_plans.all[given_plans.count++] = (struct given_plan){family_of(given.in.table), numbers, count};
}

static void read_cases(struct given_pairs *pairs, int count, char **paths) {
    for (int i = 0; i < count; i++) {
        FILE *file = opened(paths[i]);
        while (read_case(file))
            if (!given.is_plan) {
                keep_plan();
            } else if (given.report[0] != GW_REFUSE_OVER_LENGTH) {
                if ((pairs->count & (pairs->count - 1)) == 0) /* room for twice as many */
                    pairs->all = realloc(pairs->all, (2 * pairs->count + 1) * sizeof *pairs->all);
                pairs->all[pairs->count++] = (struct given_pair){family_of(given.in.table), kept(given.in.document)};
            }
        fclose(file);
    }
}

static void free_cases(struct given_pairs *pairs) {
    for (uint32_t i = 0; i < pairs->count; i++)
        free((void *)pairs->all[i].document.bytes);
    free(pairs->all);
    for (uint32_t i = 0; i < given_plans.count; i++)
        free(given_plans.all[i].numbers);
    free(given_plans.all);
    for (size_t i = 0; i < families.count; i++) {
        free((void *)families.all[i]->tables[0].bytes);
        free(families.all[i]);
    }
    free(families.all);
}

/* ---- random documents */

/* The name of an operation of the document, mostly; or none, or another one. */
static struct some_bytes any_operation(const struct text *document) {
    static uint32_t rows[GW_ROWS_SIZE];
    static const uint8_t other[] = "Op9";
    uint32_t report[GW_REPORT_SIZE], seen = 0;
    struct some_bytes found = {0, other};
    if (gw_parse(document->bytes, document->length, rows, GW_ROWS_SIZE, report, GW_REPORT_SIZE) != GW_ACCEPTED)
        return found;
    for (uint32_t i = 0; i < report[1]; i++) {
        const uint32_t *row = rows + GW_ROW_SIZE * i;
        if (row[GW_ROW_KIND] == GW_KIND_OPERATION && random_below(++seen) == 0)
            found = (struct some_bytes){row[GW_ROW_NAME_LENGTH], document->bytes + row[GW_ROW_NAME_START]};
    }
    if (seen == 1 && random_below(2))
        found.length = 0;
    return random_below(40) ? found : (struct some_bytes){random_below(4), other};
}

/* The next random document, mostly one that is accepted. */
static void next_document(struct pair *p, const struct given_pairs *pairs) {
    static uint32_t rows[GW_ROWS_SIZE];
    uint32_t report[GW_REPORT_SIZE];
    for (int tries = 0; tries < 8; tries++) {
        random_pair(p, pairs);
        uint32_t answer = gw_check(p->table.bytes, p->table.length, p->document.bytes, p->document.length, rows, GW_ROWS_SIZE, report,
                                   GW_REPORT_SIZE);
        if (random_below(8) == 0 || answer == GW_ACCEPTED)
            return;
    }
}

/* Plans the next random document; whether it is accepted. Its plan is in `plan`. */
static int plan_some(struct pair *p, struct some_bytes *operation, uint32_t *plan, const struct given_pairs *pairs, size_t tail, int high) {
    next_document(p, pairs);
    *operation = any_operation(&p->document);
    struct plan_inputs in = {p->table, {p->document.length, p->document.bytes}, *operation};
    lend_plan(&in, GW_PLAN_SIZE + tail, GW_REPORT_SIZE + tail, high);
    uint32_t answer = checked_plan();
    memcpy(plan, now.plan, GW_PLAN_SIZE * 4);
    return answer == GW_ACCEPTED;
}

static uint64_t plans_by_chance; /* how many were changed, or made */

static void make_some(uint32_t *plan, struct some_bytes table) {
    make_plan(plan, table);
    plans_by_chance++;
}

/* Some changes in a plan, mostly one. */
static void change_some(uint32_t *plan, struct some_bytes table) {
    plans_by_chance++;
    for (uint32_t changes = random_below(4) ? 1 : 1 + random_below(6); changes > 0; changes--)
        change_plan(plan, table);
}

/* ---- the runs */

static void walk_some(struct some_bytes table, const uint32_t *plan, long count) {
    struct ask a;
    for (long i = 0; i < count; i++) {
        size_t tail = random_below(16) ? 0 : 1 + random_below(TAIL);
        make_ask(&a, plan, table);
        lend_walk(table, plan, GW_PLAN_SIZE, &a, GW_PAIRS_SIZE + tail, GW_REPORT_SIZE + tail, seen.walks_done & 1);
        checked_walk();
    }
}

/* Walks of one plan, then one of each changed plan. */
static void walk_changed(struct some_bytes table, const uint32_t *plan, int changes) {
    static uint32_t changed[GW_PLAN_SIZE];
    walk_some(table, plan, 4);
    for (int i = 0; i < changes; i++) {
        memcpy(changed, plan, sizeof changed);
        change_some(changed, table);
        walk_some(table, changed, 1);
    }
}

static void given_plan_by(const struct given_plan *g, uint32_t *plan) {
    memset(plan, 0, GW_PLAN_SIZE * 4);
    memcpy(plan, g->numbers, g->count * 4);
}

/* A table that differs by a change, mostly refused. */
static void walk_by_changed_table(struct some_bytes from, const uint32_t *plan) {
    static struct table t;
    struct table *only[] = {&t};
    struct tables all = {only, 1};
    t.length = from.length;
    memcpy(t.bytes, from.bytes, from.length);
    change_table(&t, &all);
    walk_some((struct some_bytes){t.length, t.bytes}, plan, 2);
}

static void print_seen(void) {
    static const int plans[] = {0, 3, 4, 10, 12, 13}, walks[] = {0, 7, 9, 14, 15};
    printf("harness_plan: plans");
    for (size_t i = 0; i < sizeof plans / sizeof *plans; i++) {
        printf(" %d: %" PRIu64, plans[i], seen.plans[plans[i]]);
        expect(seen.plans[plans[i]] > 0, "an answer to a plan never came");
    }
    printf("\nharness_plan: walks");
    for (size_t i = 0; i < sizeof walks / sizeof *walks; i++) {
        printf(" %d: %" PRIu64, walks[i], seen.walks[walks[i]]);
        expect(seen.walks[walks[i]] > 0, "an answer to a walk never came");
    }
    printf("\nharness_plan: steps of plans");
    for (int kind = 1; kind <= GW_STEP_LIST; kind++) {
        printf(" %d: %" PRIu64, kind, seen.kinds[kind]);
        expect(seen.kinds[kind] > 0, "a kind of step never came");
    }
    printf("; at most %" PRIu32 "; %" PRIu64 " walked; at most %" PRIu32 " pairs\n", seen.most_steps, seen.steps_walked, seen.most_pairs);
}

static int run_random(uint64_t count, const struct given_pairs *pairs) {
    static struct pair p;
    static uint32_t plan[GW_PLAN_SIZE];
    struct some_bytes operation;
    random_start(SEED);
    while (plans_by_chance < count) {
        if (plan_some(&p, &operation, plan, pairs, random_below(16) ? 0 : 1 + random_below(TAIL), seen.walks_done & 1))
            walk_changed(p.table, plan, 24);
        make_some(plan, p.table);
        walk_changed(p.table, plan, 12);
        if (random_below(4) == 0)
            walk_by_changed_table(p.table, plan);
        if (given_plans.count) {
            const struct given_plan *g = &given_plans.all[random_below(given_plans.count)];
            given_plan_by(g, plan);
            walk_changed(g->family->tables[0], plan, 6);
        }
    }
    printf("harness_plan: %" PRIu64 " random documents planned, %" PRIu64 " plans changed or made by chance, %" PRIu64 " walks, of %zu tables\n",
           seen.plans_done, plans_by_chance, seen.walks_done, families.count);
    print_seen();
    return 0;
}

static void print_plan(const uint32_t *plan) {
    uint32_t used = 0;
    for (uint32_t i = 0; i < GW_PLAN_SIZE; i++)
        used += plan[i] != 0;
    printf(" %" PRIu32, used);
    for (uint32_t i = 0; i < GW_PLAN_SIZE; i++)
        if (plan[i])
            printf(" %" PRIu32 " %" PRIu32, i, plan[i]);
}

static void print_walk(const struct ask *a) {
    uint32_t pairs = now.report[0] == GW_ACCEPTED ? GW_PAIR_SIZE * now.report[1] : 0;
    printf(" %" PRIu32 " %zu", a->object, a->blocks_len);
    print_numbers(a->blocks, a->blocks_len);
    putchar(' ');
    print_hex(a->variables, a->variables_len);
    print_numbers(now.report, GW_REPORT_SIZE);
    printf(" %" PRIu32, pairs);
    print_numbers(now.pairs, pairs);
}

/* Walks and prints them: for object types one after another, all of them where there are few. */
static void print_walks(struct some_bytes table, const uint32_t *plan, uint32_t count) {
    struct ask a;
    uint32_t from = random_below(GW_MOST_RECORDS);
    printf(" %" PRIu32, count);
    for (uint32_t i = 0; i < count; i++) {
        make_ask(&a, plan, table);
        if (random_below(12))
            a.object = nth_object(table, from + i);
        lend_walk(table, plan, GW_PLAN_SIZE, &a, GW_PAIRS_SIZE, GW_REPORT_SIZE, (int)(i & 1));
        checked_walk();
        print_walk(&a);
    }
    putchar('\n');
}

static void print_document(const struct pair *p, struct some_bytes operation) {
    printf("plan ");
    print_hex(p->table.bytes, p->table.length);
    putchar(' ');
    print_hex(p->document.bytes, p->document.length);
    putchar(' ');
    print_hex(operation.bytes, operation.length);
    print_numbers(now.report, GW_REPORT_SIZE);
    print_plan(now.report[0] == GW_ACCEPTED ? now.plan : (const uint32_t[GW_PLAN_SIZE]){0});
}

/* How many walks tell an operation's plan for each object type. */
static uint32_t walks_for(struct some_bytes table) {
    uint32_t objects = 0, first = nth_object(table, 0);
    do
        objects++;
    while (objects < MOST_OBJECTS && nth_object(table, objects) != first);
    return objects < 3 ? 3 : objects;
}

static int run_sample(long count, const struct given_pairs *pairs) {
    static struct pair p;
    static uint32_t plan[GW_PLAN_SIZE];
    struct some_bytes operation;
    random_start(SEED + 1);
    for (long i = 0; i < count; i++) {
        int accepted = plan_some(&p, &operation, plan, pairs, 0, i & 1);
        print_document(&p, operation);
        if (!accepted) {
            puts(" 0");
            continue;
        }
        print_walks(p.table, plan, walks_for(p.table));
        if (i % 4)
            continue;
        if (i % 8 == 0)
            make_some(plan, p.table);
        change_some(plan, p.table);
        printf("walk ");
        print_hex(p.table.bytes, p.table.length);
        printf(" %d", GW_PLAN_SIZE);
        print_plan(plan);
        print_walks(p.table, plan, 3);
    }
    return 0;
}

int main(int argc, char **argv) {
    map_rooms();
    if (argc >= 3 && strcmp(argv[1], "vectors") == 0)
        return run_vectors(argc - 2, argv + 2);
    if (argc == 2 && strcmp(argv[1], "buffers") == 0)
        return run_plan_buffers();
    if (argc < 4 || (strcmp(argv[1], "random") != 0 && strcmp(argv[1], "sample") != 0)) {
        fprintf(stderr, "usage: harness_plan vectors CASES.. | buffers | random COUNT CASES.. | sample COUNT CASES..\n");
        return 2;
    }
    struct given_pairs pairs = {NULL, 0};
    read_cases(&pairs, argc - 3, argv + 3);
    long count = atol(argv[2]);
    int status = strcmp(argv[1], "sample") == 0 ? run_sample(count, &pairs) : run_random((uint64_t)count, &pairs);
    free_cases(&pairs);
    return status;
}
