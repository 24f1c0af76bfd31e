/* Times gw_plan beside gw_check of the same table and document and gw_parse of the document; then gw_walk of block 0, of 64 blocks and of
   none beside gw_check_table of the same table, in one run. CPU time, medians of batches.

     bench_plan PEERS TABLE DOCUMENT|WALK [TABLE DOCUMENT|WALK]..      (bench/run builds it; bench/plans.py tells what a WALK is)

   PEERS has what the fastest of other libraries takes to collect the operation's own fields. Of a plan, `added` is what it takes beyond
   gw_check, `x read` how often it takes the time of reading the document. Of a walk, `test` is what no blocks take beyond
   gw_check_table, which is mostly the test of the plan, `added` what it takes beyond that; so the two together are the walk without the
   table's part. What is beyond its aim is marked. */
#include "gateway.h"
#include "../tests/plain_walk.h"
#include "timing.h"

#include <inttypes.h>
#include <stdio.h>
#include <stdlib.h>
#include <string.h>

/* The aims: time of any plan; what is added on ordinary input (a_, b_, c_), in readings of the document; nanoseconds a step, where there are
   so many that they count; and the time of grouping 512 pairs. */
static const double MOST_NS = 5e6, MOST_ADDED = 1, MOST_STEP_NS = 20, MOST_GROUPING_NS = 1e6;
enum { COUNTING_STEPS = 100, GROUPING_PAIRS = 64 };

static uint8_t table[GW_MOST_TABLE + 1], document[GW_MOST_TEXT + 1], variables[GW_VARIABLES_SIZE];
static size_t table_length, document_length, name_length, blocks_length;
static const uint8_t *name; /* of the document's first operation */
static uint32_t rows[GW_ROWS_SIZE], plan[GW_PLAN_SIZE], pairs[GW_PAIRS_SIZE], report[GW_REPORT_SIZE], blocks[GW_MOST_WALKED], object;

static void make_plan(const void *of) {
    (void)of;
    gw_plan(table, table_length, document, document_length, name, name_length, plan, GW_PLAN_SIZE, report, GW_REPORT_SIZE);
}

static void check(const void *of) {
    (void)of;
    gw_check(table, table_length, document, document_length, rows, GW_ROWS_SIZE, report, GW_REPORT_SIZE);
}

static void parse(const void *of) {
    (void)of;
    gw_parse(document, document_length, rows, GW_ROWS_SIZE, report, GW_REPORT_SIZE);
}

static void check_table(const void *of) {
    (void)of;
    gw_check_table(table, table_length, report, GW_REPORT_SIZE);
}

static void walk_of(size_t count) {
    gw_walk(table, table_length, plan, GW_PLAN_SIZE, object, blocks, count, variables, GW_VARIABLES_SIZE, pairs, GW_PAIRS_SIZE, report,
            GW_REPORT_SIZE);
}

static void walk(const void *of) {
    (void)of;
    walk_of(blocks_length);
}

static void walk_none(const void *of) {
    (void)of;
    walk_of(0);
}

/* ---- what is timed */

static int is_walk(const char *path) {
    const char *end = strrchr(path, '.');
    return end && strcmp(end, ".walk") == 0;
}

static void find_operation(void) {
    name_length = 0;
    parse(NULL);
    for (uint32_t i = 0; report[0] == GW_ACCEPTED && i < report[1]; i++)
        if (rows[GW_ROW_SIZE * i + GW_ROW_KIND] == GW_KIND_OPERATION) {
            name = document + rows[GW_ROW_SIZE * i + GW_ROW_NAME_START];
            name_length = rows[GW_ROW_SIZE * i + GW_ROW_NAME_LENGTH];
            return;
        }
}

static size_t length_at(size_t at) {
    return (size_t)table[at + 1] * 256 + table[at + 2];
}

/* The record of the query root, which an accepted table has. */
static uint32_t find_root(void) {
    const uint8_t *root = (const uint8_t *)"Query";
    size_t length = 5;
    uint32_t number = 0;
    for (size_t at = 0; at < table_length; at += 3 + length_at(at))
        if (table[at] == GW_TAG_ROOTS) {
            root = table + at + 6;
            length = length_at(at + 3);
        }
    for (size_t at = 0; at < table_length; at += 3 + length_at(at), number++)
        if (table[at] == GW_TAG_OBJECT && length_at(at + 3) == length && memcmp(table + at + 6, root, length) == 0)
            return number;
    return number;
}

static void read_walk(const char *path) {
    static uint32_t numbers[2 + GW_MOST_WALKED + GW_PLAN_SIZE];
    size_t read = read_file(path, (uint8_t *)numbers, sizeof numbers) / 4;
    blocks_length = numbers[1] <= GW_MOST_WALKED ? numbers[1] : GW_MOST_WALKED;
    if (read != 2 + blocks_length + GW_PLAN_SIZE) {
        fprintf(stderr, "%s is no walk\n", path);
        exit(2);
    }
    object = numbers[0];
    memcpy(blocks, numbers + 2, blocks_length * 4);
    memcpy(plan, numbers + 2 + blocks_length, sizeof plan);
}

/* The nanoseconds of the fastest peer; 0 for none. */
static double peer_of(const char *peers, const char *path) {
    char line[400], of[100];
    double us, found = 0;
    FILE *file = fopen(peers, "r");
    if (!file) {
        perror(peers);
        exit(2);
    }
    while (fgets(line, sizeof line, file))
        if (line[0] != '#' && sscanf(line, "%99s %lf", of, &us) == 2 && strncmp(of, path, strlen(of)) == 0 && path[strlen(of)] == '.')
            found = us * 1e3;
    fclose(file);
    return found;
}

/* ---- the lines */

static void print_plan(const char *path) {
    struct timed works[] = {{.work = make_plan}, {.work = check}, {.work = parse}};
    measure(works, 3);
    make_plan(NULL);
    double ns = works[0].ns, added = ns - works[1].ns, readings = added / works[2].ns;
    printf("%-22s %6zu %6zu %4" PRIu32 " %6" PRIu32 " %6" PRIu32 " %9.1f %8.1f %7.1f %8.1f %7.2f", path, table_length, document_length, report[0],
           report[0] == GW_ACCEPTED ? report[1] : 0, report[0] == GW_ACCEPTED ? report[2] : 0, ns / 1e3, works[1].ns / 1e3, works[2].ns / 1e3,
           added / 1e3, readings);
    if (ns > MOST_NS)
        printf("  past 5 ms");
    if (strchr("abc", path[0]) && readings > MOST_ADDED)
        printf("  more than a reading added");
    printf("\n");
}

static void print_walk(const char *path, double peer) {
    static struct due_walk due;
    struct timed works[] = {{.work = walk}, {.work = walk_none}, {.work = check_table}};
    struct asked_walk asked = {table, plan, blocks, variables, table_length, GW_PLAN_SIZE, blocks_length, GW_VARIABLES_SIZE, object};
    measure(works, 3);
    walk(NULL);
    plain_walk(&asked, &due);
    double ns = works[0].ns, added = ns - works[1].ns, a_step = due.steps ? added / (double)due.steps : 0;
    printf("%-22s %6zu %6zu %4" PRIu32 " %5" PRIu32 " %7" PRIu64 " %9.1f %8.1f %7.1f %8.1f %7.1f", path, table_length, blocks_length, report[0],
           report[0] == GW_ACCEPTED ? report[1] : 0, due.steps, ns / 1e3, works[2].ns / 1e3, (works[1].ns - works[2].ns) / 1e3, added / 1e3, a_step);
    if (peer > 0)
        printf(" %8.2f", peer / 1e3);
    if (due.steps >= COUNTING_STEPS && a_step > MOST_STEP_NS)
        printf("  past %.0f ns a step%s", MOST_STEP_NS, due.count >= GROUPING_PAIRS ? ", with grouping" : "");
    if (due.count == GW_MOST_PAIRS && added > MOST_GROUPING_NS)
        printf("  past 1 ms for 512 pairs");
    printf("\n");
}

static void print_walks(const char *path, double peer) {
    if (report[0] != GW_ACCEPTED)
        return;
    object = find_root();
    blocks_length = 1;
    blocks[0] = 0;
    print_walk(path, peer);
    for (blocks_length = 0; blocks_length < GW_MOST_WALKED; blocks_length++)
        blocks[blocks_length] = (uint32_t)blocks_length % plan[GW_PLAN_BLOCKS];
    print_walk(path, 0);
}

static void run(const char *peers, int of_walks, char **words) {
    const char *path = file_name(words[1]);
    table_length = read_file(words[0], table, sizeof table);
    if (is_walk(words[1])) {
        if (!of_walks)
            return;
        read_walk(words[1]);
        print_walk(path, 0);
        return;
    }
    document_length = read_file(words[1], document, sizeof document);
    find_operation();
    make_plan(NULL);
    if (of_walks)
        print_walks(path, peer_of(peers, path));
    else
        print_plan(path);
}

int main(int argc, char **argv) {
    if (argc < 2)
        return 2;
    for (size_t i = 0; i < sizeof variables; i++)
        variables[i] = i & 1;
    printf("%-22s %6s %6s %4s %6s %6s %9s %8s %7s %8s %7s\n", "plan", "table", "text", "says", "blocks", "steps", "us/call", "check us", "read us",
           "added us", "x read");
    for (int i = 2; i + 1 < argc; i += 2)
        run(argv[1], 0, argv + i);
    printf("\n%-22s %6s %6s %4s %5s %7s %9s %8s %7s %8s %7s %8s\n", "walk", "table", "blocks", "says", "pairs", "steps", "us/call", "table us",
           "test us", "added us", "ns/step", "peer us");
    for (int i = 2; i + 1 < argc; i += 2)
        run(argv[1], 1, argv + i);
    return 0;
}
