/* Times gw_check beside gw_check_table and gw_parse alone and a plain class-table loop over the document, in one run. CPU time, medians
   of batches.

     bench_checks PEERS TABLE DOCUMENT [TABLE DOCUMENT]..      (bench/run builds it)

   PEERS has what the fastest of other libraries takes on a document. What is beyond its aim is marked. */
#include "gateway.h"
#include "timing.h"

#include <inttypes.h>
#include <stdio.h>
#include <stdlib.h>
#include <string.h>

/* The aims: time of any document, and how often the fastest peer takes our time on an ordinary document (a_, b_, c_). */
static const double MOST_NS = 5e6, LEAST_FASTER = 5;

static uint8_t table[GW_MOST_TABLE + 1], document[GW_MOST_TEXT + 1];
static size_t table_length, document_length;
static uint32_t rows[GW_ROWS_SIZE], report[GW_REPORT_SIZE];

static void check(const void *of) {
    (void)of;
    gw_check(table, table_length, document, document_length, rows, GW_ROWS_SIZE, report, GW_REPORT_SIZE);
}

static void check_table(const void *of) {
    (void)of;
    gw_check_table(table, table_length, report, GW_REPORT_SIZE);
}

static void parse(const void *of) {
    (void)of;
    gw_parse(document, document_length, rows, GW_ROWS_SIZE, report, GW_REPORT_SIZE);
}

static void classes(const void *of) {
    (void)of;
    class_loop(document, document_length);
}

/* The nanoseconds of the fastest peer; 0 for none. */
static double peer_of(const char *peers, const char *name) {
    char line[400], of[100];
    double us, found = 0;
    FILE *file = fopen(peers, "r");
    if (!file) {
        perror(peers);
        exit(2);
    }
    while (fgets(line, sizeof line, file))
        if (line[0] != '#' && sscanf(line, "%99s %lf", of, &us) == 2 && strncmp(of, name, strlen(of)) == 0 && name[strlen(of)] == '.')
            found = us * 1e3;
    fclose(file);
    return found;
}

static void print_pair(const char *peers, const char *table_path, const char *path) {
    const char *name = file_name(path);
    table_length = read_file(table_path, table, sizeof table);
    document_length = read_file(path, document, sizeof document);
    struct timed works[] = {{.work = check}, {.work = check_table}, {.work = parse}, {.work = classes}};
    measure(works, 4);
    parse(NULL);
    uint32_t count = report[0] == GW_ACCEPTED ? report[1] : 0;
    check(NULL);
    double ns = works[0].ns, peer = peer_of(peers, name);
    printf("%-27s %6zu %6zu %5" PRIu32 " %4" PRIu32 " %3" PRIu32 " %9.1f %8.1f %7.1f %8.1f %7.2f %7.2f", name, table_length, document_length, count,
           report[0], report[0] == GW_REFUSE_QUERY ? report[2] : 0, ns / 1e3, works[1].ns / 1e3, works[2].ns / 1e3,
           (ns - works[1].ns - works[2].ns) / 1e3, works[2].times, works[3].times);
    if (peer > 0)
        printf(" %9.1f %7.1f", peer / 1e3, peer / ns);
    if (ns > MOST_NS)
        printf("  past 5 ms");
    if (strchr("abc", name[0]) && peer > 0 && peer < LEAST_FASTER * ns)
        printf("  not %.0f times faster", LEAST_FASTER);
    printf("\n");
}

int main(int argc, char **argv) {
    printf("%-27s %6s %6s %5s %4s %3s %9s %8s %7s %8s %7s %7s %9s %7s\n", "document", "table", "bytes", "rows", "says", "", "us/call", "table us",
           "read us", "rules us", "x read", "x class", "peer us", "faster");
    for (int i = 2; i + 1 < argc; i += 2)
        print_pair(argv[1], argv[i], argv[i + 1]);
    return 0;
}
