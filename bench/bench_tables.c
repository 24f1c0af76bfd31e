/* Times gw_check_table beside a plain loop over the bytes of the table, in one run. CPU time, medians of batches.

     bench_tables FILE..      (bench/run builds it; the files are those of bench/inputs and of bench/tables.py)

   Of the realistic tables r_2k to r_32k, which come in order of their length, the last column is the growth from the one before, in
   bytes of the loop, so that a machine which changes its pace between the two does not show. What is beyond its aim is marked. */
#include "gateway.h"
#include "timing.h"

#include <inttypes.h>
#include <stdio.h>
#include <string.h>

/* The aims: times the byte loop of B and of a realistic table, growth when a realistic table doubles, time of any table. */
static const double MOST_TIMES_B = 25, MOST_TIMES_REAL = 40, MOST_GROWTH = 2.5, MOST_NS = 5e6;

static uint8_t table[GW_MOST_TABLE + 1];
static size_t length;
static uint32_t report[GW_REPORT_SIZE];

static void check(const void *of) {
    (void)of;
    gw_check_table(table, length, report, GW_REPORT_SIZE);
}

static void bytes(const void *of) {
    (void)of;
    byte_loop(table, length);
}

/* A line's marks; growth is 0 for none. */
static void print_marks(const char *name, double ns, double times, double growth) {
    if (ns > MOST_NS)
        printf("  past 5 ms");
    if (strcmp(name, "B.table") == 0 && times > MOST_TIMES_B)
        printf("  over %.0f times", MOST_TIMES_B);
    if (strncmp(name, "r_", 2) == 0 && times > MOST_TIMES_REAL)
        printf("  over %.0f times", MOST_TIMES_REAL);
    if (growth > MOST_GROWTH)
        printf("  grows by more than %.1f", MOST_GROWTH);
    printf("\n");
}

int main(int argc, char **argv) {
    double before = 0;
    printf("%-28s %6s %5s %10s %8s %9s %7s %7s\n", "table", "bytes", "says", "ns/call", "ns/byte", "loop ns", "times", "growth");
    for (int i = 1; i < argc; i++) {
        const char *name = file_name(argv[i]);
        length = read_file(argv[i], table, sizeof table);
        struct timed works[] = {{.work = check}, {.work = bytes}};
        measure(works, 2);
        check(NULL);
        double ns = works[0].ns, times = works[1].times, growth = 0;
        printf("%-28s %6zu %5" PRIu32 " %10.0f %8.2f %9.0f %7.2f", name, length, report[0], ns, ns / (double)length, works[1].ns, times);
        int real = strncmp(name, "r_", 2) == 0;
        if (real && before > 0) {
            growth = times * (double)length / before;
            printf(" %7.2f", growth);
        }
        before = real ? times * (double)length : 0;
        print_marks(name, ns, times, growth);
    }
    return 0;
}
