/* Times gw_coerce_variables and gw_coerce_arguments beside gw_check of the same table and document and gw_parse of the variables text as
   an argument, in one run. CPU time, medians of batches.

     bench_coerce TABLE DOCUMENT VARIABLES ROW [TABLE DOCUMENT VARIABLES ROW]..      (bench/run builds it; ROW - is the variables' call)

   `added` is what coercing takes beyond gw_check, `x read` how often it takes the time of reading the variables text. What is beyond its
   aim is marked. */
#include "gateway.h"
#include "timing.h"

#include <inttypes.h>
#include <stdio.h>
#include <stdlib.h>
#include <string.h>

/* The aims: time of any call, and what is added on ordinary input (c_ordinary), in readings of the variables text. */
static const double MOST_NS = 5e6, MOST_ADDED = 2;

static uint8_t table[GW_MOST_TABLE + 1], document[GW_MOST_TEXT + 1], variables[GW_MOST_TEXT + 1], argument[GW_MOST_TEXT + 1];
static size_t table_length, document_length, variables_length, argument_length;
static int of_arguments;
static uint32_t row;
static uint8_t value[GW_MOST_COERCED];
static uint32_t rows[GW_ROWS_SIZE], report[GW_REPORT_SIZE];

static void coerce(const void *of) {
    (void)of;
    if (of_arguments)
        gw_coerce_arguments(table, table_length, document, document_length, NULL, 0, variables, variables_length, row, value, GW_MOST_COERCED,
                            report, GW_REPORT_SIZE);
    else
        gw_coerce_variables(table, table_length, document, document_length, NULL, 0, variables, variables_length, value, GW_MOST_COERCED,
                            report, GW_REPORT_SIZE);
}

static void check(const void *of) {
    (void)of;
    gw_check(table, table_length, document, document_length, rows, GW_ROWS_SIZE, report, GW_REPORT_SIZE);
}

static void parse(const void *of) {
    (void)of;
    gw_parse(argument, argument_length, rows, GW_ROWS_SIZE, report, GW_REPORT_SIZE);
}

/* The variables text as an argument of a document. */
static void make_argument(void) {
    static const char before[] = "{a(x:", behind[] = ")}";
    size_t n = sizeof before - 1;
    argument_length = 0;
    if (n + variables_length + 2 > GW_MOST_TEXT)
        return;
    memcpy(argument, before, n);
    memcpy(argument + n, variables, variables_length);
    memcpy(argument + n + variables_length, behind, 2);
    argument_length = n + variables_length + 2;
}

static void print_call(char **words) {
    char name[100];
    table_length = read_file(words[0], table, sizeof table);
    document_length = read_file(words[1], document, sizeof document);
    variables_length = read_file(words[2], variables, sizeof variables);
    of_arguments = strcmp(words[3], "-") != 0;
    row = (uint32_t)strtoul(words[3], NULL, 10);
    make_argument();
    snprintf(name, sizeof name, "%.*s", (int)strcspn(file_name(words[2]), "."), file_name(words[2]));
    struct timed works[] = {{.work = coerce}, {.work = check}, {.work = parse}};
    measure(works, 3);
    parse(NULL);
    uint32_t read = report[0];
    coerce(NULL);
    double ns = works[0].ns, added = ns - works[1].ns, readings = added / works[2].ns;
    printf("%-26s %-9s %6zu %6zu %4" PRIu32 " %5" PRIu32 " %9.1f %8.1f %7.1f %8.1f %7.2f", name, of_arguments ? "arguments" : "variables",
           document_length, variables_length, report[0], report[0] == GW_ACCEPTED ? report[1] : 0, ns / 1e3, works[1].ns / 1e3, works[2].ns / 1e3,
           added / 1e3, readings);
    if (read != GW_ACCEPTED)
        printf("  (not read as an argument)");
    if (ns > MOST_NS)
        printf("  past 5 ms");
    if (strcmp(name, "c_ordinary") == 0 && readings > MOST_ADDED)
        printf("  more than %.0f readings added", MOST_ADDED);
    printf("\n");
}

int main(int argc, char **argv) {
    printf("%-26s %-9s %6s %6s %4s %5s %9s %8s %7s %8s %7s\n", "coercion", "of", "text", "vars", "says", "bytes", "us/call", "check us",
           "read us", "added us", "x read");
    for (int i = 1; i + 3 < argc; i += 4)
        print_call(argv + i);
    return 0;
}
