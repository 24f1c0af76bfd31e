/* Tests walk_variables: operations with variables made by chance, coerced by the core; each includes one field, and a walk must list just the
   fields of those that are true. Arguments: the type table, how many operations. */
#include "../../host/walk_variables.h"

#include <stdio.h>
#include <stdlib.h>
#include <string.h>

enum { GIVEN_TRUE, GIVEN_FALSE, GIVEN_NULL, DEFAULT_TRUE, DEFAULT_FALSE, FALSE_BEFORE_DEFAULT, NULL_BEFORE_DEFAULT, ABSENT, OTHER_TYPE, SORTS };

static const char *const defaults[SORTS] = {[DEFAULT_TRUE] = " = true", [DEFAULT_FALSE] = " = false", [FALSE_BEFORE_DEFAULT] = " = true",
                                            [NULL_BEFORE_DEFAULT] = " = true"};
static const char *const values[SORTS] = {[GIVEN_TRUE] = "true", [GIVEN_FALSE] = "false", [GIVEN_NULL] = "null", [FALSE_BEFORE_DEFAULT] = "false",
                                          [NULL_BEFORE_DEFAULT] = "null", [OTHER_TYPE] = "true"};

static uint8_t table[GW_MOST_TABLE], value[GW_MOST_COERCED];
static uint32_t rows[GW_ROWS_SIZE], plan[GW_PLAN_SIZE], pairs[GW_PAIRS_SIZE], report[GW_REPORT_SIZE];
static char document[GW_MOST_TEXT], variables[GW_MOST_TEXT];
static size_t table_length;

static void stop(const char *why) {
    printf("walk_variables: %s\n%s\n%s\n", why, document, variables);
    exit(1);
}

/* Two operations, so that the second one's variables do not begin at row 1; the variables text has other names too. */
static void write_texts(const int *sorts, int count) {
    char *d = document + sprintf(document, "query First($v0: Boolean = true) { a: __typename @include(if: $v0) }\nquery Second(");
    char *v = variables + sprintf(variables, "{ other: true");
    for (int i = count - 1; i >= 0; i--)
        if (values[sorts[i]])
            v += sprintf(v, ", v%d: %s", i, sorts[i] == OTHER_TYPE ? "[true]" : values[sorts[i]]);
    for (int i = 0; i < count; i++)
        d += sprintf(d, "$v%d: %s%s ", i, sorts[i] == OTHER_TYPE ? "[Boolean]" : "Boolean", defaults[sorts[i]] ? defaults[sorts[i]] : "");
    d += sprintf(d, ") { __typename");
    for (int i = 0; i < count; i++)
        if (sorts[i] != OTHER_TYPE)
            d += sprintf(d, " f%d: __typename @include(if: $v%d)", i, i);
    sprintf(d, " }");
    sprintf(v, " }");
}

static int is_true(int sort) {
    return sort == GIVEN_TRUE || sort == DEFAULT_TRUE;
}

/* The numbers of the fields that a walk lists, against those that are expected. */
static void check_pairs(const int *sorts, int count, uint32_t listed) {
    uint32_t next = 1;
    for (int i = 0; i < count; i++)
        if (is_true(sorts[i])) {
            const uint32_t *row = rows + GW_ROW_SIZE * pairs[GW_PAIR_SIZE * next + GW_PAIR_ROW];
            if (next >= listed || atoi(document + row[GW_ROW_START] + 1) != i)
                stop("a walk does not list what it must");
            next++;
        }
    if (next != listed)
        stop("a walk lists too much");
}

static void check(const int *sorts, int count, uint32_t root) {
    const uint8_t *d = (const uint8_t *)document, *v = (const uint8_t *)variables, *name = (const uint8_t *)"Second";
    size_t d_length, v_length;
    uint8_t bytes[GW_VARIABLES_SIZE];
    uint32_t operation = 0, blocks[] = {0};
    write_texts(sorts, count);
    d_length = strlen(document);
    v_length = strlen(variables);
    if (gw_check(table, table_length, d, d_length, rows, GW_ROWS_SIZE, report, GW_REPORT_SIZE) != GW_ACCEPTED)
        stop("a document is refused");
    uint32_t row_count = report[1];
    for (uint32_t i = 0; i < row_count; i++)
        if (rows[GW_ROW_SIZE * i + GW_ROW_KIND] == GW_KIND_OPERATION)
            operation = i;
    if (gw_plan(table, table_length, d, d_length, name, 6, plan, GW_PLAN_SIZE, report, GW_REPORT_SIZE) != GW_ACCEPTED)
        stop("there is no plan");
    if (gw_coerce_variables(table, table_length, d, d_length, name, 6, v, v_length, value, GW_MOST_COERCED, report, GW_REPORT_SIZE) != GW_ACCEPTED)
        stop("variables are refused");
    memset(bytes, 7, sizeof bytes);
    walk_variables(d, rows, row_count, operation, whole_value(value, report[1]), bytes);
    for (int i = 0; i < GW_VARIABLES_SIZE; i++)
        if (bytes[i] != (i < count && is_true(sorts[i])))
            stop("a byte is wrong");
    if (gw_walk(table, table_length, plan, GW_PLAN_SIZE, root, blocks, 1, bytes, GW_VARIABLES_SIZE, pairs, GW_PAIRS_SIZE, report, GW_REPORT_SIZE) !=
        GW_ACCEPTED)
        stop("a walk is refused");
    check_pairs(sorts, count, report[1]);
}

/* The number of the record that is called Query. */
static uint32_t root_of(void) {
    uint32_t number = 0;
    for (size_t at = 0; at < table_length; at += 3 + table[at + 1] * 256u + table[at + 2], number++)
        if (table[at] == GW_TAG_OBJECT && table[at + 5] == 5 && memcmp(table + at + 6, "Query", 5) == 0)
            return number;
    return GW_MOST_RECORDS;
}

int main(int argc, char **argv) {
    FILE *file = argc == 3 ? fopen(argv[1], "rb") : NULL;
    if (!file)
        return 2;
    table_length = fread(table, 1, sizeof table, file);
    fclose(file);
    int count = atoi(argv[2]);
    srand(1);
    for (int n = 0; n < count; n++) {
        int sorts[GW_MOST_VARIABLES], variables_count = 1 + rand() % GW_MOST_VARIABLES;
        for (int i = 0; i < variables_count; i++)
            sorts[i] = rand() % SORTS;
        check(sorts, variables_count, root_of());
    }
    printf("walk_variables: %d operations\n", count);
    return 0;
}
