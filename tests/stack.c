/* How much stack a call takes: it runs on a stack of its own that was painted, and the paint that is gone is counted, on
   deep documents and on the documents, tables and variables texts of the files. It must not be more than the header says.

     stack FILE..      FILE.table is given to gw_check_table, FILE.variables kept, any other given to gw_parse and, by the table before
                       it, to gw_check and gw_plan, whose plan is given to gw_walk; a row in a file's place (or -) has the last three given to gw_coerce_arguments (or _variables) */
#define _GNU_SOURCE
#include "gateway.h"

#include <stdint.h>
#include <stdio.h>
#include <stdlib.h>
#include <string.h>
#include <ucontext.h>

enum { STACK = 512 * 1024, PAINT = 0x5A };

static uint8_t stack[STACK] __attribute__((aligned(64)));
static uint8_t document[GW_MOST_TEXT], table[GW_MOST_TABLE], variables[GW_MOST_TEXT], value[GW_MOST_COERCED];
static size_t length, table_length, variables_length;
static uint32_t rows[GW_ROWS_SIZE], report[GW_REPORT_SIZE], plan[GW_PLAN_SIZE], pairs[GW_PAIRS_SIZE], row;
static ucontext_t here, there;

static void parse(void) {
    gw_parse(document, length, rows, GW_ROWS_SIZE, report, GW_REPORT_SIZE);
}

static void check_table(void) {
    gw_check_table(table, table_length, report, GW_REPORT_SIZE);
}

static void check(void) {
    gw_check(table, table_length, document, length, rows, GW_ROWS_SIZE, report, GW_REPORT_SIZE);
}

static void coerce_variables(void) {
    gw_coerce_variables(table, table_length, document, length, NULL, 0, variables, variables_length, value, GW_MOST_COERCED, report, GW_REPORT_SIZE);
}

static void coerce_arguments(void) {
    gw_coerce_arguments(table, table_length, document, length, NULL, 0, variables, variables_length, row, value, GW_MOST_COERCED, report,
                        GW_REPORT_SIZE);
}

static void make_plan(void) {
    gw_plan(table, table_length, document, length, NULL, 0, plan, GW_PLAN_SIZE, report, GW_REPORT_SIZE);
}

/* 64 blocks, as many as there are one after another, for the first object of the table. */
static void walk(void) {
    static const uint8_t truths[GW_VARIABLES_SIZE];
    uint32_t blocks[GW_MOST_WALKED], object = 0;
    for (uint32_t i = 0; i < GW_MOST_WALKED; i++)
        blocks[i] = plan[GW_PLAN_BLOCKS] ? i % plan[GW_PLAN_BLOCKS] : 0;
    for (size_t at = 0; at + 3 <= table_length && table[at] != GW_TAG_OBJECT; object++)
        at += 3 + (size_t)table[at + 1] * 256 + table[at + 2];
    gw_walk(table, table_length, plan, GW_PLAN_SIZE, object, blocks, GW_MOST_WALKED, truths, GW_VARIABLES_SIZE, pairs, GW_PAIRS_SIZE, report,
            GW_REPORT_SIZE);
}

static void nothing(void) {
}

/* The bytes of the painted stack that a function's run has changed. */
static size_t used_by(void (*f)(void)) {
    size_t clean = 0;
    memset(stack, PAINT, sizeof stack);
    getcontext(&there);
    there.uc_stack.ss_sp = stack;
    there.uc_stack.ss_size = sizeof stack;
    there.uc_link = &here;
    makecontext(&there, f, 0);
    swapcontext(&here, &there);
    while (clean < sizeof stack && stack[clean] == PAINT)
        clean++;
    return sizeof stack - clean;
}

static size_t stack_of(void (*call)(void)) {
    size_t with = used_by(call), without = used_by(nothing);
    return with > without ? with - without : 0;
}

static size_t most_parse, most_check_table, most_check, most_coerce_variables, most_coerce_arguments, most_plan, most_walk;

static void note(size_t *most, void (*call)(void)) {
    size_t taken = stack_of(call);
    if (taken > *most)
        *most = taken;
}

static void note_document(void) {
    note(&most_parse, parse);
    note(&most_check, check);
    note(&most_plan, make_plan);
    note(&most_walk, walk);
}

static void put(const char *s, int times) {
    for (size_t n = strlen(s); times-- > 0 && length + n <= sizeof document; length += n)
        memcpy(document + length, s, n);
}

/* Selection sets, then values: 32 levels in all. */
static void note_deep(const char *set, int sets, const char *value, int values) {
    length = 0;
    put("query Q($v:[[[[[T!]]]]]=[1])@d{", 1);
    put(set, sets);
    put("a@d(x:", 1);
    put(value, values);
    put("1", 1);
    note_document();
}

/* A default value of 31 levels, in the parentheses of the variables. */
static void note_deep_default(const char *value) {
    length = 0;
    put("query Q($v:T=", 1);
    put(value, 31);
    note_document();
}

static void note_deep_ones(void) {
    static const char *const sets[] = {"a:b(x:1)@d{", "...on T@d(x:1){"}, *const values[] = {"[", "{y:"};
    for (int v = 0; v < 2; v++) {
        note_deep_default(values[v]);
        for (int s = 0; s < 2; s++)
            for (int n = 0; n <= 30; n++)
                note_deep(sets[s], n, values[v], 30 - n);
    }
}

/* Fragments one in the other, as many as there may be, each so many inline fragments deep: as many levels as a plan goes. */
static void note_deep_fragments(void) {
    enum { FRAGMENTS = 64, INLINE = 28 };
    char text[32];
    length = 0;
    put("{...F0}", 1);
    for (int f = 0; f < FRAGMENTS; f++) {
        snprintf(text, sizeof text, "fragment F%d on Query{", f);
        put(text, 1);
        put("...{", INLINE);
        if (f + 1 < FRAGMENTS)
            snprintf(text, sizeof text, "...F%d", f + 1);
        else
            snprintf(text, sizeof text, "a");
        put(text, 1);
        put("}", INLINE + 1);
    }
    note_document();
}

static size_t read_file(const char *path, uint8_t *room, size_t size) {
    FILE *file = fopen(path, "rb");
    if (!file) {
        perror(path);
        exit(2);
    }
    size_t n = fread(room, 1, size, file);
    fclose(file);
    return n;
}

static int ends_with(const char *path, const char *ending) {
    const char *end = strrchr(path, '.');
    return end && strcmp(end, ending) == 0;
}

static int is_row(const char *word) {
    return strcmp(word, "-") == 0 || word[strspn(word, "0123456789")] == 0;
}

static void note_coercion(const char *word) {
    row = (uint32_t)strtoul(word, NULL, 10);
    if (word[0] == '-')
        note(&most_coerce_variables, coerce_variables);
    else
        note(&most_coerce_arguments, coerce_arguments);
}

static void note_file(const char *path) {
    if (ends_with(path, ".table")) {
        table_length = read_file(path, table, sizeof table);
        note(&most_check_table, check_table);
    } else if (ends_with(path, ".variables")) {
        variables_length = read_file(path, variables, sizeof variables);
    } else {
        length = read_file(path, document, sizeof document);
        note_document();
    }
}

static int told(const char *call, size_t most, size_t said) {
    printf("stack: %s takes at most %zu bytes; the header says %zu\n", call, most, said);
    return most <= said;
}

/* type Query { a: Int } */
static const uint8_t small_table[] = "\x02\x00\x15\x10\x00\x05Query\x12\x00\x0a\x10\x00\x01"
                                     "a\x14\x00\x03Int";

int main(int argc, char **argv) {
    table_length = sizeof small_table - 1;
    memcpy(table, small_table, table_length);
    note(&most_check_table, check_table);
    note_deep_ones();
    note_deep_fragments();
    for (int i = 1; i < argc; i++)
        if (is_row(argv[i]))
            note_coercion(argv[i]);
        else
            note_file(argv[i]);
    int right = told("gw_parse", most_parse, GW_PARSE_STACK);
    right &= told("gw_check_table", most_check_table, GW_CHECK_TABLE_STACK);
    right &= told("gw_check", most_check, GW_CHECK_STACK);
    right &= told("gw_coerce_variables", most_coerce_variables, GW_COERCE_VARIABLES_STACK);
    right &= told("gw_coerce_arguments", most_coerce_arguments, GW_COERCE_ARGUMENTS_STACK);
    right &= told("gw_plan", most_plan, GW_PLAN_STACK);
    right &= told("gw_walk", most_walk, GW_WALK_STACK);
    return right ? 0 : 1;
}
