/* The commands that read documents and judge them and type tables. */
#include "commands.h"

#include "json.h"
#include "pieces.h"
#include "show.h"
#include "tell.h"

#include <inttypes.h>
#include <limits.h>
#include <stdio.h>

/* One byte more than a text or table may have: the library refuses what is longer. */
static uint8_t document_bytes[GW_MOST_TEXT + 1], table_bytes[GW_MOST_TABLE + 1];
static uint32_t rows[GW_ROWS_SIZE];

/* ---- parse */

static void json_row(const struct text *text, const uint32_t *row, const struct place *place) {
    json_open('{');
    json_key("kind"), json_number(row[GW_ROW_KIND]);
    json_key("what"), json_text(kind_words(row[GW_ROW_KIND]));
    json_key("start"), json_number(row[GW_ROW_START]);
    json_key("end"), json_number(row[GW_ROW_END]);
    json_key("line"), json_number(place->line);
    json_key("column"), json_number(place->column);
    json_key("parent");
    if (row[GW_ROW_PARENT] == GW_NO_PARENT)
        json_nothing();
    else
        json_number(row[GW_ROW_PARENT]);
    if (row[GW_ROW_NAME_LENGTH])
        json_key("name"), json_bytes(text->bytes + row[GW_ROW_NAME_START], row[GW_ROW_NAME_LENGTH]);
    json_key("extra"), json_number(row[GW_ROW_EXTRA]);
    json_close('}');
}

static void json_rows(const struct text *text, uint32_t count) {
    size_t at;
    struct place place = first_place(text, &at);
    json_begin(text->called, 1);
    json_key("rows");
    json_open('[');
    for (uint32_t i = 0; i < count; i++) {
        go_to(text, &at, &place, rows[GW_ROW_SIZE * i + GW_ROW_START]);
        json_row(text, rows + GW_ROW_SIZE * i, &place);
    }
    json_close(']');
    json_finish();
}

static int parse(const char *path, int json) {
    struct input document;
    uint32_t report[GW_REPORT_SIZE];
    if (!read_input(path, document_bytes, sizeof document_bytes, json, &document))
        return TROUBLE;
    struct job job = {.document = &document, .json = json};
    set_given(&job);
    if (gw_parse(document.text.bytes, document.text.length, rows, GW_ROWS_SIZE, report, GW_REPORT_SIZE) != GW_ACCEPTED)
        return refuse(&job, report);
    if (json)
        json_rows(&document.text, report[1]);
    else
        show_rows(&document.text, rows, report[1]);
    return ACCEPTED;
}

int run_parse(char **words, const char *usage) {
    const char *json = NULL;
    const struct option options[] = {{"--json", 0, &json}, {NULL, 0, NULL}};
    int status = ACCEPTED;
    if (!take_options(words, options, 1, INT_MAX, usage) || is_standard_twice(words, NULL))
        return TROUBLE;
    for (; *words; words++)
        status = worse(status, parse(*words, json != NULL));
    return status;
}

/* ---- check-table */

/* How many records of each kind a table has, by their tags; in [0] how many in all. */
static void count_records(const struct text *t, uint32_t counts[GW_TAG_ROOTS + 1]) {
    for (size_t at = 0; at < t->length;) {
        struct piece p = piece_at(t, at, t->length);
        if (!is_record(p.tag))
            return;
        counts[p.tag]++;
        counts[0]++;
        at = p.end;
    }
}

static void show_table(const struct text *t) {
    uint32_t counts[GW_TAG_ROOTS + 1] = {0};
    count_records(t, counts);
    printf("%s: accepted, ", t->called);
    show_number(counts[0], "record");
    for (int tag = GW_TAG_SCALAR; tag < GW_TAG_ROOTS; tag++)
        if (counts[tag]) {
            printf(", ");
            show_number(counts[tag], tag_words(tag));
        }
    printf("%s\n", counts[GW_TAG_ROOTS] ? ", roots" : "");
}

static void json_table(const struct text *t) {
    uint32_t counts[GW_TAG_ROOTS + 1] = {0};
    count_records(t, counts);
    json_begin(t->called, 1);
    json_key("records"), json_number(counts[0]);
    for (int tag = GW_TAG_SCALAR; tag <= GW_TAG_ROOTS; tag++)
        json_key(tag_words(tag)), json_number(counts[tag]);
    json_finish();
}

static int check_table(const char *path, int json) {
    struct input table;
    uint32_t report[GW_REPORT_SIZE];
    if (!read_input(path, table_bytes, sizeof table_bytes, json, &table))
        return TROUBLE;
    struct job job = {.table = &table, .json = json};
    set_given(&job);
    if (gw_check_table(table.text.bytes, table.text.length, report, GW_REPORT_SIZE) != GW_ACCEPTED)
        return refuse(&job, report);
    if (json)
        json_table(&table.text);
    else
        show_table(&table.text);
    return ACCEPTED;
}

int run_check_table(char **words, const char *usage) {
    const char *json = NULL;
    const struct option options[] = {{"--json", 0, &json}, {NULL, 0, NULL}};
    int status = ACCEPTED;
    if (!take_options(words, options, 1, INT_MAX, usage) || is_standard_twice(words, NULL))
        return TROUBLE;
    for (; *words; words++)
        status = worse(status, check_table(*words, json != NULL));
    return status;
}

/* ---- check */

static void tell_checked(const struct job *job, uint32_t count) {
    const char *document = job->document->text.called, *table = job->table->text.called;
    if (!job->json) {
        printf("%s: accepted by %s, %" PRIu32 " rows\n", document, table, count);
        return;
    }
    json_begin(document, 1);
    json_key("table"), json_text(table);
    json_key("rows"), json_number(count);
    json_finish();
}

static int check(const struct input *table, const char *path, int json) {
    struct input document;
    uint32_t report[GW_REPORT_SIZE];
    if (!read_input(path, document_bytes, sizeof document_bytes, json, &document))
        return TROUBLE;
    struct job job = {.table = table, .document = &document, .json = json};
    set_given(&job);
    if (gw_check(table->text.bytes, table->text.length, document.text.bytes, document.text.length, rows, GW_ROWS_SIZE, report,
                 GW_REPORT_SIZE) != GW_ACCEPTED)
        return refuse(&job, report);
    tell_checked(&job, report[1]);
    return ACCEPTED;
}

int run_check(char **words, const char *usage) {
    const char *json = NULL;
    const struct option options[] = {{"--json", 0, &json}, {NULL, 0, NULL}};
    struct input table;
    int status = ACCEPTED;
    if (!take_options(words, options, 2, INT_MAX, usage) || is_standard_twice(words, NULL) ||
        !read_input(words[0], table_bytes, sizeof table_bytes, json != NULL, &table))
        return TROUBLE;
    for (words++; *words && status != REFUSED_TABLE; words++) /* a bad table is told once */
        status = worse(status, check(&table, *words, json != NULL));
    return status;
}
