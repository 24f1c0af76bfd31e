/* The command that coerces variables and arguments. */
#include "commands.h"

#include "json.h"
#include "show.h"
#include "show_value.h"

#include <inttypes.h>
#include <stdio.h>
#include <string.h>

/* One byte more than a text or table may have: the library refuses what is longer. */
static uint8_t document_bytes[GW_MOST_TEXT + 1], variables_bytes[GW_MOST_TEXT + 1], table_bytes[GW_MOST_TABLE + 1];
static uint8_t value[GW_MOST_COERCED];

static uint32_t coerce(const struct job *job, uint32_t *report) {
    const struct text *table = &job->table->text, *document = &job->document->text, *variables = &job->variables->text;
    const struct gw_given *g = &job->given;
    if (g->of_arguments)
        return gw_coerce_arguments(table->bytes, table->length, document->bytes, document->length, g->operation, g->operation_len,
                                   variables->bytes, variables->length, g->row, value, GW_MOST_COERCED, report, GW_REPORT_SIZE);
    return gw_coerce_variables(table->bytes, table->length, document->bytes, document->length, g->operation, g->operation_len, variables->bytes,
                               variables->length, value, GW_MOST_COERCED, report, GW_REPORT_SIZE);
}

static void tell_coerced(const struct job *job, uint32_t length) {
    const char *document = job->document->text.called, *table = job->table->text.called;
    if (!job->json) {
        show_value(value, length);
        printf("%s: %s coerced by %s, %" PRIu32 " bytes\n", document, job->given.of_arguments ? "arguments" : "variables", table, length);
        return;
    }
    json_begin(document, 1);
    json_key("table"), json_text(table);
    json_key("bytes"), json_number(length);
    json_key("value"), json_value(value, length);
    json_finish();
}

static int run_coercion(struct job *job) {
    uint32_t report[GW_REPORT_SIZE];
    set_given(job);
    if (coerce(job, report) != GW_ACCEPTED)
        return refuse(job, report);
    tell_coerced(job, report[1]);
    return ACCEPTED;
}

int run_coerce(char **words, const char *usage) {
    const char *operation = NULL, *path = NULL, *row = NULL, *json = NULL;
    const struct option options[] = {{"--operation", 1, &operation}, {"--variables", 1, &path}, {"--row", 1, &row}, {"--json", 0, &json}, {NULL, 0, NULL}};
    struct input table, document, variables = {{"no variables", (const uint8_t *)"{}", 2}, 2};
    struct job job = {.table = &table, .document = &document, .variables = &variables};
    if (!take_options(words, options, 2, 2, usage) || (row && !read_count(row, "row", &job.given.row)) || is_standard_twice(words, path))
        return TROUBLE;
    job.json = json != NULL;
    job.given.of_arguments = row != NULL;
    job.given.operation = (const uint8_t *)operation;
    job.given.operation_len = operation ? strlen(operation) : 0;
    if (!read_input(words[0], table_bytes, sizeof table_bytes, job.json, &table) ||
        !read_input(words[1], document_bytes, sizeof document_bytes, job.json, &document) ||
        (path && !read_input(path, variables_bytes, sizeof variables_bytes, job.json, &variables)))
        return TROUBLE;
    return run_coercion(&job);
}
