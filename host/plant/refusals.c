/* What the core refuses, as errors of a response. */
#include "refusals.h"

#include "../hints.h"
#include "../host.h"
#include "../variables.h"

#include <stdio.h>

static struct gw_told told;

/* ---- the place in the document */

/* The definition of the variable that a row of the variables text belongs to; the operation for a name that it does not define. */
static uint32_t definition_of(const struct request *r, uint32_t row) {
    static uint32_t rows[GW_ROWS_SIZE];
    struct pair variables = {&r->table, &r->variables, rows, read_variables(&r->variables, rows), &r->pair, r->operation};
    while (row < variables.count && row != 0 && parent_of(&variables, row) != 0)
        row = parent_of(&variables, row);
    uint32_t found = row < variables.count ? first_named(&r->pair, r->operation, GW_KIND_VARIABLE_DEFINITION, name_at(&variables, row)) : NO_ROW;
    return found == NO_ROW ? r->operation : found;
}

/* What is told of the variables text belongs to a variable, what has no place of its own to the field. */
static void add_place(json_t *error, const struct request *r, uint32_t row) {
    if (told.input == GW_INPUT_DOCUMENT && told.line) {
        add_line_column(error, (int)told.line, (int)told.column);
        return;
    }
    if (told.input == GW_INPUT_VARIABLES && r->pair.count)
        row = told.has_row ? definition_of(r, told.row) : r->operation;
    if (row != NO_ROW)
        add_location(error, &r->document, column(&r->pair, row, GW_ROW_START));
}

/* ---- the error */

static json_t *expected_ones(void) {
    json_t *expected = json_array();
    for (uint32_t i = 0; i < told.expected_count; i++)
        json_array_append_new(expected, json_string(told.expected[i]));
    return expected;
}

static json_t *extensions(const char *hint) {
    json_t *more = json_object();
    json_object_set_new(more, "refusal", json_integer(told.number));
    json_object_set_new(more, "name", json_string(told.name));
    if (told.rule) {
        json_object_set_new(more, told.number == GW_REFUSE_VALUE ? "reason" : "rule", json_integer(told.rule));
        json_object_set_new(more, told.number == GW_REFUSE_VALUE ? "reason_name" : "rule_name", json_string(told.rule_name));
    }
    json_object_set_new(more, "input", json_string(gw_input_text(told.input)));
    if (told.line) {
        json_object_set_new(more, "line", json_integer(told.line));
        json_object_set_new(more, "column", json_integer(told.column));
    } else if (told.has_offset) {
        json_object_set_new(more, "offset", json_integer((json_int_t)told.offset));
    }
    if (told.expected_count)
        json_object_set_new(more, "expected", expected_ones());
    if (hint)
        json_object_set_new(more, "hint", json_string(hint));
    return more;
}

json_t *refusal_error(const struct request *r, const struct gw_given *given, const uint32_t *report, uint32_t row, const struct path *path,
                      int *status) {
    const struct files files = {&r->table, &r->document, &r->variables};
    char words[sizeof told.text + sizeof told.detail + 32];
    gw_tell(given, report, &told);
    snprintf(words, sizeof words, "%s%s%s%s", told.input == GW_INPUT_TABLE ? "the type table: " : "", told.text, told.detail[0] ? ": " : "", told.detail);
    json_t *error = new_error(words, path);
    add_place(error, r, row);
    json_object_set_new(error, "extensions", extensions(hint_of(&files, &told)));
    if (status)
        *status = status_of(&told);
    return error;
}
