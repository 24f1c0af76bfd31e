/* What may have gone wrong with the files themselves. */
#include "hints.h"

#include "plans.h"
#include "types.h"

#include <string.h>

static const char swapped[] = "the two files stand in each other's place: the table comes first, then the document";
static const char looks_like_text[] = "this looks like a text; a type table is bytes, which `gateway table` makes of a text of types";

/* ---- what a file is */

static int is_table(const struct text *t) {
    uint32_t report[GW_REPORT_SIZE], answer = gw_check_table(t->bytes, t->length, report, GW_REPORT_SIZE);
    return answer == GW_ACCEPTED || answer == GW_REFUSE_TOO_MANY || (answer == GW_REFUSE_SCHEMA && t->length > 0);
}

static int is_document(const struct text *t) {
    static uint32_t rows[GW_ROWS_SIZE];
    uint32_t report[GW_REPORT_SIZE];
    return gw_parse(t->bytes, t->length, rows, GW_ROWS_SIZE, report, GW_REPORT_SIZE) == GW_ACCEPTED;
}

/* A table begins with the tag of a record, from 1 to 8; a blank is none of these. */
static int begins_as_table(const struct text *t) {
    return t->length > 0 && t->bytes[0] >= GW_TAG_SCALAR && t->bytes[0] <= GW_TAG_ROOTS;
}

static int begins_as_text(const struct text *t) {
    return t->length > 0 && (t->bytes[0] >= ' ' || t->bytes[0] == '\t' || t->bytes[0] == '\n' || t->bytes[0] == '\r');
}

/* ---- hints */

static const char *hint_of_table(const struct files *files) {
    const struct text *table = files->table;
    if (files->document && is_document(table) && is_table(files->document))
        return swapped;
    if (is_document(table))
        return "this is a GraphQL document; a type table is due here";
    if (is_saved_plan(table))
        return "this is a saved plan; a type table is due here";
    if (is_type_text(table))
        return "this is a text of types: `gateway table FILE -o TABLE` makes a table of it";
    return begins_as_text(table) ? looks_like_text : NULL;
}

static const char *hint_of_document(const struct text *document) {
    if (is_saved_plan(document))
        return "this is a saved plan, which `gateway walk` takes; a document is due here";
    if (is_table(document))
        return "this is a type table; a document is due here";
    return is_type_text(document) ? "this is a text of types; a document is due here" : NULL;
}

/* A name in quotes, where JSON has one. */
static const char *hint_of_variables(const struct text *text, const struct gw_told *told) {
    int quoted = told->offset < text->length && text->bytes[told->offset] == '"';
    for (uint32_t i = 0; quoted && i < told->expected_count; i++)
        if (strcmp(told->expected[i], "an object field") == 0)
            return "a variables text is a GraphQL value, not JSON: names have no quotes, { time: 20 }";
    return NULL;
}

/* Of a file that is too long only the beginning is at hand. */
static const char *hint_of_length(const struct files *files, uint32_t input) {
    if (input == GW_INPUT_TABLE)
        return begins_as_text(files->table) ? looks_like_text : NULL;
    if (input != GW_INPUT_DOCUMENT)
        return NULL;
    if (is_saved_plan(files->document))
        return hint_of_document(files->document);
    if (!begins_as_table(files->document))
        return NULL;
    return files->table && is_document(files->table) ? swapped : "this looks like a type table; a document is due here";
}

const char *hint_of(const struct files *files, const struct gw_told *told) {
    switch (told->number) {
    case GW_REFUSE_OVER_LENGTH: return hint_of_length(files, told->input);
    case GW_REFUSE_FRAMING: return hint_of_table(files);
    case GW_REFUSE_NO_TOKEN: case GW_REFUSE_NO_GOING:
        return told->input == GW_INPUT_DOCUMENT ? hint_of_document(files->document) : hint_of_variables(files->variables, told);
    default: return NULL;
    }
}
