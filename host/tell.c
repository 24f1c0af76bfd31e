/* A refusal in words: whose it is, where, and which part tells it. */
#include "tell.h"

#include <string.h>

_Static_assert((int)GW_TOLD_NAME == (int)NAME_ROOM, "a name that is told has the room of one that is kept");

/* ---- words that several parts use */

const char *article(const char *word) {
    return strchr("aeiou", word[0]) ? "an" : "a";
}

const char *kind_words(uint32_t kind) {
    static const char *const words[] = {
        [GW_KIND_OPERATION] = "operation", [GW_KIND_FRAGMENT] = "fragment", [GW_KIND_FIELD] = "field",
        [GW_KIND_SPREAD] = "spread", [GW_KIND_INLINE] = "inline fragment", [GW_KIND_ARGUMENT] = "argument",
        [GW_KIND_DIRECTIVE] = "directive", [GW_KIND_VARIABLE_DEFINITION] = "variable definition",
        [GW_KIND_TYPE_REFERENCE] = "type", [GW_KIND_OBJECT_FIELD] = "object field", [GW_KIND_VARIABLE] = "variable",
        [GW_KIND_INTEGER] = "integer", [GW_KIND_FLOAT] = "float", [GW_KIND_STRING] = "string",
        [GW_KIND_BOOLEAN] = "boolean", [GW_KIND_NULL] = "null", [GW_KIND_ENUM] = "enum", [GW_KIND_LIST] = "list",
        [GW_KIND_OBJECT] = "object"};
    return kind <= GW_KIND_OBJECT && words[kind] ? words[kind] : "unknown";
}

const char *operation_words(uint32_t extra) {
    static const char *const words[] = {[GW_EXTRA_QUERY] = "query", [GW_EXTRA_MUTATION] = "mutation", [GW_EXTRA_SUBSCRIPTION] = "subscription"};
    return extra < sizeof words / sizeof *words ? words[extra] : "operation";
}

void say_place(struct out *o, const struct pair *p, uint32_t row) {
    struct place place = place_of(p->document, column(p, row, GW_ROW_START));
    say(o, "%u:%u", (unsigned)place.line, (unsigned)place.column);
}

void say_operation(struct out *o, const struct pair *p, uint32_t row) {
    const char *what = operation_words(column(p, row, GW_ROW_EXTRA));
    if (column(p, row, GW_ROW_NAME_LENGTH)) {
        say(o, "%s ", what);
        say_words(o, name_at(p, row));
        return;
    }
    say(o, "the %s at ", what);
    say_place(o, p, row);
}

/* ---- places */

void tell_offset(struct telling *t, const struct text *text, size_t offset) {
    struct place place = place_of(text, told_offset(text, offset));
    t->told->has_offset = 1;
    t->told->offset = offset;
    t->told->line = place.line;
    t->told->column = place.column;
}

void tell_row(struct telling *t, const struct pair *p, uint32_t row) {
    t->told->has_row = 1;
    t->told->row = row;
    tell_offset(t, p->document, column(p, row, GW_ROW_START));
}

/* ---- 2, and the text of a document or of variables: 3 to 6 and 8 */

static void tell_length(struct telling *t) {
    struct gw_told *told = t->told;
    const size_t sizes[] = {t->given->document_len, t->given->variables_len, t->given->table_len};
    told->input = t->report[1] < GW_INPUT_NONE ? t->report[1] : GW_INPUT_NONE;
    told->size = told->input < GW_INPUT_NONE ? sizes[told->input] : 0;
    told->limit = told->input == GW_INPUT_TABLE ? GW_MOST_TABLE : GW_MOST_TEXT;
    say(&t->text, "the %s has %zu bytes; at most %zu are allowed", gw_input_text(told->input), told->size, told->limit);
}

static const char *bad_text_words(uint8_t first) {
    switch (first) {
    case '"': return "this string has no end on its line, or an escape or bytes that a string cannot have";
    case '#': return "this comment has bytes that a comment cannot have";
    default: return "here no token begins";
    }
}

static const char *too_many_words(uint8_t first) {
    switch (first) {
    case '$': return "this is the 65th variable of its operation";
    case '[': case '!': return "this is the eighth wrapper of its type reference";
    default: return "this is the 65th fragment";
    }
}

static void tell_text(struct telling *t) {
    const struct text *text = t->told->input == GW_INPUT_VARIABLES ? &t->variables : &t->document;
    size_t offset = t->report[1] <= text->length ? t->report[1] : text->length;
    uint8_t first = offset < text->length ? text->bytes[offset] : 0;
    tell_offset(t, text, offset);
    switch (t->report[0]) {
    case GW_REFUSE_NO_TOKEN: say(&t->text, "%s", bad_text_words(first)); break;
    case GW_REFUSE_NO_GOING:
        say(&t->text, offset < text->length ? "no %s can go on with this" : "the text ends where no %s can end", gw_input_text(t->told->input));
        tell_expected(t);
        break;
    case GW_REFUSE_TOO_DEEP: say(&t->text, "this opens level 33 of braces, brackets and parentheses"); break;
    case GW_REFUSE_TOO_MANY_ROWS: say(&t->text, "this would be row 2,049"); break;
    default: say(&t->text, "%s", too_many_words(first));
    }
}

/* ---- the call */

/* Whose refusal it is. An 8 is the table's where gw_check_table answers it too. */
static uint32_t input_of(const struct gw_given *given, const uint32_t *report) {
    uint32_t other[GW_REPORT_SIZE];
    switch (report[0]) {
    case GW_REFUSE_FRAMING: case GW_REFUSE_SCHEMA: return GW_INPUT_TABLE;
    case GW_REFUSE_NO_TOKEN: case GW_REFUSE_NO_GOING: case GW_REFUSE_TOO_DEEP: case GW_REFUSE_TOO_MANY_ROWS:
        return given->variables && report[2] == GW_INPUT_VARIABLES ? GW_INPUT_VARIABLES : GW_INPUT_DOCUMENT;
    case GW_REFUSE_TOO_MANY:
        return given->table && gw_check_table(given->table, given->table_len, other, GW_REPORT_SIZE) == GW_REFUSE_TOO_MANY ? GW_INPUT_TABLE
                                                                                                                        : GW_INPUT_DOCUMENT;
    case GW_REFUSE_VALUE: return report[1] == GW_INPUT_VARIABLES ? GW_INPUT_VARIABLES : GW_INPUT_DOCUMENT;
    case GW_REFUSE_QUERY: case GW_REFUSE_NO_OPERATION: case GW_REFUSE_TOO_MANY_STEPS: case GW_REFUSE_TOO_LONG: return GW_INPUT_DOCUMENT;
    default: return GW_INPUT_NONE;
    }
}

static void tell_table(struct telling *t) {
    t->told->has_offset = t->report[0] != GW_REFUSE_SCHEMA;
    t->told->offset = t->report[1] <= t->table.length ? t->report[1] : t->table.length;
    switch (t->report[0]) {
    case GW_REFUSE_FRAMING: tell_framing(t); break;
    case GW_REFUSE_TOO_MANY: tell_table_count(t); break;
    default: tell_schema(t);
    }
}

/* What is told with the rows of a document that is read. */
static void tell_by_rows(struct telling *t) {
    uint32_t other[GW_REPORT_SIZE];
    gw_parse(t->document.bytes, t->document.length, t->told->rows, GW_ROWS_SIZE, other, GW_REPORT_SIZE);
    struct pair p = {.table = &t->table, .document = &t->document, .rows = t->told->rows, .count = other[0] == GW_ACCEPTED ? other[1] : 0};
    switch (t->report[0]) {
    case GW_REFUSE_QUERY:
        if (t->report[1] < p.count)
            tell_query(t, &p);
        break;
    case GW_REFUSE_VALUE: tell_value(t, &p); break;
    case GW_REFUSE_NO_OPERATION: tell_no_operation(t, &p); break;
    default:
        say(&t->text, "the coerced %s would have more than 8,192 bytes", t->given->of_arguments ? "arguments" : "variables");
    }
}

static void tell(struct telling *t) {
    struct gw_told *told = t->told;
    switch (told->number) {
    case GW_REFUSE_OVER_LENGTH: tell_length(t); break;
    case GW_REFUSE_QUERY: case GW_REFUSE_VALUE: case GW_REFUSE_NO_OPERATION: case GW_REFUSE_TOO_LONG: tell_by_rows(t); break;
    case GW_REFUSE_WALK: tell_walk(t); break;
    case GW_REFUSE_BUFFER: case GW_REFUSE_TOO_MANY_STEPS: case GW_REFUSE_TOO_MANY_PAIRS: say(&t->text, "%s", gw_refusal_text(told->number)); break;
    default:
        if (told->input == GW_INPUT_TABLE)
            tell_table(t);
        else
            tell_text(t);
    }
}

void gw_tell(const struct gw_given *given, const uint32_t *report, struct gw_told *told) {
    struct telling t = {.given = given, .report = report, .told = told,
                        .table = {"table", given->table, given->table_len},
                        .document = {"document", given->document, given->document_len},
                        .variables = {"variables text", given->variables, given->variables_len},
                        .text = {.room = told->text, .size = sizeof told->text},
                        .detail = {.room = told->detail, .size = sizeof told->detail, .names = told->names, .most_names = GW_TOLD_NAMES}};
    memset(told, 0, offsetof(struct gw_told, rows));
    told->number = report[0];
    told->name = gw_refusal_name(report[0]);
    told->input = input_of(given, report);
    told->definition = told->member = told->part = told->argument = GW_NO_PLACE;
    tell(&t);
    told->name_count = t.detail.name_count;
}
