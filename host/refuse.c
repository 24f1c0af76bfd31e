/* How a command tells what the library refused: to people, or as one JSON object. */
#include "hints.h"
#include "json.h"
#include "show.h"

void set_given(struct job *job) {
    struct gw_given *g = &job->given;
    if (job->table)
        g->table = job->table->text.bytes, g->table_len = job->table->size;
    if (job->document)
        g->document = job->document->text.bytes, g->document_len = job->document->size;
    if (job->variables)
        g->variables = job->variables->text.bytes, g->variables_len = job->variables->size;
}

/* ---- as JSON */

static void json_place(const struct gw_told *told) {
    if (told->has_offset)
        json_key("offset"), json_number(told->offset);
    if (told->line) {
        json_key("line"), json_number(told->line);
        json_key("column"), json_number(told->column);
    }
    if (told->has_row)
        json_key("row"), json_number(told->row);
}

static void json_rule(const struct gw_told *told) {
    if (!told->rule)
        return;
    json_key(told->number == GW_REFUSE_VALUE ? "reason" : "rule"), json_number(told->rule);
    json_key(told->number == GW_REFUSE_VALUE ? "reason_name" : "rule_name"), json_text(told->rule_name);
}

static void json_number_unless_none(const char *key, uint32_t number) {
    if (number != GW_NO_PLACE)
        json_key(key), json_number(number);
}

static void json_names(const struct gw_told *told) {
    if (told->detail[0])
        json_key("detail"), json_text(told->detail);
    json_key("names");
    json_open('[');
    for (uint32_t i = 0; i < told->name_count; i++)
        json_text(told->names[i]);
    json_close(']');
    if (!told->expected_count)
        return;
    json_key("expected");
    json_open('[');
    for (uint32_t i = 0; i < told->expected_count; i++)
        json_text(told->expected[i]);
    json_close(']');
}

static void json_told(const struct text *of, const struct gw_told *told, const char *hint) {
    json_begin(of->called, 0);
    json_key("refusal"), json_number(told->number);
    json_key("name"), json_text(told->name);
    json_key("text"), json_text(told->text);
    json_key("input"), json_text(gw_input_text(told->input));
    json_place(told);
    json_rule(told);
    json_number_unless_none("definition", told->definition);
    json_number_unless_none("member", told->member);
    json_number_unless_none("part", told->part);
    json_number_unless_none("argument", told->argument);
    if (told->limit) {
        json_key("size"), json_number(told->size);
        json_key("limit"), json_number(told->limit);
    }
    json_names(told);
    if (hint)
        json_key("hint"), json_text(hint);
    json_finish();
}

/* ---- the call */

int status_of(const struct gw_told *told) {
    switch (told->number) {
    case GW_REFUSE_VALUE: case GW_REFUSE_TOO_LONG: return REFUSED_VALUE;
    case GW_REFUSE_BUFFER: case GW_REFUSE_NO_OPERATION: case GW_REFUSE_TOO_MANY_STEPS: case GW_REFUSE_WALK: case GW_REFUSE_TOO_MANY_PAIRS:
        return REFUSED_OTHER;
    default:
        return told->input == GW_INPUT_TABLE ? REFUSED_TABLE : told->input == GW_INPUT_VARIABLES ? REFUSED_VALUE : REFUSED_DOCUMENT;
    }
}

static int tell_told(const struct job *job, const struct gw_told *told, const char *hint) {
    const struct input *of = told->input == GW_INPUT_TABLE ? job->table : told->input == GW_INPUT_VARIABLES ? job->variables : job->document;
    if (job->json)
        json_told(&of->text, told, hint);
    else
        show_told(&of->text, told, hint);
    return status_of(told);
}

static struct gw_told told;

static const struct text *text_of_input(const struct input *input) {
    return input ? &input->text : NULL;
}

int refuse(const struct job *job, const uint32_t *report) {
    const struct files files = {text_of_input(job->table), text_of_input(job->document), text_of_input(job->variables)};
    gw_tell(&job->given, report, &told);
    return tell_told(job, &told, hint_of(&files, &told));
}

int refuse_in(const struct job *job, const uint32_t *report, size_t offset) {
    const struct text *types = &job->table->text;
    struct place place = place_of(types, told_offset(types, offset));
    gw_tell(&job->given, report, &told);
    told.has_offset = job->json; /* people are shown the place, and not which byte of which file it is */
    told.offset = offset;
    told.line = place.line;
    told.column = place.column;
    return tell_told(job, &told, NULL);
}
