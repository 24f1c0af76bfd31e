/* A request that the core has accepted. */
#include "request.h"

#include "../walk_variables.h"

#include <stdlib.h>
#include <string.h>

/* The operation's own type is that around its first selection. */
static struct piece root_of(const struct request *r) {
    uint32_t row = r->operation + 1;
    while (row < r->pair.count && (parent_of(&r->pair, row) != r->operation || kind_at(&r->pair, row) < GW_KIND_FIELD ||
                                   kind_at(&r->pair, row) > GW_KIND_INLINE))
        row++;
    return around(&r->pair, row);
}

static int coerce_variables(struct request *r) {
    uint8_t value[GW_MOST_COERCED];
    if (gw_coerce_variables(r->table.bytes, r->table.length, r->document.bytes, r->document.length, r->operation_name.bytes,
                            r->operation_name.length, r->variables.bytes, r->variables.length, value, GW_MOST_COERCED, r->report,
                            GW_REPORT_SIZE) != GW_ACCEPTED)
        return 0;
    walk_variables(r->document.bytes, r->rows, r->pair.count, r->operation, whole_value(value, r->report[1]), r->true_variables);
    return 1;
}

int prepare_request(struct request *r) {
    r->pair = (struct pair){.table = &r->table, .document = &r->document, .rows = r->rows};
    if (gw_check(r->table.bytes, r->table.length, r->document.bytes, r->document.length, r->rows, GW_ROWS_SIZE, r->report, GW_REPORT_SIZE) !=
        GW_ACCEPTED)
        return 0;
    r->pair.count = r->report[1];
    if (gw_plan(r->table.bytes, r->table.length, r->document.bytes, r->document.length, r->operation_name.bytes, r->operation_name.length, r->plan,
                GW_PLAN_SIZE, r->report, GW_REPORT_SIZE) != GW_ACCEPTED)
        return 0;
    r->operation = operation_row(&r->pair, r->operation_name);
    r->root = root_of(r);
    names_of(&r->pair, r->operation, &r->names);
    return coerce_variables(r);
}

int arguments_at(struct request *r, uint32_t row, struct value *arguments, const uint32_t **report) {
    struct arguments *a = &r->arguments[row];
    uint8_t value[GW_MOST_COERCED];
    *report = a->report;
    if (!a->is_known && gw_coerce_arguments(r->table.bytes, r->table.length, r->document.bytes, r->document.length, r->operation_name.bytes,
                                            r->operation_name.length, r->variables.bytes, r->variables.length, row, value, GW_MOST_COERCED,
                                            a->report, GW_REPORT_SIZE) == GW_ACCEPTED) {
        a->bytes = malloc(GW_MOST_COERCED);
        if (!a->bytes)
            abort();
        memcpy(a->bytes, value, GW_MOST_COERCED);
    }
    a->is_known = 1;
    if (!a->bytes)
        return 0;
    *arguments = whole_value(a->bytes, a->report[1]);
    return 1;
}

uint32_t record_number(const struct request *r, struct piece record) {
    return count_before(&r->table, whole(&r->table), is_record, record.at);
}

void drop_request(struct request *r) {
    for (uint32_t i = 0; i < GW_MOST_ROWS; i++)
        free(r->arguments[i].bytes);
}
