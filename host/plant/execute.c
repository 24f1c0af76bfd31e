/* Executes an operation: each object is walked with the blocks that belong to it, its fields are asked for in the walk's order, one after
   the other and each with all that is in it. So the top fields of a mutation run one after the other. */
#include "execute.h"

#include "refusals.h"

#include <stdlib.h>
#include <string.h>

/* What is told of a field is told of all rows under its key. */
static struct asked asked_of(const struct running *r, struct thing thing, const uint32_t *rows, size_t count, const struct path *path) {
    return (struct asked){rows, count, thing.type, name_at(&r->request->pair, rows[0]), path};
}

/* The value of a field of a type. Its arguments are coerced before the plant hears of it. NULL if it failed at a Non-Null place. */
static json_t *execute_field(struct running *r, struct words type, struct thing thing, const struct asked *asked) {
    struct value arguments;
    const uint32_t *report;
    if (!arguments_at(r->request, asked->rows[0], &arguments, &report)) {
        struct gw_given given = r->request->given;
        given.of_arguments = 1;
        given.row = asked->rows[0];
        json_array_append_new(r->errors, refusal_error(r->request, &given, report, asked->rows[0], asked->path, NULL));
        return type.bytes[type.length - 1] == '!' ? NULL : json_null();
    }
    struct answer answer = ask_plant(r->plant, thing, asked->name, arguments);
    json_t *value = complete(r, asked, type, &answer);
    drop_answer(&answer);
    return value;
}

/* The fields of an object from the pairs of a walk: those under one key stand together. A field that the object's type does not have comes
   with fields under one key that cannot be merged, which the core does not judge: as the draft says, it is left out. */
static json_t *execute_pairs(struct running *r, struct piece record, struct thing thing, const uint32_t *pairs, size_t count,
                             const struct path *within) {
    const struct text *table = &r->request->table;
    json_t *object = json_object();
    uint32_t rows[GW_MOST_PAIRS];
    for (size_t from = 0, to; from < count; from = to) {
        for (to = from; to < count && pairs[GW_PAIR_SIZE * to + GW_PAIR_KEY] == pairs[GW_PAIR_SIZE * from + GW_PAIR_KEY]; to++)
            rows[to - from] = pairs[GW_PAIR_SIZE * to + GW_PAIR_ROW];
        struct words key = r->request->names.fields[rows[0]].key;
        struct path path = {within, key, 0};
        struct asked asked = asked_of(r, thing, rows, to - from, &path);
        struct piece field = named(table, record, is_member, asked.name);
        int is_typename = is_word(asked.name, "__typename");
        if (!field.tag && !is_typename)
            continue;
        json_t *value = is_typename ? json_string(thing.type) : execute_field(r, reference_of(table, field), thing, &asked);
        if (!value) {
            json_decref(object);
            return NULL;
        }
        json_object_setn_new_nocheck(object, (const char *)key.bytes, key.length, value);
    }
    return object;
}

json_t *execute_object(struct running *r, struct piece record, struct thing thing, const uint32_t *blocks, size_t count, const struct asked *asked) {
    const struct request *q = r->request;
    uint32_t pairs[GW_PAIRS_SIZE], report[GW_REPORT_SIZE];
    if (gw_walk(q->table.bytes, q->table.length, q->plan, GW_PLAN_SIZE, record_number(q, record), blocks, count, q->true_variables,
                GW_VARIABLES_SIZE, pairs, GW_PAIRS_SIZE, report, GW_REPORT_SIZE) != GW_ACCEPTED) {
        struct gw_given given = {.table = q->given.table, .table_len = q->given.table_len, .plan = q->plan, .object = record_number(q, record),
                                 .blocks = blocks, .blocks_len = count, .type = thing.type};
        json_array_append_new(r->errors, refusal_error(q, &given, report, asked ? asked->rows[0] : q->operation, asked ? asked->path : NULL, NULL));
        return NULL;
    }
    return execute_pairs(r, record, thing, pairs, report[1], asked ? asked->path : NULL);
}

json_t *execute_operation(struct running *r) {
    const struct text *table = &r->request->table;
    struct words name = text_of(table, name_of(table, r->request->root));
    const uint32_t blocks[] = {0};
    char *type = strndup((const char *)name.bytes, name.length);
    json_t *data = type ? execute_object(r, r->request->root, root_thing(type), blocks, 1, NULL) : NULL;
    free(type);
    return data ? data : json_null();
}
