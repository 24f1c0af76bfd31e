/* Answers completed by their types. A value that its type does not take is an error of its field, and so is null where the type is Non-Null;
   an error makes the nearest place null that may be. */
#include "execute.h"

#include <inttypes.h>
#include <math.h>
#include <stdarg.h>
#include <stdio.h>
#include <string.h>

enum { MOST_WORDS = 512, SHOWN = 80 };

json_t *fail(struct running *r, const struct asked *asked, const char *format, ...) {
    char message[MOST_WORDS];
    va_list words;
    va_start(words, format);
    vsnprintf(message, sizeof message, format, words);
    va_end(words);
    json_t *error = new_error(message, asked->path);
    for (size_t i = 0; i < asked->count; i++)
        add_location(error, &r->request->document, column(&r->request->pair, asked->rows[i], GW_ROW_START));
    json_array_append_new(r->errors, error);
    return NULL;
}

/* The bytes of some words that a message shows, for %.*s. */
static int shown(struct words w) {
    return (int)(w.length < SHOWN ? w.length : SHOWN);
}

/* ---- leaves */

static json_t *fail_leaf(struct running *r, const struct asked *asked, struct words type, const struct answer *a) {
    char value[MOST_WORDS / 2];
    switch (a->kind) {
    case ANSWER_NUMBER: snprintf(value, sizeof value, "%" PRId64, a->number); break;
    case ANSWER_REAL: snprintf(value, sizeof value, "%#g", a->real); break;
    case ANSWER_TEXT: snprintf(value, sizeof value, "\"%.200s\"", a->text); break;
    case ANSWER_TRUTH: snprintf(value, sizeof value, "%s", a->number ? "true" : "false"); break;
    default: snprintf(value, sizeof value, "%s", a->kind == ANSWER_LIST ? "a list" : "an object");
    }
    return fail(r, asked, "the plant answers %s, which is no %.*s", value, shown(type), (const char *)type.bytes);
}

/* A value of one of the five built-in scalars; NULL if it is none. */
static json_t *built_in(struct words type, const struct answer *a) {
    if (is_word(type, "Int"))
        return a->kind == ANSWER_NUMBER && a->number >= INT32_MIN && a->number <= INT32_MAX ? json_integer(a->number) : NULL;
    if (is_word(type, "Float")) {
        if (a->kind == ANSWER_NUMBER)
            return json_real((double)a->number);
        return a->kind == ANSWER_REAL && isfinite(a->real) ? json_real(a->real) : NULL;
    }
    if (is_word(type, "Boolean"))
        return a->kind == ANSWER_TRUTH ? json_boolean(a->number) : NULL;
    if (is_word(type, "ID") && a->kind == ANSWER_NUMBER) {
        char digits[24];
        snprintf(digits, sizeof digits, "%" PRId64, a->number);
        return json_string(digits);
    }
    return a->kind == ANSWER_TEXT ? json_string(a->text) : NULL; /* of text that is no UTF-8 NULL too */
}

/* A value of a scalar of the table's own: as it is. */
static json_t *own_scalar(const struct answer *a) {
    switch (a->kind) {
    case ANSWER_NUMBER: return json_integer(a->number);
    case ANSWER_REAL: return isfinite(a->real) ? json_real(a->real) : NULL;
    case ANSWER_TEXT: return json_string(a->text);
    case ANSWER_TRUTH: return json_boolean(a->number);
    default: return NULL;
    }
}

static json_t *enum_value(const struct text *table, struct piece record, const struct answer *a) {
    struct words value = {(const uint8_t *)a->text, strlen(a->text)};
    return a->kind == ANSWER_TEXT && named(table, record, is_member, value).tag ? json_string(a->text) : NULL;
}

/* ---- objects */

/* Whether a type is the object's own, an interface that it implements, or a union that it is in. */
static int can_be(const struct text *table, struct piece type, struct piece object) {
    switch (type.tag) {
    case GW_TAG_OBJECT: return type.at == object.at;
    case GW_TAG_INTERFACE: return named_as(table, object, is_implemented, type).tag != 0;
    default: return named_as(table, type, is_member, object).tag != 0;
    }
}

/* The object with the selections of all rows under its key. */
static json_t *complete_object(struct running *r, const struct asked *asked, struct words type, struct piece record, const struct answer *a) {
    const struct text *table = &r->request->table;
    if (a->kind != ANSWER_THING)
        return fail_leaf(r, asked, type, a);
    struct words name = {(const uint8_t *)a->thing.type, strlen(a->thing.type)};
    struct piece object = named(table, whole(table), is_type, name);
    if (object.tag != GW_TAG_OBJECT || !can_be(table, record, object))
        return fail(r, asked, "the plant answers an object of type %s, which can be no %.*s", a->thing.type, shown(type), (const char *)type.bytes);
    uint32_t blocks[GW_MOST_PAIRS];
    size_t count = 0;
    for (size_t i = 0; i < asked->count; i++)
        if (r->request->names.fields[asked->rows[i]].block)
            blocks[count++] = r->request->names.fields[asked->rows[i]].block;
    return execute_object(r, object, a->thing, blocks, count, asked);
}

/* ---- types */

static json_t *complete_named(struct running *r, const struct asked *asked, struct words type, const struct answer *a) {
    const struct text *table = &r->request->table;
    struct piece record = named(table, whole(table), is_type, type);
    if (record.tag >= GW_TAG_OBJECT && record.tag <= GW_TAG_UNION)
        return complete_object(r, asked, type, record, a);
    json_t *leaf = !record.tag ? built_in(type, a) : record.tag == GW_TAG_ENUM ? enum_value(table, record, a) : own_scalar(a);
    return leaf ? leaf : fail_leaf(r, asked, type, a);
}

static json_t *complete_list(struct running *r, const struct asked *asked, struct words type, const struct answer *a) {
    if (a->kind != ANSWER_LIST)
        return fail_leaf(r, asked, type, a);
    struct words item_type = {type.bytes + 1, type.length - 2};
    json_t *list = json_array();
    for (size_t i = 0; i < a->count; i++) {
        struct path path = {asked->path, {NULL, 0}, i};
        struct asked item = *asked;
        item.path = &path;
        json_t *value = complete(r, &item, item_type, &a->items[i]);
        if (!value) {
            json_decref(list);
            return NULL;
        }
        json_array_append_new(list, value);
    }
    return list;
}

/* An answer completed by a type without Non-Null outside; NULL if it failed. */
static json_t *complete_nullable(struct running *r, const struct asked *asked, struct words type, const struct answer *a) {
    if (a->kind == ANSWER_TROUBLE)
        return fail(r, asked, "%s", a->text);
    if (a->kind == ANSWER_NULL)
        return json_null();
    return type.bytes[0] == '[' ? complete_list(r, asked, type, a) : complete_named(r, asked, type, a);
}

json_t *complete(struct running *r, const struct asked *asked, struct words type, const struct answer *a) {
    if (type.bytes[type.length - 1] != '!') {
        json_t *value = complete_nullable(r, asked, type, a);
        return value ? value : json_null();
    }
    json_t *value = complete_nullable(r, asked, (struct words){type.bytes, type.length - 1}, a);
    if (value && json_is_null(value))
        return fail(r, asked, "the plant answers null for %s.%.*s, which is Non-Null", asked->type, shown(asked->name), (const char *)asked->name.bytes);
    return value;
}
