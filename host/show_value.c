/* How the host shows a coerced value. */
#include "show_value.h"

#include "json.h"
#include "show.h"
#include "value.h"

#include <inttypes.h>
#include <stdio.h>

enum { PIECE = 60 }; /* columns of a text */

/* ---- to people */

static void show_content(struct value v, const char *around) {
    printf("%s", around);
    say_piece(&screen, v.bytes, v.length, PIECE);
    printf("%s", around);
}

/* A value's type and, where it is no list or object, the value. */
static void show_one(struct value v) {
    switch (v.tag) {
    case GW_VALUE_NULL: printf("null"); break;
    case GW_VALUE_INT: printf("Int %" PRId32, value_number(v)); break;
    case GW_VALUE_FLOAT: printf("Float "), show_content(v, ""); break;
    case GW_VALUE_STRING: printf("string "), show_content(v, "\""); break;
    case GW_VALUE_BOOLEAN: printf("boolean %s", value_truth(v) ? "true" : "false"); break;
    case GW_VALUE_ENUM: printf("enum "), show_content(v, ""); break;
    case GW_VALUE_LIST: printf("list of %zu", count_in(v)); break;
    case GW_VALUE_OBJECT: printf("object of %zu", count_in(v)); break;
    case GW_VALUE_OWN_SCALAR: printf("own scalar "), show_content(v, ""); break;
    default: printf("no value");
    }
    putchar('\n');
}

static void show_held(struct value holder, int depth) {
    for (struct value v = first_in(holder); v.tag; v = next_in(holder, v)) {
        struct value name = entry_name(v), held = name.tag ? entry_value(v) : v;
        printf("%*s", 2 * depth, "");
        show_content(name, "");
        printf("%s", name.tag ? ": " : "");
        show_one(held);
        if (held.tag == GW_VALUE_LIST || held.tag == GW_VALUE_OBJECT)
            show_held(held, depth + 1);
    }
}

void show_value(const uint8_t *bytes, size_t length) {
    struct value v = whole_value(bytes, length);
    show_one(v);
    show_held(v, 1);
}

/* ---- as JSON */

static void json_one(struct value v);

static void json_held(struct value holder, const char *brackets) {
    json_open(brackets[0]);
    for (struct value v = first_in(holder); v.tag; v = next_in(holder, v)) {
        struct value name = entry_name(v);
        if (name.tag)
            json_member(name.bytes, name.length);
        json_one(name.tag ? entry_value(v) : v);
    }
    json_close(brackets[1]);
}

static void json_one(struct value v) {
    switch (v.tag) {
    case GW_VALUE_INT: json_signed(value_number(v)); break;
    case GW_VALUE_FLOAT: case GW_VALUE_OWN_SCALAR: json_as_written(v.bytes, v.length); break;
    case GW_VALUE_STRING: case GW_VALUE_ENUM: json_bytes(v.bytes, v.length); break;
    case GW_VALUE_BOOLEAN: json_truth(value_truth(v)); break;
    case GW_VALUE_LIST: json_held(v, "[]"); break;
    case GW_VALUE_OBJECT: json_held(v, "{}"); break;
    default: json_nothing();
    }
}

void json_value(const uint8_t *bytes, size_t length) {
    json_one(whole_value(bytes, length));
}
