/* The text of a type table. */
#include "types.h"

#include "pieces.h"

/* "(no: Int!, at: [Float])" */
static void say_arguments(struct out *o, const struct text *t, struct piece holder) {
    for (uint32_t n = 0;; n++) {
        struct piece p = nth(t, holder, is_argument, n);
        if (!p.tag) {
            say(o, "%s", n ? ")" : "");
            return;
        }
        say(o, "%s", n ? ", " : "(");
        say_bytes(o, text_of(t, name_of(t, p)));
        say(o, ": ");
        say_bytes(o, reference_of(t, p));
    }
}

/* A line of a body. */
static void say_member(struct out *o, const struct text *t, struct piece p) {
    static const char *const roots[] = {"query: ", "mutation: ", "subscription: "};
    say(o, "  %s", p.tag >= GW_TAG_QUERY_ROOT ? roots[p.tag - GW_TAG_QUERY_ROOT] : "");
    say_bytes(o, text_of(t, name_of(t, p)));
    if (p.tag == GW_TAG_FIELD)
        say_arguments(o, t, p);
    if (p.tag == GW_TAG_FIELD || p.tag == GW_TAG_ARGUMENT) {
        say(o, ": ");
        say_bytes(o, reference_of(t, p));
    }
    say(o, "\n");
}

static void say_list(struct out *o, const struct text *t, struct piece record, sort *wanted, const char *before, const char *between) {
    for (uint32_t n = 0;; n++) {
        struct piece p = nth(t, record, wanted, n);
        if (!p.tag)
            return;
        say(o, "%s", n ? between : before);
        say_bytes(o, text_of(t, name_of(t, p)));
    }
}

static void say_body(struct out *o, const struct text *t, struct piece record) {
    say(o, " {\n");
    for (uint32_t n = 0;; n++) {
        struct piece p = nth(t, record, is_member, n);
        if (!p.tag)
            break;
        say_member(o, t, p);
    }
    say(o, "}");
}

static void say_record(struct out *o, const struct text *t, struct piece record) {
    static const char *const words[] = {[GW_TAG_SCALAR] = "scalar ", [GW_TAG_OBJECT] = "type ", [GW_TAG_INTERFACE] = "interface ",
                                        [GW_TAG_UNION] = "union ", [GW_TAG_ENUM] = "enum ", [GW_TAG_INPUT_OBJECT] = "input ",
                                        [GW_TAG_DIRECTIVE] = "directive @", [GW_TAG_ROOTS] = "schema"};
    say(o, "%s", words[record.tag]);
    if (record.tag != GW_TAG_ROOTS)
        say_bytes(o, text_of(t, name_of(t, record)));
    if (record.tag == GW_TAG_DIRECTIVE)
        say_arguments(o, t, record);
    else if (record.tag == GW_TAG_UNION)
        say_list(o, t, record, is_member, " = ", " | ");
    else if (record.tag != GW_TAG_SCALAR) {
        say_list(o, t, record, is_implemented, " implements ", ", ");
        say_body(o, t, record);
    }
    say(o, "\n");
}

void say_types(struct out *o, const struct text *table) {
    for (uint32_t n = 0;; n++) {
        struct piece record = nth(table, whole(table), is_record, n);
        if (!record.tag)
            return;
        say(o, "%s", n ? "\n" : "");
        say_record(o, table, record);
    }
}
