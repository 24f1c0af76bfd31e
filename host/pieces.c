/* The house fields of a type table, found and named for messages. */
#include "pieces.h"

#include "gateway.h"

/* The field at `at` in a holder that ends at `end`; none if it is cut short. */
struct piece piece_at(const struct text *t, size_t at, size_t end) {
    struct piece none = {at, at, at, 0};
    if (end - at < 3)
        return none;
    size_t length = (size_t)t->bytes[at + 1] * 256 + t->bytes[at + 2];
    if (length > end - at - 3)
        return none;
    return (struct piece){at, at + 3, at + 3 + length, t->bytes[at]};
}

struct piece whole(const struct text *t) {
    return (struct piece){0, 0, t->length, 0};
}

int is_member(int tag) {
    return tag == GW_TAG_FIELD || tag == GW_TAG_ARGUMENT || (tag >= GW_TAG_UNION_MEMBER && tag <= GW_TAG_SUBSCRIPTION_ROOT);
}

int is_record(int tag) {
    return tag >= GW_TAG_SCALAR && tag <= GW_TAG_ROOTS;
}

int is_implemented(int tag) {
    return tag == GW_TAG_IMPLEMENTS;
}

int is_argument(int tag) {
    return tag == GW_TAG_ARGUMENT;
}

int is_name_tag(int tag) {
    return tag == GW_TAG_NAME;
}

int is_reference_tag(int tag) {
    return tag == GW_TAG_REFERENCE;
}

/* The n-th field of a sort in a holder, from 0; tag 0 for none. */
struct piece nth(const struct text *t, struct piece holder, sort *wanted, uint32_t n) {
    for (size_t at = holder.start; at < holder.end;) {
        struct piece p = piece_at(t, at, holder.end);
        if (!p.tag)
            break;
        if (wanted(p.tag) && n-- == 0)
            return p;
        at = p.end;
    }
    return (struct piece){holder.end, holder.end, holder.end, 0};
}

/* How many fields of a sort stand in a holder before an offset. */
uint32_t count_before(const struct text *t, struct piece holder, sort *wanted, size_t before) {
    uint32_t count = 0;
    for (size_t at = holder.start; at < before;) {
        struct piece p = piece_at(t, at, holder.end);
        if (!p.tag)
            break;
        count += wanted(p.tag) != 0;
        at = p.end;
    }
    return count;
}

/* The text that names a field: its name's, or its own where it holds nothing but a name. */
struct piece name_of(const struct text *t, struct piece p) {
    return p.tag > GW_TAG_ARGUMENT || p.tag == GW_TAG_IMPLEMENTS || p.tag == GW_TAG_NAME ? p : nth(t, p, is_name_tag, 0);
}

struct words text_of(const struct text *t, struct piece p) {
    return (struct words){t->bytes + p.start, p.end - p.start};
}

/* The first field of a sort with this name; tag 0 for none. */
struct piece named(const struct text *t, struct piece holder, sort *wanted, struct words name) {
    for (uint32_t n = 0;; n++) {
        struct piece p = nth(t, holder, wanted, n);
        if (!p.tag || same_words(text_of(t, name_of(t, p)), name))
            return p;
    }
}

struct piece named_as(const struct text *t, struct piece holder, sort *wanted, struct piece like) {
    return named(t, holder, wanted, text_of(t, name_of(t, like)));
}

struct words reference_of(const struct text *t, struct piece holder) {
    return text_of(t, nth(t, holder, is_reference_tag, 0));
}

struct words base_of(struct words w) {
    while (w.length && w.bytes[0] == '[')
        w = (struct words){w.bytes + 1, w.length - 1};
    while (w.length && (w.bytes[w.length - 1] == ']' || w.bytes[w.length - 1] == '!'))
        w.length--;
    return w;
}

int is_type(int tag) {
    return tag >= GW_TAG_SCALAR && tag <= GW_TAG_INPUT_OBJECT;
}

int is_directive(int tag) {
    return tag == GW_TAG_DIRECTIVE;
}

/* ---- words */

const char *tag_words(int tag) {
    static const char *const words[] = {
        [GW_TAG_SCALAR] = "scalar", [GW_TAG_OBJECT] = "object", [GW_TAG_INTERFACE] = "interface", [GW_TAG_UNION] = "union",
        [GW_TAG_ENUM] = "enum", [GW_TAG_INPUT_OBJECT] = "input object", [GW_TAG_DIRECTIVE] = "directive",
        [GW_TAG_ROOTS] = "roots", [GW_TAG_NAME] = "name", [GW_TAG_IMPLEMENTS] = "implemented name", [GW_TAG_FIELD] = "field",
        [GW_TAG_ARGUMENT] = "argument", [GW_TAG_REFERENCE] = "type reference", [GW_TAG_UNION_MEMBER] = "union member",
        [GW_TAG_ENUM_VALUE] = "enum value", [GW_TAG_QUERY_ROOT] = "query root", [GW_TAG_MUTATION_ROOT] = "mutation root",
        [GW_TAG_SUBSCRIPTION_ROOT] = "subscription root"};
    return tag > 0 && tag < (int)(sizeof words / sizeof *words) && words[tag] ? words[tag] : "no such field";
}

static int is_built_in(struct words name) {
    static const char *const words[] = {"Int", "Float", "String", "Boolean", "ID"};
    for (size_t i = 0; i < sizeof words / sizeof *words; i++)
        if (is_word(name, words[i]))
            return 1;
    return 0;
}

const char *meaning_words(const struct text *t, struct words name) {
    if (is_built_in(name))
        return "a built-in scalar";
    switch (named(t, whole(t), is_type, name).tag) {
    case GW_TAG_SCALAR: return "a scalar";
    case GW_TAG_OBJECT: return "an object";
    case GW_TAG_INTERFACE: return "an interface";
    case GW_TAG_UNION: return "a union";
    case GW_TAG_ENUM: return "an enum";
    case GW_TAG_INPUT_OBJECT: return "an input object";
    default: return "no type";
    }
}

void say_name(struct out *o, const struct text *t, struct piece p) {
    say_words(o, text_of(t, name_of(t, p)));
}

/* "object Fan", "argument id": what it is and its name. In an input object 19 is an input field. */
void say_called(struct out *o, const struct text *t, struct piece p, int in) {
    say(o, "%s%s", p.tag == GW_TAG_ARGUMENT && in == GW_TAG_INPUT_OBJECT ? "input field" : tag_words(p.tag),
        p.tag == GW_TAG_ROOTS ? "" : p.tag == GW_TAG_DIRECTIVE ? " @" : " ");
    if (p.tag != GW_TAG_ROOTS)
        say_name(o, t, p);
}
