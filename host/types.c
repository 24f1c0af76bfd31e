/* A reader of the text of types, which writes the table as it goes. What is wrong is told once; from there on nothing is done. */
#include "types_reader.h"

/* Marks, a name, marks: written as they come, with nothing ignored between them. */
static void take_reference(struct reader *r) {
    size_t at = begin_field(r, GW_TAG_REFERENCE, r->start), open = 0;
    for (; is_token(r, "["); next_token(r), open++)
        put_byte(r, '[', r->start);
    if (!is_name_token(r))
        fault_here(r, "a type");
    for (size_t i = r->start; i < r->end && !r->failed; i++)
        put_byte(r, r->text->bytes[i], i);
    next_token(r);
    for (int marked = 0; is_token(r, "!") || (open > 0 && is_token(r, "]")); next_token(r)) {
        if (marked && is_token(r, "!"))
            fault_at(r, r->start, "a type is Non-Null once: no second ! can stand here");
        marked = is_token(r, "!");
        open -= !marked;
        put_byte(r, marked ? '!' : ']', r->start);
    }
    if (open > 0)
        fault_here(r, "\"]\" or \"!\"");
    end_field(r, at);
}

static void take_argument(struct reader *r) {
    size_t at = begin_field(r, GW_TAG_ARGUMENT, r->start);
    take_name_as(r, GW_TAG_NAME, "a name");
    take_mark(r, ":", "\":\" and a type");
    take_reference(r);
    end_field(r, at);
    if (is_token(r, "=") || is_token(r, "@"))
        fault_here(r, "");
}

static void take_arguments(struct reader *r) {
    if (!is_token(r, "("))
        return;
    for (next_token(r); !r->failed && !is_token(r, ")");)
        if (is_name_token(r))
            take_argument(r);
        else
            fault_here(r, "an argument or \")\"");
    next_token(r);
}

/* A field's type stands before its arguments in the table and behind them in the text: the arguments are read twice. */
static void take_field(struct reader *r) {
    size_t at = begin_field(r, GW_TAG_FIELD, r->start);
    take_name_as(r, GW_TAG_NAME, "a field's name");
    size_t start = r->start, end = r->end, length = r->made->length;
    take_arguments(r);
    take_mark(r, ":", r->start == start ? "\"(\" or \":\"" : "\":\"");
    r->made->length = length;
    take_reference(r);
    struct reader behind = *r;
    if (!r->failed) {
        r->start = start, r->end = end;
        take_arguments(r);
        r->start = behind.start, r->end = behind.end;
    }
    end_field(r, at);
    if (is_token(r, "@") || is_token(r, "="))
        fault_here(r, "");
}

static void take_enum_value(struct reader *r) {
    take_name_as(r, GW_TAG_ENUM_VALUE, "an enum value");
}

/* { one of them after the other } */
static void take_body(struct reader *r, void (*one)(struct reader *), const char *expected) {
    take_mark(r, "{", "\"{\"");
    while (!r->failed && !is_token(r, "}"))
        if (is_name_token(r))
            one(r);
        else
            fault_here(r, expected);
    next_token(r);
}

static void take_object(struct reader *r) {
    if (is_token(r, "implements")) {
        next_token(r);
        take_name_as(r, GW_TAG_IMPLEMENTS, "an interface's name");
        while (!r->failed && !is_token(r, "{"))
            take_name_as(r, GW_TAG_IMPLEMENTS, "an interface's name or \"{\"");
    } else if (!is_token(r, "{"))
        fault_here(r, "\"implements\" or \"{\"");
    take_body(r, take_field, "a field or \"}\"");
}

static void take_union(struct reader *r) {
    if (is_token(r, "|"))
        fault_here(r, "\"=\"");
    if (!is_token(r, "="))
        return;
    next_token(r);
    if (is_token(r, "|"))
        next_token(r);
    take_name_as(r, GW_TAG_UNION_MEMBER, "an object type's name");
    while (is_token(r, "|")) {
        next_token(r);
        take_name_as(r, GW_TAG_UNION_MEMBER, "an object type's name");
    }
}

/* The places of a directive, which a table does not keep. */
static void pass_places(struct reader *r) {
    if (!is_token(r, "on"))
        return;
    do {
        next_token(r);
        if (!is_name_token(r))
            fault_here(r, "a place of the directive");
        next_token(r);
    } while (is_token(r, "|"));
}

static void take_directive(struct reader *r) {
    take_arguments(r);
    pass_places(r);
}

/* The roots stand in any order in the text, and in one in the table. */
static void take_roots(struct reader *r, size_t from) {
    static const char *const names[] = {"query", "mutation", "subscription"};
    struct words roots[3] = {{NULL, 0}, {NULL, 0}, {NULL, 0}};
    take_mark(r, "{", "\"{\"");
    while (!r->failed && !is_token(r, "}")) {
        int which = is_token(r, names[0]) ? 0 : is_token(r, names[1]) ? 1 : is_token(r, names[2]) ? 2 : -1;
        if (which < 0)
            fault_here(r, "\"query\", \"mutation\", \"subscription\" or \"}\"");
        else if (roots[which].bytes)
            fault_at(r, r->start, "this root is there already");
        next_token(r);
        take_mark(r, ":", "\":\"");
        if (!is_name_token(r))
            fault_here(r, "an object type's name");
        if (which >= 0)
            roots[which] = token_words(r);
        next_token(r);
    }
    next_token(r);
    if (!roots[0].bytes)
        fault_at(r, from, "the schema lacks its query root");
    for (int i = 0; i < 3 && !r->failed; i++)
        if (roots[i].bytes)
            put_text(r, GW_TAG_QUERY_ROOT + i, roots[i]);
}

static int tag_of(const struct reader *r) {
    static const struct {
        const char *word;
        int tag;
    } kinds[] = {{"scalar", GW_TAG_SCALAR}, {"type", GW_TAG_OBJECT}, {"interface", GW_TAG_INTERFACE}, {"union", GW_TAG_UNION},
                 {"enum", GW_TAG_ENUM}, {"input", GW_TAG_INPUT_OBJECT}, {"directive", GW_TAG_DIRECTIVE}, {"schema", GW_TAG_ROOTS}};
    for (size_t i = 0; i < sizeof kinds / sizeof *kinds; i++)
        if (is_token(r, kinds[i].word))
            return kinds[i].tag;
    return 0;
}

static void take_members(struct reader *r, int tag, size_t from) {
    switch (tag) {
    case GW_TAG_OBJECT: take_object(r); break;
    case GW_TAG_INTERFACE: take_body(r, take_field, "a field or \"}\""); break;
    case GW_TAG_UNION: take_union(r); break;
    case GW_TAG_ENUM: take_body(r, take_enum_value, "an enum value or \"}\""); break;
    case GW_TAG_INPUT_OBJECT: take_body(r, take_argument, "an input field or \"}\""); break;
    case GW_TAG_DIRECTIVE: take_directive(r); break;
    case GW_TAG_ROOTS: take_roots(r, from);
    }
}

static void take_definition(struct reader *r) {
    int tag = tag_of(r);
    size_t from = r->start;
    if (!tag) {
        fault_here(r, "\"scalar\", \"type\", \"interface\", \"union\", \"enum\", \"input\", \"directive\" or \"schema\"");
        return;
    }
    if (tag == GW_TAG_ROOTS && r->has_schema)
        fault_at(r, from, "there is a schema already");
    r->has_schema |= tag == GW_TAG_ROOTS;
    size_t at = begin_field(r, tag, from);
    next_token(r);
    if (tag == GW_TAG_DIRECTIVE)
        take_mark(r, "@", "\"@\" and the directive's name");
    if (tag != GW_TAG_ROOTS)
        take_name_as(r, GW_TAG_NAME, tag == GW_TAG_DIRECTIVE ? "the directive's name" : "the type's name");
    take_members(r, tag, from);
    end_field(r, at);
}

int make_table(const struct text *types, struct made_table *made, struct out *fault, size_t *offset) {
    struct reader r = {.text = types, .made = made, .fault = fault};
    made->length = 0;
    for (next_token(&r); !r.failed && r.start < types->length;)
        take_definition(&r);
    *offset = r.wrong;
    return !r.failed;
}

int is_type_text(const struct text *t) {
    static struct made_table made;
    char words[8];
    struct out nowhere = {.room = words, .size = sizeof words};
    size_t offset;
    return make_table(t, &made, &nowhere, &offset) && made.length > 0;
}
