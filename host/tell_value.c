/* Why values cannot be coerced, in words with names; and that there is no such operation or field. */
#include "tell.h"

#include "plans.h"
#include "variables.h"

#include <inttypes.h>
#include <string.h>

/* ---- 12 */

/* How many operations a document has. */
static uint32_t operation_count(const struct pair *p) {
    uint32_t count = 0;
    for (uint32_t i = 0; i < p->count; i++)
        count += kind_at(p, i) == GW_KIND_OPERATION;
    return count;
}

static struct words operation_name(const struct telling *t) {
    return (struct words){t->given->operation, t->given->operation_len};
}

static void say_no_operation(struct out *o, struct words name, uint32_t count) {
    if (name.length) {
        say(o, "no operation is called ");
        say_words(o, name);
    } else if (count == 0) {
        say(o, "the document has no operation");
    } else {
        say(o, "the document has %" PRIu32 " operations, and which one is meant is not said", count);
    }
}

/* What a row is that is no field of the operation. */
static void say_other_row(struct out *o, const struct pair *p, uint32_t row) {
    if (row >= p->count) {
        say(o, "the document has %" PRIu32 " rows", p->count);
    } else if (kind_at(p, row) != GW_KIND_FIELD) {
        say(o, "row %" PRIu32 " is %s %s", row, article(kind_words(kind_at(p, row))), kind_words(kind_at(p, row)));
    } else {
        uint32_t holder = row;
        while (parent_of(p, holder) != NO_ROW)
            holder = parent_of(p, holder);
        say(o, "field ");
        say_words(o, name_at(p, row));
        say(o, " at ");
        say_place(o, p, row);
        say(o, " is one of ");
        if (kind_at(p, holder) == GW_KIND_OPERATION) {
            say_operation(o, p, holder);
        } else {
            say(o, "fragment ");
            say_words(o, name_at(p, holder));
        }
    }
}

void tell_no_operation(struct telling *t, const struct pair *p) {
    uint32_t operation = operation_row(p, operation_name(t));
    if (operation == NO_ROW) {
        t->text.names = t->detail.names; /* the operation's name stands in the text */
        t->text.most_names = t->detail.most_names;
        say_no_operation(&t->text, operation_name(t), operation_count(p));
        t->detail.name_count = t->text.name_count;
        return;
    }
    say(&t->text, "row %" PRIu32 " is no field that ", t->given->row);
    say_operation(&t->text, p, operation);
    say(&t->text, " reaches");
    say_other_row(&t->detail, p, t->given->row);
}

/* ---- 11 */

/* The document and the variables text side by side. */
struct sides {
    struct pair document, variables;
};

/* "Int! is due", "[Kind] is due; Kind is an enum" */
static void say_due(struct out *o, const struct pair *p, uint32_t row) {
    struct words due = due_at(p, row), base = base_of(due);
    const char *meaning = meaning_words(p->table, base);
    say_words(o, due);
    say(o, " is due");
    if (strcmp(meaning, "a built-in scalar") == 0)
        return;
    say(o, "; ");
    say_words(o, base);
    say(o, " is %s", meaning);
}

static struct words token_at(const struct pair *p, uint32_t row) {
    uint32_t start = column(p, row, GW_ROW_START);
    return (struct words){p->document->bytes + start, column(p, row, GW_ROW_END) - start};
}

static void say_range(struct out *o, const struct pair *p, uint32_t row) {
    say_words(o, token_at(p, row));
    say(o, is_word(base_of(due_at(p, row)), "Int") ? " is not from -2147483648 to 2147483647" : " is not from -9007199254740992 to 9007199254740992");
}

/* Whether a variable's use stands for nothing: neither a value nor a default is there. */
static int is_absent(const struct sides *s, uint32_t row) {
    const struct pair *d = &s->document, *v = &s->variables;
    if (kind_at(d, row) != GW_KIND_VARIABLE || first_named(v, 0, GW_KIND_OBJECT_FIELD, name_at(d, row)) != NO_ROW)
        return 0;
    uint32_t definition = first_named(d, v->operation, GW_KIND_VARIABLE_DEFINITION, name_at(d, row));
    uint32_t reference = next_held(d, definition, definition, GW_KIND_TYPE_REFERENCE);
    return reference + 1 >= d->count || parent_of(d, reference + 1) != definition;
}

/* The first required argument or input field of a holder that a row does not give. */
static void say_missing_in(struct out *o, const struct sides *s, const struct pair *p, uint32_t row, struct piece holder, uint32_t kind) {
    for (uint32_t n = 0;; n++) {
        struct piece member = nth(p->table, holder, is_argument, n);
        struct words type = member.tag ? reference_of(p->table, member) : (struct words){NULL, 0};
        uint32_t given = member.tag ? first_named(p, row, kind, text_of(p->table, name_of(p->table, member))) : NO_ROW;
        int absent = given != NO_ROW && p == &s->document && is_absent(s, given + 1);
        if (member.tag && (type.bytes[type.length - 1] != '!' || (given != NO_ROW && !absent)))
            continue;
        say_called(o, p->table, holder, 0);
        say(o, " must have ");
        say_name(o, p->table, member);
        say(o, ": ");
        say_words(o, type);
        if (absent) {
            say(o, ", and $");
            say_words(o, name_at(p, given + 1));
            say(o, " has no value");
        }
        return;
    }
}

static struct piece type_due(const struct pair *p, uint32_t row) {
    return named(p->table, whole(p->table), is_type, base_of(due_at(p, row)));
}

static void say_missing(struct out *o, const struct sides *s, const struct pair *p, uint32_t row) {
    if (kind_at(p, row) == GW_KIND_VARIABLE_DEFINITION) {
        say(o, "$");
        say_words(o, name_at(p, row));
        say(o, ": ");
        say_words(o, declared_type(p, row));
        say(o, " is not given and has no default");
    } else if (kind_at(p, row) == GW_KIND_FIELD) {
        say_missing_in(o, s, p, row, field_at(p, row), GW_KIND_ARGUMENT);
    } else {
        say_missing_in(o, s, p, row, type_due(p, row), GW_KIND_OBJECT_FIELD);
    }
}

static void say_null(struct out *o, const struct sides *s, const struct pair *p, uint32_t row) {
    if (kind_at(p, row) == GW_KIND_VARIABLE) {
        say(o, "$");
        say_words(o, name_at(p, row));
        say(o, is_absent(s, row) ? " has no value, which is null in a list; " : " holds null; ");
    }
    say_due(o, p, row);
}

static void say_repeated(struct out *o, const struct pair *p, uint32_t row) {
    say_words(o, name_at(p, row));
    say(o, " is already the name of the entry at ");
    say_place(o, p, first_called(p, parent_of(p, row), GW_KIND_OBJECT_FIELD, row));
}

static void say_unknown(struct out *o, const struct pair *p, uint32_t row, const char *what) {
    say_called(o, p->table, type_due(p, kind_at(p, row) == GW_KIND_OBJECT_FIELD ? parent_of(p, row) : row), 0);
    say(o, " has no %s ", what);
    say_words(o, name_at(p, row));
}

static void say_reason(struct out *o, const struct sides *s, const struct pair *p, uint32_t row, uint32_t reason) {
    const char *kind = kind_words(kind_at(p, row));
    switch (reason) {
    case GW_REASON_KIND: say(o, "%s %s stands where ", article(kind), kind), say_due(o, p, row); break;
    case GW_REASON_RANGE: say_range(o, p, row); break;
    case GW_REASON_MISSING: say_missing(o, s, p, row); break;
    case GW_REASON_NULL: say_null(o, s, p, row); break;
    case GW_REASON_UNKNOWN: say_unknown(o, p, row, "field"); break;
    case GW_REASON_REPEATED: say_repeated(o, p, row); break;
    case GW_REASON_ENUM: say_unknown(o, p, row, "value"); break;
    case GW_REASON_SURROGATE: say_due(o, p, row);
    }
}

void tell_value(struct telling *t, const struct pair *document) {
    uint32_t row = t->report[2], reason = t->report[3], *rows = t->told->variable_rows;
    struct sides s = {*document, {&t->table, &t->variables, rows, read_variables(&t->variables, rows), NULL, operation_row(document, operation_name(t))}};
    s.variables.of = &s.document;
    const struct pair *p = t->told->input == GW_INPUT_VARIABLES ? &s.variables : &s.document;
    t->told->rule = reason;
    t->told->rule_name = gw_reason_name(reason);
    say(&t->text, "%s", gw_reason_text(reason));
    if (row >= p->count)
        return;
    tell_row(t, p, row);
    say_reason(&t->detail, &s, p, row, reason);
}
