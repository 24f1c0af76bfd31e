/* That a document breaks a query rule, in words with names. */
#include "tell.h"

#include <inttypes.h>
#include <string.h>

enum { SHOWN_SPREADS = 6 }; /* of a circle */

/* ---- names */

static void say_named(struct out *o, const struct pair *p, const char *what, uint32_t row) {
    say(o, "%s", what);
    say_words(o, name_at(p, row));
}

/* "Fan, an object" */
static void say_meaning(struct out *o, const struct pair *p, struct words type) {
    say_words(o, type);
    say(o, ", %s", meaning_words(p->table, base_of(type)));
}

/* "field rpm of object Fan" */
static void say_field(struct out *o, const struct pair *p, uint32_t row) {
    say_named(o, p, "field ", row);
    say(o, " of ");
    say_called(o, p->table, around(p, row), 0);
}

/* The type reference of a variable definition, as its wrappers and base. */
static void say_declared(struct out *o, const struct pair *p, uint32_t definition) {
    uint32_t reference = next_held(p, definition, definition, GW_KIND_TYPE_REFERENCE);
    uint32_t start = column(p, reference, GW_ROW_START);
    say_words(o, (struct words){p->document->bytes + start, column(p, reference, GW_ROW_END) - start});
}

/* ---- the rules */

static void say_repeat(struct out *o, const struct pair *p, uint32_t row) {
    uint32_t first = first_called(p, parent_of(p, row), kind_at(p, row), row);
    say_named(o, p, kind_at(p, row) == GW_KIND_VARIABLE_DEFINITION ? "$" : "", row);
    say(o, " is already the name of the %s at ", kind_words(kind_at(p, row)));
    say_place(o, p, first);
}

static void say_unnamed(struct out *o, const struct pair *p) {
    uint32_t operations = 0;
    for (uint32_t i = 0; i < p->count; i++)
        operations += kind_at(p, i) == GW_KIND_OPERATION;
    say(o, "the document has %" PRIu32 " operations", operations);
}

static void say_unknown_field(struct out *o, const struct pair *p, uint32_t row) {
    struct piece record = around(p, row);
    say_called(o, p->table, record, 0);
    say_named(o, p, " has no field ", row);
    if (record.tag == GW_TAG_UNION)
        say(o, ": of a union there is __typename alone");
}

static void say_leaf(struct out *o, const struct pair *p, uint32_t row) {
    struct piece field = field_at(p, row);
    struct words type = field.tag ? reference_of(p->table, field) : (struct words){(const uint8_t *)"String!", 7};
    int selects = next_held(p, row, row, GW_KIND_FIELD) != NO_ROW || next_held(p, row, row, GW_KIND_SPREAD) != NO_ROW ||
                  next_held(p, row, row, GW_KIND_INLINE) != NO_ROW;
    say_field(o, p, row);
    say(o, " is ");
    say_meaning(o, p, type);
    say(o, selects ? ": it can have no selections" : ": it must have selections");
}

/* "F spreads G, G spreads F" */
static void say_circle(struct out *o, const struct pair *p, uint32_t row) {
    uint32_t before[GW_MOST_ROWS], path[GW_MOST_FRAGMENTS + 1] = {row}, length = 1;
    reaches(p, row, row, before);
    for (uint32_t i = before[row]; i != row && length <= GW_MOST_FRAGMENTS; i = before[i])
        path[length++] = i;
    for (uint32_t k = 0; k < length; k++) {
        uint32_t from = path[(length - k) % length], to = path[length - k - 1];
        if (k >= SHOWN_SPREADS) {
            say(o, ", and so on over %" PRIu32 " spreads", length);
            return;
        }
        say_named(o, p, k ? ", " : "", from);
        say_named(o, p, " spreads ", to);
    }
}

/* What is wrong with a directive's arguments. */
static void say_condition(struct out *o, const struct pair *p, uint32_t row) {
    uint32_t first = next_held(p, row, row, GW_KIND_ARGUMENT);
    if (first == NO_ROW || next_held(p, row, first, GW_KIND_ARGUMENT) != NO_ROW) {
        say(o, " has %s: it takes just one, if", first == NO_ROW ? "no argument" : "more than one argument");
    } else if (!is_word(name_at(p, first), "if")) {
        say_named(o, p, " takes no argument ", first);
        say(o, ": it takes just one, if");
    } else {
        const char *kind = kind_words(kind_at(p, first + 1)); /* an argument's value stands right behind it */
        say(o, " has %s %s for its if: that is a boolean or a variable", strchr("aeiou", kind[0]) ? "an" : "a", kind);
    }
}

static void say_directive(struct out *o, const struct pair *p, uint32_t row) {
    uint32_t holder = parent_of(p, row), first = first_called(p, holder, GW_KIND_DIRECTIVE, row);
    say_named(o, p, "@", row);
    if (!is_word(name_at(p, row), "skip") && !is_word(name_at(p, row), "include")) {
        say(o, " is neither @skip nor @include");
    } else if (parent_of(p, holder) == NO_ROW) {
        say(o, " stands on %s: it can stand on a selection alone", kind_at(p, holder) == GW_KIND_OPERATION ? "an operation" : "a fragment");
    } else if (first != row) {
        say(o, " stands there already, at ");
        say_place(o, p, first);
    } else {
        say_condition(o, p, row);
    }
}

/* The operation that reaches a variable and does not define it, or defines it with another type than is due. */
static void say_variable(struct out *o, const struct pair *p, uint32_t row) {
    struct words due = due_at(p, row);
    for (uint32_t i = next_reaching(p, 0, row); i != NO_ROW; i = next_reaching(p, i + 1, row)) {
        uint32_t definition = first_called(p, i, GW_KIND_VARIABLE_DEFINITION, row);
        if (definition == NO_ROW) {
            say_operation(o, p, i);
            say_named(o, p, " reaches it and does not define $", row);
            return;
        }
        if (!due.bytes || is_type_due(p, next_held(p, definition, definition, GW_KIND_TYPE_REFERENCE), due))
            continue;
        say_named(o, p, "$", row);
        say(o, " is ");
        say_declared(o, p, definition);
        say(o, " in ");
        say_operation(o, p, i);
        say(o, ", and ");
        say_words(o, due);
        say(o, " is due here");
        return;
    }
}

static void say_definition(struct out *o, const struct pair *p, uint32_t row) {
    uint32_t reference = next_held(p, row, row, GW_KIND_TYPE_REFERENCE);
    say_named(o, p, "$", row);
    say(o, " is ");
    say_declared(o, p, row);
    say_named(o, p, ", and ", reference);
    say(o, " is %s", meaning_words(p->table, name_at(p, reference)));
}

static void say_break(struct out *o, const struct pair *p, uint32_t row, uint32_t rule) {
    switch (rule) {
    case GW_QUERY_RULE_OPERATION_REPEATED: case GW_QUERY_RULE_FRAGMENT_REPEATED: case GW_QUERY_RULE_NAME_TWICE: say_repeat(o, p, row); break;
    case GW_QUERY_RULE_OPERATION_UNNAMED: say_unnamed(o, p); break;
    case GW_QUERY_RULE_CONDITION:
        say_words(o, name_at(p, row));
        say(o, " is %s", meaning_words(p->table, name_at(p, row)));
        break;
    case GW_QUERY_RULE_FIELD: say_unknown_field(o, p, row); break;
    case GW_QUERY_RULE_LEAF: say_leaf(o, p, row); break;
    case GW_QUERY_RULE_SPREAD: say_named(o, p, "there is no fragment ", row); break;
    case GW_QUERY_RULE_CIRCLE: say_circle(o, p, row); break;
    case GW_QUERY_RULE_DIRECTIVE: say_directive(o, p, row); break;
    case GW_QUERY_RULE_VARIABLE_TYPE:
        if (kind_at(p, row) == GW_KIND_VARIABLE_DEFINITION) {
            say_definition(o, p, row);
            break;
        } /* fall through */
    case GW_QUERY_RULE_UNDEFINED: say_variable(o, p, row); break;
    case GW_QUERY_RULE_NO_ROOT: say(o, "there is no %s root", operation_words(column(p, row, GW_ROW_EXTRA))); break;
    default:
        say_field(o, p, parent_of(p, row));
        say_named(o, p, " has no argument ", row);
    }
}

void tell_query(struct telling *t, const struct pair *p) {
    uint32_t row = t->report[1], rule = t->report[2];
    t->told->rule = rule;
    t->told->rule_name = gw_query_rule_name(rule);
    tell_row(t, p, row);
    say(&t->text, "%s", gw_query_rule_text(rule));
    say_break(&t->detail, p, row, rule);
}
