/* That a table breaks a schema rule, in words with names. */
#include "tell.h"

#include <inttypes.h>

static void say_type(struct out *o, const struct text *t, struct piece holder) {
    say_words(o, reference_of(t, holder));
}

/* ---- a broken rule */

/* What a break is about: the definition, the member, its argument; the interface, its field and its argument. */
struct about {
    uint32_t rule, number;
    struct piece record, member, argument, interface, promised, promised_argument;
};

static struct about find(const struct text *t, const uint32_t *report) {
    struct about a = {.rule = report[2], .number = report[1]};
    uint32_t member = report[3], part = report[4], argument = report[5];
    a.record = nth(t, whole(t), is_record, a.number);
    int owed = a.rule >= GW_RULE_FIELD_MISSING && a.rule <= GW_RULE_ARGUMENT_EXTRA;
    int named = owed || a.rule == GW_RULE_IMPLEMENTED_TWICE || (a.rule == GW_RULE_NOT_OBJECT_OR_INTERFACE && a.record.tag == GW_TAG_OBJECT);
    a.member = nth(t, a.record, named ? is_implemented : is_member, member);
    if (!owed) {
        a.argument = nth(t, a.member, is_argument, argument);
        return a;
    }
    a.interface = named_as(t, whole(t), is_type, a.member);
    a.promised = nth(t, a.interface, is_member, part);
    a.member = named_as(t, a.record, is_member, a.promised);
    a.promised_argument = nth(t, a.promised, is_argument, argument);
    a.argument = a.rule == GW_RULE_ARGUMENT_EXTRA ? nth(t, a.member, is_argument, argument)
               : named_as(t, a.member, is_argument, a.promised_argument);
    return a;
}

/* "object Fan, field tag, argument id: ", as far as the break goes. */
static void say_around(struct out *o, const struct text *t, const struct about *a) {
    say_called(o, t, a->record, 0);
    if (a->interface.tag) {
        say(o, ", which implements ");
        say_name(o, t, a->interface);
    } else if (a->member.tag) {
        say(o, ", ");
        say_called(o, t, a->member, a->record.tag);
        if (a->argument.tag) {
            say(o, ", ");
            say_called(o, t, a->argument, a->member.tag);
        }
    }
    say(o, ": ");
}

static void say_known(struct out *o, const struct text *t, const struct about *a) {
    sort *beside = a->record.tag == GW_TAG_DIRECTIVE ? is_directive : is_type;
    struct piece first = named_as(t, whole(t), beside, a->record);
    if (first.at == a->record.at)
        say(o, "this name is built in");
    else
        say(o, "definition %" PRIu32 " has this name", count_before(t, whole(t), is_record, first.at));
}

static void say_repeat(struct out *o, const struct text *t, const struct about *a) {
    struct piece holder = a->argument.tag ? a->member : a->record, again = a->argument.tag ? a->argument : a->member;
    sort *beside = a->argument.tag ? is_argument : is_member;
    struct piece first = named_as(t, holder, beside, again);
    say(o, "number %" PRIu32 " repeats the name of number %" PRIu32, count_before(t, holder, beside, again.at),
           count_before(t, holder, beside, first.at));
}

static void say_two_types(struct out *o, const struct text *t, struct piece own, struct piece promised, const char *but) {
    say(o, " is ");
    say_type(o, t, own);
    say(o, "%s", but);
    say_type(o, t, promised);
}

/* What an object owes to an interface. */
static void say_owed(struct out *o, const struct text *t, const struct about *a) {
    if (a->rule == GW_RULE_FIELD_MISSING) {
        say(o, "it has no field ");
        say_name(o, t, a->promised);
        return;
    }
    if (a->rule != GW_RULE_FIELD_TYPE) {
        struct piece p = a->rule == GW_RULE_ARGUMENT_EXTRA ? a->argument : a->promised_argument;
        say(o, "argument ");
        say_name(o, t, p);
        say(o, " of ");
    }
    say(o, "field ");
    say_name(o, t, a->promised);
    switch (a->rule) {
    case GW_RULE_FIELD_TYPE: say_two_types(o, t, a->member, a->promised, ", no sub-type of the interface's "); break;
    case GW_RULE_ARGUMENT_MISSING: say(o, " is missing"); break;
    case GW_RULE_ARGUMENT_TYPE: say_two_types(o, t, a->argument, a->promised_argument, ", the interface's is "); break;
    default:
        say(o, " is ");
        say_type(o, t, a->argument);
        say(o, ", and the interface's field has no such argument");
    }
}

static void say_break(struct out *o, const struct text *t, const struct about *a) {
    struct piece typed = a->argument.tag ? a->argument : a->member;
    switch (a->rule) {
    case GW_RULE_NAME_KNOWN: say_known(o, t, a); break;
    case GW_RULE_NAME_REPEATED: say_repeat(o, t, a); break;
    case GW_RULE_NO_TYPE: case GW_RULE_BASE:
        say(o, "its type is ");
        say_type(o, t, typed);
        say(o, ", and ");
        say_words(o, base_of(reference_of(t, typed)));
        say(o, " is %s", meaning_words(t, base_of(reference_of(t, typed))));
        break;
    case GW_RULE_NOT_OBJECT_OR_INTERFACE: case GW_RULE_ROOT:
        say_name(o, t, a->member);
        say(o, " is %s", meaning_words(t, text_of(t, name_of(t, a->member))));
        break;
    case GW_RULE_IMPLEMENTED_TWICE: say(o, "it stands there before"); break;
    case GW_RULE_RESERVED_NAME: case GW_RULE_RESERVED_MEMBER: say(o, "such names are kept for introspection"); break;
    case GW_RULE_NO_MEMBERS: say(o, "it has none"); break;
    case GW_RULE_ENUM_VALUE: say(o, "such a value could not be told from the literal"); break;
    default: say_owed(o, t, a);
    }
}

struct piece schema_piece(const struct text *table, const uint32_t *report) {
    struct about a = find(table, report);
    return a.argument.tag ? a.argument : a.member.tag ? a.member : a.record;
}

void tell_schema(struct telling *t) {
    struct about a = find(&t->table, t->report);
    struct gw_told *told = t->told;
    told->rule = a.rule;
    told->rule_name = gw_rule_name(a.rule);
    told->definition = a.number;
    told->member = t->report[3];
    told->part = t->report[4];
    told->argument = t->report[5];
    say(&t->text, "%s", gw_rule_text(a.rule));
    if (!a.record.tag) {
        say(&t->detail, "there is no record of roots, and no object type Query");
        return;
    }
    say_around(&t->detail, &t->table, &a);
    say_break(&t->detail, &t->table, &a);
}
