/* The names and words of refusals, schema rules, query rules and reasons. */
#include "refusal.h"

struct entry {
    const char *name, *text;
};

#define SAID(name, text) [name] = {#name, text}
#define COUNT(entries) (sizeof(entries) / sizeof *(entries))

static const struct entry refusals[] = {
    SAID(GW_ACCEPTED, "accepted"),
    SAID(GW_REFUSE_BUFFER, "a buffer is shorter than its fixed size"),
    SAID(GW_REFUSE_OVER_LENGTH, "an input is over its length"),
    SAID(GW_REFUSE_NO_TOKEN, "bytes that start no token, or bad text in a string or comment"),
    SAID(GW_REFUSE_NO_GOING, "a token with which no document can go on, or the end where none can end"),
    SAID(GW_REFUSE_TOO_DEEP, "level 33 of open braces, brackets and parentheses"),
    SAID(GW_REFUSE_TOO_MANY_ROWS, "row 2,049 of a text"),
    SAID(GW_REFUSE_FRAMING, "a table's fields are not framed as they must be"),
    SAID(GW_REFUSE_TOO_MANY, "a count is over its size"),
    SAID(GW_REFUSE_SCHEMA, "the table breaks a schema rule"),
    SAID(GW_REFUSE_QUERY, "the document breaks a query rule"),
    SAID(GW_REFUSE_VALUE, "a value cannot be coerced to its type"),
    SAID(GW_REFUSE_NO_OPERATION, "no such operation, or no such field of it"),
    SAID(GW_REFUSE_TOO_MANY_STEPS, "the plan would have more than 4,096 steps"),
    SAID(GW_REFUSE_WALK, "a walk that the plan or the table does not allow"),
    SAID(GW_REFUSE_TOO_MANY_PAIRS, "the walk would list more than 512 pairs"),
    SAID(GW_REFUSE_TOO_LONG, "the coerced value would have more than 8,192 bytes"),
};

static const struct entry schema_rules[] = {
    SAID(GW_RULE_RESERVED_NAME, "a type's or directive's name begins with __"),
    SAID(GW_RULE_NAME_KNOWN, "the name is already known or defined before"),
    SAID(GW_RULE_NO_MEMBERS, "a type other than a scalar has no members"),
    SAID(GW_RULE_NAME_REPEATED, "a name is repeated beside an earlier one"),
    SAID(GW_RULE_RESERVED_MEMBER, "a field's or argument's name begins with __"),
    SAID(GW_RULE_ENUM_VALUE, "an enum value is true, false or null"),
    SAID(GW_RULE_NO_TYPE, "a type reference names no type"),
    SAID(GW_RULE_BASE, "a field is of an input type, or an argument or input field of an output type"),
    SAID(GW_RULE_NOT_OBJECT_OR_INTERFACE, "a union member is no object, or an implemented name no interface"),
    SAID(GW_RULE_IMPLEMENTED_TWICE, "an interface is implemented twice"),
    SAID(GW_RULE_FIELD_MISSING, "a field of an interface is missing"),
    SAID(GW_RULE_FIELD_TYPE, "a field's type is no sub-type of the interface's"),
    SAID(GW_RULE_ARGUMENT_MISSING, "an argument of an interface's field is missing"),
    SAID(GW_RULE_ARGUMENT_TYPE, "an argument's type differs from the interface's"),
    SAID(GW_RULE_ARGUMENT_EXTRA, "an argument that the interface's field has not is Non-Null"),
    SAID(GW_RULE_ROOT, "a root is no object type"),
};

static const struct entry query_rules[] = {
    SAID(GW_QUERY_RULE_OPERATION_REPEATED, "an operation's name is repeated"),
    SAID(GW_QUERY_RULE_OPERATION_UNNAMED, "an operation without a name stands beside another one"),
    SAID(GW_QUERY_RULE_FRAGMENT_REPEATED, "a fragment's name is repeated"),
    SAID(GW_QUERY_RULE_CONDITION, "a condition is no object, interface or union"),
    SAID(GW_QUERY_RULE_FIELD, "a field is not one of the type around it"),
    SAID(GW_QUERY_RULE_LEAF, "a field of a scalar or enum has selections, or another one has none"),
    SAID(GW_QUERY_RULE_SPREAD, "no fragment has this name"),
    SAID(GW_QUERY_RULE_CIRCLE, "a fragment reaches itself"),
    SAID(GW_QUERY_RULE_DIRECTIVE, "a directive is not a right @skip or @include"),
    SAID(GW_QUERY_RULE_UNDEFINED, "a variable is not defined by an operation that reaches it"),
    SAID(GW_QUERY_RULE_VARIABLE_TYPE, "a variable's type is no input type, or not that of its place"),
    SAID(GW_QUERY_RULE_NAME_TWICE, "the name of an argument or variable is repeated"),
    SAID(GW_QUERY_RULE_NO_ROOT, "the table has no root for this kind of operation"),
    SAID(GW_QUERY_RULE_ARGUMENT, "a field has no such argument"),
};

static const struct entry reasons[] = {
    SAID(GW_REASON_KIND, "a value is of another kind than its type takes"),
    SAID(GW_REASON_RANGE, "a number is beyond its type"),
    SAID(GW_REASON_MISSING, "something required is missing"),
    SAID(GW_REASON_NULL, "null where the type is Non-Null"),
    SAID(GW_REASON_UNKNOWN, "an input object has no such field"),
    SAID(GW_REASON_REPEATED, "the name of an entry is repeated"),
    SAID(GW_REASON_ENUM, "an enum has no such value"),
    SAID(GW_REASON_SURROGATE, "a string escapes half a character, \\uD800 to \\uDFFF"),
};

static const char *name_in(const struct entry *entries, size_t count, uint32_t number) {
    return number < count && entries[number].name ? entries[number].name : "unknown";
}

static const char *text_in(const struct entry *entries, size_t count, uint32_t number, const char *unknown) {
    return number < count && entries[number].text ? entries[number].text : unknown;
}

const char *gw_refusal_name(uint32_t number) {
    return name_in(refusals, COUNT(refusals), number);
}

const char *gw_refusal_text(uint32_t number) {
    return text_in(refusals, COUNT(refusals), number, "unknown refusal");
}

const char *gw_rule_name(uint32_t rule) {
    return name_in(schema_rules, COUNT(schema_rules), rule);
}

const char *gw_rule_text(uint32_t rule) {
    return text_in(schema_rules, COUNT(schema_rules), rule, "unknown rule");
}

const char *gw_query_rule_name(uint32_t rule) {
    return name_in(query_rules, COUNT(query_rules), rule);
}

const char *gw_query_rule_text(uint32_t rule) {
    return text_in(query_rules, COUNT(query_rules), rule, "unknown rule");
}

const char *gw_reason_name(uint32_t reason) {
    return name_in(reasons, COUNT(reasons), reason);
}

const char *gw_reason_text(uint32_t reason) {
    return text_in(reasons, COUNT(reasons), reason, "unknown reason");
}

const char *gw_input_text(uint32_t input) {
    static const char *const words[] = {[GW_INPUT_DOCUMENT] = "document", [GW_INPUT_VARIABLES] = "variables text", [GW_INPUT_TABLE] = "table"};
    return input < COUNT(words) ? words[input] : "plan";
}
