/* A document's rows beside a type table. */
#include "pair.h"

#include <string.h>

/* ---- rows */

uint32_t column(const struct pair *p, uint32_t row, int which) {
    return p->rows[GW_ROW_SIZE * row + which];
}

uint32_t kind_at(const struct pair *p, uint32_t row) {
    return column(p, row, GW_ROW_KIND);
}

uint32_t parent_of(const struct pair *p, uint32_t row) {
    return column(p, row, GW_ROW_PARENT);
}

struct words name_at(const struct pair *p, uint32_t row) {
    return (struct words){p->document->bytes + column(p, row, GW_ROW_NAME_START), column(p, row, GW_ROW_NAME_LENGTH)};
}

uint32_t next_held(const struct pair *p, uint32_t holder, uint32_t behind, uint32_t kind) {
    for (uint32_t i = behind + 1; i < p->count; i++)
        if (parent_of(p, i) == holder && kind_at(p, i) == kind)
            return i;
    return NO_ROW;
}

static uint32_t first_held(const struct pair *p, uint32_t holder, uint32_t kind) {
    return next_held(p, holder, holder, kind);
}

uint32_t first_named(const struct pair *p, uint32_t holder, uint32_t kind, struct words name) {
    for (uint32_t i = 0; i < p->count; i++)
        if (parent_of(p, i) == holder && kind_at(p, i) == kind && same_words(name_at(p, i), name))
            return i;
    return NO_ROW;
}

uint32_t first_called(const struct pair *p, uint32_t holder, uint32_t kind, uint32_t like) {
    return first_named(p, holder, kind, name_at(p, like));
}

/* ---- types */

static const struct piece none;

/* The record of an object, interface or union. */
static struct piece composite(const struct pair *p, struct words name) {
    struct piece record = named(p->table, whole(p->table), is_type, name);
    return record.tag >= GW_TAG_OBJECT && record.tag <= GW_TAG_UNION ? record : none;
}

static int is_roots(int tag) {
    return tag == GW_TAG_ROOTS;
}

static struct piece root_of(const struct pair *p, uint32_t operation) {
    struct piece roots = nth(p->table, whole(p->table), is_roots, 0);
    int kind = (int)column(p, operation, GW_ROW_EXTRA);
    if (!roots.tag)
        return kind == GW_EXTRA_QUERY ? composite(p, (struct words){(const uint8_t *)"Query", 5}) : none;
    for (uint32_t n = 0;; n++) {
        struct piece root = nth(p->table, roots, is_member, n);
        if (!root.tag || root.tag == GW_TAG_QUERY_ROOT + kind)
            return root.tag ? composite(p, text_of(p->table, root)) : none;
    }
}

/* The record of the type that the selections in a row are of. */
static struct piece inside(const struct pair *p, uint32_t row) {
    uint32_t condition = first_held(p, row, GW_KIND_TYPE_REFERENCE);
    switch (kind_at(p, row)) {
    case GW_KIND_OPERATION: return root_of(p, row);
    case GW_KIND_FRAGMENT: return composite(p, name_at(p, condition));
    case GW_KIND_INLINE: return condition == NO_ROW ? around(p, row) : composite(p, name_at(p, condition));
    case GW_KIND_FIELD: {
        struct piece field = field_at(p, row);
        return field.tag ? composite(p, base_of(reference_of(p->table, field))) : none;
    }
    default: return none;
    }
}

struct piece around(const struct pair *p, uint32_t row) {
    return inside(p, parent_of(p, row));
}

struct piece field_at(const struct pair *p, uint32_t row) {
    struct piece record = around(p, row);
    return record.tag == GW_TAG_OBJECT || record.tag == GW_TAG_INTERFACE ? named(p->table, record, is_member, name_at(p, row)) : none;
}

static const struct words unknown;

/* A type without its outermost wrapper, if it is this one. */
static struct words without(struct words type, uint32_t wrapper) {
    uint8_t last = type.length ? type.bytes[type.length - 1] : 0;
    if (wrapper == GW_WRAP_NON_NULL)
        return last == '!' ? (struct words){type.bytes, type.length - 1} : unknown;
    return last == ']' ? (struct words){type.bytes + 1, type.length - 2} : unknown;
}

static struct words nullable(struct words type) {
    struct words inner = without(type, GW_WRAP_NON_NULL);
    return inner.bytes ? inner : type;
}

/* The type of an argument of a field, or of a field of an input object. */
static struct words member_type(const struct pair *p, struct piece holder, uint32_t row) {
    struct piece found = holder.tag ? named(p->table, holder, is_argument, name_at(p, row)) : none;
    return found.tag ? reference_of(p->table, found) : unknown;
}

struct words declared_type(const struct pair *p, uint32_t definition) {
    static _Thread_local uint8_t room[GW_MOST_TEXT + 2 * GW_MOST_WRAPPERS];
    uint32_t reference = first_held(p, definition, GW_KIND_TYPE_REFERENCE), wrappers = column(p, reference, GW_ROW_EXTRA);
    uint8_t behind[GW_MOST_WRAPPERS];
    struct words base = name_at(p, reference);
    size_t length = 0, marks = 0;
    for (; wrappers && marks < GW_MOST_WRAPPERS; wrappers >>= 2) {
        behind[marks++] = (wrappers & 3) == GW_WRAP_LIST ? ']' : '!';
        if (behind[marks - 1] == ']')
            room[length++] = '[';
    }
    memcpy(room + length, base.bytes, base.length);
    for (length += base.length; marks > 0;)
        room[length++] = behind[--marks];
    return (struct words){room, length};
}

/* The type of a variable that a variables text gives. */
static struct words due_to_variable(const struct pair *p, uint32_t row) {
    uint32_t definition = first_named(p->of, p->operation, GW_KIND_VARIABLE_DEFINITION, name_at(p, row));
    return definition == NO_ROW ? unknown : declared_type(p->of, definition);
}

static struct words due_in_object(const struct pair *p, uint32_t row) {
    if (p->of && parent_of(p, row) == 0)
        return due_to_variable(p, row);
    struct words type = due_at(p, parent_of(p, row));
    struct piece record = type.bytes ? named(p->table, whole(p->table), is_type, base_of(type)) : none;
    return record.tag == GW_TAG_INPUT_OBJECT ? member_type(p, record, row) : unknown;
}

struct words due_at(const struct pair *p, uint32_t row) {
    uint32_t up = parent_of(p, row);
    if (up == NO_ROW)
        return unknown;
    switch (kind_at(p, row)) {
    case GW_KIND_ARGUMENT:
        return kind_at(p, up) == GW_KIND_DIRECTIVE ? (struct words){(const uint8_t *)"Boolean", 7} : member_type(p, field_at(p, up), row);
    case GW_KIND_OBJECT_FIELD: return due_in_object(p, row);
    default:
        if (kind_at(p, up) == GW_KIND_LIST)
            return without(nullable(due_at(p, up)), GW_WRAP_LIST);
        if (kind_at(p, up) == GW_KIND_VARIABLE_DEFINITION)
            return declared_type(p, up);
        return kind_at(p, up) == GW_KIND_ARGUMENT || kind_at(p, up) == GW_KIND_OBJECT_FIELD ? due_at(p, up) : unknown;
    }
}

int is_type_due(const struct pair *p, uint32_t reference, struct words due) {
    uint32_t wrappers = column(p, reference, GW_ROW_EXTRA);
    due = nullable(due);
    for (wrappers >>= (wrappers & 3) == GW_WRAP_NON_NULL ? 2 : 0; wrappers; wrappers >>= 2) {
        due = without(due, wrappers & 3);
        if (!due.bytes)
            return 0;
    }
    return same_words(due, name_at(p, reference));
}

/* ---- reaching */

static uint32_t definition_of(const struct pair *p, uint32_t row) {
    while (parent_of(p, row) != NO_ROW)
        row = parent_of(p, row);
    return row;
}

int reaches(const struct pair *p, uint32_t from, uint32_t to, uint32_t before[GW_MOST_ROWS]) {
    uint32_t met[GW_MOST_FRAGMENTS + 1] = {from}, count = 1;
    for (uint32_t i = 0; i < p->count; i++)
        before[i] = NO_ROW;
    for (uint32_t k = 0; k < count; k++)
        for (uint32_t i = met[k] + 1; i < p->count && parent_of(p, i) != NO_ROW; i++) {
            uint32_t fragment = kind_at(p, i) == GW_KIND_SPREAD ? first_called(p, NO_ROW, GW_KIND_FRAGMENT, i) : NO_ROW;
            if (fragment == NO_ROW || before[fragment] != NO_ROW)
                continue;
            before[fragment] = met[k];
            met[count++] = fragment;
        }
    return before[to] != NO_ROW;
}

uint32_t next_reaching(const struct pair *p, uint32_t from, uint32_t row) {
    uint32_t before[GW_MOST_ROWS], definition = definition_of(p, row);
    for (uint32_t i = from; i < p->count; i++)
        if (kind_at(p, i) == GW_KIND_OPERATION && (i == definition || reaches(p, i, definition, before)))
            return i;
    return NO_ROW;
}
