/* The names that belong to a plan, and plans as bytes. */
#include "plans.h"

#include <string.h>

/* ---- numbers */

const uint32_t *step_at(const uint32_t *plan, uint32_t step) {
    return plan + GW_PLAN_STEP_0 + GW_STEP_SIZE * step;
}

uint32_t first_step(const uint32_t *plan, uint32_t block) {
    return plan[GW_PLAN_FIRSTS + block];
}

uint32_t past_steps(const uint32_t *plan, uint32_t block) {
    return block + 1 < plan[GW_PLAN_BLOCKS] ? first_step(plan, block + 1) : plan[GW_PLAN_STEPS];
}

/* ---- names */

uint32_t operation_row(const struct pair *p, struct words name) {
    uint32_t found = NO_ROW, count = 0;
    for (uint32_t i = 0; i < p->count; i++)
        if (kind_at(p, i) == GW_KIND_OPERATION && (!name.length || (found == NO_ROW && same_words(name_at(p, i), name)))) {
            found = i;
            count++;
        }
    return count == 1 ? found : NO_ROW;
}

static int is_selection(uint32_t kind) {
    return kind == GW_KIND_FIELD || kind == GW_KIND_SPREAD || kind == GW_KIND_INLINE;
}

/* Whether a field has selections: one stands right in it. */
static int has_selections(const struct pair *p, uint32_t field) {
    for (uint32_t i = field + 1; i < p->count && column(p, i, GW_ROW_START) < column(p, field, GW_ROW_END); i++)
        if (parent_of(p, i) == field && is_selection(kind_at(p, i)))
            return 1;
    return 0;
}

/* Marks the definitions that an operation reaches, itself too. */
static void mark_reached(const struct pair *p, uint32_t operation, uint8_t reached[GW_MOST_ROWS]) {
    uint32_t before[GW_MOST_ROWS];
    reaches(p, operation, operation, before);
    for (uint32_t i = 0; i < p->count; i++)
        reached[i] = i == operation || before[i] != NO_ROW;
}

uint32_t block_rows(const struct pair *p, uint32_t operation, uint32_t rows[GW_MOST_BLOCKS]) {
    uint8_t reached[GW_MOST_ROWS];
    uint32_t count = 0, definition = 0;
    mark_reached(p, operation, reached);
    rows[count++] = operation;
    for (uint32_t i = 0; i < p->count; i++) {
        if (parent_of(p, i) == NO_ROW)
            definition = i;
        if (reached[definition] && kind_at(p, i) == GW_KIND_FIELD && has_selections(p, i) && count < GW_MOST_BLOCKS)
            rows[count++] = i;
    }
    return count;
}

struct words key_at(const struct pair *p, uint32_t row) {
    size_t start = column(p, row, GW_ROW_START), end = start;
    while (end < column(p, row, GW_ROW_END) && is_name_byte(p->document->bytes[end]))
        end++;
    return (struct words){p->document->bytes + start, end - start};
}

void names_of(const struct pair *p, uint32_t operation, struct plan_names *names) {
    uint32_t blocks[GW_MOST_BLOCKS], definition = 0;
    uint8_t reached[GW_MOST_ROWS];
    memset(names, 0, sizeof *names);
    mark_reached(p, operation, reached);
    for (uint32_t i = 0; i < p->count; i++) {
        if (parent_of(p, i) == NO_ROW)
            definition = i;
        if (parent_of(p, i) == operation && kind_at(p, i) == GW_KIND_VARIABLE_DEFINITION)
            names->variables[names->variable_count++] = name_at(p, i);
        else if (reached[definition] && kind_at(p, i) == GW_KIND_FIELD)
            names->fields[i] = (struct field_names){key_at(p, i), name_at(p, i), 0};
    }
    for (uint32_t b = block_rows(p, operation, blocks) - 1; b > 0; b--)
        names->fields[blocks[b]].block = b;
}

/* ---- writing */

static const uint8_t first_bytes[] = {137, 'G', 'W', 'P', 'L', 'A', 'N', 1};

struct writing {
    uint8_t *room;
    size_t length;
};

static void write_number(struct writing *w, uint32_t number) {
    for (int shift = 24; shift >= 0; shift -= 8)
        w->room[w->length++] = (uint8_t)(number >> shift);
}

static void write_words(struct writing *w, struct words some) {
    w->room[w->length++] = (uint8_t)(some.length >> 8);
    w->room[w->length++] = (uint8_t)some.length;
    memcpy(w->room + w->length, some.bytes, some.length);
    w->length += some.length;
}

size_t save_plan(const uint32_t *plan, const struct plan_names *names, uint8_t *room) {
    struct writing w = {room, sizeof first_bytes};
    uint32_t fields = 0;
    memcpy(room, first_bytes, sizeof first_bytes);
    for (uint32_t i = 0; i < GW_PLAN_FIRSTS + plan[GW_PLAN_BLOCKS]; i++)
        write_number(&w, plan[i]);
    for (uint32_t i = 0; i < GW_STEP_SIZE * plan[GW_PLAN_STEPS]; i++)
        write_number(&w, plan[GW_PLAN_STEP_0 + i]);
    write_number(&w, names->variable_count);
    for (uint32_t i = 0; i < names->variable_count; i++)
        write_words(&w, names->variables[i]);
    for (uint32_t i = 0; i < GW_MOST_ROWS; i++)
        fields += names->fields[i].key.bytes != NULL;
    write_number(&w, fields);
    for (uint32_t i = 0; i < GW_MOST_ROWS; i++)
        if (names->fields[i].key.bytes) {
            write_number(&w, i);
            write_number(&w, names->fields[i].block);
            write_words(&w, names->fields[i].key);
            write_words(&w, names->fields[i].name);
        }
    return w.length;
}

/* ---- reading */

int is_saved_plan(const struct text *t) {
    return t->length >= sizeof first_bytes && memcmp(t->bytes, first_bytes, sizeof first_bytes) == 0;
}

struct reading {
    const struct text *text;
    size_t at;
    int good; /* 0 from where something was cut short on */
};

static int has(struct reading *r, size_t bytes) {
    r->good &= r->text->length - r->at >= bytes;
    return r->good;
}

static uint32_t read_number(struct reading *r) {
    const uint8_t *b = r->text->bytes + r->at;
    if (!has(r, 4))
        return 0;
    r->at += 4;
    return (uint32_t)b[0] << 24 | (uint32_t)b[1] << 16 | (uint32_t)b[2] << 8 | b[3];
}

static struct words read_words(struct reading *r) {
    const uint8_t *b = r->text->bytes + r->at;
    if (!has(r, 2) || !has(r, 2 + (size_t)b[0] * 256 + b[1]))
        return (struct words){NULL, 0};
    struct words found = {b + 2, (size_t)b[0] * 256 + b[1]};
    r->at += 2 + found.length;
    return found;
}

static void read_names(struct reading *r, struct plan_names *names) {
    uint32_t variables = read_number(r);
    r->good &= variables <= GW_MOST_VARIABLES;
    for (uint32_t i = 0; i < variables && r->good; i++)
        names->variables[names->variable_count++] = read_words(r);
    for (uint32_t left = read_number(r); left > 0 && r->good; left--) {
        uint32_t row = read_number(r), block = read_number(r);
        struct words key = read_words(r), name = read_words(r);
        r->good &= row < GW_MOST_ROWS;
        if (r->good)
            names->fields[row] = (struct field_names){key, name, block};
    }
}

int load_plan(const struct text *t, uint32_t *plan, struct plan_names *names) {
    struct reading r = {t, sizeof first_bytes, 1};
    memset(plan, 0, GW_PLAN_SIZE * sizeof *plan);
    memset(names, 0, sizeof *names);
    plan[GW_PLAN_BLOCKS] = read_number(&r);
    plan[GW_PLAN_STEPS] = read_number(&r);
    if (plan[GW_PLAN_BLOCKS] > GW_MOST_BLOCKS || plan[GW_PLAN_STEPS] > GW_MOST_STEPS)
        return r.good;
    for (uint32_t i = 0; i < plan[GW_PLAN_BLOCKS]; i++)
        plan[GW_PLAN_FIRSTS + i] = read_number(&r);
    for (uint32_t i = 0; i < GW_STEP_SIZE * plan[GW_PLAN_STEPS]; i++)
        plan[GW_PLAN_STEP_0 + i] = read_number(&r);
    read_names(&r, names);
    return r.good && r.at == t->length;
}
