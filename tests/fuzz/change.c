/* Changes of cases: of a section by the random tables, documents and plans of the other tests, which keep most of its form, or of its
   bytes by the driver's own means; now and then of the head or of all bytes. */
#include "case.h"

#include "gateway.h"
#include "random_plans.h"
#include "random_tables.h"

#include <string.h>

enum { SWITCH_BITS = 8 };

static int one_in(uint32_t n) {
    return random_below(n) == 0;
}

/* What a changed section is written to. */
static uint8_t changed[SECTION_MOST];

static struct section of_changed(const uint8_t *bytes, size_t length) {
    if (length > sizeof changed)
        length = sizeof changed;
    memmove(changed, bytes, length);
    return (struct section){changed, length};
}

/* ---- by form */

static struct section change_as_table(struct section s) {
    static struct table t;
    struct table *only[] = {&t};
    struct tables given = {only, 1};
    if (s.length > GW_MOST_TABLE)
        return s;
    t.length = s.length;
    if (s.length)
        memcpy(t.bytes, s.bytes, s.length);
    change_table(&t, &given);
    return of_changed(t.bytes, t.length);
}

static struct section change_as_text(struct section s, struct section table) {
    static struct text t;
    struct some_bytes words = {table.length, table.bytes};
    if (s.length > GW_MOST_TEXT)
        return s;
    t.length = s.length;
    if (s.length)
        memcpy(t.bytes, s.bytes, s.length);
    if (one_in(60)) {
        static struct text other;
        struct text *only[] = {&t};
        random_document(&other, &(struct corpus){only, 1});
        return of_changed(other.bytes, other.length);
    }
    change_document(&t, words);
    return of_changed(t.bytes, t.length);
}

/* A word of the document, or nothing. */
static struct section change_name(struct section document) {
    if (document.length == 0 || one_in(3))
        return (struct section){NULL, 0};
    size_t at = random_below((uint32_t)document.length), past = at;
    while (at > 0 && document.bytes[at - 1] > ' ')
        at--;
    while (past < document.length && document.bytes[past] > ' ' && document.bytes[past] != '(' && document.bytes[past] != '{')
        past++;
    return past > at ? of_changed(document.bytes + at, past - at) : (struct section){NULL, 0};
}

static struct section change_walk(struct section s, struct section table) {
    static uint32_t blocks[BLOCKS_MOST], plan[GW_PLAN_SIZE];
    static struct ask asked;
    struct some_bytes by = {table.length, table.bytes};
    size_t count = cut_numbers(s, blocks, plan);
    if (one_in(30))
        make_plan(plan, by);
    else if (!one_in(4))
        change_plan(plan, by);
    if (one_in(4)) {
        make_ask(&asked, plan, by);
        count = asked.blocks_len;
        memcpy(blocks, asked.blocks, count * sizeof *blocks);
    }
    return (struct section){changed, join_numbers(blocks, count, plan, changed)};
}

/* ---- a change */

static void change_head(struct fuzz_case *c) {
    static const uint16_t numbers[] = {0, 1, 2, 3, 4, 5, 255, 256, 2047, 2048, 0xFF00, 0xFFFF};
    switch (random_below(6)) {
    case 0: c->what = (uint8_t)((c->what & 0xF8) | random_below(SWITCH_BITS)); break;
    case 1: c->what = (uint8_t)((c->what & 7) | (one_in(2) ? 0 : random_below(32) << 3)); break;
    case 2: c->lies = (uint8_t)(one_in(2) ? 0 : random_below(256)); break;
    case 3: c->number = numbers[random_below(sizeof numbers / sizeof *numbers)]; break;
    case 4: c->number = (uint16_t)(c->number + (one_in(2) ? 1 : 65535)); break;
    default: c->number = (uint16_t)random_below(64);
    }
}

/* A section that the case's call reads; seldom the table where more is read, since most changes of one have it refused. */
static int any_section(const struct fuzz_case *c) {
    static const uint8_t read[SWITCH_BITS][2] = {
        {DOCUMENT, DOCUMENT}, {TABLE, TABLE}, {DOCUMENT, DOCUMENT}, {VARIABLES, DOCUMENT},
        {VARIABLES, DOCUMENT}, {DOCUMENT, DOCUMENT}, {NUMBERS, NUMBERS}, {DOCUMENT, VARIABLES},
    };
    if (one_in(20))
        return (int)random_below(SECTIONS);
    return one_in(15) ? TABLE : read[c->what & 7][random_below(2)];
}

static struct section change_form(const struct fuzz_case *c, int section) {
    struct section s = c->sections[section];
    switch (section) {
    case TABLE: return change_as_table(s);
    case OPERATION: return change_name(c->sections[DOCUMENT]);
    case NUMBERS: return change_walk(s, c->sections[TABLE]);
    default: return change_as_text(s, c->sections[TABLE]);
    }
}

static struct section change_any(struct section s) {
    size_t length = s.length < SECTION_MOST ? s.length : SECTION_MOST;
    if (length)
        memcpy(changed, s.bytes, length);
    size_t room = length + 64 < SECTION_MOST ? length + 64 : SECTION_MOST;
    return (struct section){changed, change_bytes(changed, length, room)};
}

size_t change_case(uint8_t *bytes, size_t length, size_t room) {
    static uint8_t joined[CASE_MOST];
    if (length > CASE_MOST || one_in(30))
        return change_bytes(bytes, length, room);
    struct fuzz_case c = cut_case(bytes, length);
    if (one_in(8))
        change_head(&c);
    else {
        int section = any_section(&c);
        c.sections[section] = one_in(3) ? change_any(c.sections[section]) : change_form(&c, section);
    }
    size_t now = join_case(&c, joined, room < CASE_MOST ? room : CASE_MOST);
    if (now == 0)
        return length;
    memcpy(bytes, joined, now);
    return now;
}

size_t cross_cases(const uint8_t *one, size_t one_len, const uint8_t *other, size_t other_len, uint8_t *bytes, size_t room) {
    struct fuzz_case c = cut_case(one, one_len), from = cut_case(other, other_len);
    int section = (int)random_below(SECTIONS + 2);
    if (section < SECTIONS)
        c.sections[section] = from.sections[section];
    else { /* the other's call with all but the document, or with all but the variables */
        struct fuzz_case was = c;
        c = from;
        c.sections[section == SECTIONS ? DOCUMENT : VARIABLES] = was.sections[section == SECTIONS ? DOCUMENT : VARIABLES];
    }
    return join_case(&c, bytes, room);
}
