/* Random calls. Most changes put another value in a value's place, so that texts are still read and most values coerced. */
#include "random_coercions.h"

#include "gateway.h"
#include "tokens.h"

#include <string.h>

enum { SMALL = 800, MOST_STRETCH = 300, LONG_STRETCH = 9000 };

#define PICK(list) ((list)[random_below(sizeof(list) / sizeof *(list))])

static int one_in(uint32_t n) {
    return random_below(n) == 0;
}

/* ---- values */

static const char *const values[] = {
    "0", "-0", "1", "-1", "12", "2147483647", "2147483648", "-2147483648", "-2147483649", "4294967296", "9007199254740992",
    "9007199254740993", "-9007199254740992", "-9007199254740993", "99999999999999999999", "-10000000000", "21474836470", "0.0", "1.5",
    "-0.0e10", "1e999", "2E-3", "2147483647.0", "\"\"", "\"a\"", "\"1\"", "\"A\"", "\"\\u00e9\"", "\"\\uD800\"", "\"\\uDFFF\"", "\"\\uD7FF\"",
    "\"\\uE000\"", "\"\\uD83D\\uDE00\"", "\"\\u0000\\u007F\\u0080\\u07FF\\u0800\\uFFFF\"", "\"\\\"\\\\\\/\\b\\f\\n\\r\\t\"", "\"\\\\uD800\"",
    "\"\xC3\xA9\"", "\"\xE4\xB8\xAD\\u4e2D\"", "\"\xEF\xBF\xBF\"", "true", "false", "null", "null", "A", "B", "Z", "nul", "trueish", "[]", "[1]",
    "[null]", "[1 null 2]", "[[1] 2]", "[[]]", "[\"a\" true]", "[[[[[[[1]]]]]]]", "[A]", "{}", "{n: 1}", "{n: 1 x: 2}", "{x: 2}", "{n: null}",
    "{n: 1 n: 1}", "{n: 1 zz: 1}", "{zz: 1 x: 1 x: 1}", "[{n: 1} {n: 2}]", "{i: {n: 1}}", "{i: {n: 1} d: {i: {n: 2}}}", "{i: {n: true}}"};

static int is_mark(uint8_t b) {
    return strchr("]}):=$(@!|.", b) != NULL && b;
}

/* Whether a token begins a variable's type. */
static int is_type(const struct text *t, uint32_t i) {
    return i >= 3 && first_byte(t, i - 1) == ':' && first_byte(t, i - 3) == '$';
}

/* Whether a token stands behind a colon, = or [ and begins a value; an aliased field is taken for one too. */
static int is_value(const struct text *t, uint32_t i) {
    uint8_t before = i ? first_byte(t, i - 1) : 0;
    return before && strchr(":=[", before) && !is_mark(first_byte(t, i));
}

/* A value, from a token chosen by chance on; token_count for none. */
static uint32_t any_value(const struct text *t) {
    uint32_t from = any_token();
    for (uint32_t k = 0; k < token_count; k++)
        if (is_value(t, (from + k) % token_count) && !is_type(t, (from + k) % token_count) && !one_in(8))
            return (from + k) % token_count;
    return token_count;
}

static void other_value(struct text *t) {
    const char *value = PICK(values);
    uint32_t i = any_value(t);
    if (i != token_count)
        replace(t, tokens[i].at, tokens[group_past(t, i) - 1].past, value, strlen(value));
}

/* A value's bytes; 0 if there are too many. */
static size_t copy_value(const struct text *t, uint32_t i, uint8_t copy[MOST_COPIED]) {
    size_t at = tokens[i].at, n = tokens[group_past(t, i) - 1].past - at;
    if (n > MOST_COPIED)
        return 0;
    memcpy(copy, t->bytes + at, n);
    return n;
}

/* A value of the text in the place of another one. */
static void same_value(struct text *t) {
    uint8_t copy[MOST_COPIED];
    uint32_t from = any_value(t), to = any_value(t);
    size_t n = from == token_count || to == token_count ? 0 : copy_value(t, from, copy);
    if (n)
        replace(t, tokens[to].at, tokens[group_past(t, to) - 1].past, copy, n);
}

/* A value in a list, once or more often. */
static void wrap_value(struct text *t) {
    uint8_t copy[MOST_COPIED], made[MOST_COPIED * 2 + 8];
    uint32_t i = any_value(t);
    size_t n = i == token_count ? 0 : copy_value(t, i, copy), past = 0;
    if (!n)
        return;
    made[past++] = '[';
    for (uint32_t times = 1 + random_below(2); times > 0; times--) {
        memcpy(made + past, copy, n);
        past += n;
        made[past++] = ' ';
    }
    made[past++] = ']';
    replace(t, tokens[i].at, tokens[group_past(t, i) - 1].past, made, past);
}

/* A value once more behind itself, as a list's item can stand; now and then very often. */
static void repeat_value(struct text *t) {
    uint8_t copy[MOST_COPIED];
    uint32_t i = any_value(t);
    size_t n = i == token_count ? 0 : copy_value(t, i, copy);
    if (!n)
        return;
    size_t past = tokens[group_past(t, i) - 1].past;
    for (uint32_t times = one_in(60) ? random_below(1500) : 1 + random_below(2); times > 0; times--)
        replace(t, past, past, copy, n);
}

/* ---- entries: name, colon, value */

struct entry {
    size_t at, past;
};

static struct entry any_entry(const struct text *t) {
    uint32_t i = any_like(t, ":");
    if (i == token_count || i < 1 || i + 1 >= token_count)
        return (struct entry){0, 0};
    return (struct entry){tokens[i - 1].at, tokens[group_past(t, i + 1) - 1].past};
}

static void drop_entry(struct text *t) {
    struct entry e = any_entry(t);
    replace(t, e.at, e.past, NULL, 0);
}

/* An entry once more behind some opening brace, or moved there. */
static void move_entry(struct text *t) {
    uint8_t copy[MOST_COPIED];
    struct entry e = any_entry(t);
    uint32_t to = one_in(3) ? any_like(t, "{") : 0;
    size_t n = e.past - e.at;
    if (n == 0 || n > sizeof copy || to == token_count)
        return;
    size_t place = tokens[to].past;
    memcpy(copy, t->bytes + e.at, n);
    if (one_in(2) && place <= e.at)
        replace(t, e.at, e.past, NULL, 0);
    replace(t, place, place, copy, n);
}

/* An entry for a variable of the document, at the front. */
static void add_entry(struct text *t, const struct text *document) {
    uint8_t made[MOST_COPIED];
    find_tokens(document);
    uint32_t i = token_count ? any_like(document, "$") : 0;
    size_t n = i + 1 < token_count ? tokens[i + 1].past - tokens[i + 1].at : 0;
    const char *value = PICK(values);
    if (n == 0 || n + 2 + strlen(value) > sizeof made)
        return;
    memcpy(made, document->bytes + tokens[i + 1].at, n);
    memcpy(made + n, ": ", 2);
    memcpy(made + n + 2, value, strlen(value));
    find_tokens(t);
    if (token_count)
        replace(t, tokens[0].past, tokens[0].past, made, n + 2 + strlen(value));
}

/* ---- long strings */

static void insert(struct text *t, size_t at, const char *piece, size_t times) {
    size_t n = strlen(piece);
    for (; times > 0 && t->length + n <= TEXT_ROOM; times--) {
        memmove(t->bytes + at + n, t->bytes + at, t->length - at);
        memcpy(t->bytes + at, piece, n);
        t->length += n;
    }
}

static uint32_t any_string(const struct text *t) {
    uint32_t from = any_token();
    for (uint32_t k = 0; k < token_count; k++)
        if (first_byte(t, (from + k) % token_count) == '"')
            return (from + k) % token_count;
    return token_count;
}

static void lengthen(struct text *t) {
    static const char *const with[] = {"a", "a", "\\n", "\\u00e9", "\\u4E2d", "\xE4\xB8\xAD", "\xC3\xA9", " "};
    uint32_t i = any_string(t);
    if (i != token_count)
        insert(t, tokens[i].at + 1, PICK(with), random_below(one_in(80) ? LONG_STRETCH : MOST_STRETCH));
}

int stretch_variables(struct call *c, size_t more) {
    struct text *t = &c->variables;
    find_tokens(t);
    uint32_t i = token_count ? any_string(t) : 0;
    if (i == token_count || t->length + more > GW_MOST_TEXT)
        return 0;
    size_t at = tokens[i].at + 1;
    memmove(t->bytes + at + more, t->bytes + at, t->length - at);
    memset(t->bytes + at, 'b', more);
    t->length += more;
    return 1;
}

/* ---- the changes */

static void change_values(struct text *t, const struct call *c) {
    find_tokens(t);
    if (!token_count)
        return;
    switch (random_below(16)) {
    case 0: case 1: case 2: case 3: other_value(t); break;
    case 4: same_value(t); break;
    case 5: wrap_value(t); break;
    case 6: repeat_value(t); break;
    case 7: case 8: drop_entry(t); break;
    case 9: case 10: move_entry(t); break;
    case 11: case 12:
        if (t == &c->variables) {
            add_entry(t, &c->document);
            break;
        } /* fall through */
    case 13: lengthen(t); break;
    case 14: other_value(t); break;
    default: change_document(t, c->table);
    }
}

static void set(struct text *t, struct some_bytes from) {
    t->length = from.length;
    if (from.length)
        memcpy(t->bytes, from.bytes, from.length);
}

static const struct given_call *any_call(const struct given_calls *given) {
    const struct given_call *from = &given->all[random_below(given->count)];
    for (int tries = 0; from->document.length + from->variables.length > SMALL && tries < 6 && random_below(40); tries++)
        from = &given->all[random_below(given->count)];
    return from;
}

/* Which fields and operations the document has. */
static void find_places(struct call *c) {
    static uint32_t rows[GW_ROWS_SIZE];
    uint32_t report[GW_REPORT_SIZE];
    c->field_count = c->operation_count = 0;
    if (gw_parse(c->document.bytes, c->document.length, rows, GW_ROWS_SIZE, report, GW_REPORT_SIZE) != GW_ACCEPTED)
        return;
    for (uint32_t i = 0; i < report[1]; i++) {
        const uint32_t *row = rows + GW_ROW_SIZE * i;
        if (row[GW_ROW_KIND] == GW_KIND_FIELD && c->field_count < MOST_FIELDS)
            c->fields[c->field_count++] = i;
        if (row[GW_ROW_KIND] == GW_KIND_OPERATION && c->operation_count < MOST_OPERATIONS)
            c->operations[c->operation_count++] = (struct some_bytes){row[GW_ROW_NAME_LENGTH], c->document.bytes + row[GW_ROW_NAME_START]};
    }
}

static void new_document(struct call *c, const struct given_calls *given) {
    c->from = any_call(given);
    const struct family *family = random_below(40) ? c->from->family : any_call(given)->family;
    c->table = family->tables[random_below(5) ? 0 : random_below(family->count)];
    set(&c->document, c->from->document);
    if (one_in(3))
        change_values(&c->document, c);
    find_places(c);
    c->left = 2 + random_below(14);
}

static struct some_bytes any_operation(const struct call *c) {
    static const struct some_bytes others[] = {{0, NULL}, {3, (const uint8_t *)"Op0"}, {4, (const uint8_t *)"nope"}, {1, (const uint8_t *)""},
                                               {5, (const uint8_t *)"query"}};
    if (one_in(20))
        return PICK(others);
    return c->operation_count && one_in(3) ? c->operations[random_below(c->operation_count)] : c->from->operation;
}

static uint32_t any_row(const struct call *c) {
    static const uint32_t others[] = {0, GW_MOST_ROWS - 1, GW_MOST_ROWS, GW_MOST_ROWS + 1, UINT32_MAX};
    if (one_in(200))
        return PICK(others);
    return c->field_count && random_below(30) ? c->fields[random_below(c->field_count)] : random_below(64);
}

void random_call(struct call *c, const struct given_calls *given) {
    static const char *const texts[] = {"{}", "", "{", "}", "[]", "{} {}", "{a: $v0}", "null", "{v0: 1", " #\n{ } , ", "{v0: %}", "{}#\x01"};
    if (c->left == 0)
        new_document(c, given);
    c->left--;
    c->of_arguments = (int)random_below(2);
    c->row = c->of_arguments ? any_row(c) : 0;
    c->operation = any_operation(c);
    set(&c->variables, one_in(12) ? any_call(given)->variables : c->from->variables);
    if (one_in(80)) {
        const char *text = PICK(texts);
        set(&c->variables, (struct some_bytes){strlen(text), (const uint8_t *)text});
    }
    for (uint32_t changes = random_below(4); changes > 0; changes--)
        change_values(&c->variables, c);
    if (one_in(80) && c->variables.length)
        c->variables.bytes[random_below((uint32_t)c->variables.length)] = (uint8_t)random_below(256);
}
