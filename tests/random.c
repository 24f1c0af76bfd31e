/* Random documents. The grammar below is the draft's, with a wrong token now and then. */
#include "random.h"

#include <string.h>

static uint64_t state;

void random_start(uint64_t seed) {
    state = seed * 0x9E3779B97F4A7C15u + 1;
}

static uint64_t random_bits(void) {
    state ^= state >> 12;
    state ^= state << 25;
    state ^= state >> 27;
    return state * 0x2545F4914F6CDD1Du;
}

uint32_t random_below(uint32_t n) {
    return (uint32_t)((random_bits() >> 32) * n >> 32);
}

static int one_in(uint32_t n) {
    return random_below(n) == 0;
}

/* ---- how the document at hand is made */

static struct {
    uint32_t wrong;  /* one token in so many is another one; 0: none */
    uint32_t spaced; /* one gap in so many is more than it need be */
    uint32_t left;   /* tokens left before it is brought to its end */
} way;

static void put_bytes(struct text *t, const void *from, size_t n) {
    if (t->length + n > TEXT_ROOM)
        n = TEXT_ROOM - t->length;
    memcpy(t->bytes + t->length, from, n);
    t->length += n;
}

static void put(struct text *t, const char *s) {
    put_bytes(t, s, strlen(s));
}

#define PICK(list) ((list)[random_below(sizeof(list) / sizeof *(list))])

static const char *const ignored[] = {" ", " ", " ", "\n", ",", "\t", "\r\n", "\r", "  ", "#\n", "# c\n",
                                      "#\xC3\xA9 \"{\r", "\xEF\xBB\xBF", " , ", "\n\n"};
static const char *const names[] = {"a", "b", "c", "id", "on", "x1", "_", "__typename", "true", "false", "null", "query",
                                    "mutation", "subscription", "fragment", "onn", "o", "nul", "nulls", "tru", "falsey",
                                    "quer", "queryy", "fragments", "Z_9", "aLongerNameOfSomeBytes", "e", "E1"};
static const char *const plain_names[] = {"a", "b", "c", "d", "id", "name", "Query", "Int", "x1"};
static const char *const numbers[] = {"0", "1", "-1", "12", "-0", "2147483648", "1.5", "-0.0e10", "1e9", "1E+2", "3.25e-7",
                                      "9007199254740993", "0.0", "10e0"};
/* more tokens than one, or none */
static const char *const odd_numbers[] = {"00", "01", "1.", "-", ".5", "1e", "1e+", "0x1", "1.2.3", "-a", "+1", "1.5e", "1a", "1_"};
static const char *const strings[] = {"\"\"", "\"a\"", "\"a b\"", "\"\\n\\t\\\"\"", "\"\\u00e9\"", "\"\xC3\xA9\"",
                                      "\"\xE2\x82\xAC\"", "\"#,{}\"", "\"\x7F\"", "\"\xEF\xBF\xBF\"", "\"\\/\\b\\f\\r\\\\\"",
                                      "\"\xED\x9F\xBF\"", "\"\xEE\x80\x80\"", "\"\xE0\xA0\x80\"", "\"\xC2\x80\""};
static const char *const bad_strings[] = {"\"", "\"a", "\"\\u12g4\"", "\"\\x\"", "\"\n\"", "\"\xED\xA0\x80\"", "\"\xC0\x80\"",
                                          "\"\xF0\x9F\x98\x80\"", "\"\xC3\"", "\"\xE0\x80\x80\"", "\"\x01\"", "\"\\\"", "\"\\u12\"",
                                          "\"\xE2\x82\"", "\"\x80\"", "\"\xFF\""};
static const char *const marks[] = {"!", "$", "(", ")", "...", ":", "=", "@", "[", "]", "{", "|", "}"};
static const char *const wrong_bytes[] = {".", "..", "&", "%", "-", "\x01", "\xC3\xA9", "\xEF\xBB", "\xEF\xBF\xBF", "'", "\\",
                                          "/", ";", "?", "#\x02", "#\xF0\x9F\x98\x80\n", "\x7F", "+", "~", "`", "^", "*", "<", ">"};

static int is_wordy(uint8_t b) {
    return b == '_' || b == '.' || (b >= '0' && b <= '9') || (b >= 'A' && b <= 'Z') || (b >= 'a' && b <= 'z');
}

static void gap(struct text *t, uint8_t next) {
    int must = t->length > 0 && is_wordy(t->bytes[t->length - 1]) && is_wordy(next);
    if (must && !one_in(200))
        put(t, PICK(ignored));
    while (one_in(way.spaced))
        put(t, PICK(ignored));
}

static const char *wrong_token(void) {
    switch (random_below(6)) {
    case 0: return PICK(wrong_bytes);
    case 1: return PICK(names);
    case 2: return one_in(2) ? PICK(numbers) : PICK(odd_numbers);
    case 3: return one_in(2) ? PICK(strings) : PICK(bad_strings);
    default: return PICK(marks);
    }
}

static void token(struct text *t, const char *s) {
    if (way.wrong && one_in(way.wrong)) {
        if (one_in(3))
            return; /* the token is left out */
        s = wrong_token();
    }
    gap(t, (uint8_t)s[0]);
    put(t, s);
    if (way.left)
        way.left--;
}

/* ---- the grammar */

static void name(struct text *t) {
    token(t, one_in(4) ? PICK(names) : PICK(plain_names));
}

static int more(uint32_t n) {
    return way.left && !one_in(n);
}

static void value(struct text *t, int constant, int depth);

static void list_value(struct text *t, int constant, int depth) {
    token(t, "[");
    while (depth && more(3))
        value(t, constant, depth - 1);
    token(t, "]");
}

static void object_value(struct text *t, int constant, int depth) {
    token(t, "{");
    while (depth && more(3)) {
        name(t);
        token(t, ":");
        value(t, constant, depth - 1);
    }
    token(t, "}");
}

static void value(struct text *t, int constant, int depth) {
    switch (random_below(10)) {
    case 0: case 1:
        if (constant && !one_in(40)) {
            token(t, "1");
        } else {
            token(t, "$");
            name(t);
        }
        break;
    case 2: case 3: token(t, one_in(30) ? PICK(odd_numbers) : PICK(numbers)); break;
    case 4: token(t, one_in(30) ? PICK(bad_strings) : PICK(strings)); break;
    case 5: case 6: name(t); break;
    case 7: list_value(t, constant, depth); break;
    case 8: object_value(t, constant, depth); break;
    default: token(t, "7");
    }
}

static void arguments(struct text *t, int depth) {
    token(t, "(");
    do {
        name(t);
        token(t, ":");
        value(t, 0, depth);
    } while (more(3));
    token(t, ")");
}

static void directives(struct text *t, int depth) {
    while (more(8) && one_in(5)) {
        token(t, "@");
        name(t);
        if (one_in(2))
            arguments(t, depth);
    }
}

static void selection_set(struct text *t, int depth);

static void field(struct text *t, int depth) {
    name(t);
    if (one_in(6)) {
        token(t, ":");
        name(t);
    }
    if (one_in(4))
        arguments(t, depth);
    directives(t, depth);
    if (depth && one_in(4))
        selection_set(t, depth - 1);
}

static void spread_or_inline(struct text *t, int depth) {
    token(t, "...");
    if (one_in(2)) {
        token(t, one_in(8) ? PICK(names) : PICK(plain_names));
        directives(t, depth);
        return;
    }
    if (one_in(2)) {
        token(t, "on");
        name(t);
    }
    directives(t, depth);
    selection_set(t, depth ? depth - 1 : 0);
}

static void selection_set(struct text *t, int depth) {
    token(t, "{");
    do {
        if (depth && one_in(5))
            spread_or_inline(t, depth);
        else
            field(t, depth);
    } while (more(3));
    token(t, "}");
}

static void type_reference(struct text *t, int depth) {
    if (depth && one_in(3)) {
        token(t, "[");
        type_reference(t, depth - 1);
        token(t, "]");
    } else {
        name(t);
    }
    if (one_in(3))
        token(t, "!");
}

static void variable_definitions(struct text *t, int depth) {
    token(t, "(");
    do {
        token(t, "$");
        name(t);
        token(t, ":");
        type_reference(t, depth);
        if (one_in(3)) {
            token(t, "=");
            value(t, 1, depth);
        }
    } while (more(3));
    token(t, ")");
}

static void operation(struct text *t, int depth) {
    static const char *const kinds[] = {"query", "query", "mutation", "subscription"};
    if (!one_in(3)) {
        token(t, PICK(kinds));
        if (one_in(2))
            name(t);
        if (one_in(3))
            variable_definitions(t, depth);
        directives(t, depth);
    }
    selection_set(t, depth);
}

static void fragment(struct text *t, int depth) {
    token(t, "fragment");
    token(t, one_in(10) ? PICK(names) : PICK(plain_names));
    token(t, "on");
    name(t);
    directives(t, depth);
    selection_set(t, depth);
}

static void grammar_document(struct text *t, uint32_t tokens) {
    way.left = tokens;
    do {
        if (one_in(3))
            fragment(t, 5);
        else
            operation(t, 5);
    } while (more(2));
}

/* ---- shapes near the sizes */

static void repeat(struct text *t, uint32_t n, const char *s) {
    while (n--)
        put(t, s);
}

/* Open marks to about level 32, mostly in places where they can stand. */
static void deep_document(struct text *t) {
    static const char *const in_set[] = {"a{", "...{", "...on T{", "b:c@d{"};
    uint32_t sets = random_below(35), values = 26 + random_below(10);
    values = values > sets ? values - sets : 0;
    put(t, "{");
    for (uint32_t i = 0; i < sets; i++)
        put(t, PICK(in_set));
    put(t, "a(x:");
    for (uint32_t i = 0; i < values; i++)
        put(t, one_in(2) ? "[" : "{y:");
    put(t, "1");
    for (size_t i = t->length; i-- > 0 && t->length < 1000;) {
        uint8_t b = t->bytes[i];
        put(t, b == '{' ? "}" : b == '[' ? "]" : b == '(' ? ")" : "");
    }
}

static void many_rows(struct text *t) {
    static const char *const ones[] = {"a ", "a,", "a\n", "...b "};
    put(t, one_in(2) ? "{" : "query{");
    repeat(t, 2030 + random_below(12), PICK(ones));
    way.left = 12;
    while (way.left > 1)
        field(t, 3);
    repeat(t, random_below(12), PICK(ones));
    put(t, "}");
}

/* The 65th fragment or variable where row 2,049 may be, too. */
static void many_of_both(struct text *t) {
    if (one_in(2)) {
        repeat(t, 63, "fragment F on Q{a}");
        put(t, "fragment F on Q{");
        repeat(t, 1854 + random_below(6), "a ");
        put(t, "}");
        repeat(t, 2, "fragment F on Q{a}");
    } else {
        put(t, "query(");
        repeat(t, 63, "$v:T ");
        put(t, "$v:T=[");
        repeat(t, 1915 + random_below(6), "1 ");
        put(t, "] $v:T $v:T){a}");
    }
}

static void many_counts(struct text *t) {
    if (one_in(2)) {
        repeat(t, 60 + random_below(7), "fragment F on Q{a}");
        if (one_in(2))
            put(t, "query($a:I){a}");
    } else {
        put(t, "query Q(");
        repeat(t, 60 + random_below(7), "$v:T ");
        put(t, "){a}");
    }
}

static void many_wrappers(struct text *t) {
    uint32_t lists = random_below(9);
    put(t, "query($a:");
    repeat(t, lists, "[");
    put(t, "T");
    for (uint32_t i = 0; i <= lists; i++) {
        if (one_in(3))
            put(t, "!");
        put(t, i < lists ? "]" : "");
    }
    put(t, one_in(2) ? "=1){a}" : "$b:[T!]){a}");
}

static void full_length(struct text *t) {
    size_t end = 16380 + random_below(10);
    put(t, one_in(2) ? "{a}" : "{a#");
    while (t->length < end)
        put(t, one_in(100) ? PICK(ignored) : " ");
    t->length = end - random_below(3);
}

static void shaped_document(struct text *t) {
    switch (random_below(16)) {
    case 0: one_in(2) ? many_rows(t) : many_of_both(t); break;
    case 1: full_length(t); break;
    case 2: case 3: case 4: many_counts(t); break;
    case 5: case 6: case 7: case 8: many_wrappers(t); break;
    default: deep_document(t);
    }
}

/* ---- mutations */

static void cut(struct text *t, size_t at, size_t n) {
    n = n > t->length - at ? t->length - at : n;
    memmove(t->bytes + at, t->bytes + at + n, t->length - at - n);
    t->length -= n;
}

static void insert(struct text *t, size_t at, const uint8_t *from, size_t n) {
    if (n > TEXT_ROOM - t->length)
        n = TEXT_ROOM - t->length;
    memmove(t->bytes + at + n, t->bytes + at, t->length - at);
    memcpy(t->bytes + at, from, n);
    t->length += n;
}

static void insert_copy(struct text *t, size_t at, const struct text *from) {
    uint8_t some[64];
    if (from->length == 0)
        return;
    size_t start = random_below((uint32_t)from->length), n = 1 + random_below(sizeof some);
    n = n > from->length - start ? from->length - start : n;
    memcpy(some, from->bytes + start, n);
    insert(t, at, some, n);
}

static void mutate(struct text *t, const struct corpus *given) {
    size_t at = random_below((uint32_t)t->length + 1);
    uint8_t any = (uint8_t)random_below(256);
    const char *s = wrong_token();
    switch (random_below(8)) {
    case 0: if (at < t->length) t->bytes[at] = any; break;
    case 1: if (at < t->length) t->bytes[at] ^= (uint8_t)(1u << random_below(8)); break;
    case 2: cut(t, at, 1 + random_below(4)); break;
    case 3: insert(t, at, &any, 1); break;
    case 4: insert(t, at, (const uint8_t *)s, strlen(s)); break;
    case 5: insert_copy(t, at, t); break;
    case 6: insert_copy(t, at, given->texts[random_below((uint32_t)given->count)]); break;
    default: if (one_in(3)) t->length = at; else cut(t, at, 1);
    }
}

static void given_document(struct text *t, const struct corpus *given) {
    const struct text *from = given->texts[random_below((uint32_t)given->count)];
    if (from->length > 1000 && !one_in(30)) {
        grammar_document(t, 20);
        return;
    }
    t->length = from->length;
    memcpy(t->bytes, from->bytes, from->length);
}

static void any_bytes(struct text *t) {
    t->length = random_below(40);
    for (size_t i = 0; i < t->length; i++)
        t->bytes[i] = (uint8_t)random_below(256);
}

void random_document(struct text *t, const struct corpus *given) {
    static const uint32_t wrongs[] = {0, 0, 15, 60};
    static const uint32_t spaces[] = {1000, 10, 3};
    static const uint32_t mutations[] = {0, 0, 1, 2, 5};
    t->length = 0;
    way.wrong = PICK(wrongs);
    way.spaced = PICK(spaces);
    uint32_t what = random_below(100);
    if (what < 55)
        grammar_document(t, one_in(100) ? 3000 : 5 + random_below(60));
    else if (what < 65)
        shaped_document(t);
    else if (what < 97)
        given_document(t, given);
    else
        any_bytes(t);
    uint32_t changes = PICK(mutations);
    if (what >= 65 && what < 97)
        changes++;
    while (changes--)
        mutate(t, given);
}
