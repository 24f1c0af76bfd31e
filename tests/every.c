/* Short documents, all of a kind. */
#include "every.h"

#include <string.h>

#define COUNT(list) (sizeof(list) / sizeof *(list))

/* beginnings of documents, up to each place where the grammar decides something */
static const char *const places[] = {
    "", "{a}", "{", "{a", "{a ", "{a:", "{a:b", "{a{b}", "{a(", "{a(x", "{a(x:", "{a(x:1", "{a(x:1)", "{a(x:$", "{a(x:$v", "{a(x:[", "{a(x:[1",
    "{a(x:[]", "{a(x:{", "{a(x:{y", "{a(x:{y:", "{a(x:{y:1", "{a(x:{}", "{a@", "{a@d", "{a@d(", "{a@d(x:1)", "{...", "{...F", "{...F@d", "{...on",
    "{...on T", "{...on T@d", "{...on T{a}", "{...@d", "{...{a}", "query", "query Q", "query Q(", "query(", "query($", "query($v", "query($v:",
    "query($v:T", "query($v:T!", "query($v:[", "query($v:[T", "query($v:[T!", "query($v:[T]", "query($v:[T]!", "query($v:T=", "query($v:T=1",
    "query($v:T=[", "query($v:T={", "query($v:T={y:", "query($v:T)", "query@d", "query Q{a}", "mutation", "subscription", "fragment", "fragment F",
    "fragment F on", "fragment F on T", "fragment F on T@d", "fragment F on T{a}"};

static const char *const tokens[] = {"!", "$", "(", ")", "...", ":", "=", "@", "[", "]", "{", "|", "}", "query", "mutation", "subscription",
                                     "fragment", "on", "true", "false", "null", "a", "1", "1.5", "\"s\"", "%"};

static struct text made;

static void start(const char *s) {
    made.length = strlen(s);
    memcpy(made.bytes, s, made.length);
}

static void add(const void *s, size_t n) {
    memcpy(made.bytes + made.length, s, n);
    made.length += n;
}

static void add_token(const char *s) {
    add(" ", 1);
    add(s, strlen(s));
}

static void every_token(void (*use)(const struct text *)) {
    for (size_t p = 0; p < COUNT(places); p++) {
        start(places[p]);
        use(&made);
        size_t length = made.length;
        for (size_t i = 0; i < COUNT(tokens); i++) {
            made.length = length;
            add_token(tokens[i]);
            use(&made);
            size_t longer = made.length;
            for (size_t j = 0; j < COUNT(tokens); j++) {
                made.length = longer;
                add_token(tokens[j]);
                use(&made);
            }
        }
    }
}

static void around(void (*use)(const struct text *), const char *before, const uint8_t *some, size_t n, const char *after) {
    start(before);
    add(some, n);
    add(after, strlen(after));
    use(&made);
}

/* Each byte between tokens, in a name, in a comment and behind a backslash; each pair, and each pair that could begin a
   character of three bytes with a third, in a string. */
static void every_byte(void (*use)(const struct text *)) {
    for (unsigned n = 0; n < 65536; n++) {
        uint8_t some[] = {(uint8_t)(n >> 8), (uint8_t)n, 0x80, 0x80};
        around(use, "{a(x:\"", some, 2, "\")}");
        if (n >= 0xE000 && n < 0xF800)
            around(use, "{a(x:\"", some, some[0] < 0xF0 ? 3 : 4, "\")}");
        if (n >= 256)
            continue;
        around(use, "{a", some + 1, 1, "}");
        around(use, "{", some + 1, 1, "a}");
        around(use, "{a#", some + 1, 1, "\n}");
        around(use, "{a(x:\"\\", some + 1, 1, "\")}");
        around(use, "{a(x:\"\\u12", some + 1, 1, "4\")}");
        around(use, "{a(x:1", some + 1, 1, ")}");
        around(use, "{a", (const uint8_t[]){0xEF, some[1]}, 2, "}");
        around(use, "{a\xEF\xBB", some + 1, 1, "}");
    }
}

/* Each text of up to five of these bytes as a list's items. */
static void every_number(void (*use)(const struct text *)) {
    static const uint8_t of[] = "-01.e+";
    enum { BYTES = sizeof of - 1, MOST = 5 };
    for (size_t n = 1, all = BYTES; n <= MOST; n++, all *= BYTES)
        for (size_t code = 0; code < all; code++) {
            uint8_t some[MOST];
            for (size_t i = 0, left = code; i < n; i++, left /= BYTES)
                some[i] = of[left % BYTES];
            around(use, "{a(x:[", some, n, "])}");
        }
}

void every_document(void (*use)(const struct text *)) {
    every_token(use);
    every_byte(use);
    every_number(use);
}
