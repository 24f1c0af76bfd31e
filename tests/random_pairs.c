/* Random pairs. Most changes move, copy or exchange tokens of the document, or bring in names of the table, so that it is still
   read and breaks one rule or none. */
#include "random_pairs.h"

#include "tokens.h"

#include <string.h>

enum { SMALL = 400 };

/* ---- the changes */

/* A token or group of the document in the place of another token, or behind it. */
static void copy_group(struct text *t) {
    uint8_t copy[MOST_COPIED];
    struct token to = tokens[any_token()], from = any_group(t);
    memcpy(copy, t->bytes + from.at, from.past - from.at);
    replace(t, random_below(4) ? to.at : to.past, to.past, copy, from.past - from.at);
}

static void drop_group(struct text *t) {
    struct token group = any_group(t);
    replace(t, group.at, group.past, NULL, 0);
}

/* A word of the document in the place of another one. */
static void copy_word(struct text *t) {
    uint8_t copy[MOST_COPIED];
    struct token to = tokens[any_word(t)], from = tokens[any_word(t)];
    size_t n = from.past - from.at < MOST_COPIED ? from.past - from.at : MOST_COPIED;
    memcpy(copy, t->bytes + from.at, n);
    replace(t, to.at, to.past, copy, n);
}

/* A word of the table in the place of one of the document. */
static void table_word(struct text *t, struct some_bytes table) {
    struct token to = tokens[any_word(t)];
    if (!table.length)
        return;
    size_t at = random_below((uint32_t)table.length), past;
    while (at + 1 < table.length && !is_word(table.bytes[at]))
        at++;
    while (at > 0 && is_word(table.bytes[at - 1]))
        at--;
    for (past = at; past < table.length && is_word(table.bytes[past]) && past - at < MOST_COPIED; past++)
        ;
    replace(t, to.at, to.past, table.bytes + at, past - at);
}

/* A whole definition once more at the end, or moved there. */
static void copy_definition(struct text *t) {
    uint8_t copy[MOST_COPIED];
    struct token found = {0, 0};
    uint32_t from = 0, count = 0;
    int depth = 0;
    for (uint32_t i = 0; i < token_count; i++) {
        depth += opens(first_byte(t, i)) - closes(first_byte(t, i));
        if (depth > 0 || first_byte(t, i) != '}')
            continue;
        if (random_below(++count) == 0)
            found = (struct token){tokens[from].at, tokens[i].past};
        from = i + 1;
    }
    size_t n = found.past - found.at;
    if (n > sizeof copy)
        return;
    memcpy(copy, t->bytes + found.at, n);
    if (random_below(2))
        replace(t, found.at, found.past, NULL, 0);
    replace(t, t->length, t->length, copy, n);
}

/* An argument, a variable definition, an entry of an object or an aliased field once more behind itself. */
static void repeat_entry(struct text *t) {
    uint8_t copy[MOST_COPIED];
    uint32_t i = any_like(t, ":");
    if (i == token_count || i < 2 || i + 1 >= token_count)
        return;
    size_t at = tokens[i - (first_byte(t, i - 2) == '$' ? 2 : 1)].at, past = tokens[group_past(t, i + 1) - 1].past;
    if (first_byte(t, i + 1) == '$' && i + 2 < token_count)
        past = tokens[i + 2].past;
    if (past - at > sizeof copy)
        return;
    memcpy(copy, t->bytes + at, past - at);
    replace(t, past, past, copy, past - at);
}

/* A spread of some fragment: another name in an old one, or a new one at the beginning of some selections. */
static void spread_some(struct text *t) {
    uint8_t copy[MOST_COPIED] = "...";
    uint32_t to = any_like(t, random_below(2) ? "..." : "{"), from = any_like(t, "fragment");
    if (to == token_count || from + 1 >= token_count)
        return;
    size_t n = tokens[from + 1].past - tokens[from + 1].at;
    if (n + 3 > sizeof copy)
        return;
    memcpy(copy + 3, t->bytes + tokens[from + 1].at, n);
    int old = first_byte(t, to) == '.' && to + 1 < token_count && !is_token(t, to + 1, "on") && is_word(first_byte(t, to + 1));
    replace(t, old ? tokens[to].at : tokens[to].past, old ? tokens[to + 1].past : tokens[to].past, copy, n + 3);
}

/* An operation of another kind. */
static void other_kind(struct text *t) {
    static const char *const kinds[] = {"query", "mutation", "subscription"};
    const char *kind = kinds[random_below(3)];
    uint32_t i = any_like(t, kinds[random_below(3)]);
    if (i != token_count)
        replace(t, tokens[i].at, tokens[i].past, kind, strlen(kind));
}

static const char *const pieces[] = {"@skip(if: true)", "@include(if: $v0)", "@skip(if: 1)", "@other", "@skip", "@include(if: true if: true)",
                                     "__typename", "__typename{a}", "...F0", "...F1", "...F9", "... on Query{__typename}", "... on Int{a}",
                                     "... on Nope{a}", "{__typename}", "(x: $v0)", "(if: $v1)", "[$v0]", "{x: $v0}", "$v0", "$v1", "$nope",
                                     "query{__typename}", "query Op0{__typename}", "mutation M{__typename}", "subscription{__typename}",
                                     "fragment F0 on Query{__typename}", "fragment F7 on Query{...F0 ...F7}", "$v0: Int", "$v0: [Int!]!",
                                     "$v1: Nope", "a: a", "a", "nope", "id: 1", "!", "null", "true"};

static void add_piece(struct text *t) {
    const char *piece = pieces[random_below(sizeof pieces / sizeof *pieces)];
    struct token to = tokens[any_token()];
    replace(t, random_below(3) ? to.past : to.at, to.past, piece, strlen(piece));
}

void change_document(struct text *t, struct some_bytes table) {
    find_tokens(t);
    if (!token_count)
        return;
    switch (random_below(16)) {
    case 0: case 1: copy_group(t); break;
    case 2: drop_group(t); break;
    case 3: case 4: case 5: copy_word(t); break;
    case 6: case 7: table_word(t, table); break;
    case 8: case 9: copy_definition(t); break;
    case 10: case 11: repeat_entry(t); break;
    case 12: spread_some(t); break;
    case 13: other_kind(t); break;
    default: add_piece(t);
    }
}

static const struct given_pair *any_pair(const struct given_pairs *given) {
    const struct given_pair *from = &given->all[random_below(given->count)];
    for (int tries = 0; from->document.length > SMALL && tries < 6 && random_below(40); tries++)
        from = &given->all[random_below(given->count)];
    return from;
}

void random_pair(struct pair *p, const struct given_pairs *given) {
    const struct given_pair *from = any_pair(given);
    const struct family *family = random_below(40) ? from->family : any_pair(given)->family;
    p->table = family->tables[random_below(3) ? 0 : random_below(family->count)];
    p->document.length = from->document.length;
    if (from->document.length)
        memcpy(p->document.bytes, from->document.bytes, from->document.length);
    for (uint32_t changes = random_below(4); changes > 0; changes--)
        change_document(&p->document, p->table);
    if (random_below(50) == 0 && p->document.length)
        p->document.bytes[random_below((uint32_t)p->document.length)] = (uint8_t)random_below(256);
}
