/* The tokens of a text that is to be changed. */
#include "tokens.h"

#include <string.h>

struct token tokens[MOST_TOKENS];
uint32_t token_count;

int is_word(uint8_t b) {
    return b == '_' || (b >= '0' && b <= '9') || (b >= 'A' && b <= 'Z') || (b >= 'a' && b <= 'z');
}

static int is_ignored(uint8_t b) {
    return b == ' ' || b == ',' || b == '\n' || b == '\t' || b == '\r';
}

static size_t past_token(const struct text *t, size_t at) {
    size_t past = at + 1;
    uint8_t b = t->bytes[at];
    if (b == '"')
        while (past < t->length && t->bytes[past++] != '"')
            ;
    else if (b == '.')
        while (past < t->length && t->bytes[past] == '.')
            past++;
    else if (is_word(b) || b == '-')
        while (past < t->length && is_word(t->bytes[past]))
            past++;
    return past;
}

/* Words, strings, runs of dots and single marks; roughly the draft's tokens. */
void find_tokens(const struct text *t) {
    token_count = 0;
    for (size_t i = 0; i < t->length && token_count < MOST_TOKENS;) {
        if (is_ignored(t->bytes[i])) {
            i++;
            continue;
        }
        size_t past = past_token(t, i);
        tokens[token_count++] = (struct token){(uint32_t)i, (uint32_t)past};
        i = past;
    }
}

uint8_t first_byte(const struct text *t, uint32_t token) {
    return t->bytes[tokens[token].at];
}

int opens(uint8_t b) {
    return b == '{' || b == '[' || b == '(';
}

int closes(uint8_t b) {
    return b == '}' || b == ']' || b == ')';
}

/* One past the group that token i begins: itself, or up to the mark that closes it. */
uint32_t group_past(const struct text *t, uint32_t i) {
    int depth = 0;
    for (; i < token_count; i++) {
        depth += opens(first_byte(t, i)) - closes(first_byte(t, i));
        if (depth <= 0)
            return i + 1;
    }
    return token_count;
}

uint32_t any_token(void) {
    return random_below(token_count);
}

/* A word, where a few tries find one. */
uint32_t any_word(const struct text *t) {
    uint32_t i = any_token();
    for (int tries = 0; tries < 8 && !is_word(first_byte(t, i)); tries++)
        i = any_token();
    return i;
}

/* Puts bytes with a blank on both sides in the place of those from `from` to `to`. */
void replace(struct text *t, size_t from, size_t to, const void *with, size_t n) {
    if (t->length - (to - from) + n + 2 > TEXT_ROOM)
        return;
    memmove(t->bytes + from + n + 2, t->bytes + to, t->length - to);
    t->bytes[from] = ' ';
    if (n)
        memcpy(t->bytes + from + 1, with, n);
    t->bytes[from + n + 1] = ' ';
    t->length += n + 2 - (to - from);
}

/* A token or a group of them: from the first byte to one past the last. */
struct token any_group(const struct text *t) {
    uint32_t i = any_token(), past = random_below(3) ? i + 1 : group_past(t, i);
    struct token group = {tokens[i].at, tokens[past - 1].past};
    if (group.past - group.at > MOST_COPIED)
        group.past = tokens[i].past - group.at > MOST_COPIED ? group.at : tokens[i].past;
    return group;
}

int is_token(const struct text *t, uint32_t i, const char *word) {
    size_t n = strlen(word);
    return i < token_count && tokens[i].past - tokens[i].at == n && memcmp(t->bytes + tokens[i].at, word, n) == 0;
}

/* One that is this word, from a place chosen by chance on; token_count for none. */
uint32_t any_like(const struct text *t, const char *word) {
    uint32_t from = any_token();
    for (uint32_t k = 0; k < token_count; k++)
        if (is_token(t, (from + k) % token_count, word))
            return (from + k) % token_count;
    return token_count;
}
