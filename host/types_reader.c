/* The low part of the reader of types. */
#include "types_reader.h"

/* ---- tokens */

static int is_blank(uint8_t b) {
    return b == ' ' || b == '\t' || b == '\n' || b == '\r' || b == ',';
}

static int starts_name(uint8_t b) {
    return is_name_byte(b) && !(b >= '0' && b <= '9');
}

static size_t past_ignored(const struct text *t, size_t at) {
    if (at == 0)
        first_place(t, &at); /* past a byte order mark */
    while (at < t->length && (is_blank(t->bytes[at]) || t->bytes[at] == '#'))
        if (t->bytes[at] != '#')
            at++;
        else
            while (at < t->length && t->bytes[at] != '\n' && t->bytes[at] != '\r')
                at++;
    return at;
}

void next_token(struct reader *r) {
    const struct text *t = r->text;
    r->start = past_ignored(t, r->end);
    r->end = r->start + (r->start < t->length);
    if (r->start < t->length && starts_name(t->bytes[r->start]))
        while (r->end < t->length && is_name_byte(t->bytes[r->end]))
            r->end++;
}

struct words token_words(const struct reader *r) {
    return (struct words){r->text->bytes + r->start, r->end - r->start};
}

int is_token(const struct reader *r, const char *word) {
    return !r->failed && is_word(token_words(r), word);
}

int is_name_token(const struct reader *r) {
    return !r->failed && r->start < r->end && starts_name(r->text->bytes[r->start]);
}

/* ---- what is wrong */

void fault_at(struct reader *r, size_t offset, const char *words) {
    if (r->failed)
        return;
    r->failed = 1;
    r->wrong = offset;
    say(r->fault, "%s", words);
}

/* What stands in text that has a meaning elsewhere, and here has none. */
static const char *foreign_words(const struct reader *r) {
    if (is_token(r, "="))
        return "a table keeps no default values";
    if (is_token(r, "@"))
        return "a table keeps no directives on definitions";
    if (is_token(r, "\""))
        return "a table keeps no descriptions; a comment begins with #";
    if (is_token(r, "&"))
        return "interfaces stand one behind the other, without &";
    return is_token(r, "extend") ? "a table keeps no extensions: write the definition whole" : NULL;
}

void fault_here(struct reader *r, const char *expected) {
    const char *foreign = r->failed ? NULL : foreign_words(r);
    char words[160];
    struct out o = {.room = words, .size = sizeof words};
    if (foreign)
        say(&o, "%s", foreign);
    else
        say(&o, "expected %s%s", expected, r->start == r->text->length ? ", and the text ends" : "");
    fault_at(r, r->start, words);
}

void take_mark(struct reader *r, const char *mark, const char *expected) {
    if (is_token(r, mark))
        next_token(r);
    else
        fault_here(r, expected);
}

/* ---- writing */

void put_byte(struct reader *r, uint8_t byte, size_t from) {
    struct made_table *made = r->made;
    if (made->length == GW_MOST_TABLE)
        fault_at(r, from, "here the table has more than 32768 bytes");
    if (r->failed)
        return;
    made->from[made->length] = (uint32_t)from;
    made->bytes[made->length++] = byte;
}

size_t begin_field(struct reader *r, int tag, size_t from) {
    size_t at = r->made->length;
    put_byte(r, (uint8_t)tag, from);
    put_byte(r, 0, from);
    put_byte(r, 0, from);
    return at;
}

void end_field(struct reader *r, size_t at) {
    size_t length = r->made->length - at - 3;
    if (r->failed)
        return;
    r->made->bytes[at + 1] = (uint8_t)(length >> 8);
    r->made->bytes[at + 2] = (uint8_t)length;
}

void put_text(struct reader *r, int tag, struct words w) {
    size_t from = (size_t)(w.bytes - r->text->bytes), at = begin_field(r, tag, from);
    for (size_t i = 0; i < w.length; i++)
        put_byte(r, w.bytes[i], from + i);
    end_field(r, at);
}

void take_name_as(struct reader *r, int tag, const char *expected) {
    if (!is_name_token(r)) {
        fault_here(r, expected);
        return;
    }
    put_text(r, tag, token_words(r));
    next_token(r);
}
