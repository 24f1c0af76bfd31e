/* The rows of a variables text. It is one constant object value: each token but } ] and : begins a row. */
#include "variables.h"

#include "gateway.h"

#include <string.h>

struct token {
    size_t start, end;
};

static int is_digit(const struct text *t, size_t at) {
    return at < t->length && t->bytes[at] >= '0' && t->bytes[at] <= '9';
}

static int is_one_of(const struct text *t, size_t at, const char *bytes) {
    return at < t->length && t->bytes[at] != 0 && strchr(bytes, t->bytes[at]) != NULL;
}

/* Past blanks, commas, comments and byte order marks. */
static size_t past_ignored(const struct text *t, size_t at) {
    for (;;) {
        if (is_one_of(t, at, " \t\n\r,"))
            at++;
        else if (at < t->length && t->bytes[at] == 0xEF)
            at += 3;
        else if (is_one_of(t, at, "#"))
            while (at < t->length && !is_one_of(t, at, "\n\r"))
                at++;
        else
            return at;
    }
}

static size_t past_digits(const struct text *t, size_t at) {
    while (is_digit(t, at))
        at++;
    return at;
}

static size_t past_number(const struct text *t, size_t at) {
    at += is_one_of(t, at, "-");
    at = is_one_of(t, at, "0") ? at + 1 : past_digits(t, at);
    if (is_one_of(t, at, ".") && is_digit(t, at + 1))
        at = past_digits(t, at + 1);
    size_t digits = at + 1 + is_one_of(t, at + 1, "+-");
    return is_one_of(t, at, "eE") && is_digit(t, digits) ? past_digits(t, digits) : at;
}

static size_t past_string(const struct text *t, size_t at) {
    for (at++; at < t->length && t->bytes[at] != '"'; at++)
        at += t->bytes[at] == '\\';
    return at + 1;
}

static struct token token_from(const struct text *t, size_t at) {
    struct token found = {past_ignored(t, at), 0};
    found.end = found.start + (found.start < t->length);
    if (is_one_of(t, found.start, "\""))
        found.end = past_string(t, found.start);
    else if (is_one_of(t, found.start, "-") || is_digit(t, found.start))
        found.end = past_number(t, found.start);
    else
        while (found.start < t->length && is_name_byte(t->bytes[found.start]) && found.end < t->length && is_name_byte(t->bytes[found.end]))
            found.end++;
    return found;
}

static int is_text(const struct text *t, struct token k, const char *word) {
    return k.end - k.start == strlen(word) && memcmp(t->bytes + k.start, word, k.end - k.start) == 0;
}

static uint32_t kind_of(const struct text *t, struct token k) {
    uint8_t first = t->bytes[k.start];
    if (is_name_byte(first) && !is_digit(t, k.start)) {
        if (is_one_of(t, past_ignored(t, k.end), ":"))
            return GW_KIND_OBJECT_FIELD;
        return is_text(t, k, "true") || is_text(t, k, "false") ? GW_KIND_BOOLEAN : is_text(t, k, "null") ? GW_KIND_NULL : GW_KIND_ENUM;
    }
    switch (first) {
    case '{': return GW_KIND_OBJECT;
    case '[': return GW_KIND_LIST;
    case '"': return GW_KIND_STRING;
    }
    for (size_t i = k.start; i < k.end; i++)
        if (is_one_of(t, i, ".eE"))
            return GW_KIND_FLOAT;
    return GW_KIND_INTEGER;
}

/* What a row holds ends with its last token: so do its holders, as far as they are entries. Returns the holder that is still open. */
static uint32_t close_rows(uint32_t *rows, uint32_t row, size_t end) {
    rows[GW_ROW_SIZE * row + GW_ROW_END] = (uint32_t)end;
    uint32_t holder = rows[GW_ROW_SIZE * row + GW_ROW_PARENT];
    if (holder == GW_NO_PARENT || rows[GW_ROW_SIZE * holder + GW_ROW_KIND] != GW_KIND_OBJECT_FIELD)
        return holder;
    rows[GW_ROW_SIZE * holder + GW_ROW_END] = (uint32_t)end;
    return rows[GW_ROW_SIZE * holder + GW_ROW_PARENT];
}

uint32_t read_variables(const struct text *text, uint32_t *rows) {
    uint32_t count = 0, holder = GW_NO_PARENT;
    for (struct token k = token_from(text, 0); k.start < text->length; k = token_from(text, k.end)) {
        if (is_one_of(text, k.start, ":"))
            continue;
        if (is_one_of(text, k.start, "}]")) {
            holder = holder == GW_NO_PARENT ? holder : close_rows(rows, holder, k.end);
            continue;
        }
        if (count == GW_MOST_ROWS)
            break;
        uint32_t kind = kind_of(text, k), row = count++, *numbers = rows + GW_ROW_SIZE * row;
        uint32_t start = (uint32_t)k.start, end = (uint32_t)k.end, is_named = kind == GW_KIND_OBJECT_FIELD || kind == GW_KIND_ENUM;
        const uint32_t columns[GW_ROW_SIZE] = {kind, start, end, holder, is_named ? start : 0, is_named ? end - start : 0,
                                               kind == GW_KIND_BOOLEAN && is_text(text, k, "true")};
        memcpy(numbers, columns, sizeof columns);
        if (kind == GW_KIND_OBJECT_FIELD || kind == GW_KIND_OBJECT || kind == GW_KIND_LIST)
            holder = row;
        else
            holder = close_rows(rows, row, k.end);
    }
    return count;
}
