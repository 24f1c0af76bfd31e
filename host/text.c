/* Texts and places in them. */
#include "text.h"

#include "cells.h"

#include <string.h>

enum { MARK = 3 }; /* bytes of a byte order mark */

int same_words(struct words a, struct words b) {
    return a.length == b.length && memcmp(a.bytes, b.bytes, a.length) == 0;
}

int is_word(struct words a, const char *word) {
    return same_words(a, (struct words){(const uint8_t *)word, strlen(word)});
}

int is_name_byte(uint8_t b) {
    return b == '_' || (b >= '0' && b <= '9') || (b >= 'A' && b <= 'Z') || (b >= 'a' && b <= 'z');
}

/* Does a line end at `at`? A carriage return with a line feed behind it ends none: the line feed does. */
static int ends_line(const struct text *text, size_t at) {
    uint8_t b = text->bytes[at];
    return b == '\n' || (b == '\r' && !(at + 1 < text->length && text->bytes[at + 1] == '\n'));
}

struct place first_place(const struct text *text, size_t *at) {
    *at = text->length >= MARK && memcmp(text->bytes, "\xEF\xBB\xBF", MARK) == 0 ? MARK : 0;
    return (struct place){1, 1, *at};
}

void go_to(const struct text *text, size_t *at, struct place *place, size_t offset) {
    while (*at < offset) {
        size_t step = cell_at(text->bytes, text->length, *at, 0).bytes;
        if (ends_line(text, *at))
            *place = (struct place){place->line + 1, 1, *at + 1};
        else
            place->column++;
        *at += step;
    }
}

struct place place_of(const struct text *text, size_t offset) {
    size_t at;
    struct place place = first_place(text, &at);
    go_to(text, &at, &place, offset);
    return place;
}

size_t told_offset(const struct text *text, size_t offset) {
    if (offset < text->length)
        return offset;
    while (offset > 0 && (text->bytes[offset - 1] == ' ' || (text->bytes[offset - 1] >= '\t' && text->bytes[offset - 1] <= '\r')))
        offset--;
    return offset;
}
